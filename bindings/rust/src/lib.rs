//! The layout canvas for Rust: safe functions over the static library that crates/exports gives.
//!
//! - [`canvas`] has the names of ratatui's canvas, on a [`canvas::Screen`] that owns all memory. It is where to begin.
//! - [`calls`] has the same calls on lent memory: no allocation, no std.
//! - The other names draw picture files, and turn a screen of words into bytes.
//!
//! Every function takes every value of its types; none panics. A refusal has a name: [`Refusal`].
//!
//! Without the default feature `alloc` the crate needs neither std nor an allocator; [`canvas`] and [`Picture`] are
//! then left out.
#![no_std]
#![deny(unsafe_op_in_unsafe_fn)]

#[cfg(feature = "alloc")]
extern crate alloc;

mod c;
pub mod calls;
#[cfg(feature = "alloc")]
pub mod canvas;
mod pictures;
mod refusal;

pub use pictures::*;
pub use refusal::Refusal;

/// The layout of lent words that this wrapper was written for; the archive's must be the same.
pub const LAYOUT: u32 = 1;
/// The most columns and rows of a canvas.
pub const MAX_COLUMNS: u16 = 200;
pub const MAX_ROWS: u16 = 100;
/// The words of a store of cells, for each cell.
pub const CELL_WORDS: usize = 5;
/// The words of a store of labels.
pub const LABELS_WORDS: usize = 2816;
/// The words of a screen for each cell: symbol, foreground, background.
pub const SCREEN_WORDS: usize = 3;
/// The colour that stands for the terminal's own; every other is 0xRRGGBB.
pub const RESET: u32 = 16_777_216;

const NO_DOT: u8 = 255;

/// What the dot of a point depends on, by its numbers.
#[derive(Clone, Copy, Debug, PartialEq)]
pub struct View {
    pub columns: u16,
    pub rows: u16,
    pub left: f64,
    pub right: f64,
    pub bottom: f64,
    pub top: f64,
    pub marker: u8,
}

/// The dot of a point, column and row from the upper left; none outside the bounds, or where these have no
/// width or height. A size, bound or marker outside the domain is refused with State, a coordinate with Number.
pub fn get_point(view: &View, x: f64, y: f64) -> Result<Option<(u32, u32)>, Refusal> {
    dot_of(|column, row| {
        // SAFETY: every reference is distinct.
        unsafe {
            c::mossbuckle_get_point(
                view.columns,
                view.rows,
                view.left,
                view.right,
                view.bottom,
                view.top,
                view.marker,
                x,
                y,
                column,
                row,
            )
        }
    })
}

/// What a call says of a dot that it puts into a column and a row.
fn dot_of(ask: impl FnOnce(&mut u32, &mut u32) -> u8) -> Result<Option<(u32, u32)>, Refusal> {
    let (mut column, mut row) = (0, 0);
    match ask(&mut column, &mut row) {
        0 => Ok(Some((column, row))),
        NO_DOT => Ok(None),
        number => Err(Refusal::of(number)),
    }
}
