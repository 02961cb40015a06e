//! The calls on lent memory: nothing is allocated, nothing needs std, and every call takes every value.
//!
//! [`Lent`] has a method for each call. Numbers go over as they are, so that document 01's refusals can all be met;
//! [`crate::canvas`] has the types that people know.
//!
//! ```
//! use mossbuckle::calls::{Lent, Opening, CANVAS_WORDS};
//! use mossbuckle::{blank, Refusal, LABELS_WORDS, RESET};
//!
//! let (mut canvas, mut cells, mut labels) = ([0; CANVAS_WORDS], [0; 5 * 6], [0; LABELS_WORDS]);
//! let mut lent = Lent { canvas: &mut canvas, cells: &mut cells, labels: &mut labels };
//! lent.open(&Opening { columns: 3, rows: 2, right: 2.0, top: 1.0, marker: 2, ..Opening::default() })?;
//! assert_eq!(lent.line(0.0, 0.0, 2.0, 0.0, 0xFF0000)?, 3);
//! assert_eq!(lent.circle(f64::NAN, 0.0, 1.0, RESET), Err(Refusal::Number));
//! let mut screen = [0; 3 * 6];
//! blank(&mut screen);
//! assert_eq!(lent.render(3, 2, 0, 0, &mut screen)?.painted, 3);
//! assert_eq!(screen[9..12], [0x2022, 0xFF0000, RESET]);
//! # Ok::<(), Refusal>(())
//! ```
use crate::c;
use crate::{dot_of, Drawn, Refusal, LAYOUT, RESET};

/// The words of a canvas.
pub const CANVAS_WORDS: usize = 24;
/// The colour of a label without one.
pub const NO_COLOR: u32 = u32::MAX;

/// A canvas and its stores, lent for as long as calls are made on it.
///
/// Any words and any lengths may be lent. A canvas is opened by [`Lent::open`]; what is too short meets
/// [`Refusal::State`] at every call.
#[derive(Debug)]
pub struct Lent<'a> {
    /// The canvas: [`CANVAS_WORDS`] words, which are the library's own.
    pub canvas: &'a mut [u64],
    /// The store of cells: [`CELL_WORDS`](crate::CELL_WORDS) words for each cell of the canvas.
    pub cells: &'a mut [u32],
    /// The store of labels: [`LABELS_WORDS`](crate::LABELS_WORDS) words.
    pub labels: &'a mut [u32],
}

/// What a canvas is opened with.
#[derive(Clone, Copy, Debug, PartialEq)]
pub struct Opening {
    pub columns: u16,
    pub rows: u16,
    pub left: f64,
    pub right: f64,
    pub bottom: f64,
    pub top: f64,
    /// 1 Braille, 2 Dot, 3 Block, 4 Bar, 5 HalfBlock, 6 Quadrant, 7 Sextant, 8 the character.
    pub marker: u8,
    pub character: u32,
    pub background: u32,
}

impl Default for Opening {
    /// What a picture file's opening has where its fields are absent: bounds of 0, Braille, no background.
    fn default() -> Self {
        Opening {
            columns: 0,
            rows: 0,
            left: 0.0,
            right: 0.0,
            bottom: 0.0,
            top: 0.0,
            marker: 1,
            character: 0x20,
            background: RESET,
        }
    }
}

/// Makes a call of the archive on what is lent: each slice as a pointer and a length, then the call's own arguments.
macro_rules! call {
    ($lent:expr, $function:ident $(, $argument:expr)*) => {{
        let Lent { canvas, cells, labels } = $lent;
        // SAFETY: each pointer stands with its slice's length; the slices are lent mutably, so that no two overlap and
        // nobody else uses them meanwhile; the arguments are values, and references and slices of the caller.
        let number = unsafe {
            c::$function(
                canvas.as_mut_ptr(), canvas.len(), cells.as_mut_ptr(), cells.len(), labels.as_mut_ptr(), labels.len()
                $(, $argument)*
            )
        };
        match number {
            0 => Ok(()),
            _ => Err(Refusal::of(number)),
        }
    }};
}

impl Lent<'_> {
    /// Opens a canvas, whatever the words hold, and blanks as many cells as it has. The archive's layout is compared
    /// first: [`Refusal::Layout`]. Then: State where the words are too few; Size; Number, a bound; Color, the
    /// background; Marker; State, a store. A refused opening leaves a canvas that meets State at every call, unless
    /// the layout is another or the words are too few.
    pub fn open(&mut self, opening: &Opening) -> Result<(), Refusal> {
        check_layout()?;
        let Opening {
            columns,
            rows,
            left,
            right,
            bottom,
            top,
            marker,
            character,
            background,
        } = *opening;
        call!(
            self,
            mossbuckle_open,
            columns,
            rows,
            left,
            right,
            bottom,
            top,
            marker,
            character,
            background
        )
    }

    /// Draws a line and gives the number of dots painted. Refusals of every draw: State, Rendered, Number, Color, Draws.
    pub fn line(&mut self, x1: f64, y1: f64, x2: f64, y2: f64, color: u32) -> Result<u64, Refusal> {
        let mut painted = 0;
        call!(self, mossbuckle_line, x1, y1, x2, y2, color, &mut painted)?;
        Ok(painted)
    }

    /// Draws a line whose columns are filled to the row of `fill_to_y`. Refusals and answer as of [`Lent::line`].
    pub fn filled_line(
        &mut self,
        x1: f64,
        y1: f64,
        x2: f64,
        y2: f64,
        fill_to_y: f64,
        color: u32,
    ) -> Result<u64, Refusal> {
        let mut painted = 0;
        call!(
            self,
            mossbuckle_filled_line,
            x1,
            y1,
            x2,
            y2,
            fill_to_y,
            color,
            &mut painted
        )?;
        Ok(painted)
    }

    /// Draws a rectangle from its corner at the least x and y. Refusals and answer as of [`Lent::line`].
    pub fn rectangle(
        &mut self,
        x: f64,
        y: f64,
        width: f64,
        height: f64,
        color: u32,
    ) -> Result<u64, Refusal> {
        let mut painted = 0;
        call!(
            self,
            mossbuckle_rectangle,
            x,
            y,
            width,
            height,
            color,
            &mut painted
        )?;
        Ok(painted)
    }

    /// Draws a circle. Refusals and answer as of [`Lent::line`].
    pub fn circle(&mut self, x: f64, y: f64, radius: f64, color: u32) -> Result<u64, Refusal> {
        let mut painted = 0;
        call!(self, mossbuckle_circle, x, y, radius, color, &mut painted)?;
        Ok(painted)
    }

    /// Draws points, x and y by turns; a last coordinate by itself is not looked at. Refusals as of [`Lent::line`],
    /// then Pairs. An array of `[f64; 2]` is lent as such a list by `as_flattened`.
    pub fn points(&mut self, coords: &[f64], color: u32) -> Result<u64, Refusal> {
        let mut painted = 0;
        call!(
            self,
            mossbuckle_points,
            coords.as_ptr(),
            coords.len(),
            color,
            &mut painted
        )?;
        Ok(painted)
    }

    /// Paints one dot, counted from the upper left. Refusals: State, Rendered, Color, Draws, Outside.
    pub fn dot(&mut self, column: u32, row: u32, color: u32) -> Result<u64, Refusal> {
        let mut painted = 0;
        call!(self, mossbuckle_dot, column, row, color, &mut painted)?;
        Ok(painted)
    }

    /// Saves the layer and begins another. Refusals: State, Rendered.
    pub fn layer(&mut self) -> Result<(), Refusal> {
        call!(self, mossbuckle_layer)
    }

    /// Saves a layer that was drawn on and goes on with another marker. Refusals: State, Rendered, Marker.
    pub fn marker(&mut self, marker: u8, character: u32) -> Result<(), Refusal> {
        call!(self, mossbuckle_marker, marker, character)
    }

    /// Prints a label, with [`NO_COLOR`] in the colour that its cells have. Refusals: State, Rendered, Number, Color,
    /// Text, Labels.
    pub fn print(&mut self, x: f64, y: f64, text: &[u8], color: u32) -> Result<(), Refusal> {
        call!(
            self,
            mossbuckle_print,
            x,
            y,
            text.as_ptr(),
            text.len(),
            color
        )
    }

    /// Lays the picture on a screen of `columns` by `rows` cells, three words a cell, with its upper left corner at
    /// column `x` and row `y`, and closes the canvas. Refusals: State, Rendered, Edge, Screen.
    pub fn render(
        &mut self,
        columns: u16,
        rows: u16,
        x: u16,
        y: u16,
        screen: &mut [u32],
    ) -> Result<Drawn, Refusal> {
        let (mut painted, mut label_cells) = (0, 0);
        call!(
            self,
            mossbuckle_render,
            columns,
            rows,
            x,
            y,
            screen.as_mut_ptr(),
            screen.len(),
            &mut painted,
            &mut label_cells
        )?;
        Ok(Drawn {
            painted,
            label_cells,
        })
    }

    /// The dot of a point: [`get_point`] of the canvas.
    pub fn get_point(&self, x: f64, y: f64) -> Result<Option<(u32, u32)>, Refusal> {
        get_point(self.canvas, x, y)
    }
}

/// The dot of a point on a canvas of words, column and row from the upper left; none outside the bounds, or where these
/// have no width or height. Also on a canvas that was rendered. Refusals: State, of the canvas alone; Number.
pub fn get_point(canvas: &[u64], x: f64, y: f64) -> Result<Option<(u32, u32)>, Refusal> {
    dot_of(|column, row| {
        // SAFETY: the pointer stands with its slice's length, and each reference is distinct.
        unsafe { c::mossbuckle_point(canvas.as_ptr(), canvas.len(), x, y, column, row) }
    })
}

/// Whether the archive is of the layout that this wrapper was written for.
pub fn check_layout() -> Result<(), Refusal> {
    // SAFETY: the function takes nothing and reads nothing.
    match unsafe { c::mossbuckle_layout() } {
        LAYOUT => Ok(()),
        other => Err(Refusal::Layout(other)),
    }
}
