//! The names of ratatui's canvas: a closure that was written for it compiles once its `use` lines name this module.
//!
//! ```
//! use mossbuckle::canvas::{Canvas, Circle, Color, Line, Rect, Screen};
//!
//! let mut screen = Screen::new(80, 24);
//! let canvas = Canvas::default().x_bounds([-40.0, 40.0]).y_bounds([-24.0, 24.0]).paint(|ctx| {
//!     ctx.draw(&Circle { x: 0.0, y: 0.0, radius: 20.0, color: Color::Rgb(95, 175, 255) });
//!     ctx.draw(&Line { x1: -30.0, y1: 0.0, x2: 30.0, y2: 0.0, color: Color::Reset });
//!     ctx.print(-3.0, -22.0, "R 20");
//! });
//! let drawn = canvas.render(Rect::new(0, 0, 80, 24), &mut screen)?;
//! assert_eq!(drawn.label_cells, 4);
//! assert_eq!(screen.cell(36, 22).map(|cell| cell.symbol), Some('R'));
//! # Ok::<(), mossbuckle::Refusal>(())
//! ```
//!
//! All memory is the [`Screen`]'s, and is allocated with it: a canvas that is drawn again and again allocates nothing.
//!
//! # What differs from ratatui
//!
//! - **Refusals in place of panics.** [`Canvas::render`] is a method and returns a [`Result`]. A refused call changes
//!   nothing. In a closure `draw`, `layer`, `marker`, `print` and `dot` return nothing, as in ratatui; the first refusal
//!   among them is kept, and `render` returns it and leaves the screen as it was. `try_draw`, `try_layer`,
//!   `try_marker`, `try_print` and `try_dot` return their own instead, which is not kept.
//! - **Limits**: 1 to 200 columns and 1 to 100 rows; numbers that are finite and at most 2^40 in magnitude; 65,535 draws
//!   and dots; 1,000 pairs in a `Points`; 64 labels of at most 40 bytes, each from 20 to 7E (hexadecimal).
//! - **The area** must lie on the screen. One without cells is refused, where ratatui draws nothing.
//! - **Colours** are `Reset` and `Rgb`; **markers** are ratatui's without `Octant`.
//! - **Labels** are strings, or [`Span`]s of one colour; there are no other styles, and no lines of several spans.
//! - **Shapes of one's own** compile: [`Painter`] has `get_point`, `paint` and `bounds`. Each `paint` is a dot, and counts
//!   towards the 65,535. `get_point` has no dot where a number is outside the domain.
//! - **Left out**: `Block`, `Map`, `Widget`, and a [`Context`] of one's own. In place of a `Buffer` there is a [`Screen`].
//! - Dots are those of ratatui built without std: with std its sines and cosines differ here and there.
use crate::calls::{check_layout, Opening};
use crate::{Drawn, Refusal};

mod context;
mod screen;
mod shapes;
mod style;

pub use context::{Context, Painter, Shape};
pub use screen::{Cell, Rect, Screen};
pub use shapes::{Circle, FilledLine, Line, Points, Rectangle};
pub use style::{Color, Marker, Span};

/// Bounds, marker, background and a closure that paints: drawn by [`Canvas::render`] as often as one likes.
#[derive(Clone, Debug, PartialEq)]
pub struct Canvas<F>
where
    F: Fn(&mut Context),
{
    x_bounds: [f64; 2],
    y_bounds: [f64; 2],
    paint_func: Option<F>,
    background_color: Color,
    marker: Marker,
}

impl<F> Default for Canvas<F>
where
    F: Fn(&mut Context),
{
    fn default() -> Self {
        Canvas {
            x_bounds: [0.0, 0.0],
            y_bounds: [0.0, 0.0],
            paint_func: None,
            background_color: Color::Reset,
            marker: Marker::Braille,
        }
    }
}

impl<F> Canvas<F>
where
    F: Fn(&mut Context),
{
    /// The least and the greatest x.
    #[must_use]
    pub fn x_bounds(mut self, bounds: [f64; 2]) -> Self {
        self.x_bounds = bounds;
        self
    }

    /// The least and the greatest y, which is at the top.
    #[must_use]
    pub fn y_bounds(mut self, bounds: [f64; 2]) -> Self {
        self.y_bounds = bounds;
        self
    }

    /// The closure that paints.
    #[must_use]
    pub fn paint(mut self, f: F) -> Self {
        self.paint_func = Some(f);
        self
    }

    /// The background of the whole area.
    #[must_use]
    pub fn background_color(mut self, color: Color) -> Self {
        self.background_color = color;
        self
    }

    /// The marker of the first layer.
    #[must_use]
    pub fn marker(mut self, marker: Marker) -> Self {
        self.marker = marker;
        self
    }

    /// Paints, and lays the picture on an area of the screen, over what stands there. Otherwise the screen is as it
    /// was, and the refusal is the first of: Layout; Edge; those of [`Lent::open`](crate::calls::Lent::open); those of
    /// the closure's calls.
    pub fn render(&self, area: Rect, screen: &mut Screen) -> Result<Drawn, Refusal> {
        check_layout()?;
        let memory = screen.memory_for(area)?;
        memory.lent().open(&self.opening(area))?;
        let mut context = Context::new(memory, self.x_bounds, self.y_bounds);
        if let Some(paint) = &self.paint_func {
            paint(&mut context);
        }
        match context.refusal() {
            Some(refusal) => Err(refusal),
            None => screen.show(area),
        }
    }

    fn opening(&self, area: Rect) -> Opening {
        let ([left, right], [bottom, top]) = (self.x_bounds, self.y_bounds);
        let (marker, character) = self.marker.numbers();
        Opening {
            columns: area.width,
            rows: area.height,
            left,
            right,
            bottom,
            top,
            marker,
            character,
            background: self.background_color.number(),
        }
    }
}
