//! What a closure paints on, and what a shape paints with.
use super::screen::Memory;
use super::{Color, Marker, Span};
use crate::calls::{get_point, Lent, NO_COLOR};
use crate::Refusal;

/// Something that can be drawn on a canvas.
pub trait Shape {
    /// Paints the shape.
    fn draw(&self, painter: &mut Painter);
}

/// A canvas that is being painted.
#[derive(Debug)]
pub struct Context<'a> {
    memory: &'a mut Memory,
    x_bounds: [f64; 2],
    y_bounds: [f64; 2],
    painted: u64,
    refusal: Option<Refusal>,
}

impl<'a> Context<'a> {
    /// On a canvas that is open, with these bounds.
    pub(super) fn new(memory: &'a mut Memory, x_bounds: [f64; 2], y_bounds: [f64; 2]) -> Self {
        Context {
            memory,
            x_bounds,
            y_bounds,
            painted: 0,
            refusal: None,
        }
    }

    /// Draws a shape.
    pub fn draw<S>(&mut self, shape: &S)
    where
        S: Shape,
    {
        shape.draw(&mut Painter::from(self));
    }

    /// Saves what is drawn so far as a layer, and begins another.
    pub fn layer(&mut self) {
        let answer = self.try_layer();
        self.keep(answer);
    }

    /// Goes on with another marker, on a layer of its own.
    pub fn marker(&mut self, marker: Marker) {
        let answer = self.try_marker(marker);
        self.keep(answer);
    }

    /// Prints a label, which stands above all layers, with its first byte at (x, y).
    pub fn print<'t, T>(&mut self, x: f64, y: f64, text: T)
    where
        T: Into<Span<'t>>,
    {
        let answer = self.try_print(x, y, text);
        self.keep(answer);
    }

    /// Paints one dot, counted from the upper left.
    pub fn dot(&mut self, column: u32, row: u32, color: Color) {
        let answer = self.try_dot(column, row, color);
        self.keep(answer);
    }

    /// The dot of a point; none outside the bounds, or where these have no width or height. Refusal: Number.
    pub fn get_point(&self, x: f64, y: f64) -> Result<Option<(u32, u32)>, Refusal> {
        get_point(self.memory.canvas(), x, y)
    }

    /// The first refusal that was kept.
    pub fn refusal(&self) -> Option<Refusal> {
        self.refusal
    }

    /// Draws a shape, and gives the number of dots painted. Refusals: Number, Draws; for [`Points`](super::Points)
    /// Pairs too. Of a shape of one's own the first is given, and the dots painted before and after it stand.
    pub fn try_draw<S>(&mut self, shape: &S) -> Result<u64, Refusal>
    where
        S: Shape,
    {
        let (painted, kept) = (self.painted, self.refusal.take());
        self.draw(shape);
        match core::mem::replace(&mut self.refusal, kept) {
            Some(refusal) => Err(refusal),
            None => Ok(self.painted - painted),
        }
    }

    /// As [`Context::layer`]; no refusal comes of it in a closure.
    pub fn try_layer(&mut self) -> Result<(), Refusal> {
        self.memory.lent().layer()
    }

    /// As [`Context::marker`]; no refusal comes of it in a closure.
    pub fn try_marker(&mut self, marker: Marker) -> Result<(), Refusal> {
        let (number, character) = marker.numbers();
        self.memory.lent().marker(number, character)
    }

    /// As [`Context::print`]. Refusals: Number, Text, Labels.
    pub fn try_print<'t, T>(&mut self, x: f64, y: f64, text: T) -> Result<(), Refusal>
    where
        T: Into<Span<'t>>,
    {
        let Span { content, color } = text.into();
        let color = color.map_or(NO_COLOR, Color::number);
        self.memory.lent().print(x, y, content.as_bytes(), color)
    }

    /// As [`Context::dot`], and gives the number of dots painted, which is 1 also where the dot is outside the grid and
    /// ignored. Refusals: Draws; Outside, of a HalfBlock grid.
    pub fn try_dot(&mut self, column: u32, row: u32, color: Color) -> Result<u64, Refusal> {
        self.memory.lent().dot(column, row, color.number())
    }

    /// Keeps the first refusal.
    fn keep<T>(&mut self, answer: Result<T, Refusal>) {
        self.refusal = self.refusal.or(answer.err());
    }
}

/// Paints for a shape.
#[derive(Debug)]
pub struct Painter<'a, 'b> {
    context: &'a mut Context<'b>,
}

impl Painter<'_, '_> {
    /// The dot of a point, as [`Context::get_point`]; none where that refuses.
    pub fn get_point(&self, x: f64, y: f64) -> Option<(usize, usize)> {
        let (column, row) = self.context.get_point(x, y).ok()??;
        Some((column as usize, row as usize))
    }

    /// Paints one dot, as [`Context::dot`].
    pub fn paint(&mut self, x: usize, y: usize, color: Color) {
        // what is past the numbers of a dot is past every grid
        let [column, row] = [x, y].map(|n| u32::try_from(n).unwrap_or(u32::MAX));
        self.call(|lent| lent.dot(column, row, color.number()));
    }

    /// The bounds of the canvas, x before y.
    pub fn bounds(&self) -> (&[f64; 2], &[f64; 2]) {
        (&self.context.x_bounds, &self.context.y_bounds)
    }

    pub(super) fn call(&mut self, draw: impl FnOnce(&mut Lent) -> Result<u64, Refusal>) {
        let answer = draw(&mut self.context.memory.lent());
        self.add(answer);
    }

    pub(super) fn points(&mut self, coords: &[(f64, f64)], color: Color) {
        let (mut lent, coords) = self.context.memory.lent_with(coords);
        let answer = lent.points(coords, color.number());
        self.add(answer);
    }

    fn add(&mut self, answer: Result<u64, Refusal>) {
        self.context.painted += answer.unwrap_or(0);
        self.context.keep(answer);
    }
}

impl<'a, 'b> From<&'a mut Context<'b>> for Painter<'a, 'b> {
    fn from(context: &'a mut Context<'b>) -> Self {
        Painter { context }
    }
}
