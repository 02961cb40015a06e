//! The shapes, with ratatui's fields.
use super::{Color, Painter, Shape};

/// A line from (x1, y1) to (x2, y2).
#[derive(Clone, Debug, Default, PartialEq)]
pub struct Line {
    pub x1: f64,
    pub y1: f64,
    pub x2: f64,
    pub y2: f64,
    pub color: Color,
}

impl Line {
    pub const fn new(x1: f64, y1: f64, x2: f64, y2: f64, color: Color) -> Line {
        Line {
            x1,
            y1,
            x2,
            y2,
            color,
        }
    }
}

impl Shape for Line {
    fn draw(&self, painter: &mut Painter) {
        let Line { x1, y1, x2, y2, .. } = *self;
        painter.call(|lent| lent.line(x1, y1, x2, y2, self.color.number()));
    }
}

/// A line whose columns are filled to the row of `fill_to_y`.
#[derive(Clone, Debug, Default, PartialEq)]
pub struct FilledLine {
    pub x1: f64,
    pub y1: f64,
    pub x2: f64,
    pub y2: f64,
    pub fill_to_y: f64,
    pub color: Color,
}

impl FilledLine {
    pub const fn new(
        x1: f64,
        y1: f64,
        x2: f64,
        y2: f64,
        fill_to_y: f64,
        color: Color,
    ) -> FilledLine {
        FilledLine {
            x1,
            y1,
            x2,
            y2,
            fill_to_y,
            color,
        }
    }
}

impl Shape for FilledLine {
    fn draw(&self, painter: &mut Painter) {
        let FilledLine { x1, y1, x2, y2, .. } = *self;
        painter.call(|lent| lent.filled_line(x1, y1, x2, y2, self.fill_to_y, self.color.number()));
    }
}

/// A rectangle from its corner at the least x and y.
#[derive(Clone, Debug, Default, PartialEq)]
pub struct Rectangle {
    pub x: f64,
    pub y: f64,
    pub width: f64,
    pub height: f64,
    pub color: Color,
}

impl Rectangle {
    pub const fn new(x: f64, y: f64, width: f64, height: f64, color: Color) -> Rectangle {
        Rectangle {
            x,
            y,
            width,
            height,
            color,
        }
    }
}

impl Shape for Rectangle {
    fn draw(&self, painter: &mut Painter) {
        let Rectangle {
            x,
            y,
            width,
            height,
            ..
        } = *self;
        painter.call(|lent| lent.rectangle(x, y, width, height, self.color.number()));
    }
}

/// A circle round (x, y).
#[derive(Clone, Debug, Default, PartialEq)]
pub struct Circle {
    pub x: f64,
    pub y: f64,
    pub radius: f64,
    pub color: Color,
}

impl Circle {
    pub const fn new(x: f64, y: f64, radius: f64, color: Color) -> Circle {
        Circle {
            x,
            y,
            radius,
            color,
        }
    }
}

impl Shape for Circle {
    fn draw(&self, painter: &mut Painter) {
        painter.call(|lent| lent.circle(self.x, self.y, self.radius, self.color.number()));
    }
}

/// Points, each an x and a y.
#[derive(Clone, Debug, Default, PartialEq)]
pub struct Points<'a> {
    pub coords: &'a [(f64, f64)],
    pub color: Color,
}

impl<'a> Points<'a> {
    pub const fn new(coords: &'a [(f64, f64)], color: Color) -> Points<'a> {
        Points { coords, color }
    }
}

impl Shape for Points<'_> {
    fn draw(&self, painter: &mut Painter) {
        painter.points(self.coords, self.color);
    }
}
