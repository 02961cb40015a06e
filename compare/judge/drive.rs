//! Hands a picture's calls to the Rust's canvas. The file is compiled twice: `super::rust` is the unchanged canvas in
//! one place and the counted one in the other.
use std::marker::PhantomData;
use std::sync::atomic::Ordering;

use ratatui_core::buffer::Buffer;
use ratatui_core::layout::Rect;
use ratatui_core::style::Color;
use ratatui_core::symbols::Marker;
use ratatui_core::text::Line as Text;
use ratatui_core::widgets::Widget;

use super::rust::canvas::{Canvas, Circle, Context, FilledLine, Line, Painter, Points, Rectangle, Shape};
use crate::picture::{Call, Opening, Picture};

/// 'One `Painter::paint` inside a `draw`'.
struct Dot {
    column: usize,
    row: usize,
    color: Color,
}

impl Shape for Dot {
    fn draw(&self, painter: &mut Painter) {
        painter.paint(self.column, self.row, self.color);
    }
}

/// The screen after `Canvas::render`, on an area that is the whole blank screen.
pub fn render(picture: &Picture) -> Buffer {
    let mut screen = Buffer::blank(picture.opening.columns, picture.opening.rows);
    render_on(picture, &mut screen);
    screen
}

/// `Canvas::render` on an area that is the whole of a screen of the picture's size.
pub fn render_on(picture: &Picture, screen: &mut Buffer) {
    render_at(picture, (0, 0), screen);
}

/// `Canvas::render` on the area of the picture's size that has its corner here.
pub fn render_at(picture: &Picture, (x, y): (u16, u16), screen: &mut Buffer) {
    let Opening { columns, rows, left, right, bottom, top, marker, background } = picture.opening;
    Canvas::default()
        .x_bounds([left, right])
        .y_bounds([bottom, top])
        .marker(marker)
        .background_color(background)
        .paint(|context: &mut Context| picture.calls.iter().for_each(|call| hand_over(context, call)))
        .render(Rect { x, y, width: columns, height: rows }, screen);
}

fn hand_over(context: &mut Context, call: &Call) {
    match call {
        &Call::Line { x1, y1, x2, y2, color } => context.draw(&Line::new(x1, y1, x2, y2, color)),
        &Call::FilledLine { x1, y1, x2, y2, fill_to_y, color } => {
            context.draw(&FilledLine::new(x1, y1, x2, y2, fill_to_y, color));
        }
        &Call::Rectangle { x, y, width, height, color } => context.draw(&Rectangle::new(x, y, width, height, color)),
        &Call::Circle { x, y, radius, color } => context.draw(&Circle::new(x, y, radius, color)),
        Call::Points { pairs, color } => context.draw(&Points::new(pairs, *color)),
        Call::Layer => context.layer(),
        Call::Marker(marker) => context.marker(*marker),
        Call::Label { x, y, color, text } => context.print(*x, *y, label(text, *color)),
        &Call::Dot { column, row, color } => context.draw(&Dot { column, row, color }),
    }
}

fn label(text: &[u8], color: Option<Color>) -> Text<'static> {
    Text { text: text.to_vec(), color, lent: PhantomData }
}

/// A canvas that is given one call after the other.
pub struct Live(Context<'static>);

impl Live {
    pub fn open(opening: &Opening) -> Self {
        let &Opening { columns, rows, left, right, bottom, top, marker, .. } = opening;
        Self(Context::new(columns, rows, [left, right], [bottom, top], marker))
    }

    /// How often the call paints, where the sources are those that count.
    pub fn take(&mut self, call: &Call) -> u64 {
        let before = super::rust::PAINTED.load(Ordering::Relaxed);
        hand_over(&mut self.0, call);
        super::rust::PAINTED.load(Ordering::Relaxed) - before
    }
}

/// `Painter::get_point` on a fresh canvas.
pub fn get_point(size: (u16, u16), bounds: [f64; 4], marker: Marker, x: f64, y: f64) -> Option<(usize, usize)> {
    let [left, right, bottom, top] = bounds;
    let mut context = Context::new(size.0, size.1, [left, right], [bottom, top], marker);
    Painter::from(&mut context).get_point(x, y)
}
