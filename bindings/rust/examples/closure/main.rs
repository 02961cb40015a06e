//! Draws what a paint function that was written for ratatui's canvas paints: paint.rs is that function, and the `use`
//! lines below are all that differs. For ratatui they are
//!
//!     use ratatui::style::Color;
//!     use ratatui::symbols::Marker;
//!     use ratatui::widgets::canvas::{Canvas, Circle, Context, FilledLine, Line, Painter, Points, Rectangle, Shape};
//!
//!     closure          shows it in the terminal
//!     closure list     prints the listing of its cells
use mossbuckle::canvas::{
    Canvas, Circle, Color, Context, FilledLine, Line, Marker, Painter, Points, Rectangle, Screen,
    Shape,
};
use std::io::Write;

include!("paint.rs");

fn main() -> Result<(), Box<dyn std::error::Error>> {
    let mut screen = Screen::new(80, 24);
    let drawn = Canvas::default()
        .x_bounds([-50.0, 50.0])
        .y_bounds([-30.0, 30.0])
        .background_color(Color::Rgb(8, 8, 24))
        .paint(paint)
        .render(screen.area(), &mut screen)?;
    let bytes = match std::env::args().nth(1).as_deref() {
        Some("list") => screen.listing(drawn.painted),
        _ => screen.terminal(),
    };
    Ok(std::io::stdout().write_all(&bytes)?)
}
