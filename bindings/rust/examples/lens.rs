//! Draws a lens in the terminal: the blank, its axis and a label.
use mossbuckle::canvas::{Canvas, Circle, Color, Line, Screen};
use std::io::Write;

fn main() -> Result<(), Box<dyn std::error::Error>> {
    let mut screen = Screen::new(80, 24);
    let (blue, red) = (Color::Rgb(95, 175, 255), Color::Rgb(255, 95, 95));
    Canvas::default()
        .x_bounds([-50.0, 50.0])
        .y_bounds([-30.0, 30.0])
        .paint(|ctx| {
            ctx.draw(&Circle::new(0.0, 0.0, 28.0, blue));
            ctx.draw(&Line::new(-31.0, -11.283, 31.0, 11.283, red));
            ctx.print(-50.0, 30.0, "R  BLANK 56  AXIS 20");
        })
        .render(screen.area(), &mut screen)?;
    Ok(std::io::stdout().write_all(&screen.terminal())?)
}
