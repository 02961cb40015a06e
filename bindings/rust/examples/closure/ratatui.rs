//! The same paint function with the `use` lines of ratatui: prints the cells as the example `closure list` does, but
//! for the first line. bindings/check compiles it where the sources of ratatui's canvas are.
use ratatui_core::buffer::Buffer;
use ratatui_core::layout::Rect;
use ratatui_core::style::Color;
use ratatui_core::symbols::Marker;
use ratatui_core::widgets::Widget;
use ratatui_widgets::canvas::{
    Canvas, Circle, Context, FilledLine, Line, Painter, Points, Rectangle, Shape,
};

include!("paint.rs");

fn main() {
    let mut screen = Buffer::blank(80, 24);
    let area = Rect {
        x: 0,
        y: 0,
        width: 80,
        height: 24,
    };
    Canvas::default()
        .x_bounds([-50.0, 50.0])
        .y_bounds([-30.0, 30.0])
        .background_color(Color::Rgb(8, 8, 24))
        .paint(paint)
        .render(area, &mut screen);
    for (y, x) in (0..24).flat_map(|y| (0..80).map(move |x| (y, x))) {
        let cell = screen[(x, y)];
        let [fg, bg] = [cell.foreground, cell.background].map(Color::number);
        println!("{x} {y} {:04X} {fg} {bg}", cell.symbol as u32);
    }
}
