//! What the build shows of itself before it judges anything: `judge --test`.
use ratatui_core::style::{Color, RESET};
use ratatui_core::symbols::Marker;
use ratatui_core::symbols::braille::BRAILLE;
use ratatui_core::symbols::pixel::{QUADRANTS, SEXTANTS};

use crate::picture::{Call, Opening, Picture};
use crate::{answer, calls, counted, draw, plain};

pub fn all() -> Vec<(&'static str, bool)> {
    vec![
        ("0.49999999999999994 rounds to 1, so the polyfills supply `round`", round_is_the_polyfill()),
        ("45 degrees lie at 0.7078125, so the polyfills supply `sin`, `cos` and `floor`", sin_is_the_polyfill()),
        ("bench sample: points on 2 by 2 Braille", bench_points()),
        ("bench sample: symbols of four patterns", bench_symbols()),
        ("bench sample: 9 outside a HalfBlock grid, where the Rust panics", half_block_panics()),
        ("document 01's example of the program `layout`", example()),
        ("bench samples as a call list, on an area of a larger screen", samples_as_list()),
    ]
}

/// On two dots across a width of 1 the dot is `round(x)`; the standard library's gives 0 here.
fn round_is_the_polyfill() -> bool {
    let dot = |x| plain::drive::get_point((2, 1), [0.0, 1.0, 0.0, 1.0], Marker::Dot, x, 0.0);
    dot(0.499_999_999_999_999_94) == Some((1, 0)) && dot(0.499_999_999_999_999_9) == Some((0, 0))
}

/// The exact sine of 45 degrees is 0.7071..., outside these bounds; the polyfill's is inside. No other angle is.
fn sin_is_the_polyfill() -> bool {
    let (low, high) = (0.70775, 0.70785);
    let opening = Opening {
        columns: 1,
        rows: 1,
        left: low,
        right: high,
        bottom: low,
        top: high,
        marker: Marker::Dot,
        background: Color::Reset,
    };
    let circle = Call::Circle { x: 0.0, y: 0.0, radius: 1.0, color: Color::Rgb(0, 0, 255) };
    let drawn = draw(&Picture { opening, calls: vec![circle] });
    drawn.is_some_and(|(screen, painted)| painted == 1 && screen[(0, 0)].symbol == '\u{2022}')
}

fn bench_points() -> bool {
    let bounds = [1.0, 2.0, 0.0, 2.0];
    let dot = |x, y| plain::drive::get_point((2, 2), bounds, Marker::Braille, x, y);
    let counted_dot = |x, y| counted::drive::get_point((2, 2), bounds, Marker::Braille, x, y);
    dot(1.0, 0.0) == Some((0, 7))
        && dot(1.5, 1.0) == Some((2, 4))
        && dot(0.0, 0.0).is_none()
        && dot(2.0, 2.0) == Some((3, 0))
        && dot(1.0, 2.0) == Some((0, 0))
        && counted_dot(1.5, 1.0) == dot(1.5, 1.0)
}

fn bench_symbols() -> bool {
    BRAILLE[129] == '\u{2881}'
        && SEXTANTS[21] == '\u{258C}'
        && SEXTANTS[22] == '\u{1FB14}'
        && QUADRANTS[6] == '\u{259E}'
}

/// 3 by 2, dot (3, 0): the judge says 9 only where the Rust did panic.
fn half_block_panics() -> bool {
    let file = |marker| [3, 0, 2, 0, 0x10, marker, 9, 1, 3, 0, 0, 0];
    answer(&file(5)) == "refused 9 at 6\n" && answer(&file(2)).contains("\n0 1 2022 ")
}

fn example() -> bool {
    let one = 1.0f64.to_le_bytes();
    let mut file = vec![0x02, 0x00, 0x01, 0x00, 0x1A];
    file.extend(one);
    file.extend(one);
    file.extend([0x02, 0x01, 0x14]);
    file.extend(one);
    file.extend([0xFF, 0x00, 0x00, 0x00]);
    answer(&file) == "cells 2 1 painted 2\n0 0 2022 255 16777216\n1 0 2022 255 16777216\n"
}

/// Document 01's samples as a list: a dot past the row's end on an area of a larger screen, and refusals.
fn samples_as_list() -> bool {
    let step = |op: u8, a: u8, n: u32, m: u32, k: u32, words: [u64; 6]| {
        let mut bytes = vec![op, a, 0, 0];
        [n, m, k].iter().for_each(|number| bytes.extend(number.to_le_bytes()));
        words.iter().for_each(|word| bytes.extend(word.to_le_bytes()));
        bytes
    };
    let open = |marker| step(0x02, marker, RESET, 0x20, 3 + (2 << 16), [0; 6]);
    let dot = |column, row| step(0x0A, 0, 255, 0, 0, [column, row, 0, 0, 0, 0]);
    let lend = step(0x01, 0, 0, 0, 0, [6, 64, 0, 12, 0, 0]);
    let render = |columns, rows| step(0x0E, 0, 0, 0, 0, [columns, rows, 1, 1, 0, 0]);
    let parts = [
        vec![step(0x0B, 0, 0, 0, 0, [0; 6]), open(5), dot(3, 0), dot(2, 3), open(2), dot(3, 0)],
        vec![lend, render(3, 3), render(4, 4), render(4, 3), step(0x41, 1, 0, 0, 12, [0; 6]), dot(0, 0)],
    ];
    let lines = calls::answer_list(&parts.concat().concat()).unwrap_or_default();
    let (calls, cells) = lines.split_once("41 cell 0 ").unwrap_or_default();
    let told = "0B refused 5\n02 done\n0A refused 9\n0A painted 1\n02 done\n0A painted 1\n01 lent\n";
    calls == format!("{told}0E refused 12\n0E refused 13\n0E rendered 1 labels ?\n")
        && cells.contains("41 cell 9 2022 255 16777216\n41 cell 10 0020 16777216 16777216\n")
        && cells.ends_with("0A refused 6\n")
}
