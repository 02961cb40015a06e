//! The judge: what the Rust's canvas answers to picture files, to call lists and to questions for `get_point`.
//!
//!     judge            a bundle of picture files on standard input; prints what the program `cases` must print
//!     judge --large    the same on canvases of up to 200 by 100; prints what the program `large` must print
//!     judge --calls    a call list on standard input; prints what the program `calls` must print, `?` for what is untold
//!     judge --points   questions for `get_point` on standard input; prints a line for each
//!     judge --cuts     lines to clip on standard input; prints a line for each, with the number of cuts
//!     judge --test     what the build shows of itself
mod calls;
mod checks;
mod picture;

/// The sources unchanged. The path keeps this module's files beside this one.
#[path = "."]
mod plain {
    use canvas_plain as rust;
    // Each build is asked for a part of it.
    #[allow(dead_code)]
    #[path = "drive.rs"]
    pub mod drive;
}

/// The sources with one line added, which counts the calls of `Painter::paint`.
#[path = "."]
mod counted {
    use canvas_counted as rust;
    #[allow(dead_code)]
    #[path = "drive.rs"]
    pub mod drive;
}

use std::fmt::Write as _;
use std::io::{self, Read, Write};
use std::panic;
use std::process::ExitCode;
use std::sync::atomic::Ordering;

use line_clipping::cohen_sutherland::clip_and_count;
use line_clipping::{LineSegment, Point, Window};
use ratatui_core::buffer::{Buffer, Cell};
use ratatui_core::symbols::Marker;

use picture::{Answer, Picture, Refusal};

fn main() -> ExitCode {
    // A panic of the Rust is an answer that is reported in its case, so the hook stays silent.
    panic::set_hook(Box::new(|_| {}));
    let mode = std::env::args().nth(1);
    match mode.as_deref() {
        None => answer_input(|input| answer_bundle(input, answer)),
        Some("--large") => answer_input(|input| answer_bundle(input, answer_large)),
        Some("--calls") => answer_input(calls::answer_list),
        Some("--points") => answer_input(|input| answer_each(input, QUESTION, answer_question)),
        Some("--cuts") => answer_input(|input| answer_each(input, LINE, answer_line)),
        Some("--test") => run_checks(),
        Some(_) => {
            eprintln!("usage: judge [--large | --calls | --points | --cuts | --test]");
            ExitCode::from(2)
        }
    }
}

fn run_checks() -> ExitCode {
    let mut failed = 0;
    for (what, holds) in checks::all() {
        println!("{} {what}", if holds { "ok:" } else { "NOT OK:" });
        failed += u8::from(!holds);
    }
    ExitCode::from(failed)
}

/// Reads everything, and prints what the function makes of it; a damaged input ends in exit status 2.
fn answer_input(answers: fn(&[u8]) -> Option<String>) -> ExitCode {
    let mut input = Vec::new();
    io::stdin().read_to_end(&mut input).expect("standard input can be read");
    let Some(text) = answers(&input) else {
        eprintln!("judge: the input ends inside an entry");
        return ExitCode::from(2);
    };
    io::stdout().write_all(text.as_bytes()).expect("standard output can be written");
    ExitCode::SUCCESS
}

// Picture files.

/// For each case: 1 byte name length, name, 4 bytes file length, file. None where an entry is cut short.
fn answer_bundle(bundle: &[u8], answer: fn(&[u8]) -> String) -> Option<String> {
    let mut rest = bundle;
    let mut text = String::new();
    while !rest.is_empty() {
        let name_length = take(&mut rest, 1)?[0];
        let name = take(&mut rest, usize::from(name_length))?;
        let file_length = u32::from_le_bytes(take(&mut rest, 4)?.try_into().ok()?);
        let file = take(&mut rest, file_length as usize)?;
        writeln!(text, "case {}", String::from_utf8_lossy(name)).ok()?;
        text += &answer(file);
    }
    Some(text)
}

fn take<'a>(rest: &mut &'a [u8], count: usize) -> Option<&'a [u8]> {
    let (taken, left) = rest.split_at_checked(count)?;
    *rest = left;
    Some(taken)
}

/// What the program `layout` prints for a file. A panic of the Rust, or a difference between the two builds, is printed
/// in place of the answer, so that the case fails.
fn answer(file: &[u8]) -> String {
    answer_as(file, picture::LAYOUT, listing)
}

/// What the program `large` prints: the painted count, and a digest of the screen in place of its cells.
fn answer_large(file: &[u8]) -> String {
    answer_as(file, picture::DOMAIN, digest)
}

fn answer_as(file: &[u8], most: (u16, u16), shown: fn(&Picture, &Buffer, u64) -> String) -> String {
    match picture::read(file, most) {
        Answer::Picture(picture) => {
            panic::catch_unwind(|| answer_picture(&picture, shown)).unwrap_or_else(|_| "the Rust panics\n".into())
        }
        Answer::Refused(refusal) => refused(&refusal),
        Answer::Panics(refusal, picture) => {
            if panics_at_last_call(picture) { refused(&refusal) } else { "the Rust does not panic here\n".into() }
        }
    }
}

/// 'Panics become refusals': the Rust panics at this call, and not at an earlier one.
fn panics_at_last_call(mut picture: Picture) -> bool {
    let with_it = panic::catch_unwind(|| plain::drive::render(&picture));
    picture.calls.pop();
    let without_it = panic::catch_unwind(|| plain::drive::render(&picture));
    with_it.is_err() && without_it.is_ok()
}

fn refused(refusal: &Refusal) -> String {
    format!("refused {} at {}\n", refusal.number, refusal.place)
}

fn answer_picture(picture: &Picture, shown: fn(&Picture, &Buffer, u64) -> String) -> String {
    match draw(picture) {
        Some((screen, painted)) => shown(picture, &screen, painted),
        None => "the counted build shows other cells\n".into(),
    }
}

/// The screen of the unchanged Rust and the count of the counted one; none if they do not show the same cells.
fn draw(picture: &Picture) -> Option<(Buffer, u64)> {
    draw_at(picture, (0, 0), &Buffer::blank(picture.opening.columns, picture.opening.rows))
}

/// The same on an area of a screen that holds something, with its corner here.
fn draw_at(picture: &Picture, corner: (u16, u16), before: &Buffer) -> Option<(Buffer, u64)> {
    let (mut screen, mut counted) = (before.clone(), before.clone());
    plain::drive::render_at(picture, corner, &mut screen);
    canvas_counted::PAINTED.store(0, Ordering::Relaxed);
    counted::drive::render_at(picture, corner, &mut counted);
    (screen == counted).then(|| (screen, canvas_counted::PAINTED.load(Ordering::Relaxed)))
}

fn listing(picture: &Picture, screen: &Buffer, painted: u64) -> String {
    let (columns, rows) = (picture.opening.columns, picture.opening.rows);
    let mut text = format!("cells {columns} {rows} painted {painted}\n");
    for row in 0..rows {
        for column in 0..columns {
            writeln!(text, "{column} {row} {}", shown_cell(screen[(column, row)])).expect("a string takes it");
        }
    }
    text
}

fn shown_cell(cell: Cell) -> String {
    format!("{:04X} {} {}", cell.symbol as u32, cell.foreground.number(), cell.background.number())
}

fn digest(picture: &Picture, screen: &Buffer, painted: u64) -> String {
    let (columns, rows) = (picture.opening.columns, picture.opening.rows);
    let cells = (0..rows).flat_map(|row| (0..columns).map(move |column| screen[(column, row)]));
    format!("painted {painted} digest {}\n", digest_of(cells))
}

/// Each word of the screen counts by its place.
fn digest_of(cells: impl Iterator<Item = Cell>) -> u64 {
    let words = cells.flat_map(|cell| [cell.symbol as u32, cell.foreground.number(), cell.background.number()]);
    words.fold(0, |digest, word| (digest * 31 + u64::from(word)) % 4_294_967_291)
}

// Questions for `get_point`.

/// Columns and rows (2 bytes each), left, right, bottom, top (8 bytes each), marker (1), x and y (8 each).
const QUESTION: usize = 2 + 2 + 4 * 8 + 1 + 2 * 8;

/// A line for each question of so many bytes; none where the last one is cut short.
fn answer_each(input: &[u8], length: usize, answer: fn(&[u8]) -> Option<String>) -> Option<String> {
    let questions = input.chunks_exact(length);
    if !questions.remainder().is_empty() {
        return None;
    }
    let mut text = String::new();
    for question in questions {
        text += &answer(question)?;
    }
    Some(text)
}

fn answer_question(question: &[u8]) -> Option<String> {
    let short = |at: usize| u16::from_le_bytes([question[at], question[at + 1]]);
    let float = |at: usize| question[at..at + 8].try_into().ok().map(f64::from_le_bytes);
    let size = (short(0), short(2));
    let bounds = [float(4)?, float(12)?, float(20)?, float(28)?];
    let marker = picture::check_marker(question[36], 0x20);
    Some(dot_of(size, bounds, marker.ok(), float(37)?, float(45)?) + "\n")
}

/// Get_point: '5; 2', with 5 a size, bound or marker outside the domain.
fn dot_of(size: (u16, u16), bounds: [f64; 4], marker: Option<Marker>, x: f64, y: f64) -> String {
    let Some(marker) = marker else { return "refused 5".into() };
    if !picture::size_in_domain(size.0, size.1) || !bounds.iter().all(|bound| picture::in_domain(*bound)) {
        return "refused 5".into();
    }
    if !picture::in_domain(x) || !picture::in_domain(y) {
        return "refused 2".into();
    }
    match plain::drive::get_point(size, bounds, marker, x, y) {
        Some((column, row)) => format!("dot {column} {row}"),
        None => "none".into(),
    }
}

// Lines to clip.

/// Left, right, bottom, top, x1, y1, x2, y2 (8 bytes each).
const LINE: usize = 8 * 8;

/// By the stand-in: the Rust keeps no count.
fn answer_line(question: &[u8]) -> Option<String> {
    let float = |at: usize| question[at * 8..at * 8 + 8].try_into().ok().map(f64::from_le_bytes);
    let window = Window::new(float(0)?, float(1)?, float(2)?, float(3)?);
    let line = LineSegment::new(Point::new(float(4)?, float(5)?), Point::new(float(6)?, float(7)?));
    let (clipped, cuts) = clip_and_count(line, window);
    Some(format!("{} {cuts}\n", if clipped.is_some() { "line" } else { "none" }))
}
