//! The benchmark's driver: the same pictures drawn by us and by the Rust, in one program; by us from a file or, where a
//! picture's name says so, by calls.
//!
//!     driver time [WORD...]         the times of both by turns, as tables
//!     driver stack                  the stack that our side needs
//!     driver list [WORD...]         a line for each picture: table, number in it, name, sides
//!     driver turns TABLE N SIDE K   draws picture N of a table K times, for a count of instructions
//!     driver points WAY K           asks K times for a point's dot, by words or by numbers, for a count
//!
//! With words only the pictures are taken whose table or name has one of them.
mod calls;
mod ours;
#[allow(dead_code)]
#[path = "../../compare/judge/picture.rs"]
mod picture;
mod pictures;
mod stack;
mod timing;

/// The Rust as compare/ has it: without std, with the float functions of polyfills.rs.
#[path = "../../compare/judge"]
mod plain {
    use canvas_plain as rust;
    #[allow(dead_code)]
    #[path = "drive.rs"]
    pub mod drive;
}

/// The Rust with the float functions of std, which gives other dots here and there.
#[path = "../../compare/judge"]
mod with_std {
    use canvas_std as rust;
    #[allow(dead_code)]
    #[path = "drive.rs"]
    pub mod drive;
}

use std::hint::black_box;
use std::process::ExitCode;

use ratatui_core::buffer::Buffer;

use calls::Host;
use ours::Lent;
use picture::{Answer, Picture};
use pictures::{Class, Table};
use timing::{Spread, Turn};

fn main() -> ExitCode {
    let words: Vec<String> = std::env::args().skip(1).collect();
    let words: Vec<&str> = words.iter().map(String::as_str).collect();
    match words[..] {
        ["time", ref words @ ..] => print_times(words),
        ["stack"] => print_stack(),
        ["list", ref words @ ..] => print_list(words),
        ["turns", table, number, side, turns] => return run_turns(table, number, side, turns),
        ["points", way @ ("words" | "numbers"), count] => ask_points(way == "words", count.parse().unwrap_or(1)),
        _ => {
            eprintln!("usage: driver time [WORD...] | stack | list [WORD...] | turns TABLE N SIDE K | points WAY K");
            return ExitCode::from(2);
        }
    }
    ExitCode::SUCCESS
}

/// The tables with the pictures that the words choose, each with its number; all of them without words.
fn chosen(words: &[&str]) -> Vec<(&'static str, Vec<(usize, Class)>)> {
    let is_chosen = |title: &str, class: &Class| {
        let name = format!("{title} {}", class.name);
        words.is_empty() || words.iter().any(|word| name.contains(word))
    };
    let tables = pictures::tables().into_iter().map(|Table { title, classes }| {
        let classes = classes.into_iter().enumerate().filter(|(_, class)| is_chosen(title, class));
        (title, classes.collect::<Vec<_>>())
    });
    tables.filter(|(_, classes)| !classes.is_empty()).collect()
}

// The sides.

/// The calls of a picture file, as a user of the Rust would make them.
fn decoded(class: &Class) -> Picture {
    match picture::read(&class.file, picture::DOMAIN) {
        Answer::Picture(picture) => picture,
        _ => panic!("the picture '{}' is refused", class.name),
    }
}

fn file_turn(class: &Class) -> Turn<'_> {
    let mut lent = Lent::new(class);
    Box::new(move || assert_eq!(black_box(&mut lent).draw(), 0))
}

fn calls_turn(class: &Class) -> Turn<'_> {
    let mut host = Host::new(decoded(class));
    Box::new(move || assert_eq!(black_box(&mut host).draw(), 0))
}

fn rust_turn(class: &Class, render: fn(&Picture, &mut Buffer)) -> Turn<'_> {
    let picture = decoded(class);
    let mut screen = Buffer::blank(class.size.0, class.size.1);
    Box::new(move || render(black_box(&picture), black_box(&mut screen)))
}

/// The sides of a picture, ours first. A picture that is drawn by calls is drawn from its file too.
fn sides_of(class: &Class) -> &'static [&'static str] {
    if class.by_calls { &["ours", "rust", "std", "file"] } else { &["ours", "rust", "std"] }
}

fn turn_of<'a>(class: &'a Class, side: &str) -> Option<Turn<'a>> {
    match side {
        "ours" if class.by_calls => Some(calls_turn(class)),
        "ours" | "file" => Some(file_turn(class)),
        "rust" => Some(rust_turn(class, plain::drive::render_on)),
        "std" => Some(rust_turn(class, with_std::drive::render_on)),
        _ => None,
    }
}

/// Both sides draw on a blank screen, and every symbol and colour must be the same. Gives the dots painted.
fn compared(class: &Class) -> u64 {
    let (ours, painted) = drawn(class);
    let screen = plain::drive::render(&decoded(class));
    let columns = usize::from(class.size.0);
    for (k, cell) in ours.chunks_exact(3).enumerate() {
        let its = screen[((k % columns) as u16, (k / columns) as u16)];
        let its = [its.symbol as u32, its.foreground.number(), its.background.number()];
        assert_eq!(cell, its, "'{}' differs in cell {k}", class.name);
    }
    painted
}

/// Our screen, three words a cell, and the dots painted.
fn drawn(class: &Class) -> (Vec<u32>, u64) {
    let (mut lent, mut host) = (Lent::new(class), Host::new(decoded(class)));
    let refused = if class.by_calls { host.draw() } else { lent.draw() };
    assert_eq!(refused, 0, "'{}' is refused", class.name);
    if class.by_calls { (host.screen().to_vec(), host.painted) } else { (lent.screen().to_vec(), lent.painted) }
}

// What is printed.

fn print_times(words: &[&str]) {
    print!("{}", include_str!("method.txt"));
    for (title, classes) in chosen(words) {
        println!(
            "\n{title:<34} {:>9} {:>10} {:>10}  {:<24} {:>5}  {:<24} {}",
            "dots", "ours us", "Rust us", "Rust / ours", "goal", "Rust with std / ours", "by file / ours"
        );
        for (_, class) in classes {
            let dots = compared(&class);
            let side = |side: &&str| turn_of(&class, side).expect("there is such a side");
            let timed = timing::time_by_turns(&mut sides_of(&class).iter().map(side).collect::<Vec<_>>());
            let [ours, rust] = [0, 1].map(|side: usize| timed.times[side].median / 1000.0);
            let [ratio, with_std, file] =
                [1, 2, 3].map(|side: usize| timed.ratios.get(side).map_or("-".into(), |spread| shown(*spread)));
            let goal = if class.goal > 0.0 { class.goal.to_string() } else { "-".into() };
            println!(
                "{:<34} {dots:>9} {ours:>10.1} {rust:>10.1}  {ratio:<24} {goal:>5}  {with_std:<24} {file}",
                class.name
            );
        }
    }
}

fn shown(spread: Spread) -> String {
    format!("{:.2} ({:.2} to {:.2})", spread.median, spread.low, spread.high)
}

fn print_stack() {
    let stack_of = |class: &Class| {
        let (mut lent, mut host) = (Lent::new(class), Host::new(decoded(class)));
        if class.by_calls {
            stack::stack_of(|| assert_eq!(host.draw(), 0))
        } else {
            stack::stack_of(|| assert_eq!(lent.draw(), 0))
        }
    };
    let most = chosen(&[]).iter().flat_map(|(_, classes)| classes).map(|(_, class)| stack_of(class)).max();
    println!("Stack: at most {} bytes in a call, its arguments included.", most.expect("there are pictures"));
}

fn print_list(words: &[&str]) {
    for (title, classes) in chosen(words) {
        for (number, class) in classes {
            println!("{title}\t{number}\t{}\t{}", class.name, sides_of(&class).join(" "));
        }
    }
}

fn run_turns(table: &str, number: &str, side: &str, turns: &str) -> ExitCode {
    let tables = pictures::tables();
    let class = tables.iter().find(|t| t.title == table).and_then(|t| t.classes.get(number.parse::<usize>().ok()?));
    let turn = class.and_then(|class| turn_of(class, side));
    let (Some(mut turn), Ok(turns)) = (turn, turns.parse::<u32>()) else {
        eprintln!("driver: no such picture or side, or no number of turns");
        return ExitCode::from(2);
    };
    (0..turns).for_each(|_| turn());
    ExitCode::SUCCESS
}

/// On a canvas of 80 by 24.
fn ask_points(by_words: bool, count: u32) {
    let tables = pictures::tables();
    Host::new(decoded(&tables[0].classes[0])).ask(by_words, count);
}
