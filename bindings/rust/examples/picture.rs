//! Draws a picture file of at most 80 by 24 cells, and answers questions for the dot of a point.
//!
//!     picture list FILE     prints what the program layout prints for FILE
//!     picture show FILE     prints what the program show prints
//!     picture points FILE   prints what the program dots prints for the questions in FILE
use mossbuckle::{get_point, Picture, View};
use std::io::Write;

fn float(bytes: &[u8]) -> f64 {
    f64::from_le_bytes(bytes.try_into().expect("eight bytes"))
}

/// A question has columns and rows (2 bytes each), four bounds (8-byte floats), a marker (1), x and y (8-byte
/// floats), little-endian.
fn answer(q: &[u8]) -> String {
    let view = View {
        columns: u16::from_le_bytes([q[0], q[1]]),
        rows: u16::from_le_bytes([q[2], q[3]]),
        left: float(&q[4..12]),
        right: float(&q[12..20]),
        bottom: float(&q[20..28]),
        top: float(&q[28..36]),
        marker: q[36],
    };
    match get_point(&view, float(&q[37..45]), float(&q[45..53])) {
        Ok(Some((column, row))) => format!("dot {column} {row}\n"),
        Ok(None) => "none\n".to_string(),
        Err(refusal) => format!("refused {}\n", refusal.number()),
    }
}

fn main() -> std::io::Result<()> {
    let words: Vec<String> = std::env::args().skip(1).collect();
    let [mode, name] = &words[..] else {
        eprintln!("usage: picture list|show|points FILE");
        std::process::exit(2);
    };
    let file = std::fs::read(name)?;
    let bytes = match mode.as_str() {
        "points" => file
            .chunks_exact(53)
            .map(answer)
            .collect::<String>()
            .into_bytes(),
        _ => match Picture::draw(&file, 80, 24) {
            Ok(picture) if mode == "list" => picture.listing(),
            Ok(picture) => picture.terminal(),
            Err(refusal) => format!("{refusal}\n").into_bytes(),
        },
    };
    std::io::stdout().write_all(&bytes)
}
