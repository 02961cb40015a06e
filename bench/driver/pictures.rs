//! The pictures of the benchmark: picture files by document 01, each made from a fixed seed.

/// Columns and rows.
pub type Size = (u16, u16);

pub const SMALL: Size = (80, 24);
pub const LARGE: Size = (200, 100);

/// A picture with its name, and the ratio that is aimed at (the Rust's time to ours); 0 where there is none. Ours is
/// drawn from the file, or by a call for each of its records.
pub struct Class {
    pub name: &'static str,
    pub size: Size,
    pub goal: f64,
    pub file: Vec<u8>,
    pub by_calls: bool,
}

/// A table: what is measured in it, and its rows.
pub struct Table {
    pub title: &'static str,
    pub classes: Vec<Class>,
}

pub fn tables() -> Vec<Table> {
    vec![
        Table { title: "80 by 24", classes: kinds(SMALL) },
        Table { title: "200 by 100", classes: kinds(LARGE) },
        Table { title: "single calls", classes: single_calls(SMALL) },
        Table { title: "growth", classes: growth() },
    ]
}

const BRAILLE: u8 = 1;
const DOT: u8 = 2;
const HALF_BLOCK: u8 = 5;

fn kinds(size: Size) -> Vec<Class> {
    let class = |name, goal, file| Class { name, size, goal, file, by_calls: false };
    let by_calls = |name, file| Class { name, size, goal: 1.0, file, by_calls: true };
    vec![
        class("empty", 1.0, File::open(size, BRAILLE).bytes),
        class("400 lines, Dot", 1.5, lines(size, DOT, 400)),
        class("400 lines, Braille", 1.5, lines(size, BRAILLE, 400)),
        class("400 lines, HalfBlock", 1.0, lines(size, HALF_BLOCK, 400)),
        class("2 lists of 1,000 points", 1.0, points(size, 2, 1000)),
        class("100 lists of 10 points", 1.0, points(size, 100, 10)),
        class("100 circles", 3.0, circles(size, BRAILLE, 100)),
        class("100 circles, HalfBlock", 1.0, circles(size, HALF_BLOCK, 100)),
        class("200 small filled lines", 5.0, filled_lines(size, 200, 0.05, 0.05)),
        class("200 narrow filled lines", 5.0, filled_lines(size, 200, 0.04, 0.5)),
        class("20 large filled lines", 5.0, filled_lines(size, 20, 1.0, 1.0)),
        class("100 rectangles", 1.0, rectangles(size, 100)),
        class("500 layers", 5.0, layers(size, 500)),
        class("200 marker switches", 5.0, markers(size, 200)),
        class("64 labels", 1.0, labels(size, 64)),
        class("a typical ticket", 1.0, ticket(size)),
        class("400 lines outside", 0.0, lines_outside(size, 400)),
        by_calls("400 lines, Dot, by calls", lines(size, DOT, 400)),
        by_calls("400 lines, Braille, by calls", lines(size, BRAILLE, 400)),
        by_calls("2 lists of 1,000 points, by calls", points(size, 2, 1000)),
        by_calls("100 lists of 10 points, by calls", points(size, 100, 10)),
        by_calls("100 circles, by calls", circles(size, BRAILLE, 100)),
        by_calls("200 narrow filled lines, by calls", filled_lines(size, 200, 0.04, 0.5)),
        by_calls("100 rectangles, by calls", rectangles(size, 100)),
        by_calls("64 labels, by calls", labels(size, 64)),
        by_calls("a typical ticket, by calls", ticket(size)),
    ]
}

/// Many calls that do little, by which a call's own cost shows.
fn single_calls(size: Size) -> Vec<Class> {
    let by_calls = |name, file| Class { name, size, goal: 0.0, file, by_calls: true };
    vec![
        by_calls("1,000 dots, by calls", dots(size, 1000)),
        by_calls("1,000 short lines, by calls", short_lines(size, 1000)),
        by_calls("400 lines outside, by calls", lines_outside(size, 400)),
        by_calls("500 layers, by calls", layers(size, 500)),
        by_calls("200 marker switches, by calls", markers(size, 200)),
    ]
}

/// Dots, cells and layers, each doubled, with everything else as it was.
fn growth() -> Vec<Class> {
    let class = |name, size, file| Class { name, size, goal: 1.0, file, by_calls: false };
    vec![
        class("50 lines of 400 dots", LARGE, long_lines(LARGE, 50)),
        class("100 lines of 400 dots", LARGE, long_lines(LARGE, 100)),
        class("200 lines of 400 dots", LARGE, long_lines(LARGE, 200)),
        class("400 lines of 400 dots", LARGE, long_lines(LARGE, 400)),
        class("2,400 cells, 10 layers", (100, 24), layers((100, 24), 10)),
        class("4,800 cells, 10 layers", (100, 48), layers((100, 48), 10)),
        class("9,600 cells, 10 layers", (100, 96), layers((100, 96), 10)),
        class("19,200 cells, 10 layers", (200, 96), layers((200, 96), 10)),
        class("125 layers", SMALL, layers(SMALL, 125)),
        class("250 layers", SMALL, layers(SMALL, 250)),
        class("500 layers", SMALL, layers(SMALL, 500)),
        class("1,000 layers", SMALL, layers(SMALL, 1000)),
    ]
}

// The pictures. Bounds are 0 to 100 in both directions.

/// Lines between any two places; of eight coordinates one may lie outside the bounds.
fn lines(size: Size, marker: u8, count: usize) -> Vec<u8> {
    let mut random = Random(1);
    let mut file = File::open(size, marker);
    for _ in 0..count {
        let mut end = || if random.below(8) == 0 { random.within(-50.0, 150.0) } else { random.within(0.0, 100.0) };
        let ends = [end(), end(), end(), end()];
        file.draw(1, &ends, random.color());
    }
    file.bytes
}

/// Lines with both ends on one side, of which no dot is painted: reading, checking and clipping alone.
fn lines_outside(size: Size, count: usize) -> Vec<u8> {
    let mut random = Random(2);
    let mut file = File::open(size, BRAILLE);
    for _ in 0..count {
        let (x1, x2) = (random.within(-90.0, -10.0), random.within(-90.0, -10.0));
        let ends = [x1, random.within(0.0, 100.0), x2, random.within(0.0, 100.0)];
        file.draw(1, &ends, random.color());
    }
    file.bytes
}

/// Lines from the left edge to the right one: as many dots as the canvas is wide.
fn long_lines(size: Size, count: usize) -> Vec<u8> {
    let mut random = Random(3);
    let mut file = File::open(size, BRAILLE);
    for _ in 0..count {
        let ends = [0.0, random.within(0.0, 100.0), 100.0, random.within(0.0, 100.0)];
        file.draw(1, &ends, random.color());
    }
    file.bytes
}

/// Lists of points; one in eight lies outside the bounds.
fn points(size: Size, lists: usize, count: u16) -> Vec<u8> {
    let mut random = Random(4);
    let mut file = File::open(size, BRAILLE);
    for _ in 0..lists {
        file.bytes.extend([5, 0b11]);
        file.bytes.extend(count.to_le_bytes());
        for _ in 0..count {
            file.float(random.within(0.0, 114.0));
            file.float(random.within(0.0, 100.0));
        }
        file.number(random.color());
    }
    file.bytes
}

fn circles(size: Size, marker: u8, count: usize) -> Vec<u8> {
    let mut random = Random(5);
    let mut file = File::open(size, marker);
    for _ in 0..count {
        let circle = [random.within(0.0, 100.0), random.within(0.0, 100.0), random.within(2.0, 40.0)];
        file.draw(4, &circle, random.color());
    }
    file.bytes
}

/// Filled lines over a part of the width, filled down by a fifth to the whole of a part of the height. The narrow ones
/// are as wide and high as those of the sample `curve`.
fn filled_lines(size: Size, count: usize, width: f64, height: f64) -> Vec<u8> {
    let mut random = Random(6);
    let mut file = File::open(size, BRAILLE);
    let (across, down) = (100.0 * width, 100.0 * height);
    for _ in 0..count {
        let x = random.within(0.0, 100.0 - across);
        let bottom = random.within(0.0, 100.0 - down);
        let mut y = || bottom + random.within(0.2, 1.0) * down;
        let line = [x, y(), x + across, y(), bottom];
        file.draw(2, &line, random.color());
    }
    file.bytes
}

fn rectangles(size: Size, count: usize) -> Vec<u8> {
    let mut random = Random(7);
    let mut file = File::open(size, BRAILLE);
    for _ in 0..count {
        let corner = [random.within(0.0, 90.0), random.within(0.0, 90.0)];
        let rectangle = [corner[0], corner[1], random.within(2.0, 60.0), random.within(2.0, 60.0)];
        file.draw(3, &rectangle, random.color());
    }
    file.bytes
}

fn dots(size: Size, count: usize) -> Vec<u8> {
    let mut random = Random(11);
    let mut file = File::open(size, BRAILLE);
    for _ in 0..count {
        file.bytes.extend([9, 0b111]);
        file.number(random.below(2 * u64::from(size.0)) as u32);
        file.number(random.below(4 * u64::from(size.1)) as u32);
        file.number(random.color());
    }
    file.bytes
}

fn short_lines(size: Size, count: usize) -> Vec<u8> {
    let mut random = Random(12);
    let mut file = File::open(size, BRAILLE);
    (0..count).for_each(|_| file.short_line(&mut random));
    file.bytes
}

/// A short line, and a new layer.
fn layers(size: Size, count: usize) -> Vec<u8> {
    let mut random = Random(8);
    let mut file = File::open(size, BRAILLE);
    for _ in 0..count {
        file.short_line(&mut random);
        file.bytes.extend([6, 0]);
    }
    file.bytes
}

/// A short line, and the next of the eight markers.
fn markers(size: Size, count: u16) -> Vec<u8> {
    let mut random = Random(9);
    let mut file = File::open(size, BRAILLE);
    for k in 0..count {
        file.short_line(&mut random);
        file.bytes.extend([7, 0b11, (k % 8 + 1) as u8]);
        file.number(u32::from(b'+'));
    }
    file.bytes
}

fn labels(size: Size, count: usize) -> Vec<u8> {
    let mut random = Random(10);
    let mut file = File::open(size, BRAILLE);
    for _ in 0..count {
        file.bytes.extend([8, 0b1111]);
        file.float(random.within(0.0, 100.0));
        file.float(random.within(0.0, 100.0));
        file.number(random.color());
        let length = 4 + random.below(37) as u8;
        file.bytes.push(length);
        file.bytes.extend((0..length).map(|k| b'A' + k % 26));
    }
    file.bytes
}

/// The sample `ticket`, on a canvas of this size.
fn ticket(size: Size) -> Vec<u8> {
    let mut file = include_bytes!("../../pictures/ticket.picture").to_vec();
    file[..2].copy_from_slice(&size.0.to_le_bytes());
    file[2..4].copy_from_slice(&size.1.to_le_bytes());
    file
}

// How a file is written.

struct File {
    bytes: Vec<u8>,
}

impl File {
    fn open((columns, rows): Size, marker: u8) -> Self {
        let mut file = Self { bytes: Vec::new() };
        file.bytes.extend(columns.to_le_bytes());
        file.bytes.extend(rows.to_le_bytes());
        // Left and bottom are 0.0 where they do not stand.
        file.bytes.push(0b1_1010);
        file.float(100.0);
        file.float(100.0);
        file.bytes.push(marker);
        file
    }

    fn float(&mut self, number: f64) {
        self.bytes.extend(number.to_le_bytes());
    }

    fn number(&mut self, number: u32) {
        self.bytes.extend(number.to_le_bytes());
    }

    /// A shape with all its fields.
    fn draw(&mut self, kind: u8, numbers: &[f64], color: u32) {
        let fields = numbers.len() + 1;
        self.bytes.extend([kind, (1u8 << fields) - 1]);
        numbers.iter().for_each(|number| self.float(*number));
        self.number(color);
    }

    fn short_line(&mut self, random: &mut Random) {
        let (x, y) = (random.within(0.0, 95.0), random.within(0.0, 95.0));
        self.draw(1, &[x, y, x + 5.0, y + 5.0], random.color());
    }
}

/// SplitMix64.
struct Random(u64);

impl Random {
    fn next(&mut self) -> u64 {
        self.0 = self.0.wrapping_add(0x9E37_79B9_7F4A_7C15);
        let mut z = self.0;
        z = (z ^ (z >> 30)).wrapping_mul(0xBF58_476D_1CE4_E5B9);
        z = (z ^ (z >> 27)).wrapping_mul(0x94D0_49BB_1331_11EB);
        z ^ (z >> 31)
    }

    fn below(&mut self, end: u64) -> u64 {
        self.next() % end
    }

    fn within(&mut self, low: f64, high: f64) -> f64 {
        low + (high - low) * (self.next() >> 11) as f64 / (1u64 << 53) as f64
    }

    fn color(&mut self) -> u32 {
        self.below(0x100_0000) as u32
    }
}
