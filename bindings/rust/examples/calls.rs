//! Runs a call list from standard input by the archive's calls, and prints what the program `calls` prints: a line for
//! each step of 64 bytes.
//!
//! Every list that a call is lent stands in memory of exactly its length, so that valgrind sees an access past its end.
use mossbuckle::calls::{Lent, Opening, CANVAS_WORDS, NO_COLOR};
use mossbuckle::{blank, Drawn, Refusal, CELL_WORDS, LABELS_WORDS, SCREEN_WORDS};
use std::io::{BufWriter, Read, Result, Write};

const STEP_BYTES: usize = 64;
const MOST_STEPS: usize = 65_536;

// What the program holds: cells, labels, cells of the screen, bytes of the scratch.
const CELLS: usize = 20_000;
const LABELS: usize = 64;
const SCREEN: usize = 60_000;
const SCRATCH: usize = 32_768;

/// The word of each field of the canvas, in the order of step 30: columns, rows, left, right, bottom, top, marker,
/// character, background, dirty, rendered, labels held, draws accepted, painted.
const FIELDS: [usize; 14] = [9, 10, 0, 1, 2, 3, 11, 5, 6, 12, 13, 7, 8, 4];
/// How many bits of a word a field has; 0 for the bounds, which are floats.
const BITS: [u32; 14] = [16, 16, 0, 0, 0, 0, 8, 32, 32, 1, 1, 32, 32, 64];

/// A step: its operands, little-endian.
struct Step<'a>(&'a [u8]);

impl Step<'_> {
    fn bytes<const N: usize>(&self, at: usize) -> [u8; N] {
        std::array::from_fn(|k| self.0[at + k])
    }

    fn byte(&self, at: usize) -> u8 {
        self.0[at]
    }

    /// n at 4, m at 8, k at 12.
    fn number(&self, at: usize) -> u32 {
        u32::from_le_bytes(self.bytes(at))
    }

    /// w0 to w5.
    fn word(&self, which: usize) -> u64 {
        u64::from_le_bytes(self.bytes(16 + 8 * which))
    }

    fn float(&self, which: usize) -> f64 {
        f64::from_bits(self.word(which))
    }

    /// The low 32 bits of a word, cut to the length of an array.
    fn length(&self, which: usize, most: usize) -> usize {
        cut(self.word(which) as u32, most)
    }

    fn color(&self) -> u32 {
        self.number(4)
    }

    fn pair_count(&self) -> u32 {
        self.number(12)
    }
}

fn cut(n: u32, most: usize) -> usize {
    (n as usize).min(most)
}

/// An array of words, the first of which are lent: they stand apart from the others.
struct Store {
    lent: Box<[u32]>,
    rest: Vec<u32>,
}

impl Store {
    fn new(words: usize) -> Store {
        Store {
            lent: vec![0; words].into(),
            rest: Vec::new(),
        }
    }

    fn lend(&mut self, words: usize) {
        let all: Vec<u32> = self.words().collect();
        self.lent = all[..words].into();
        self.rest = all[words..].into();
    }

    fn words(&self) -> impl Iterator<Item = u32> + '_ {
        self.lent.iter().chain(&self.rest).copied()
    }

    fn fill(&mut self, word: u32) {
        self.lent.fill(word);
        self.rest.fill(word);
    }
}

fn digest(words: impl Iterator<Item = u32>) -> u64 {
    words.fold(0, |d, word| (d * 31 + u64::from(word)) % 4_294_967_291)
}

/// What stands from step to step.
struct Run {
    canvas: Box<[u64]>,
    cells: Store,
    labels: Store,
    screen: Store,
    scratch: Vec<u8>,
}

impl Run {
    /// The canvas of a refused opening, whole arrays lent, a blank screen, an empty scratch.
    fn new() -> Run {
        let mut screen = Store::new(SCREEN * SCREEN_WORDS);
        blank(&mut screen.lent);
        Run {
            canvas: vec![0; CANVAS_WORDS].into(),
            cells: Store::new(CELLS * CELL_WORDS),
            labels: Store::new(LABELS_WORDS),
            screen,
            scratch: Vec::new(),
        }
    }

    fn lent(&mut self) -> Lent<'_> {
        Lent {
            canvas: &mut self.canvas,
            cells: &mut self.cells.lent,
            labels: &mut self.labels.lent,
        }
    }

    /// The lines that a step prints, each without its op.
    fn answers(&mut self, step: &Step) -> Vec<String> {
        let answer = match step.byte(0) {
            0x01 => self.lengths(step),
            0x02 | 0x0B | 0x0C | 0x0D => self.mark(step),
            0x05..=0x0A => self.draw(step),
            0x0E => self.render(step),
            0x0F => self.get_point(step),
            0x20 | 0x21 => self.write_scratch(step),
            0x30 => self.set_field(step),
            0x40 => self.fields(),
            0x41 if step.byte(1) == 1 => return self.screen_cells(step),
            0x41 => {
                let count = cut(step.number(12), SCREEN) * SCREEN_WORDS;
                format!("digest {}", digest(self.screen.words().take(count)))
            }
            0x42 => {
                let words = self.cells.words().chain(self.labels.words());
                format!("stores {}", digest(words))
            }
            _ => "unknown".to_string(),
        };
        vec![answer]
    }

    // ---- the calls

    /// Opening, layer, marker, print.
    fn mark(&mut self, step: &Step) -> String {
        let answer = match step.byte(0) {
            0x02 => self.open(step),
            0x0B => self.lent().layer(),
            0x0C => self.lent().marker(step.byte(1), step.number(8)),
            _ => self.print(step),
        };
        shown(answer, |()| "done".to_string())
    }

    fn open(&mut self, step: &Step) -> std::result::Result<(), Refusal> {
        let size = step.number(12);
        self.lent().open(&Opening {
            columns: size as u16,
            rows: (size >> 16) as u16,
            left: step.float(0),
            right: step.float(1),
            bottom: step.float(2),
            top: step.float(3),
            marker: step.byte(1),
            character: step.number(8),
            background: step.number(4),
        })
    }

    /// A label whose colour is the number of no colour gets another number that is no colour either.
    fn print(&mut self, step: &Step) -> std::result::Result<(), Refusal> {
        let text: Box<[u8]> = self.scratch[..cut(step.number(12), self.scratch.len())].into();
        let color = match step.byte(2) & 2 {
            0 => NO_COLOR,
            _ => step.color().min(NO_COLOR - 1),
        };
        self.lent()
            .print(step.float(0), step.float(1), &text, color)
    }

    fn draw(&mut self, step: &Step) -> String {
        let [a, b, c, d, e] = std::array::from_fn(|which| step.float(which));
        let color = step.color();
        let painted = match step.byte(0) {
            0x05 => self.lent().line(a, b, c, d, color),
            0x06 => self.lent().filled_line(a, b, c, d, e, color),
            0x07 => self.lent().rectangle(a, b, c, d, color),
            0x08 => self.lent().circle(a, b, c, color),
            0x09 => {
                let coords = self.coords(step.pair_count());
                self.lent().points(&coords, color)
            }
            _ => self
                .lent()
                .dot(step.word(0) as u32, step.word(1) as u32, color),
        };
        shown(painted, |painted| format!("painted {painted}"))
    }

    /// The first pairs of the scratch.
    fn coords(&self, pairs: u32) -> Box<[f64]> {
        let floats = self
            .scratch
            .chunks_exact(8)
            .map(|bytes| Step(bytes).bytes(0));
        let pairs = cut(pairs, self.scratch.len() / 16);
        floats.map(f64::from_le_bytes).take(2 * pairs).collect()
    }

    fn render(&mut self, step: &Step) -> String {
        let [columns, rows, x, y] = std::array::from_fn(|which| step.word(which) as u16);
        let Run {
            canvas,
            cells,
            labels,
            screen,
            ..
        } = self;
        let mut lent = Lent {
            canvas,
            cells: &mut cells.lent,
            labels: &mut labels.lent,
        };
        let drawn = lent.render(columns, rows, x, y, &mut screen.lent);
        shown(
            drawn,
            |Drawn {
                 painted,
                 label_cells,
             }| { format!("rendered {painted} labels {label_cells}") },
        )
    }

    fn get_point(&mut self, step: &Step) -> String {
        let point = self.lent().get_point(step.float(0), step.float(1));
        shown(point, |dot| match dot {
            Some((column, row)) => format!("dot {column} {row}"),
            None => "none".to_string(),
        })
    }

    // ---- what is held

    fn lengths(&mut self, step: &Step) -> String {
        if step.byte(1) == 1 {
            self.cells.fill(step.number(12));
            self.labels.fill(step.number(12));
        }
        self.cells.lend(step.length(0, CELLS) * CELL_WORDS);
        self.labels
            .lend(step.length(1, LABELS) * (LABELS_WORDS / LABELS));
        self.screen.lend(step.length(3, SCREEN) * SCREEN_WORDS);
        "lent".to_string()
    }

    fn write_scratch(&mut self, step: &Step) -> String {
        if step.byte(0) == 0x20 {
            self.scratch.clear();
        } else {
            let count = usize::from(step.byte(1)).min(56);
            self.scratch.extend(&step.0[8..8 + count]);
            self.scratch.truncate(SCRATCH);
        }
        format!("scratch {}", self.scratch.len())
    }

    /// The whole number becomes the word: what is above the field's bits must not count.
    fn set_field(&mut self, step: &Step) -> String {
        match FIELDS.get(usize::from(step.byte(1))) {
            Some(&word) => {
                self.canvas[word] = step.word(0);
                "set".to_string()
            }
            None => "unknown".to_string(),
        }
    }

    fn fields(&self) -> String {
        let fields = FIELDS.iter().zip(BITS).map(|(&word, bits)| {
            let value = self.canvas[word];
            match bits {
                0 if f64::from_bits(value).is_nan() => " 7FF8000000000000".to_string(),
                0 => format!(" {value:016X}"),
                _ => format!(" {}", value & (u64::MAX >> (64 - bits))),
            }
        });
        format!("canvas{}", fields.collect::<String>())
    }

    fn screen_cells(&self, step: &Step) -> Vec<String> {
        let words: Vec<u32> = self.screen.words().collect();
        let cells = words.chunks_exact(SCREEN_WORDS).enumerate();
        cells
            .take(cut(step.number(12), SCREEN))
            .map(|(j, cell)| format!("cell {j} {:04X} {} {}", cell[0], cell[1], cell[2]))
            .collect()
    }
}

/// An answer, or the refusal's number.
fn shown<T>(answer: std::result::Result<T, Refusal>, show: impl Fn(T) -> String) -> String {
    match answer {
        Ok(answer) => show(answer),
        Err(refusal) => format!("refused {}", refusal.number()),
    }
}

fn main() -> Result<()> {
    let mut list = Vec::new();
    std::io::stdin().read_to_end(&mut list)?;
    let mut out = BufWriter::new(std::io::stdout());
    let mut run = Run::new();
    for step in list.chunks_exact(STEP_BYTES).take(MOST_STEPS) {
        for answer in run.answers(&Step(step)) {
            writeln!(out, "{:02X} {answer}", step[0])?;
        }
    }
    out.flush()
}
