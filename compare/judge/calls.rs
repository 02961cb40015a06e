//! A call list, a second reading of its format: steps of 64 bytes, and for each the line that the program `calls` prints.
//! Painted numbers, dots and screens are the Rust's, refusals document 01's; `?` stands for what neither of them tells.
use std::fmt::Write as _;
use std::panic::{self, AssertUnwindSafe};

use ratatui_core::buffer::{Buffer, Cell};
use ratatui_core::style::Color;

use crate::counted::drive::Live;
use crate::picture::{self, Call, Checked, Held, Opening, Picture, Record};
use crate::{digest_of, dot_of, draw_at, shown_cell};

const STEP: usize = 64;
const MOST_STEPS: usize = 65_536;
/// The arrays: cells and labels of the stores, cells of the screen, bytes of the scratch.
const CELLS: u32 = 20_000;
const LABELS: u32 = 64;
const SCREEN: u32 = 60_000;
const SCRATCH: usize = 32_768;
/// The fields of a canvas, from 0.
const FIELDS: u8 = 14;

/// A line for each step; a rest of under 64 bytes ends the list.
pub fn answer_list(list: &[u8]) -> Option<String> {
    let mut program = Program::new();
    let mut text = String::new();
    for bytes in list.chunks_exact(STEP).take(MOST_STEPS) {
        let step = Step(bytes);
        if step.op() == 0x41 && step.a() == 1 {
            program.show_cells(&step, &mut text);
        } else {
            writeln!(text, "{:02X} {}", step.op(), program.answer(&step)).ok()?;
        }
    }
    Some(text)
}

/// The bytes of one step, little-endian.
struct Step<'a>(&'a [u8]);

impl Step<'_> {
    fn op(&self) -> u8 {
        self.0[0]
    }

    fn a(&self) -> u8 {
        self.0[1]
    }

    fn b(&self) -> u8 {
        self.0[2]
    }

    fn number(&self, at: usize) -> u32 {
        u32::from_le_bytes([self.0[at], self.0[at + 1], self.0[at + 2], self.0[at + 3]])
    }

    fn n(&self) -> u32 {
        self.number(4)
    }

    fn m(&self) -> u32 {
        self.number(8)
    }

    fn k(&self) -> u32 {
        self.number(12)
    }

    /// The low 32 bits of word w.
    fn low(&self, w: usize) -> u32 {
        self.number(16 + 8 * w)
    }

    /// The low 16 bits of word w.
    fn short(&self, w: usize) -> u16 {
        u16::from_le_bytes([self.0[16 + 8 * w], self.0[17 + 8 * w]])
    }

    fn float(&self, w: usize) -> f64 {
        float_at(self.0, 16 + 8 * w)
    }

    fn floats(&self, count: usize) -> Vec<f64> {
        (0..count).map(|w| self.float(w)).collect()
    }
}

fn float_at(bytes: &[u8], at: usize) -> f64 {
    let mut bits = [0; 8];
    bits.copy_from_slice(&bytes[at..at + 8]);
    f64::from_le_bytes(bits)
}

/// What the list left of the canvas.
enum Canvas {
    /// 'A refused opening gives a canvas of 0 by 0, all its numbers 0.'
    Zeros,
    Opened(Box<Opened>),
    /// A field was set, or the stores were filled under it: the Rust has no such canvas.
    Untold,
}

struct Opened {
    picture: Picture,
    held: Held,
    /// The Rust's own canvas beside it, for the painted number of each call.
    live: Live,
    marker: u8,
    character: u32,
    painted: u64,
    dirty: bool,
    rendered: bool,
}

/// What the program holds: the canvas, the lent lengths, the screen and the scratch.
struct Program {
    canvas: Canvas,
    cells: u32,
    labels: u32,
    screen_cells: u32,
    /// None once a render of an untold canvas came.
    screen: Option<Vec<Cell>>,
    scratch: Vec<u8>,
}

impl Program {
    fn new() -> Self {
        let blank = Cell { symbol: ' ', foreground: Color::Reset, background: Color::Reset };
        let screen = Some(vec![blank; SCREEN as usize]);
        Self { canvas: Canvas::Zeros, cells: CELLS, labels: LABELS, screen_cells: SCREEN, screen, scratch: Vec::new() }
    }

    fn answer(&mut self, step: &Step) -> String {
        match step.op() {
            0x01 => self.lend(step),
            0x02 => self.open(step).map_or_else(refused, |()| "done".into()),
            0x05..=0x0D => self.call(step),
            0x0E => self.render(step),
            0x0F => self.get_point(step),
            0x20 => self.scratch_of(Vec::new()),
            0x21 => self.add(step),
            0x30 if step.a() < FIELDS => {
                self.canvas = Canvas::Untold;
                "set".into()
            }
            0x40 => self.show_canvas(),
            0x41 => self.show_digest(step),
            0x42 => "stores ?".into(),
            _ => "unknown".into(),
        }
    }

    /// 01: the lent lengths, each cut to its array; where a is 1 the stores are filled.
    fn lend(&mut self, step: &Step) -> String {
        self.cells = step.low(0).min(CELLS);
        self.labels = step.low(1).min(LABELS);
        self.screen_cells = step.low(3).min(SCREEN);
        if step.a() == 1 && matches!(self.canvas, Canvas::Opened(_)) {
            self.canvas = Canvas::Untold;
        }
        "lent".into()
    }

    /// 02: 1, 2, 3, 4, then '5 store below columns × rows cells, or label store below 64 labels'.
    fn open(&mut self, step: &Step) -> Checked<()> {
        self.canvas = Canvas::Zeros;
        let (columns, rows) = (step.k() as u16, (step.k() >> 16) as u16);
        let bounds = [step.float(0), step.float(1), step.float(2), step.float(3)];
        let marker = picture::check_marker(step.a(), step.m());
        let opening = picture::check_opening((columns, rows), bounds, Some(step.n()), marker)?;
        self.check_stores(&opening)?;
        self.canvas = Canvas::Opened(Box::new(Opened {
            held: Held::new(&opening),
            live: Live::open(&opening),
            picture: Picture { opening, calls: Vec::new() },
            marker: step.a(),
            character: step.m(),
            painted: 0,
            dirty: false,
            rendered: false,
        }));
        Ok(())
    }

    fn check_stores(&self, opening: &Opening) -> Checked<()> {
        let cells = u32::from(opening.columns) * u32::from(opening.rows);
        if self.cells < cells || self.labels < LABELS { Err(5) } else { Ok(()) }
    }

    /// 'State': 5, then 6; none of the canvas where it is untold.
    fn check_state(&self) -> Checked<()> {
        match &self.canvas {
            Canvas::Zeros => Err(5),
            Canvas::Untold => Ok(()),
            Canvas::Opened(opened) => {
                self.check_stores(&opened.picture.opening)?;
                if opened.rendered { Err(6) } else { Ok(()) }
            }
        }
    }

    /// 05 to 0D: draws, dots, layers, markers and labels.
    fn call(&mut self, step: &Step) -> String {
        if let Err(number) = self.check_state() {
            return refused(number);
        }
        let record = self.record(step);
        let Canvas::Opened(opened) = &mut self.canvas else { return "?".into() };
        match picture::check_call(record, &opened.held, &opened.picture.opening) {
            Ok(call) => opened.accept(call, step),
            Err(rejected) => match rejected.call {
                Some(dot) if !panics_at(&opened.picture.opening, &opened.held, &dot) => {
                    "the Rust does not panic here".into()
                }
                _ => refused(rejected.number),
            },
        }
    }

    /// The step's operands as those of a record.
    fn record(&self, step: &Step) -> Record {
        let color = Some(step.n());
        match step.op() {
            0x05 => Record::Draw { numbers: step.floats(4), color, shape: picture::line },
            0x06 => Record::Draw { numbers: step.floats(5), color, shape: picture::filled_line },
            0x07 => Record::Draw { numbers: step.floats(4), color, shape: picture::rectangle },
            0x08 => Record::Draw { numbers: step.floats(3), color, shape: picture::circle },
            0x09 => Record::Points { pairs: self.pairs(step.k()), color },
            0x0A => Record::Dot { column: step.low(0), row: step.low(1), color },
            0x0B => Record::Layer,
            0x0C => Record::Marker { marker: step.a(), character: step.m() },
            _ => {
                let color = (step.b() & 2 != 0).then(|| step.n());
                Record::Label { x: step.float(0), y: step.float(1), color, text: self.text(step.k()) }
            }
        }
    }

    /// The first k pairs of the scratch, as far as it has them.
    fn pairs(&self, k: u32) -> Vec<(f64, f64)> {
        let pairs = self.scratch.chunks_exact(16).take(k as usize);
        pairs.map(|pair| (float_at(pair, 0), float_at(pair, 8))).collect()
    }

    fn text(&self, k: u32) -> Vec<u8> {
        self.scratch.iter().copied().take(k as usize).collect()
    }

    /// 0E: state; 12; 13. The number of label cells is left free.
    fn render(&mut self, step: &Step) -> String {
        if let Err(number) = self.check_state() {
            return refused(number);
        }
        let Canvas::Opened(opened) = &mut self.canvas else {
            self.screen = None;
            return "?".into();
        };
        let (columns, rows, x, y) = (step.short(0), step.short(1), step.short(2), step.short(3));
        let opening = &opened.picture.opening;
        if past(x, opening.columns, columns) || past(y, opening.rows, rows) {
            return refused(12);
        }
        if u32::from(columns) * u32::from(rows) != self.screen_cells {
            return refused(13);
        }
        opened.rendered = true;
        opened.dirty = false;
        let Some(screen) = &mut self.screen else { return format!("rendered {} labels ?", opened.painted) };
        match opened.render(screen, (columns, rows), (x, y)) {
            Ok(()) => format!("rendered {} labels ?", opened.painted),
            Err(fault) => fault,
        }
    }

    /// 0F: 5 by the canvas alone; 2.
    fn get_point(&self, step: &Step) -> String {
        match &self.canvas {
            Canvas::Zeros => refused(5),
            Canvas::Untold => "?".into(),
            Canvas::Opened(opened) => {
                let &Opening { columns, rows, left, right, bottom, top, .. } = &opened.picture.opening;
                let marker = Some(opened.held.marker);
                dot_of((columns, rows), [left, right, bottom, top], marker, step.float(0), step.float(1))
            }
        }
    }

    fn scratch_of(&mut self, bytes: Vec<u8>) -> String {
        self.scratch = bytes;
        format!("scratch {}", self.scratch.len())
    }

    /// 21: a bytes, at most 56, from place 8 on; bytes past the end are dropped.
    fn add(&mut self, step: &Step) -> String {
        let count = usize::from(step.a()).min(56);
        let mut bytes = std::mem::take(&mut self.scratch);
        bytes.extend_from_slice(&step.0[8..8 + count]);
        bytes.truncate(SCRATCH);
        self.scratch_of(bytes)
    }

    fn show_canvas(&self) -> String {
        match &self.canvas {
            Canvas::Zeros => format!("canvas 0 0{}{}", " 0000000000000000".repeat(4), " 0".repeat(8)),
            Canvas::Untold => "canvas ?".into(),
            Canvas::Opened(opened) => opened.show(),
        }
    }

    /// The screen's first k cells.
    fn shown(&self, k: u32) -> Option<&[Cell]> {
        self.screen.as_ref().map(|cells| &cells[..k.min(SCREEN) as usize])
    }

    fn show_digest(&self, step: &Step) -> String {
        match self.shown(step.k()) {
            Some(cells) => format!("digest {}", digest_of(cells.iter().copied())),
            None => "digest ?".into(),
        }
    }

    fn show_cells(&self, step: &Step, text: &mut String) {
        for place in 0..step.k().min(SCREEN) as usize {
            let cell = self.screen.as_ref().map_or("?".into(), |cells| shown_cell(cells[place]));
            writeln!(text, "41 cell {place} {cell}").expect("a string takes it");
        }
    }
}

fn refused(number: u8) -> String {
    format!("refused {number}")
}

/// '12 the area passes an edge'.
fn past(corner: u16, length: u16, edge: u16) -> bool {
    u32::from(corner) + u32::from(length) > u32::from(edge)
}

/// '9 outside a HalfBlock grid', where the Rust panics.
fn panics_at(opening: &Opening, held: &Held, dot: &Call) -> bool {
    let mut live = Live::open(&Opening { marker: held.marker, ..*opening });
    panic::catch_unwind(AssertUnwindSafe(|| live.take(dot))).is_err()
}

impl Opened {
    /// Hands an accepted call to the Rust; its answer.
    fn accept(&mut self, call: Call, step: &Step) -> String {
        let Ok(painted) = panic::catch_unwind(AssertUnwindSafe(|| self.live.take(&call))) else {
            return "the Rust panics".into();
        };
        self.held.accept(&call);
        let answer = match call {
            Call::Label { .. } => "done".into(),
            Call::Layer | Call::Marker(_) => {
                self.dirty = false;
                if step.op() == 0x0C {
                    (self.marker, self.character) = (step.a(), step.m());
                }
                "done".into()
            }
            _ => {
                self.dirty = true;
                self.painted += painted;
                format!("painted {painted}")
            }
        };
        self.picture.calls.push(call);
        answer
    }

    /// Renders on the first cells of the screen, as rows of so many columns; both builds must agree.
    fn render(&self, cells: &mut [Cell], (columns, rows): (u16, u16), corner: (u16, u16)) -> Result<(), String> {
        let places = || (0..rows).flat_map(|row| (0..columns).map(move |column| (column, row)));
        let mut screen = Buffer::blank(columns, rows);
        for (place, cell) in places().zip(&*cells) {
            screen[place] = *cell;
        }
        let picture = &self.picture;
        let drawn = panic::catch_unwind(|| draw_at(picture, corner, &screen)).map_err(|_| "the Rust panics")?;
        let (screen, painted) = drawn.ok_or("the counted build shows other cells")?;
        if painted != self.painted {
            return Err(format!("the Rust paints {painted} at the render and {} before it", self.painted));
        }
        for (place, cell) in places().zip(cells) {
            *cell = screen[place];
        }
        Ok(())
    }

    /// 40: the fields in their order.
    fn show(&self) -> String {
        let Opening { columns, rows, left, right, bottom, top, background, .. } = &self.picture.opening;
        let bounds = [left, right, bottom, top].map(|bound| format!("{:016X}", bound.to_bits())).join(" ");
        let marks = format!("{} {}", u8::from(self.dirty), u8::from(self.rendered));
        let counts = format!("{} {} {}", self.held.labels, self.held.draws, self.painted);
        let (marker, character) = (self.marker, self.character);
        format!("canvas {columns} {rows} {bounds} {marker} {character} {} {marks} {counts}", background.number())
    }
}
