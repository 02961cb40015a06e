//! The screen, and the memory of the canvases that are drawn on it.
use super::Color;
use crate::calls::{Lent, CANVAS_WORDS};
use crate::pictures::whole;
use crate::{
    blank, listing, terminal, Drawn, Refusal, CELL_WORDS, LABELS_WORDS, MAX_COLUMNS, MAX_ROWS,
    SCREEN_WORDS,
};
use alloc::vec;
use alloc::vec::Vec;

/// 'Over 1,000 pairs' are refused: 1,001 suffice for it.
const MOST_PAIRS: usize = 1001;
/// 'Finite and at most 2^40 in magnitude'.
const LARGEST: f64 = (1u64 << 40) as f64;

/// An area of cells.
#[derive(Clone, Copy, Debug, Default, PartialEq, Eq, Hash)]
pub struct Rect {
    pub x: u16,
    pub y: u16,
    pub width: u16,
    pub height: u16,
}

impl Rect {
    pub const fn new(x: u16, y: u16, width: u16, height: u16) -> Rect {
        Rect {
            x,
            y,
            width,
            height,
        }
    }
}

/// A cell of a screen.
#[derive(Clone, Copy, Debug, PartialEq, Eq)]
pub struct Cell {
    pub symbol: char,
    pub fg: Color,
    pub bg: Color,
}

/// A screen of cells, at first blank, with the memory for the canvases that are drawn on it.
#[derive(Clone, Debug)]
pub struct Screen {
    columns: u16,
    rows: u16,
    words: Vec<u32>,
    memory: Memory,
}

impl Screen {
    /// A blank screen. This allocates all that drawing on it needs.
    pub fn new(columns: u16, rows: u16) -> Screen {
        let mut screen = Screen {
            columns,
            rows,
            words: vec![0; usize::from(columns) * usize::from(rows) * SCREEN_WORDS],
            memory: Memory::new(columns.min(MAX_COLUMNS), rows.min(MAX_ROWS)),
        };
        screen.reset();
        screen
    }

    /// Its whole area.
    pub fn area(&self) -> Rect {
        Rect::new(0, 0, self.columns, self.rows)
    }

    /// The cell in a column and a row, counted from the upper left; none outside.
    pub fn cell(&self, x: u16, y: u16) -> Option<Cell> {
        if x >= self.columns {
            return None;
        }
        let first = (usize::from(y) * usize::from(self.columns) + usize::from(x)) * SCREEN_WORDS;
        let &[symbol, fg, bg] = self.words.get(first..first + SCREEN_WORDS)? else {
            return None;
        };
        Some(Cell {
            symbol: char::from_u32(symbol).unwrap_or(char::REPLACEMENT_CHARACTER),
            fg: Color::of(fg),
            bg: Color::of(bg),
        })
    }

    /// Makes every cell blank.
    pub fn reset(&mut self) {
        blank(&mut self.words);
    }

    /// Three words a cell, row by row: symbol, foreground, background.
    pub fn words(&self) -> &[u32] {
        &self.words
    }

    /// The bytes that show it in a terminal, in 24-bit colour.
    pub fn terminal(&self) -> Vec<u8> {
        whole(|out| terminal(self.columns, self.rows, &self.words, out))
    }

    /// Its listing, as the program `layout` prints one, with a number of painted dots.
    pub fn listing(&self, painted: u64) -> Vec<u8> {
        whole(|out| listing(self.columns, self.rows, painted, &self.words, out))
    }

    /// The memory for a canvas on an area, which must not pass an edge.
    pub(super) fn memory_for(&mut self, area: Rect) -> Result<&mut Memory, Refusal> {
        let passes = |from: u16, length: u16, edge: u16| from > edge || length > edge - from;
        if passes(area.x, area.width, self.columns) || passes(area.y, area.height, self.rows) {
            return Err(Refusal::Edge);
        }
        Ok(&mut self.memory)
    }

    /// Lays the canvas on an area.
    pub(super) fn show(&mut self, area: Rect) -> Result<Drawn, Refusal> {
        let Screen {
            columns,
            rows,
            words,
            memory,
        } = self;
        memory.lent().render(*columns, *rows, area.x, area.y, words)
    }
}

impl PartialEq for Screen {
    /// The same size and the same cells.
    fn eq(&self, other: &Screen) -> bool {
        (self.columns, self.rows, &self.words) == (other.columns, other.rows, &other.words)
    }
}

impl Eq for Screen {}

/// A canvas with its stores, and room for the coordinates of a `Points`, which has no fixed form in memory.
#[derive(Clone, Debug)]
pub(super) struct Memory {
    canvas: [u64; CANVAS_WORDS],
    cells: Vec<u32>,
    labels: Vec<u32>,
    pairs: Vec<[f64; 2]>,
}

impl Memory {
    /// For canvases of at most this size.
    fn new(columns: u16, rows: u16) -> Memory {
        Memory {
            canvas: [0; CANVAS_WORDS],
            cells: vec![0; usize::from(columns) * usize::from(rows) * CELL_WORDS],
            labels: vec![0; LABELS_WORDS],
            pairs: vec![[0.0; 2]; MOST_PAIRS],
        }
    }

    pub(super) fn lent(&mut self) -> Lent<'_> {
        self.lent_with(&[]).0
    }

    pub(super) fn canvas(&self) -> &[u64] {
        &self.canvas
    }

    /// With a flat list of coordinates that has the answer of all of them: past the thousandth it is enough to hand
    /// over one pair, but a bad one where there is one, since a number is refused before the number of pairs is.
    pub(super) fn lent_with(&mut self, coords: &[(f64, f64)]) -> (Lent<'_>, &[f64]) {
        let (first, rest) = coords.split_at(coords.len().min(MOST_PAIRS - 1));
        let is_bad = |&&(x, y): &&(f64, f64)| !(x.abs() <= LARGEST && y.abs() <= LARGEST);
        let last = rest.iter().find(is_bad).or(rest.first());
        let count = first.len() + usize::from(last.is_some());
        for (pair, &(x, y)) in self.pairs.iter_mut().zip(first.iter().chain(last)) {
            *pair = [x, y];
        }
        let lent = Lent {
            canvas: &mut self.canvas,
            cells: &mut self.cells,
            labels: &mut self.labels,
        };
        (lent, self.pairs[..count].as_flattened())
    }
}
