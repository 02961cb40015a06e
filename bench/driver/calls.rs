//! Our side by calls: the archive's functions for single calls, on a canvas of words and the stores lent with it.
use std::hint::black_box;

use ratatui_core::style::Color;
use ratatui_core::symbols::Marker;

use crate::ours::{CELL_WORDS, LABEL_WORDS, blank_cells};
use crate::picture::{Call, Opening, Picture};

const CANVAS_WORDS: usize = 24;
const NO_COLOR: u32 = u32::MAX;

#[rustfmt::skip]
unsafe extern "C" {
    // Each answers 0, or the number of the refusal. A slice is passed as its pointer and its length.
    fn mossbuckle_open(
        canvas: *mut u64, canvas_length: usize, cells: *mut u32, cells_length: usize, labels: *const u32, labels_length: usize,
        columns: u16, rows: u16, left: f64, right: f64, bottom: f64, top: f64, marker: u8, character: u32, background: u32,
    ) -> u8;
    fn mossbuckle_line(
        canvas: *mut u64, canvas_length: usize, cells: *mut u32, cells_length: usize, labels: *const u32, labels_length: usize,
        x1: f64, y1: f64, x2: f64, y2: f64, color: u32, painted: *mut u64,
    ) -> u8;
    fn mossbuckle_filled_line(
        canvas: *mut u64, canvas_length: usize, cells: *mut u32, cells_length: usize, labels: *const u32, labels_length: usize,
        x1: f64, y1: f64, x2: f64, y2: f64, fill_to_y: f64, color: u32, painted: *mut u64,
    ) -> u8;
    fn mossbuckle_rectangle(
        canvas: *mut u64, canvas_length: usize, cells: *mut u32, cells_length: usize, labels: *const u32, labels_length: usize,
        x: f64, y: f64, width: f64, height: f64, color: u32, painted: *mut u64,
    ) -> u8;
    fn mossbuckle_circle(
        canvas: *mut u64, canvas_length: usize, cells: *mut u32, cells_length: usize, labels: *const u32, labels_length: usize,
        x: f64, y: f64, radius: f64, color: u32, painted: *mut u64,
    ) -> u8;
    fn mossbuckle_points(
        canvas: *mut u64, canvas_length: usize, cells: *mut u32, cells_length: usize, labels: *const u32, labels_length: usize,
        coords: *const f64, coords_length: usize, color: u32, painted: *mut u64,
    ) -> u8;
    fn mossbuckle_dot(
        canvas: *mut u64, canvas_length: usize, cells: *mut u32, cells_length: usize, labels: *const u32, labels_length: usize,
        column: u32, row: u32, color: u32, painted: *mut u64,
    ) -> u8;
    fn mossbuckle_layer(
        canvas: *mut u64, canvas_length: usize, cells: *mut u32, cells_length: usize, labels: *const u32, labels_length: usize,
    ) -> u8;
    fn mossbuckle_marker(
        canvas: *mut u64, canvas_length: usize, cells: *mut u32, cells_length: usize, labels: *const u32, labels_length: usize,
        marker: u8, character: u32,
    ) -> u8;
    fn mossbuckle_print(
        canvas: *mut u64, canvas_length: usize, cells: *const u32, cells_length: usize, labels: *mut u32, labels_length: usize,
        x: f64, y: f64, text: *const u8, text_length: usize, color: u32,
    ) -> u8;
    fn mossbuckle_render(
        canvas: *mut u64, canvas_length: usize, cells: *mut u32, cells_length: usize, labels: *const u32, labels_length: usize,
        columns: u16, rows: u16, x: u16, y: u16, screen: *mut u32, screen_length: usize, painted: *mut u64, label_cells: *mut u32,
    ) -> u8;
    fn mossbuckle_point(canvas: *const u64, canvas_length: usize, x: f64, y: f64, column: *mut u32, row: *mut u32) -> u8;
    fn mossbuckle_get_point(
        columns: u16, rows: u16, left: f64, right: f64, bottom: f64, top: f64, marker: u8, x: f64, y: f64,
        column: *mut u32, row: *mut u32,
    ) -> u8;
}

/// A call with its numbers as the archive takes them, made beforehand as the Rust's are.
enum Made {
    Line([f64; 4], u32),
    FilledLine([f64; 5], u32),
    Rectangle([f64; 4], u32),
    Circle([f64; 3], u32),
    /// x and y by turns
    Points(Vec<f64>, u32),
    Layer,
    Marker(u8, u32),
    Label([f64; 2], Vec<u8>, u32),
    Dot([u32; 2], u32),
}

/// What is lent to the calls, made once for a picture.
pub struct Host {
    opening: Opening,
    calls: Vec<Made>,
    canvas: Vec<u64>,
    cells: Vec<u32>,
    labels: Vec<u32>,
    screen: Vec<u32>,
    pub painted: u64,
}

/// Makes a call on what a host lends.
macro_rules! call {
    ($host:expr, $function:ident $(, $argument:expr)*) => {{
        let (canvas, cells, labels) = (&mut $host.canvas, &mut $host.cells, &mut $host.labels);
        // SAFETY: each pointer stands with the length of the list that it comes from, and no two overlap.
        unsafe {
            $function(
                canvas.as_mut_ptr(), canvas.len(), cells.as_mut_ptr(), cells.len(), labels.as_mut_ptr(), labels.len()
                $(, $argument)*
            )
        }
    }};
}

impl Host {
    pub fn new(picture: Picture) -> Self {
        let cells = usize::from(picture.opening.columns) * usize::from(picture.opening.rows);
        Self {
            calls: picture.calls.into_iter().map(made).collect(),
            opening: picture.opening,
            canvas: vec![0; CANVAS_WORDS],
            cells: vec![0; cells * CELL_WORDS],
            labels: vec![0; LABEL_WORDS],
            screen: blank_cells(cells),
            painted: 0,
        }
    }

    /// One turn: the opening, the calls, the cells on the screen. Gives the numbers of the refusals, combined.
    pub fn draw(&mut self) -> u8 {
        let calls = std::mem::take(&mut self.calls);
        let opened = self.open();
        let answers = calls.iter().fold(opened, |answers, call| answers | self.make(call));
        self.calls = calls;
        answers | self.render()
    }

    fn open(&mut self) -> u8 {
        let Opening { columns, rows, left, right, bottom, top, marker, background } = self.opening;
        let (marker, character) = numbers(marker);
        let background = background.number();
        call!(self, mossbuckle_open, columns, rows, left, right, bottom, top, marker, character, background)
    }

    #[rustfmt::skip]
    fn make(&mut self, made: &Made) -> u8 {
        let mut painted = 0;
        match made {
            &Made::Line([a, b, c, d], color) => call!(self, mossbuckle_line, a, b, c, d, color, &mut painted),
            &Made::FilledLine([a, b, c, d, e], color) => call!(self, mossbuckle_filled_line, a, b, c, d, e, color, &mut painted),
            &Made::Rectangle([a, b, c, d], color) => call!(self, mossbuckle_rectangle, a, b, c, d, color, &mut painted),
            &Made::Circle([a, b, c], color) => call!(self, mossbuckle_circle, a, b, c, color, &mut painted),
            Made::Points(coords, color) => call!(self, mossbuckle_points, coords.as_ptr(), coords.len(), *color, &mut painted),
            Made::Layer => call!(self, mossbuckle_layer),
            &Made::Marker(marker, character) => call!(self, mossbuckle_marker, marker, character),
            Made::Label([x, y], text, color) => call!(self, mossbuckle_print, *x, *y, text.as_ptr(), text.len(), *color),
            &Made::Dot([column, row], color) => call!(self, mossbuckle_dot, column, row, color, &mut painted),
        }
    }

    fn render(&mut self) -> u8 {
        let (columns, rows, mut label_cells) = (self.opening.columns, self.opening.rows, 0);
        let (screen, length) = (self.screen.as_mut_ptr(), self.screen.len());
        let painted = &mut self.painted;
        call!(self, mossbuckle_render, columns, rows, 0, 0, screen, length, painted, &mut label_cells)
    }

    pub fn screen(&self) -> &[u32] {
        &self.screen
    }

    /// Asks so often for the dot of a point, by the canvas' words or by its numbers: the two differ by the reading of
    /// the words.
    pub fn ask(&mut self, by_words: bool, count: u32) {
        assert_eq!(self.open(), 0);
        let Opening { columns, rows, left, right, bottom, top, marker, .. } = self.opening;
        let (marker, _) = numbers(marker);
        for k in 0..count {
            let (x, y, mut column, mut row) = (f64::from(k % 100), 50.0, 0, 0);
            // SAFETY: the pointer stands with its list's length, and no two overlap.
            let answer = unsafe {
                if by_words {
                    mossbuckle_point(self.canvas.as_ptr(), self.canvas.len(), x, y, &mut column, &mut row)
                } else {
                    mossbuckle_get_point(columns, rows, left, right, bottom, top, marker, x, y, &mut column, &mut row)
                }
            };
            assert_eq!((answer, black_box(column) / 160, row), (0, 0, black_box(row)));
        }
    }
}

fn made(call: Call) -> Made {
    match call {
        Call::Line { x1, y1, x2, y2, color } => Made::Line([x1, y1, x2, y2], color.number()),
        Call::FilledLine { x1, y1, x2, y2, fill_to_y, color } => {
            Made::FilledLine([x1, y1, x2, y2, fill_to_y], color.number())
        }
        Call::Rectangle { x, y, width, height, color } => Made::Rectangle([x, y, width, height], color.number()),
        Call::Circle { x, y, radius, color } => Made::Circle([x, y, radius], color.number()),
        Call::Points { pairs, color } => {
            Made::Points(pairs.iter().flat_map(|(x, y)| [*x, *y]).collect(), color.number())
        }
        Call::Layer => Made::Layer,
        Call::Marker(marker) => {
            let (marker, character) = numbers(marker);
            Made::Marker(marker, character)
        }
        Call::Label { x, y, color, text } => Made::Label([x, y], text, color.map_or(NO_COLOR, Color::number)),
        Call::Dot { column, row, color } => Made::Dot([column as u32, row as u32], color.number()),
    }
}

/// A marker's number and character.
fn numbers(marker: Marker) -> (u8, u32) {
    match marker {
        Marker::Braille => (1, 0x20),
        Marker::Dot => (2, 0x20),
        Marker::Block => (3, 0x20),
        Marker::Bar => (4, 0x20),
        Marker::HalfBlock => (5, 0x20),
        Marker::Quadrant => (6, 0x20),
        Marker::Sextant => (7, 0x20),
        Marker::Custom(character) => (8, character as u32),
        Marker::Octant => panic!("no picture has octants"),
    }
}
