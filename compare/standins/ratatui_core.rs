//! Stand-in for the crate ratatui-core: the types that the canvas names, by document 01's stand-ins.
#![no_std]

extern crate alloc;

pub mod layout {
    /// An area of the screen, in cells.
    #[derive(Clone, Copy, Debug, PartialEq)]
    pub struct Rect {
        pub x: u16,
        pub y: u16,
        pub width: u16,
        pub height: u16,
    }

    impl Rect {
        pub fn left(self) -> u16 {
            self.x
        }

        pub fn right(self) -> u16 {
            self.x + self.width
        }

        pub fn top(self) -> u16 {
            self.y
        }

        pub fn is_empty(self) -> bool {
            self.width == 0 || self.height == 0
        }
    }
}

pub mod style {
    /// Document 01: 'A colour is 0 to 16,777,215 (RGB), or 16,777,216, Reset.' Three bytes, as in the crate itself, so
    /// that a cell of the canvas takes no more memory than there.
    #[derive(Clone, Copy, Debug, Default, PartialEq, Eq)]
    pub enum Color {
        #[default]
        Reset,
        Rgb(u8, u8, u8),
    }

    /// The number of Reset; every number above it is no colour.
    pub const RESET: u32 = 16_777_216;

    impl Color {
        pub fn from_number(number: u32) -> Option<Self> {
            let [high, red, green, blue] = number.to_be_bytes();
            match number {
                RESET => Some(Self::Reset),
                _ if high == 0 => Some(Self::Rgb(red, green, blue)),
                _ => None,
            }
        }

        pub fn number(self) -> u32 {
            match self {
                Self::Reset => RESET,
                Self::Rgb(red, green, blue) => u32::from_be_bytes([0, red, green, blue]),
            }
        }
    }

    /// The canvas sets a background with a style, and nothing else.
    #[derive(Clone, Copy, Debug, Default)]
    pub struct Style {
        pub background: Option<Color>,
    }

    impl Style {
        pub fn bg(self, color: Color) -> Self {
            Self { background: Some(color) }
        }
    }
}

pub mod text {
    use alloc::vec::Vec;
    use core::marker::PhantomData;

    use crate::style::Color;

    /// The text of a label, one byte a cell, with its colour or none.
    #[derive(Clone, Debug, Default, PartialEq)]
    pub struct Line<'a> {
        pub text: Vec<u8>,
        pub color: Option<Color>,
        /// The sources name a lifetime; our text is owned.
        pub lent: PhantomData<&'a ()>,
    }
}

pub mod buffer {
    use alloc::vec;
    use alloc::vec::Vec;
    use core::ops::{Index, IndexMut};

    use crate::layout::Rect;
    use crate::style::{Color, Style};
    use crate::text::Line;

    /// Document 01: 'A cell is a symbol (Unicode scalar value) and two colours.'
    #[derive(Clone, Copy, Debug, PartialEq)]
    pub struct Cell {
        pub symbol: char,
        pub foreground: Color,
        pub background: Color,
    }

    impl Cell {
        #[inline]
        pub fn set_char(&mut self, symbol: char) {
            self.symbol = symbol;
        }

        #[inline]
        pub fn set_fg(&mut self, color: Color) {
            self.foreground = color;
        }

        #[inline]
        pub fn set_bg(&mut self, color: Color) {
            self.background = color;
        }
    }

    #[derive(Clone, Debug, PartialEq)]
    pub struct Buffer {
        columns: u16,
        cells: Vec<Cell>,
    }

    impl Buffer {
        /// A screen of blank cells: 'blank (0020, Reset, Reset)'.
        pub fn blank(columns: u16, rows: u16) -> Self {
            let cell = Cell { symbol: ' ', foreground: Color::Reset, background: Color::Reset };
            Self { columns, cells: vec![cell; usize::from(columns) * usize::from(rows)] }
        }

        /// 'Background first': every cell of the area gets the style's background.
        pub fn set_style(&mut self, area: Rect, style: Style) {
            let Some(background) = style.background else { return };
            for y in area.y..area.y + area.height {
                for x in area.x..area.x + area.width {
                    self[(x, y)].background = background;
                }
            }
        }

        /// 'Writes one byte a cell up to the area's right edge; its colour, if any, becomes the foreground, and the
        /// background stays.' The caller gives the cells that are left up to that edge.
        pub fn set_line(&mut self, x: u16, y: u16, line: &Line<'_>, cells_left: u16) {
            for (column, &byte) in (x..x + cells_left).zip(&line.text) {
                let cell = &mut self[(column, y)];
                cell.symbol = char::from(byte);
                if let Some(color) = line.color {
                    cell.foreground = color;
                }
            }
        }

        #[inline]
        fn place(&self, column: u16, row: u16) -> usize {
            assert!(column < self.columns, "a column past the screen's edge");
            usize::from(row) * usize::from(self.columns) + usize::from(column)
        }
    }

    impl Index<(u16, u16)> for Buffer {
        type Output = Cell;

        #[inline]
        fn index(&self, (column, row): (u16, u16)) -> &Cell {
            &self.cells[self.place(column, row)]
        }
    }

    impl IndexMut<(u16, u16)> for Buffer {
        #[inline]
        fn index_mut(&mut self, (column, row): (u16, u16)) -> &mut Cell {
            let place = self.place(column, row);
            &mut self.cells[place]
        }
    }
}

pub mod widgets {
    use crate::buffer::Buffer;
    use crate::layout::Rect;

    pub trait Widget {
        fn render(self, area: Rect, buffer: &mut Buffer)
        where
            Self: Sized;
    }

    impl<W: Widget> Widget for Option<W> {
        fn render(self, area: Rect, buffer: &mut Buffer) {
            if let Some(widget) = self {
                widget.render(area, buffer);
            }
        }
    }
}

/// Document 01, 'Grids': symbols are hexadecimal, pattern bits are row by row.
pub mod symbols {
    #[derive(Clone, Copy, Debug, Default, PartialEq)]
    pub enum Marker {
        #[default]
        Dot,
        Block,
        Bar,
        Braille,
        HalfBlock,
        Quadrant,
        Sextant,
        /// Named by the sources, left out by document 01.
        Octant,
        Custom(char),
    }

    pub const DOT: &str = "\u{2022}";

    pub mod block {
        pub const FULL: &str = "\u{2588}";
    }

    pub mod bar {
        pub const HALF: &str = "\u{2584}";
    }

    pub mod half_block {
        pub const LOWER: char = '\u{2584}';
        pub const UPPER: char = '\u{2580}';
        pub const FULL: char = '\u{2588}';
    }

    const fn scalar(number: u32) -> char {
        match char::from_u32(number) {
            Some(symbol) => symbol,
            None => panic!("not a scalar value"),
        }
    }

    pub mod braille {
        /// '2800 plus, for bits 0 to 7, the weights'.
        pub const BRAILLE: [char; 256] = table();

        const WEIGHTS: [u32; 8] = [1, 8, 2, 16, 4, 32, 64, 128];

        const fn table() -> [char; 256] {
            let mut symbols = [' '; 256];
            let mut pattern = 0;
            while pattern < 256 {
                symbols[pattern] = symbol(pattern);
                pattern += 1;
            }
            symbols
        }

        const fn symbol(pattern: usize) -> char {
            let mut number = 0x2800;
            let mut bit = 0;
            while bit < 8 {
                if pattern & (1 << bit) != 0 {
                    number += WEIGHTS[bit];
                }
                bit += 1;
            }
            super::scalar(number)
        }
    }

    pub mod pixel {
        /// 'Quadrant 0 to 15'.
        pub const QUADRANTS: [char; 16] = [
            '\u{0020}', '\u{2598}', '\u{259D}', '\u{2580}', '\u{2596}', '\u{258C}', '\u{259E}', '\u{259B}',
            '\u{2597}', '\u{259A}', '\u{2590}', '\u{259C}', '\u{2584}', '\u{2599}', '\u{259F}', '\u{2588}',
        ];

        /// 'Sextant p, 1 to 63'.
        pub const SEXTANTS: [char; 64] = sextants();

        /// Never reached: document 01 has no marker for octants.
        pub const OCTANTS: [char; 256] = [' '; 256];

        const fn sextants() -> [char; 64] {
            let mut symbols = [' '; 64];
            let mut pattern = 1;
            while pattern < 64 {
                symbols[pattern] = super::scalar(sextant(pattern as u32));
                pattern += 1;
            }
            symbols
        }

        /// '21 is 258C, 42 is 2590, 63 is 2588; else 1FB00 + p - 1, less 1 above 21, less 1 above 42.'
        const fn sextant(pattern: u32) -> u32 {
            match pattern {
                21 => 0x258C,
                42 => 0x2590,
                63 => 0x2588,
                _ => 0x1FB00 + pattern - 1 - (pattern > 21) as u32 - (pattern > 42) as u32,
            }
        }
    }
}
