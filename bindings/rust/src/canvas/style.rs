//! Colours, markers and the text of labels.
use crate::RESET;
use alloc::borrow::Cow;

/// A colour of a dot, a label or a cell.
#[derive(Clone, Copy, Debug, Default, PartialEq, Eq, Hash)]
pub enum Color {
    /// The terminal's own.
    #[default]
    Reset,
    /// Red, green and blue.
    Rgb(u8, u8, u8),
}

impl Color {
    /// The colour 0x00RRGGBB.
    pub const fn from_u32(number: u32) -> Color {
        let [_, red, green, blue] = number.to_be_bytes();
        Color::Rgb(red, green, blue)
    }

    pub(crate) const fn number(self) -> u32 {
        match self {
            Color::Reset => RESET,
            Color::Rgb(red, green, blue) => u32::from_be_bytes([0, red, green, blue]),
        }
    }

    /// The colour of a screen's word.
    pub(crate) const fn of(number: u32) -> Color {
        if number < RESET {
            Color::from_u32(number)
        } else {
            Color::Reset
        }
    }
}

/// How dots are shown.
#[derive(Clone, Copy, Debug, Default, PartialEq, Eq, Hash)]
pub enum Marker {
    /// One dot a cell, as `•`.
    #[default]
    Dot,
    /// One dot a cell, as `█`, which colours the background too.
    Block,
    /// One dot a cell, as `▄`.
    Bar,
    /// 2 by 4 dots a cell.
    Braille,
    /// 1 by 2 dots a cell, each of its own colour.
    HalfBlock,
    /// 2 by 2 dots a cell.
    Quadrant,
    /// 2 by 3 dots a cell.
    Sextant,
    /// One dot a cell, as this character.
    Custom(char),
}

impl Marker {
    /// Document 01's number, and the character, which counts with 8 alone.
    pub(crate) const fn numbers(self) -> (u8, u32) {
        match self {
            Marker::Braille => (1, 0x20),
            Marker::Dot => (2, 0x20),
            Marker::Block => (3, 0x20),
            Marker::Bar => (4, 0x20),
            Marker::HalfBlock => (5, 0x20),
            Marker::Quadrant => (6, 0x20),
            Marker::Sextant => (7, 0x20),
            Marker::Custom(character) => (8, character as u32),
        }
    }
}

/// The text of a label, with its colour or none. Without one its cells keep theirs.
#[derive(Clone, Debug, Default, PartialEq, Eq)]
pub struct Span<'a> {
    pub content: Cow<'a, str>,
    pub color: Option<Color>,
}

impl<'a> Span<'a> {
    /// A text without a colour.
    pub fn raw(content: impl Into<Cow<'a, str>>) -> Span<'a> {
        Span {
            content: content.into(),
            color: None,
        }
    }

    /// A text in a colour.
    pub fn styled(content: impl Into<Cow<'a, str>>, color: Color) -> Span<'a> {
        Span {
            content: content.into(),
            color: Some(color),
        }
    }
}

impl<'a, T> From<T> for Span<'a>
where
    T: Into<Cow<'a, str>>,
{
    fn from(content: T) -> Span<'a> {
        Span::raw(content)
    }
}
