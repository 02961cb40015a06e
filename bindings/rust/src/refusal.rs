//! Why something is refused.
use core::fmt;

/// A refusal, named for its number in document 01. What was refused changed nothing.
#[derive(Clone, Copy, Debug, PartialEq, Eq, Hash)]
#[non_exhaustive]
pub enum Refusal {
    /// 1: columns or rows above the limits, or 0.
    Size,
    /// 2: a number that is not finite, or above 2^40 in magnitude.
    Number,
    /// 3: a colour above [`RESET`](crate::RESET).
    Color,
    /// 4: a marker that is not 1 to 8, or a character that is no Unicode scalar value.
    Marker,
    /// 5: a canvas that is not opened or holds something outside the domain, or a store that is too short.
    State,
    /// 6: the canvas was rendered.
    Rendered,
    /// 7: 65,535 draws and dots were accepted.
    Draws,
    /// 8: over 1,000 pairs of coordinates.
    Pairs,
    /// 9: a dot outside a HalfBlock grid.
    Outside,
    /// 10: a label over 40 bytes, or with a byte outside 20 to 7E (hexadecimal).
    Text,
    /// 11: 64 labels are held.
    Labels,
    /// 12: the area passes an edge of the screen.
    Edge,
    /// 13: a screen of another length than its columns and rows say; for a picture file, one that is too short.
    Screen,
    /// 14: the file ends inside the opening or a record.
    Cut,
    /// 15: an unknown kind of record.
    Kind,
    /// 16: a bit map with a bit that has no field.
    Map,
    /// 17: over 65,536 bytes.
    Long,
    /// The archive has this layout, and the wrapper was written for [`LAYOUT`](crate::LAYOUT). It has no number.
    Layout(u32),
    /// A number without a name here.
    Other(u8),
}

/// Each refusal that document 01 numbers, from 1 on, in words.
const NUMBERED: [(Refusal, &str); 17] = [
    (Refusal::Size, "columns or rows are 0 or above the limits"),
    (Refusal::Number, "a number is not finite or above 2^40 in magnitude"),
    (Refusal::Color, "a number is no colour"),
    (Refusal::Marker, "the marker is not 1 to 8, or its character is no Unicode scalar value"),
    (Refusal::State, "the canvas is not open, holds something outside the domain, or has a store that is too short"),
    (Refusal::Rendered, "the canvas was rendered"),
    (Refusal::Draws, "65,535 draws and dots were accepted"),
    (Refusal::Pairs, "there are over 1,000 pairs of coordinates"),
    (Refusal::Outside, "the dot is outside a HalfBlock grid"),
    (Refusal::Text, "the label has over 40 bytes or one outside 20 to 7E"),
    (Refusal::Labels, "64 labels are held"),
    (Refusal::Edge, "the area passes an edge of the screen"),
    (Refusal::Screen, "the screen has not the length of its columns and rows"),
    (Refusal::Cut, "the file ends inside the opening or a record"),
    (Refusal::Kind, "the kind of the record is unknown"),
    (Refusal::Map, "a bit map has a bit that has no field"),
    (Refusal::Long, "the file has over 65,536 bytes"),
];

impl Refusal {
    /// Document 01's number; 0 for [`Refusal::Layout`].
    pub fn number(self) -> u8 {
        match self {
            Refusal::Layout(_) => 0,
            Refusal::Other(number) => number,
            named => (1..)
                .zip(&NUMBERED)
                .find(|(_, (refusal, _))| *refusal == named)
                .map_or(0, |(number, _)| number),
        }
    }

    /// The refusal of a number.
    pub(crate) fn of(number: u8) -> Refusal {
        (1..)
            .zip(&NUMBERED)
            .find(|(n, _)| *n == number)
            .map_or(Refusal::Other(number), |(_, (refusal, _))| *refusal)
    }
}

impl fmt::Display for Refusal {
    fn fmt(&self, f: &mut fmt::Formatter<'_>) -> fmt::Result {
        match self {
            Refusal::Layout(archive) => {
                write!(
                    f,
                    "the archive has layout {archive}, and the wrapper was written for {}",
                    crate::LAYOUT
                )
            }
            Refusal::Other(number) => write!(f, "refusal {number}"),
            named => f.write_str(
                NUMBERED
                    .iter()
                    .find(|(refusal, _)| refusal == named)
                    .map_or("", |(_, words)| *words),
            ),
        }
    }
}

impl core::error::Error for Refusal {}
