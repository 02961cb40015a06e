//! Picture files drawn onto a screen of words, and a screen as bytes, on slices; [`Picture`] owns what it needs.
use crate::c;
use crate::calls::check_layout;
use crate::Refusal;
use core::fmt;

/// A picture that is drawn: the dots painted, and the cells that labels took.
#[derive(Clone, Copy, Debug, PartialEq, Eq)]
pub struct Drawn {
    pub painted: u64,
    pub label_cells: u32,
}

/// A refused picture file: the refusal, and the place of the record's first byte.
#[derive(Clone, Copy, Debug, PartialEq, Eq)]
pub struct FileRefusal {
    pub refusal: Refusal,
    pub place: usize,
}

impl fmt::Display for FileRefusal {
    /// As the program `layout` prints it.
    fn fmt(&self, f: &mut fmt::Formatter<'_>) -> fmt::Result {
        match self.refusal {
            Refusal::Layout(_) => self.refusal.fmt(f),
            refusal => write!(f, "refused {} at {}", refusal.number(), self.place),
        }
    }
}

impl core::error::Error for FileRefusal {
    fn source(&self) -> Option<&(dyn core::error::Error + 'static)> {
        Some(&self.refusal)
    }
}

/// The columns and rows that a picture file says, each 0 where the file ends before.
pub fn size(file: &[u8]) -> (u16, u16) {
    let (mut columns, mut rows) = (0, 0);
    // SAFETY: the pointer and the length are the slice's, and every reference is distinct.
    unsafe { c::mossbuckle_size(file.as_ptr(), file.len(), &mut columns, &mut rows) };
    (columns, rows)
}

/// Makes every whole cell of a screen blank.
pub fn blank(screen: &mut [u32]) {
    // SAFETY: as above.
    unsafe { c::mossbuckle_blank(screen.as_mut_ptr(), screen.len()) }
}

/// Draws a picture file onto a screen, over what stands there. The archive's layout is compared first. More than
/// `widest` columns or `highest` rows are refused with Size, too short `cells` or `labels` with State, a too short
/// screen with Screen. The screen of a refused file is as it was.
pub fn draw(
    file: &[u8],
    widest: u16,
    highest: u16,
    cells: &mut [u32],
    labels: &mut [u32],
    screen: &mut [u32],
) -> Result<Drawn, FileRefusal> {
    check_layout().map_err(|refusal| FileRefusal { refusal, place: 0 })?;
    let (mut painted, mut label_cells, mut place) = (0, 0, 0);
    // SAFETY: as above; mutable slices do not overlap.
    let number = unsafe {
        c::mossbuckle_draw(
            file.as_ptr(),
            file.len(),
            widest,
            highest,
            cells.as_mut_ptr(),
            cells.len(),
            labels.as_mut_ptr(),
            labels.len(),
            screen.as_mut_ptr(),
            screen.len(),
            &mut painted,
            &mut label_cells,
            &mut place,
        )
    };
    match number {
        0 => Ok(Drawn {
            painted,
            label_cells,
        }),
        _ => Err(FileRefusal {
            refusal: Refusal::of(number),
            place,
        }),
    }
}

/// The listing of a screen, as the program `layout` prints it. Returns how many bytes it has; those that
/// `out` does not hold are dropped.
pub fn listing(columns: u16, rows: u16, painted: u64, screen: &[u32], out: &mut [u8]) -> usize {
    // SAFETY: as above.
    unsafe {
        c::mossbuckle_listing(
            columns,
            rows,
            painted,
            screen.as_ptr(),
            screen.len(),
            out.as_mut_ptr(),
            out.len(),
        )
    }
}

/// The line that `layout` prints for a refused file. Returns as [`listing`] does.
pub fn refusal_line(refusal: FileRefusal, out: &mut [u8]) -> usize {
    // SAFETY: as above.
    unsafe {
        c::mossbuckle_refusal(
            refusal.refusal.number(),
            refusal.place,
            out.as_mut_ptr(),
            out.len(),
        )
    }
}

/// A screen for a terminal, as the program `show` prints it. Returns as [`listing`] does.
pub fn terminal(columns: u16, rows: u16, screen: &[u32], out: &mut [u8]) -> usize {
    // SAFETY: as above.
    unsafe {
        c::mossbuckle_terminal(
            columns,
            rows,
            screen.as_ptr(),
            screen.len(),
            out.as_mut_ptr(),
            out.len(),
        )
    }
}

#[cfg(feature = "alloc")]
pub(crate) use owned::whole;
#[cfg(feature = "alloc")]
pub use owned::Picture;

#[cfg(feature = "alloc")]
mod owned {
    use super::{blank, draw, listing, size, terminal, Drawn, FileRefusal};
    use crate::{CELL_WORDS, LABELS_WORDS, MAX_COLUMNS, MAX_ROWS, SCREEN_WORDS};
    use alloc::vec;
    use alloc::vec::Vec;

    /// A picture file drawn on a blank screen of its size.
    #[derive(Clone, Debug, PartialEq, Eq)]
    pub struct Picture {
        pub columns: u16,
        pub rows: u16,
        pub drawn: Drawn,
        /// Three words a cell, row by row.
        pub screen: Vec<u32>,
    }

    impl Picture {
        /// Draws a file of at most `widest` columns and `highest` rows.
        pub fn draw(file: &[u8], widest: u16, highest: u16) -> Result<Picture, FileRefusal> {
            let (columns, rows) = size(file);
            // a picture above the limits is refused before it takes any memory
            let fits = columns <= widest.min(MAX_COLUMNS) && rows <= highest.min(MAX_ROWS);
            let count = if fits {
                usize::from(columns) * usize::from(rows)
            } else {
                0
            };
            let mut cells = vec![0; count * CELL_WORDS];
            let mut labels = vec![0; LABELS_WORDS];
            let mut screen = vec![0; count * SCREEN_WORDS];
            blank(&mut screen);
            let drawn = draw(file, widest, highest, &mut cells, &mut labels, &mut screen)?;
            Ok(Picture {
                columns,
                rows,
                drawn,
                screen,
            })
        }

        /// The listing of its screen.
        pub fn listing(&self) -> Vec<u8> {
            whole(|out| {
                listing(
                    self.columns,
                    self.rows,
                    self.drawn.painted,
                    &self.screen,
                    out,
                )
            })
        }

        /// Its screen for a terminal.
        pub fn terminal(&self) -> Vec<u8> {
            whole(|out| terminal(self.columns, self.rows, &self.screen, out))
        }
    }

    /// All the bytes that a function writes: it is asked first how many they are.
    pub(crate) fn whole(write: impl Fn(&mut [u8]) -> usize) -> Vec<u8> {
        let mut out = vec![0; write(&mut [])];
        write(&mut out);
        out
    }
}
