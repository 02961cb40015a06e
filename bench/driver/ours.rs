//! Our side: the archive's function that draws a picture file, with the memory that is lent to it.
use crate::pictures::{Class, LARGE};

unsafe extern "C" {
    /// Answers 0, or the number of the refusal. A slice is passed as its pointer and its length.
    fn mossbuckle_draw(
        file: *const u8,
        file_length: usize,
        widest: u16,
        highest: u16,
        cells: *mut u32,
        cells_length: usize,
        labels: *mut u32,
        labels_length: usize,
        screen: *mut u32,
        screen_length: usize,
        painted: *mut u64,
        label_cells: *mut u32,
        place: *mut usize,
    ) -> u8;
}

pub const CELL_WORDS: usize = 5;
pub const LABEL_WORDS: usize = 64 * 44;

/// The words of so many blank cells of a screen: 0020, Reset, Reset.
pub fn blank_cells(cells: usize) -> Vec<u32> {
    [0x20, 1 << 24, 1 << 24].repeat(cells)
}

/// What is lent to a draw, made once for a picture.
pub struct Lent<'a> {
    file: &'a [u8],
    cells: Vec<u32>,
    labels: Vec<u32>,
    screen: Vec<u32>,
    pub painted: u64,
}

impl<'a> Lent<'a> {
    pub fn new(class: &'a Class) -> Self {
        let cells = usize::from(class.size.0) * usize::from(class.size.1);
        Self {
            file: &class.file,
            cells: vec![0; cells * CELL_WORDS],
            labels: vec![0; LABEL_WORDS],
            screen: blank_cells(cells),
            painted: 0,
        }
    }

    /// One turn: the file's bytes in, the cells on the screen out.
    pub fn draw(&mut self) -> u8 {
        let mut label_cells = 0;
        let mut place = 0;
        // SAFETY: each pointer stands with the length of the slice that it comes from, and no two overlap.
        unsafe {
            mossbuckle_draw(
                self.file.as_ptr(),
                self.file.len(),
                LARGE.0,
                LARGE.1,
                self.cells.as_mut_ptr(),
                self.cells.len(),
                self.labels.as_mut_ptr(),
                self.labels.len(),
                self.screen.as_mut_ptr(),
                self.screen.len(),
                &mut self.painted,
                &mut label_cells,
                &mut place,
            )
        }
    }

    pub fn screen(&self) -> &[u32] {
        &self.screen
    }
}
