//! The calls on lent memory: lengths, what a refusal leaves, and the layout.
use mossbuckle::calls::{check_layout, get_point, Lent, Opening, CANVAS_WORDS, NO_COLOR};
use mossbuckle::{blank, Refusal, LABELS_WORDS, RESET};

const OPENING: Opening = Opening {
    columns: 3,
    rows: 2,
    left: 0.0,
    right: 2.0,
    bottom: 0.0,
    top: 1.0,
    marker: 2,
    character: 0x20,
    background: RESET,
};

/// Memory for 3 by 2 cells, and a word more at each end.
struct Memory {
    canvas: [u64; CANVAS_WORDS + 1],
    cells: [u32; 31],
    labels: [u32; LABELS_WORDS + 1],
}

impl Memory {
    fn new() -> Memory {
        Memory {
            canvas: [7; CANVAS_WORDS + 1],
            cells: [7; 31],
            labels: [7; LABELS_WORDS + 1],
        }
    }

    fn lent(&mut self, canvas: usize, cells: usize, labels: usize) -> Lent<'_> {
        Lent {
            canvas: &mut self.canvas[..canvas],
            cells: &mut self.cells[..cells],
            labels: &mut self.labels[..labels],
        }
    }

    fn whole(&mut self) -> Lent<'_> {
        self.lent(CANVAS_WORDS, 30, LABELS_WORDS)
    }
}

#[test]
fn the_layout_is_the_archives() {
    assert_eq!(check_layout(), Ok(()));
}

#[test]
fn short_memory_is_refused_with_state() {
    let mut memory = Memory::new();
    let short_words = memory
        .lent(CANVAS_WORDS - 1, 30, LABELS_WORDS)
        .open(&OPENING);
    assert_eq!(short_words, Err(Refusal::State));
    assert!(memory.canvas.iter().all(|word| *word == 7));
    let short_cells = memory.lent(CANVAS_WORDS, 29, LABELS_WORDS).open(&OPENING);
    assert_eq!(short_cells, Err(Refusal::State));
    assert!(memory.canvas[..CANVAS_WORDS].iter().all(|word| *word == 0));
    assert!(memory.cells.iter().all(|word| *word == 7));
    let short_labels = memory
        .lent(CANVAS_WORDS, 30, LABELS_WORDS - 1)
        .open(&OPENING);
    assert_eq!(short_labels, Err(Refusal::State));
    assert_eq!(memory.whole().open(&OPENING), Ok(()));
    assert_eq!(
        memory.lent(CANVAS_WORDS, 29, LABELS_WORDS).layer(),
        Err(Refusal::State)
    );
    assert_eq!(memory.lent(0, 0, 0).layer(), Err(Refusal::State));
    assert_eq!(memory.whole().layer(), Ok(()));
    assert_eq!(
        (
            memory.canvas[CANVAS_WORDS],
            memory.cells[30],
            memory.labels[LABELS_WORDS]
        ),
        (7, 7, 7)
    );
}

#[test]
fn a_refused_call_leaves_all_that_is_lent() {
    let mut memory = Memory::new();
    memory.whole().open(&OPENING).unwrap();
    memory.whole().line(0.0, 0.0, 2.0, 0.0, 255).unwrap();
    let (canvas, cells) = (memory.canvas, memory.cells);
    let mut lent = memory.whole();
    assert_eq!(
        lent.line(0.0, 0.0, f64::NAN, 0.0, 255),
        Err(Refusal::Number)
    );
    assert_eq!(lent.circle(0.0, 0.0, 1.0, RESET + 1), Err(Refusal::Color));
    assert_eq!(lent.marker(8, 0xD800), Err(Refusal::Marker));
    assert_eq!(lent.marker(0, 0x20), Err(Refusal::Marker));
    assert_eq!(lent.points(&[0.0; 2002], 255), Err(Refusal::Pairs));
    assert_eq!(lent.print(0.0, 0.0, &[0x1F], 255), Err(Refusal::Text));
    assert_eq!(lent.print(0.0, 0.0, b"", RESET + 1), Err(Refusal::Color));
    let mut screen = [9; 18];
    assert_eq!(lent.render(2, 2, 0, 0, &mut screen), Err(Refusal::Edge));
    assert_eq!(
        lent.render(3, 2, 0, 0, &mut screen[..17]),
        Err(Refusal::Screen)
    );
    assert_eq!(screen, [9; 18]);
    assert_eq!((memory.canvas, memory.cells), (canvas, cells));
}

#[test]
fn a_picture_is_drawn_and_closed() {
    let mut memory = Memory::new();
    memory.whole().open(&OPENING).unwrap();
    let mut lent = memory.whole();
    assert_eq!(lent.points(&[0.0, 0.0, 2.0, 1.0, f64::NAN], 255), Ok(2));
    assert_eq!(lent.dot(1, 0, 0xFF00), Ok(1));
    assert_eq!(lent.print(1.0, 0.0, b"ok", NO_COLOR), Ok(()));
    let mut screen = [0; 24];
    blank(&mut screen);
    let drawn = lent.render(4, 2, 1, 0, &mut screen).unwrap();
    assert_eq!((drawn.painted, drawn.label_cells), (3, 2));
    let symbols: Vec<u32> = screen.chunks(3).map(|cell| cell[0]).collect();
    assert_eq!(
        symbols,
        [0x20, 0x20, 0x2022, 0x2022, 0x20, 0x2022, 0x6F, 0x6B]
    );
    assert_eq!(screen[16..18], [255, RESET]);
    assert_eq!(lent.layer(), Err(Refusal::Rendered));
    assert_eq!(lent.get_point(2.0, 0.0), Ok(Some((2, 1))));
    assert_eq!(get_point(&memory.canvas, 3.0, 0.0), Ok(None));
    assert_eq!(get_point(&[], 0.0, 0.0), Err(Refusal::State));
}
