//! A screen allocates its memory once: drawing on it again and again allocates nothing.
use mossbuckle::canvas::{Canvas, Circle, Color, Points, Rect, Screen};
use std::alloc::{GlobalAlloc, Layout, System};
use std::cell::Cell;

struct Counting;

thread_local! {
    static ALLOCATED: Cell<usize> = const { Cell::new(0) };
}

// SAFETY: the system's allocator does all the work.
unsafe impl GlobalAlloc for Counting {
    unsafe fn alloc(&self, layout: Layout) -> *mut u8 {
        ALLOCATED.set(ALLOCATED.get() + 1);
        unsafe { System.alloc(layout) }
    }

    unsafe fn dealloc(&self, place: *mut u8, layout: Layout) {
        unsafe { System.dealloc(place, layout) }
    }
}

#[global_allocator]
static COUNTING: Counting = Counting;

#[test]
fn drawing_again_allocates_nothing() {
    let coords = vec![(0.5, 0.5); 1_000];
    let before = ALLOCATED.get();
    let mut screen = Screen::new(80, 24);
    let once = ALLOCATED.get();
    assert!(once > before);
    for turn in 0..100 {
        let drawn = Canvas::default()
            .x_bounds([-1.0, 1.0])
            .y_bounds([-1.0, 1.0])
            .paint(|ctx| {
                ctx.draw(&Circle::new(0.0, 0.0, 0.01 * f64::from(turn), Color::Reset));
                ctx.draw(&Points::new(&coords, Color::Rgb(1, 2, 3)));
                ctx.print(0.0, 0.0, "again");
            })
            .render(Rect::new(0, 0, 80, 24), &mut screen)
            .unwrap();
        assert_eq!(drawn.label_cells, 5);
    }
    assert_eq!(ALLOCATED.get(), once);
}
