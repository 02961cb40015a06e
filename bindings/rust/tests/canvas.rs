//! The names of ratatui's canvas: what they draw is what a picture file with the same calls draws; and refusals.
use mossbuckle::canvas::{
    Canvas, Cell, Circle, Color, Context, FilledLine, Line, Marker, Painter, Points, Rect,
    Rectangle, Screen, Shape, Span,
};
use mossbuckle::{Picture, Refusal};

const RED: Color = Color::Rgb(255, 0, 0);
const BLUE: Color = Color::Rgb(0, 0, 255);
const MARKERS: [Marker; 8] = [
    Marker::Braille,
    Marker::Dot,
    Marker::Block,
    Marker::Bar,
    Marker::HalfBlock,
    Marker::Quadrant,
    Marker::Sextant,
    Marker::Custom('☃'),
];

/// A picture file: bytes, and the floats and numbers of its fields.
struct File(Vec<u8>);

impl File {
    /// 20 by 10 cells, bounds -10 to 10 and -5 to 5, a marker (a number of document 01) with ☃, a background of 0, 8, 16.
    fn open(marker: u8) -> File {
        File(vec![20, 0, 10, 0, 0x7F])
            .floats(&[-10.0, 10.0, -5.0, 5.0])
            .bytes(&[marker])
            .number(0x2603)
            .number(0x810)
    }

    fn bytes(mut self, bytes: &[u8]) -> File {
        self.0.extend(bytes);
        self
    }

    fn floats(self, floats: &[f64]) -> File {
        floats
            .iter()
            .fold(self, |file, float| file.bytes(&float.to_le_bytes()))
    }

    fn number(self, number: u32) -> File {
        self.bytes(&number.to_le_bytes())
    }

    fn shape(self, kind: u8, floats: &[f64], color: u32) -> File {
        let map = (1u8 << (floats.len() + 1)) - 1;
        self.bytes(&[kind, map]).floats(floats).number(color)
    }
}

/// The calls of `paint_all`, as records.
fn file_of(marker: u8) -> Vec<u8> {
    File::open(marker)
        .shape(1, &[-9.0, -4.0, 8.0, 3.0], 0xFF0000)
        .shape(2, &[-4.0, 1.0, 2.0, 3.0, -2.0], 0xFF)
        .bytes(&[6, 0])
        .shape(3, &[-8.0, -4.0, 5.5, 6.25], 0xFF)
        .bytes(&[7, 3, 6])
        .number(0x20)
        .shape(4, &[1.0, 0.5, 4.0], 16_777_216)
        .bytes(&[5, 3, 3, 0])
        .floats(&[0.0, 0.0, 9.5, -4.5, 11.0, 0.0])
        .number(0xFF0000)
        .bytes(&[9, 7])
        .number(39)
        .number(19)
        .number(0xFF)
        .bytes(&[8, 11])
        .floats(&[-10.0, 5.0])
        .bytes(b"\x05plain")
        .bytes(&[8, 15])
        .floats(&[2.0, -4.0])
        .number(0xFF0000)
        .bytes(b"\x03red")
        .0
}

fn paint_all(ctx: &mut Context) {
    ctx.draw(&Line {
        x1: -9.0,
        y1: -4.0,
        x2: 8.0,
        y2: 3.0,
        color: RED,
    });
    ctx.draw(&FilledLine::new(-4.0, 1.0, 2.0, 3.0, -2.0, BLUE));
    ctx.layer();
    ctx.draw(&Rectangle::new(-8.0, -4.0, 5.5, 6.25, BLUE));
    ctx.marker(Marker::Quadrant);
    ctx.draw(&Circle::new(1.0, 0.5, 4.0, Color::Reset));
    ctx.draw(&Points::new(&[(0.0, 0.0), (9.5, -4.5), (11.0, 0.0)], RED));
    ctx.dot(39, 19, BLUE);
    ctx.print(-10.0, 5.0, String::from("plain"));
    ctx.print(2.0, -4.0, Span::styled("red", RED));
}

fn canvas<F: Fn(&mut Context)>(marker: Marker, paint: F) -> Canvas<F> {
    Canvas::default()
        .x_bounds([-10.0, 10.0])
        .y_bounds([-5.0, 5.0])
        .marker(marker)
        .background_color(Color::Rgb(0, 8, 16))
        .paint(paint)
}

#[test]
fn every_name_draws_what_its_record_draws() {
    for (number, marker) in (1..).zip(MARKERS) {
        let picture = Picture::draw(&file_of(number), 20, 10).unwrap();
        let mut screen = Screen::new(20, 10);
        let drawn = canvas(marker, paint_all).render(screen.area(), &mut screen);
        assert_eq!(drawn, Ok(picture.drawn), "{marker:?}");
        assert_eq!(screen.words(), picture.screen, "{marker:?}");
        assert_eq!(screen.terminal(), picture.terminal());
        assert_eq!(screen.listing(picture.drawn.painted), picture.listing());
    }
}

#[test]
fn an_area_is_a_part_of_the_screen() {
    let picture = Picture::draw(&file_of(5), 20, 10).unwrap();
    let mut screen = Screen::new(33, 14);
    let blank = Cell {
        symbol: ' ',
        fg: Color::Reset,
        bg: Color::Reset,
    };
    canvas(Marker::HalfBlock, paint_all)
        .render(Rect::new(13, 4, 20, 10), &mut screen)
        .unwrap();
    for (x, y) in (0..33).flat_map(|x| (0..14).map(move |y| (x, y))) {
        let cell = screen.cell(x, y).unwrap();
        if x < 13 || y < 4 {
            assert_eq!(cell, blank);
            continue;
        }
        let first = 3 * (usize::from(y - 4) * 20 + usize::from(x - 13));
        let words = &picture.screen[first..first + 3];
        assert_eq!(cell.symbol as u32, words[0]);
        for (color, word) in [(cell.fg, words[1]), (cell.bg, words[2])] {
            assert_eq!(color == Color::Reset, word == mossbuckle::RESET);
            assert!(color == Color::Reset || color == Color::from_u32(word));
        }
    }
    assert_eq!(screen.cell(33, 0), None);
    assert_eq!(screen.cell(0, 14), None);
    screen.reset();
    assert_eq!(screen, Screen::new(33, 14));
}

#[test]
fn an_area_past_an_edge_and_bad_openings_are_refused() {
    let mut screen = Screen::new(20, 10);
    let mut refusal = |area| {
        canvas(Marker::Dot, paint_all)
            .render(area, &mut screen)
            .unwrap_err()
    };
    assert_eq!(refusal(Rect::new(1, 0, 20, 10)), Refusal::Edge);
    assert_eq!(refusal(Rect::new(0, 1, 20, 10)), Refusal::Edge);
    assert_eq!(refusal(Rect::new(21, 0, 1, 1)), Refusal::Edge);
    assert_eq!(
        refusal(Rect::new(65535, 65535, 65535, 65535)),
        Refusal::Edge
    );
    assert_eq!(refusal(Rect::new(0, 0, 0, 10)), Refusal::Size);
    assert_eq!(refusal(Rect::new(20, 10, 0, 0)), Refusal::Size);
    let bad = canvas(Marker::Dot, paint_all).x_bounds([0.0, f64::INFINITY]);
    assert_eq!(bad.render(screen.area(), &mut screen), Err(Refusal::Number));
    let mut large = Screen::new(201, 101);
    let full = canvas(Marker::Dot, paint_all);
    assert_eq!(full.render(large.area(), &mut large), Err(Refusal::Size));
    assert!(full.render(Rect::new(1, 1, 200, 100), &mut large).is_ok());
}

#[test]
fn the_first_refusal_of_a_closure_is_returned_and_the_screen_stays() {
    let mut screen = Screen::new(20, 10);
    let refused = canvas(Marker::HalfBlock, |ctx| {
        ctx.draw(&Line::new(0.0, 0.0, 5.0, 0.0, RED));
        ctx.print(0.0, 0.0, "caf\u{e9}");
        assert_eq!(ctx.refusal(), Some(Refusal::Text));
        ctx.draw(&Circle::new(0.0, f64::NAN, 1.0, RED));
        ctx.dot(20, 0, RED);
    });
    let before = screen.clone();
    assert_eq!(
        refused.render(screen.area(), &mut screen),
        Err(Refusal::Text)
    );
    assert_eq!(screen, before);
}

#[test]
fn refusals_of_tried_calls_are_not_kept() {
    let mut screen = Screen::new(20, 10);
    let tried = canvas(Marker::HalfBlock, |ctx| {
        assert_eq!(ctx.try_draw(&Line::new(-10.0, 0.0, 10.0, 0.0, RED)), Ok(20));
        assert_eq!(
            ctx.try_draw(&Circle::new(0.0, f64::NAN, 1.0, RED)),
            Err(Refusal::Number)
        );
        assert_eq!(ctx.try_dot(20, 0, RED), Err(Refusal::Outside));
        assert_eq!(ctx.try_dot(19, 19, RED), Ok(1));
        assert_eq!(ctx.try_layer(), Ok(()));
        assert_eq!(ctx.try_marker(Marker::Dot), Ok(()));
        assert_eq!(ctx.try_print(0.0, 0.0, "x".repeat(41)), Err(Refusal::Text));
        for _ in 0..64 {
            assert_eq!(ctx.try_print(0.0, 0.0, "x"), Ok(()));
        }
        assert_eq!(ctx.try_print(0.0, 0.0, "x"), Err(Refusal::Labels));
        assert_eq!(ctx.refusal(), None);
    });
    let drawn = tried.render(screen.area(), &mut screen).unwrap();
    assert_eq!((drawn.painted, drawn.label_cells), (21, 64));
}

#[test]
fn pairs_past_the_thousandth_are_looked_at() {
    let mut screen = Screen::new(20, 10);
    let good = vec![(1.0, 1.0); 1_000];
    let many = vec![(1.0, 1.0); 3_000];
    let mut bad = many.clone();
    bad[2_999].1 = 2f64.powi(40) + 1.0;
    let points = canvas(Marker::Dot, |ctx| {
        assert_eq!(ctx.try_draw(&Points::new(&good, RED)), Ok(1_000));
        assert_eq!(ctx.try_draw(&Points::new(&many, RED)), Err(Refusal::Pairs));
        assert_eq!(ctx.try_draw(&Points::new(&bad, RED)), Err(Refusal::Number));
        assert_eq!(ctx.try_draw(&Points::new(&[], RED)), Ok(0));
    });
    assert!(points.render(screen.area(), &mut screen).is_ok());
}

/// The diagonal of the grid from the upper left, by dots.
struct Diagonal(usize);

impl Shape for Diagonal {
    fn draw(&self, painter: &mut Painter<'_, '_>) {
        assert_eq!(painter.bounds(), (&[-10.0, 10.0], &[-5.0, 5.0]));
        assert_eq!(painter.get_point(-10.0, 5.0), Some((0, 0)));
        assert_eq!(painter.get_point(10.5, 5.0), None);
        assert_eq!(painter.get_point(f64::NAN, 5.0), None);
        (0..self.0).for_each(|k| painter.paint(k, k, RED));
    }
}

#[test]
fn a_shape_of_ones_own_is_painted_by_dots() {
    let mut screen = Screen::new(20, 10);
    let diagonal = canvas(Marker::Dot, |ctx| {
        assert_eq!(ctx.get_point(10.0, -5.0), Ok(Some((19, 9))));
        assert_eq!(ctx.get_point(10.0, 5.5), Ok(None));
        assert_eq!(ctx.get_point(f64::INFINITY, 0.0), Err(Refusal::Number));
        assert_eq!(ctx.try_draw(&Diagonal(10)), Ok(10));
        Painter::from(ctx).paint(usize::MAX, usize::MAX, RED);
    });
    assert_eq!(
        diagonal.render(screen.area(), &mut screen).unwrap().painted,
        11
    );
    assert!((0..10).all(|k| screen.cell(k, k).unwrap().symbol == '•'));
    let outside = canvas(Marker::HalfBlock, |ctx| ctx.draw(&Diagonal(21)));
    assert_eq!(
        outside.render(screen.area(), &mut screen),
        Err(Refusal::Outside)
    );
}

#[test]
fn a_refusal_has_a_number_and_words() {
    let words: Vec<String> = [
        Refusal::Size,
        Refusal::Number,
        Refusal::Color,
        Refusal::Marker,
        Refusal::State,
        Refusal::Rendered,
        Refusal::Draws,
        Refusal::Pairs,
        Refusal::Outside,
        Refusal::Text,
        Refusal::Labels,
        Refusal::Edge,
        Refusal::Screen,
        Refusal::Cut,
        Refusal::Kind,
        Refusal::Map,
        Refusal::Long,
    ]
    .into_iter()
    .zip(1..)
    .map(|(refusal, number)| {
        assert_eq!(refusal.number(), number);
        refusal.to_string()
    })
    .collect();
    assert!(words.iter().all(|text| text.len() > 10));
    assert!(words
        .iter()
        .enumerate()
        .all(|(k, text)| !words[..k].contains(text)));
    let error: Box<dyn std::error::Error> = Box::new(Refusal::Edge);
    assert_eq!(error.to_string(), "the area passes an edge of the screen");
    assert_eq!(
        Refusal::Layout(7).to_string(),
        "the archive has layout 7, and the wrapper was written for 1"
    );
    assert_eq!(
        (Refusal::Layout(7).number(), Refusal::Other(99).number()),
        (0, 99)
    );
}
