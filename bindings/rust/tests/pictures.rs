//! What the wrapper gives: answers, refusals with their places, and short memory.
use mossbuckle::{
    blank, draw, get_point, listing, refusal_line, size, terminal, Drawn, FileRefusal, Picture,
    Refusal, View, RESET,
};

/// Document 01's example: 2 by 1, right and top 1, Dot, a line of colour FF.
fn example() -> Vec<u8> {
    let mut file = vec![2, 0, 1, 0, 0x1A];
    for bytes in [
        &1f64.to_le_bytes()[..],
        &1f64.to_le_bytes(),
        &[2, 1, 0x14],
        &1f64.to_le_bytes(),
        &[0xFF, 0, 0, 0],
    ] {
        file.extend(bytes);
    }
    file
}

fn refused(refusal: Refusal, place: usize) -> FileRefusal {
    FileRefusal { refusal, place }
}

#[test]
fn the_example_is_drawn() {
    let picture = Picture::draw(&example(), 80, 24).unwrap();
    assert_eq!((picture.columns, picture.rows), (2, 1));
    assert_eq!(
        picture.drawn,
        Drawn {
            painted: 2,
            label_cells: 0
        }
    );
    assert_eq!(picture.screen, [0x2022, 255, RESET, 0x2022, 255, RESET]);
    assert_eq!(
        picture.listing(),
        b"cells 2 1 painted 2\n0 0 2022 255 16777216\n1 0 2022 255 16777216\n"
    );
    assert_eq!(
        picture.terminal(),
        "\x1b[38;2;0;0;255m\u{2022}\u{2022}\x1b[0m\n".as_bytes()
    );
}

#[test]
fn a_refusal_has_its_number_and_place() {
    let mut file = example();
    assert_eq!(
        Picture::draw(&file[..file.len() - 1], 80, 24),
        Err(refused(Refusal::Cut, 22))
    );
    assert_eq!(Picture::draw(&file, 1, 24), Err(refused(Refusal::Size, 0)));
    assert_eq!(Picture::draw(&[], 80, 24), Err(refused(Refusal::Cut, 0)));
    assert_eq!(
        Picture::draw(&[255; 5], 65535, 65535),
        Err(refused(Refusal::Map, 0))
    );
    assert_eq!(
        Picture::draw(&[255, 255, 255, 255, 0], 65535, 65535),
        Err(refused(Refusal::Size, 0))
    );
    assert_eq!(
        Picture::draw(&[0; 65537], 80, 24),
        Err(refused(Refusal::Long, 0))
    );
    file.extend([10, 0]);
    let refusal = Picture::draw(&file, 80, 24).unwrap_err();
    assert_eq!(refusal.to_string(), "refused 15 at 36");
    let mut out = [b'?'; 20];
    assert_eq!(refusal_line(refusal, &mut out), 17);
    assert_eq!(&out, b"refused 15 at 36\n???");
}

#[test]
fn short_memory_is_refused() {
    let (file, mut labels) = (example(), [0; 2816]);
    assert_eq!(size(&file), (2, 1));
    assert_eq!(
        draw(&file, 80, 24, &mut [0; 9], &mut labels, &mut [0; 6]),
        Err(refused(Refusal::State, 0))
    );
    assert_eq!(
        draw(&file, 80, 24, &mut [0; 10], &mut [], &mut [0; 6]),
        Err(refused(Refusal::State, 0))
    );
    assert_eq!(
        draw(&file, 80, 24, &mut [0; 10], &mut labels, &mut []),
        Err(refused(Refusal::Screen, file.len()))
    );
    let mut screen = [7; 8];
    blank(&mut screen[..6]);
    assert!(draw(&file, 80, 24, &mut [0; 10], &mut labels, &mut screen).is_ok());
    assert_eq!(screen[6..], [7, 7]);
}

#[test]
fn bytes_past_the_end_are_dropped_and_counted() {
    let screen = [0x41, RESET, RESET];
    let mut out = [b'?'; 8];
    assert_eq!(listing(1, 1, 0, &screen, &mut out), 47);
    assert_eq!(&out, b"cells 1 ");
    assert_eq!(terminal(1, 1, &screen, &mut out), 6);
    assert_eq!(&out, b"A\x1b[0m\n1 ");
    assert_eq!(terminal(1, 1, &screen, &mut []), 6);
}

#[test]
fn a_point_has_a_dot_none_or_a_refusal() {
    let view = View {
        columns: 2,
        rows: 2,
        left: 1.0,
        right: 2.0,
        bottom: 0.0,
        top: 2.0,
        marker: 1,
    };
    assert_eq!(get_point(&view, 1.5, 1.0), Ok(Some((2, 4))));
    assert_eq!(get_point(&view, 0.0, 0.0), Ok(None));
    assert_eq!(get_point(&view, f64::NAN, 0.0), Err(Refusal::Number));
    assert_eq!(
        get_point(&View { marker: 0, ..view }, 1.5, 1.0),
        Err(Refusal::State)
    );
}
