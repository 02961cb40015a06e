//! A picture file, read by document 01 ('Picture file', 'Calls and refusals, in order'): the opening and the calls
//! that are accepted, or the first refusal with its place. The calls' own refusals serve calls.rs too.
use ratatui_core::style::Color;
use ratatui_core::symbols::Marker;

const LONGEST_FILE: usize = 65_536;
const MOST_COLUMNS: u16 = 200;
const MOST_ROWS: u16 = 100;
const MOST_PAIRS: usize = 1_000;
const MOST_LABELS: usize = 64;
const LONGEST_TEXT: usize = 40;
const MOST_DRAWS: usize = 65_535;
/// 'Finite and at most 2^40 in magnitude'.
const LARGEST: f64 = (1u64 << 40) as f64;

/// The program `layout` 'refuses more than 80 columns or 24 rows with 1'; a canvas has the domain's size.
pub const LAYOUT: (u16, u16) = (80, 24);
pub const DOMAIN: (u16, u16) = (MOST_COLUMNS, MOST_ROWS);

pub struct Opening {
    pub columns: u16,
    pub rows: u16,
    pub left: f64,
    pub right: f64,
    pub bottom: f64,
    pub top: f64,
    pub marker: Marker,
    pub background: Color,
}

pub enum Call {
    Line { x1: f64, y1: f64, x2: f64, y2: f64, color: Color },
    FilledLine { x1: f64, y1: f64, x2: f64, y2: f64, fill_to_y: f64, color: Color },
    Rectangle { x: f64, y: f64, width: f64, height: f64, color: Color },
    Circle { x: f64, y: f64, radius: f64, color: Color },
    Points { pairs: Vec<(f64, f64)>, color: Color },
    Layer,
    Marker(Marker),
    Label { x: f64, y: f64, color: Option<Color>, text: Vec<u8> },
    Dot { column: usize, row: usize, color: Color },
}

pub struct Picture {
    pub opening: Opening,
    pub calls: Vec<Call>,
}

pub struct Refusal {
    pub number: u8,
    pub place: usize,
}

pub enum Answer {
    /// Every call is accepted.
    Picture(Picture),
    /// 'A refusal prints `refused N at B` alone', so the calls before it are not kept.
    Refused(Refusal),
    /// A refusal in place of a panic, with the calls up to the one at which the Rust must panic.
    Panics(Refusal, Picture),
}

/// A refusal's number, still without its place.
pub type Checked<T> = Result<T, u8>;

/// The picture of a file, with a size of at most so many columns and rows.
pub fn read(file: &[u8], most: (u16, u16)) -> Answer {
    if file.len() > LONGEST_FILE {
        return Answer::Refused(Refusal { number: 17, place: 0 });
    }
    let mut reader = Reader { file, at: 0 };
    let opening = match read_opening(&mut reader, most) {
        Ok(opening) => opening,
        Err(number) => return Answer::Refused(Refusal { number, place: 0 }),
    };
    read_records(&mut reader, opening)
}

fn read_records(reader: &mut Reader, opening: Opening) -> Answer {
    let mut held = Held::new(&opening);
    let mut picture = Picture { opening, calls: Vec::new() };
    while reader.at < reader.file.len() {
        let place = reader.at;
        let call = match read_record(reader) {
            Ok(call) => call,
            Err(number) => return Answer::Refused(Refusal { number, place }),
        };
        match check_call(call, &held, &picture.opening) {
            Ok(call) => {
                held.accept(&call);
                picture.calls.push(call);
            }
            Err(Rejected { number: 9, call: Some(dot) }) => {
                picture.calls.push(dot);
                return Answer::Panics(Refusal { number: 9, place }, picture);
            }
            Err(rejected) => return Answer::Refused(Refusal { number: rejected.number, place }),
        }
    }
    Answer::Picture(picture)
}

/// What the calls so far left that later refusals ask for.
pub struct Held {
    pub marker: Marker,
    pub draws: usize,
    pub labels: usize,
}

impl Held {
    pub fn new(opening: &Opening) -> Self {
        Self { marker: opening.marker, draws: 0, labels: 0 }
    }

    pub fn accept(&mut self, call: &Call) {
        match call {
            Call::Layer => {}
            Call::Marker(marker) => self.marker = *marker,
            Call::Label { .. } => self.labels += 1,
            _ => self.draws += 1,
        }
    }
}

// Fields, still unchecked.

struct Reader<'a> {
    file: &'a [u8],
    at: usize,
}

impl<'a> Reader<'a> {
    /// The next bytes; 14 where the file ends before them.
    fn bytes(&mut self, count: usize) -> Checked<&'a [u8]> {
        let bytes = self.file[self.at..].get(..count).ok_or(14)?;
        self.at += count;
        Ok(bytes)
    }

    fn byte(&mut self) -> Checked<u8> {
        Ok(self.bytes(1)?[0])
    }

    fn u16(&mut self) -> Checked<u16> {
        let bytes = self.bytes(2)?;
        Ok(u16::from_le_bytes([bytes[0], bytes[1]]))
    }

    fn u32(&mut self) -> Checked<u32> {
        let bytes = self.bytes(4)?;
        Ok(u32::from_le_bytes([bytes[0], bytes[1], bytes[2], bytes[3]]))
    }

    fn float(&mut self) -> Checked<f64> {
        let mut bits = [0; 8];
        bits.copy_from_slice(self.bytes(8)?);
        Ok(f64::from_le_bytes(bits))
    }
}

/// The fields of an opening or a record: those whose bit stands, from bit 0; the others have their absent value.
struct Fields<'r, 'f> {
    reader: &'r mut Reader<'f>,
    map: u8,
}

impl<'r, 'f> Fields<'r, 'f> {
    /// '16 a map bit with no field'.
    fn new(reader: &'r mut Reader<'f>, map: u8, count: u32) -> Checked<Self> {
        if u32::from(map) >> count != 0 {
            return Err(16);
        }
        Ok(Self { reader, map })
    }

    /// Whether the next field stands in the file.
    fn next(&mut self) -> bool {
        let stands = self.map & 1 == 1;
        self.map >>= 1;
        stands
    }

    fn float(&mut self) -> Checked<f64> {
        if self.next() { self.reader.float() } else { Ok(0.0) }
    }

    fn marker(&mut self) -> Checked<u8> {
        if self.next() { self.reader.byte() } else { Ok(1) }
    }

    fn character(&mut self) -> Checked<u32> {
        if self.next() { self.reader.u32() } else { Ok(0x20) }
    }

    fn number(&mut self) -> Checked<u32> {
        if self.next() { self.reader.u32() } else { Ok(0) }
    }

    fn color(&mut self) -> Checked<Option<u32>> {
        if self.next() { Ok(Some(self.reader.u32()?)) } else { Ok(None) }
    }

    fn pairs(&mut self) -> Checked<Vec<(f64, f64)>> {
        if !self.next() {
            return Ok(Vec::new());
        }
        let count = self.reader.u16()?;
        (0..count).map(|_| Ok((self.reader.float()?, self.reader.float()?))).collect()
    }

    fn text(&mut self) -> Checked<Vec<u8>> {
        if !self.next() {
            return Ok(Vec::new());
        }
        let length = self.reader.byte()?;
        Ok(self.reader.bytes(usize::from(length))?.to_vec())
    }
}

// The opening.

fn read_opening(reader: &mut Reader, most: (u16, u16)) -> Checked<Opening> {
    let columns = reader.u16()?;
    let rows = reader.u16()?;
    let map = reader.byte()?;
    let mut fields = Fields::new(reader, map, 7)?;
    let (left, right) = (fields.float()?, fields.float()?);
    let (bottom, top) = (fields.float()?, fields.float()?);
    let (marker, character) = (fields.marker()?, fields.character()?);
    let background = fields.color()?;
    check_size(columns, most.0)?;
    check_size(rows, most.1)?;
    check_opening((columns, rows), [left, right, bottom, top], background, check_marker(marker, character))
}

/// Open: 1, 2, 3, 4.
pub fn check_opening(
    (columns, rows): (u16, u16),
    bounds: [f64; 4],
    background: Option<u32>,
    marker: Checked<Marker>,
) -> Checked<Opening> {
    check_size(columns, MOST_COLUMNS)?;
    check_size(rows, MOST_ROWS)?;
    check_numbers(&bounds)?;
    let background = check_color(background)?;
    let [left, right, bottom, top] = bounds;
    Ok(Opening { columns, rows, left, right, bottom, top, marker: marker?, background })
}

fn check_size(size: u16, most: u16) -> Checked<()> {
    if (1..=most).contains(&size) { Ok(()) } else { Err(1) }
}

fn check_numbers(numbers: &[f64]) -> Checked<()> {
    if numbers.iter().all(|number| in_domain(*number)) { Ok(()) } else { Err(2) }
}

pub fn in_domain(number: f64) -> bool {
    number.is_finite() && number.abs() <= LARGEST
}

/// An absent colour is Reset.
fn check_color(color: Option<u32>) -> Checked<Color> {
    match color {
        None => Ok(Color::Reset),
        Some(number) => Color::from_number(number).ok_or(3),
    }
}

/// '4 marker not 1 to 8, or 8 with no scalar value'. With the other markers the character does not count.
pub fn check_marker(marker: u8, character: u32) -> Checked<Marker> {
    match marker {
        1 => Ok(Marker::Braille),
        2 => Ok(Marker::Dot),
        3 => Ok(Marker::Block),
        4 => Ok(Marker::Bar),
        5 => Ok(Marker::HalfBlock),
        6 => Ok(Marker::Quadrant),
        7 => Ok(Marker::Sextant),
        8 => char::from_u32(character).map(Marker::Custom).ok_or(4),
        _ => Err(4),
    }
}

pub fn size_in_domain(columns: u16, rows: u16) -> bool {
    (1..=MOST_COLUMNS).contains(&columns) && (1..=MOST_ROWS).contains(&rows)
}

// The records.

/// A record as its fields stand, before the call's own checks.
pub enum Record {
    Draw { numbers: Vec<f64>, color: Option<u32>, shape: fn(&[f64], Color) -> Call },
    Points { pairs: Vec<(f64, f64)>, color: Option<u32> },
    Layer,
    Marker { marker: u8, character: u32 },
    Label { x: f64, y: f64, color: Option<u32>, text: Vec<u8> },
    Dot { column: u32, row: u32, color: Option<u32> },
}

/// '14 ended before the map byte; 15 unknown kind; 16 a map bit with no field; 14 a field cut short.'
/// 'An unknown kind without a map byte is 14.'
fn read_record(reader: &mut Reader) -> Checked<Record> {
    let kind = reader.byte()?;
    let map = reader.byte()?;
    match kind {
        1 => read_draw(reader, map, 4, line),
        2 => read_draw(reader, map, 5, filled_line),
        3 => read_draw(reader, map, 4, rectangle),
        4 => read_draw(reader, map, 3, circle),
        5 => read_points(reader, map),
        6 => Fields::new(reader, map, 0).map(|_| Record::Layer),
        7 => read_marker(reader, map),
        8 => read_label(reader, map),
        9 => read_dot(reader, map),
        _ => Err(15),
    }
}

pub fn line(n: &[f64], color: Color) -> Call {
    Call::Line { x1: n[0], y1: n[1], x2: n[2], y2: n[3], color }
}

pub fn filled_line(n: &[f64], color: Color) -> Call {
    Call::FilledLine { x1: n[0], y1: n[1], x2: n[2], y2: n[3], fill_to_y: n[4], color }
}

pub fn rectangle(n: &[f64], color: Color) -> Call {
    Call::Rectangle { x: n[0], y: n[1], width: n[2], height: n[3], color }
}

pub fn circle(n: &[f64], color: Color) -> Call {
    Call::Circle { x: n[0], y: n[1], radius: n[2], color }
}

/// A shape of `count` floats and a colour.
fn read_draw(reader: &mut Reader, map: u8, count: u32, shape: fn(&[f64], Color) -> Call) -> Checked<Record> {
    let mut fields = Fields::new(reader, map, count + 1)?;
    let numbers = (0..count).map(|_| fields.float()).collect::<Checked<Vec<f64>>>()?;
    Ok(Record::Draw { numbers, color: fields.color()?, shape })
}

fn read_points(reader: &mut Reader, map: u8) -> Checked<Record> {
    let mut fields = Fields::new(reader, map, 2)?;
    Ok(Record::Points { pairs: fields.pairs()?, color: fields.color()? })
}

fn read_marker(reader: &mut Reader, map: u8) -> Checked<Record> {
    let mut fields = Fields::new(reader, map, 2)?;
    Ok(Record::Marker { marker: fields.marker()?, character: fields.character()? })
}

fn read_label(reader: &mut Reader, map: u8) -> Checked<Record> {
    let mut fields = Fields::new(reader, map, 4)?;
    Ok(Record::Label { x: fields.float()?, y: fields.float()?, color: fields.color()?, text: fields.text()? })
}

fn read_dot(reader: &mut Reader, map: u8) -> Checked<Record> {
    let mut fields = Fields::new(reader, map, 3)?;
    Ok(Record::Dot { column: fields.number()?, row: fields.number()?, color: fields.color()? })
}

// The calls' own refusals, in document 01's order.

pub struct Rejected {
    pub number: u8,
    /// The call itself, where the Rust has an answer of its own to it.
    pub call: Option<Call>,
}

impl From<u8> for Rejected {
    fn from(number: u8) -> Self {
        Self { number, call: None }
    }
}

pub fn check_call(record: Record, held: &Held, opening: &Opening) -> Result<Call, Rejected> {
    match record {
        Record::Draw { numbers, color, shape } => Ok(check_draw(&numbers, color, held).map(|c| shape(&numbers, c))?),
        Record::Points { pairs, color } => Ok(check_points(pairs, color, held)?),
        Record::Layer => Ok(Call::Layer),
        Record::Marker { marker, character } => Ok(check_marker(marker, character).map(Call::Marker)?),
        Record::Label { x, y, color, text } => Ok(check_label(x, y, color, text, held)?),
        Record::Dot { column, row, color } => check_dot(column, row, color, held, opening),
    }
}

/// Draw: 2, 3, 7.
fn check_draw(numbers: &[f64], color: Option<u32>, held: &Held) -> Checked<Color> {
    check_numbers(numbers)?;
    let color = check_color(color)?;
    check_draws(held)?;
    Ok(color)
}

fn check_draws(held: &Held) -> Checked<()> {
    if held.draws >= MOST_DRAWS { Err(7) } else { Ok(()) }
}

/// Draw: 2, 3, 7, 8.
fn check_points(pairs: Vec<(f64, f64)>, color: Option<u32>, held: &Held) -> Checked<Call> {
    for (x, y) in &pairs {
        check_numbers(&[*x, *y])?;
    }
    let color = check_color(color)?;
    check_draws(held)?;
    if pairs.len() > MOST_PAIRS {
        return Err(8);
    }
    Ok(Call::Points { pairs, color })
}

/// Print: 2, 3, 10, 11. A label's absent colour is none.
fn check_label(x: f64, y: f64, color: Option<u32>, text: Vec<u8>, held: &Held) -> Checked<Call> {
    check_numbers(&[x, y])?;
    let color = color.map(|number| Color::from_number(number).ok_or(3)).transpose()?;
    if text.len() > LONGEST_TEXT || text.iter().any(|byte| !(0x20..=0x7E).contains(byte)) {
        return Err(10);
    }
    if held.labels >= MOST_LABELS {
        return Err(11);
    }
    Ok(Call::Label { x, y, color, text })
}

/// Dot: 3, 7, 9.
fn check_dot(column: u32, row: u32, color: Option<u32>, held: &Held, opening: &Opening) -> Result<Call, Rejected> {
    let color = check_color(color)?;
    check_draws(held)?;
    let dot = Call::Dot { column: column as usize, row: row as usize, color };
    let outside = column >= u32::from(opening.columns) || row >= 2 * u32::from(opening.rows);
    if held.marker == Marker::HalfBlock && outside {
        return Err(Rejected { number: 9, call: Some(dot) });
    }
    Ok(dot)
}
