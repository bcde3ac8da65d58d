//! The line format: one request a line, fields separated by one space.
//!
//! ```text
//! total SWITCHES INNER OUTER CONJUNCTIONS KIND HALL LINE NUMERALS TEXT
//! part PLACE SWITCHES INNER OUTER CONJUNCTIONS KIND HALL LINE NUMERALS TEXT
//! shift SIGN SECONDS NANOS SWITCHES INNER OUTER CONJUNCTIONS KIND HALL LINE NUMERALS TEXT
//! write SIGN SECONDS NANOS PLACE BUFFER
//! ```
//!
//! An answer is `NUMBER POSITION SIGN SECONDS NANOS`.

use std::fmt;

/// A field of repeated segments may not grow beyond this; a mistyped count
/// should be an error and not an exhausted memory.
const MOST_FIELD_BYTES: usize = 1 << 24;

/// The numbers of answers are 0 to 23, but for those of moves.
pub const NUMBERS: usize = 24;

/// A run of equal bytes at least this long is not written out.
pub const RUN_WORTH_FOLDING: usize = 24;

#[derive(Clone, PartialEq, Eq)]
pub struct ByteSet([bool; 256]);

impl ByteSet {
    pub const EMPTY: ByteSet = ByteSet([false; 256]);

    pub fn of(bytes: &[u8]) -> Self {
        let mut set = Self::EMPTY;
        for byte in bytes {
            set.0[usize::from(*byte)] = true;
        }
        set
    }

    pub fn holds(&self, byte: u8) -> bool {
        self.0[usize::from(byte)]
    }

    pub fn bytes(&self) -> Vec<u8> {
        (0..=255).filter(|byte| self.holds(*byte)).collect()
    }
}

#[derive(Clone, PartialEq, Eq)]
pub struct Switches {
    pub negatives: bool,
    pub fractions: bool,
    pub exponents: bool,
    pub infinity: bool,
    pub ago: bool,
    pub sign_delimiter: bool,
    pub unit_delimiter: bool,
}

impl Switches {
    /// In the order in which document 01 names them.
    pub fn in_order(&self) -> [bool; 7] {
        [
            self.negatives,
            self.fractions,
            self.exponents,
            self.infinity,
            self.ago,
            self.sign_delimiter,
            self.unit_delimiter,
        ]
    }
}

/// The conjunctions as they are lent: a count and four slots, each a length and
/// eight bytes. Count and lengths may be wrong; that must be expressible.
#[derive(Clone, PartialEq, Eq)]
pub struct Conjunctions {
    pub count: u8,
    pub slots: [(u8, [u8; 8]); 4],
}

impl Conjunctions {
    /// The slots of at most four words of at most eight bytes.
    pub fn of(words: &[Vec<u8>]) -> Self {
        let mut slots = [(0, [0; 8]); 4];
        for (slot, word) in slots.iter_mut().zip(words) {
            slot.0 = word.len() as u8;
            slot.1[..word.len()].copy_from_slice(word);
        }
        Self {
            count: words.len() as u8,
            slots,
        }
    }

    /// The listed words, in order; a wrong count or length is cut to what the
    /// slots can hold.
    pub fn words(&self) -> Vec<&[u8]> {
        let count = usize::from(self.count).min(self.slots.len());
        self.slots[..count]
            .iter()
            .map(|(length, letters)| &letters[..usize::from(*length).min(letters.len())])
            .collect()
    }
}

/// The settings with the hall's unit table, the line's and the numeral table:
/// everything of a request but record, place and text.
#[derive(Clone, PartialEq, Eq)]
pub struct Card {
    pub switches: Switches,
    pub inner: ByteSet,
    pub outer: ByteSet,
    pub conjunctions: Conjunctions,
    pub kind: u8,
    pub hall: Vec<u8>,
    pub line: Vec<u8>,
    pub numerals: Vec<u8>,
}

/// A length or a record that claims to be one; nanoseconds may be too many.
#[derive(Clone, Copy, PartialEq, Eq, Debug)]
pub struct Length {
    pub negative: bool,
    pub seconds: u64,
    pub nanos: u64,
}

impl Length {
    pub const ZERO: Length = Length {
        negative: false,
        seconds: 0,
        nanos: 0,
    };
}

#[derive(Clone, PartialEq, Eq)]
pub enum Request {
    Total {
        card: Card,
        text: Vec<u8>,
    },
    Part {
        place: u64,
        card: Card,
        text: Vec<u8>,
    },
    Shift {
        record: Length,
        card: Card,
        text: Vec<u8>,
    },
    Write {
        record: Length,
        place: u64,
        buffer: Vec<u8>,
    },
}

impl Request {
    /// A text read: its total, or one part from a place.
    pub fn reading(place: Option<u64>, card: Card, text: Vec<u8>) -> Self {
        match place {
            None => Request::Total { card, text },
            Some(place) => Request::Part { place, card, text },
        }
    }

    /// Place, card and text, for those requests that only read.
    pub fn as_reading(&self) -> Option<(Option<u64>, &Card, &[u8])> {
        match self {
            Request::Total { card, text } => Some((None, card, text)),
            Request::Part { place, card, text } => Some((Some(*place), card, text)),
            Request::Shift { .. } | Request::Write { .. } => None,
        }
    }

    /// The card, for those requests that have one.
    pub fn card(&self) -> Option<&Card> {
        match self {
            Request::Total { card, .. }
            | Request::Part { card, .. }
            | Request::Shift { card, .. } => Some(card),
            Request::Write { .. } => None,
        }
    }

    pub fn parse(line: &str) -> Result<Request, String> {
        let mut fields = Fields::of(line);
        let request = match fields.next("the kind of request")? {
            "total" => Request::Total {
                card: fields.card()?,
                text: fields.bytes("TEXT")?,
            },
            "part" => Request::Part {
                place: fields.number("PLACE")?,
                card: fields.card()?,
                text: fields.bytes("TEXT")?,
            },
            "shift" => Request::Shift {
                record: fields.length()?,
                card: fields.card()?,
                text: fields.bytes("TEXT")?,
            },
            "write" => Request::Write {
                record: fields.length()?,
                place: fields.number("PLACE")?,
                buffer: fields.bytes("BUFFER")?,
            },
            other => return Err(format!("no request is called `{other}`")),
        };
        fields.end()?;
        Ok(request)
    }
}

impl fmt::Display for Request {
    fn fmt(&self, out: &mut fmt::Formatter<'_>) -> fmt::Result {
        match self {
            Request::Total { card, text } => write!(out, "total {card} {}", bytes_field(text)),
            Request::Part { place, card, text } => {
                write!(out, "part {place} {card} {}", bytes_field(text))
            }
            Request::Shift { record, card, text } => {
                write!(out, "shift {record} {card} {}", bytes_field(text))
            }
            Request::Write {
                record,
                place,
                buffer,
            } => write!(out, "write {record} {place} {}", bytes_field(buffer)),
        }
    }
}

impl fmt::Display for Card {
    fn fmt(&self, out: &mut fmt::Formatter<'_>) -> fmt::Result {
        write!(
            out,
            "{} {} {} {} {} {} {} {}",
            self.switches,
            set_field(&self.inner),
            set_field(&self.outer),
            self.conjunctions,
            self.kind,
            bytes_field(&self.hall),
            bytes_field(&self.line),
            bytes_field(&self.numerals)
        )
    }
}

impl fmt::Display for Switches {
    fn fmt(&self, out: &mut fmt::Formatter<'_>) -> fmt::Result {
        for on in self.in_order() {
            out.write_str(if on { "1" } else { "0" })?;
        }
        Ok(())
    }
}

impl fmt::Display for Conjunctions {
    fn fmt(&self, out: &mut fmt::Formatter<'_>) -> fmt::Result {
        write!(out, "{}", self.count)?;
        for (length, letters) in &self.slots {
            write!(out, "/{length}.{}", hex(letters))?;
        }
        Ok(())
    }
}

impl fmt::Display for Length {
    fn fmt(&self, out: &mut fmt::Formatter<'_>) -> fmt::Result {
        let sign = if self.negative { '-' } else { '+' };
        write!(out, "{sign} {} {}", self.seconds, self.nanos)
    }
}

/// Number, position and length handed back. A position that cannot be told is
/// printed as `*`.
#[derive(Clone, PartialEq, Eq, Debug)]
pub struct Answer {
    pub number: u8,
    pub position: Option<u64>,
    pub length: Length,
}

impl Answer {
    pub fn refusal(number: u8, position: u64) -> Self {
        Self {
            number,
            position: Some(position),
            length: Length::ZERO,
        }
    }

    pub fn success(position: u64, length: Length) -> Self {
        Self {
            number: 0,
            position: Some(position),
            length,
        }
    }
}

impl fmt::Display for Answer {
    fn fmt(&self, out: &mut fmt::Formatter<'_>) -> fmt::Result {
        match self.position {
            Some(position) => write!(out, "{} {position} {}", self.number, self.length),
            None => write!(out, "{} * {}", self.number, self.length),
        }
    }
}

/// A stretch of bytes as it is printed: one after another, or one byte repeated.
pub enum Segment {
    Plain(Vec<u8>),
    Run(u8, usize),
}

/// Bytes cut into segments, so that a long run of one byte is printed once.
pub fn segments(bytes: &[u8]) -> Vec<Segment> {
    let mut segments = Vec::new();
    for run in bytes.chunk_by(|left, right| left == right) {
        if run.len() >= RUN_WORTH_FOLDING {
            segments.push(Segment::Run(run[0], run.len()));
        } else if let Some(Segment::Plain(plain)) = segments.last_mut() {
            plain.extend_from_slice(run);
        } else {
            segments.push(Segment::Plain(run.to_vec()));
        }
    }
    segments
}

/// Bytes as a field: `-` if there are none.
pub fn bytes_field(bytes: &[u8]) -> String {
    if bytes.is_empty() {
        return "-".to_string();
    }
    let fields: Vec<String> = segments(bytes)
        .iter()
        .map(|segment| match segment {
            Segment::Plain(plain) => hex(plain),
            Segment::Run(byte, times) => format!("{}*{times}", hex(&[*byte])),
        })
        .collect();
    fields.join("+")
}

fn set_field(set: &ByteSet) -> String {
    let bytes = set.bytes();
    if bytes.is_empty() {
        "-".to_string()
    } else {
        hex(&bytes)
    }
}

pub fn hex(bytes: &[u8]) -> String {
    bytes.iter().map(|byte| format!("{byte:02x}")).collect()
}

/// The fields of a line, taken one after the other.
pub struct Fields<'a> {
    rest: std::str::Split<'a, char>,
}

impl<'a> Fields<'a> {
    pub fn of(line: &'a str) -> Self {
        Self {
            rest: line.split(' '),
        }
    }

    /// Whether all have been taken.
    pub fn end(mut self) -> Result<(), String> {
        match self.rest.next() {
            None => Ok(()),
            Some(extra) => Err(format!("`{extra}` stands after the last field")),
        }
    }

    pub fn next(&mut self, wanted: &str) -> Result<&'a str, String> {
        match self.rest.next() {
            Some(field) if !field.is_empty() => Ok(field),
            Some(_) => Err(format!("an empty field where {wanted} should stand")),
            None => Err(format!("the line ends where {wanted} should stand")),
        }
    }

    pub fn number(&mut self, wanted: &str) -> Result<u64, String> {
        decimal(self.next(wanted)?, wanted)
    }

    pub fn bytes(&mut self, wanted: &str) -> Result<Vec<u8>, String> {
        parse_bytes(self.next(wanted)?).map_err(|why| format!("{wanted}: {why}"))
    }

    pub fn length(&mut self) -> Result<Length, String> {
        let negative = match self.next("SIGN")? {
            "+" => false,
            "-" => true,
            other => return Err(format!("`{other}` is no sign")),
        };
        Ok(Length {
            negative,
            seconds: self.number("SECONDS")?,
            nanos: self.number("NANOS")?,
        })
    }

    pub fn card(&mut self) -> Result<Card, String> {
        Ok(Card {
            switches: parse_switches(self.next("SWITCHES")?)?,
            inner: parse_set(self.next("INNER")?)?,
            outer: parse_set(self.next("OUTER")?)?,
            conjunctions: parse_conjunctions(self.next("CONJUNCTIONS")?)?,
            kind: small_decimal(self.next("KIND")?, "KIND")?,
            hall: self.bytes("HALL")?,
            line: self.bytes("LINE")?,
            numerals: self.bytes("NUMERALS")?,
        })
    }
}

fn parse_switches(field: &str) -> Result<Switches, String> {
    let wrong = || format!("`{field}` is not seven characters 0 or 1");
    let mut on = Vec::new();
    for character in field.bytes() {
        match character {
            b'0' => on.push(false),
            b'1' => on.push(true),
            _ => return Err(wrong()),
        }
    }
    let [
        negatives,
        fractions,
        exponents,
        infinity,
        ago,
        sign_delimiter,
        unit_delimiter,
    ] = on.try_into().map_err(|_| wrong())?;
    Ok(Switches {
        negatives,
        fractions,
        exponents,
        infinity,
        ago,
        sign_delimiter,
        unit_delimiter,
    })
}

fn parse_set(field: &str) -> Result<ByteSet, String> {
    if field == "-" {
        return Ok(ByteSet::EMPTY);
    }
    let bytes = parse_hex(field)?;
    if !bytes.is_sorted_by(|left, right| left < right) {
        return Err(format!("the bytes of `{field}` do not ascend"));
    }
    Ok(ByteSet::of(&bytes))
}

fn parse_conjunctions(field: &str) -> Result<Conjunctions, String> {
    let mut pieces = field.split('/');
    let count = small_decimal(pieces.next().unwrap_or_default(), "COUNT")?;
    let mut slots = [(0, [0; 8]); 4];
    for slot in &mut slots {
        let piece = pieces
            .next()
            .ok_or("fewer than four conjunction slots".to_string())?;
        let (length, letters) = piece
            .split_once('.')
            .ok_or(format!("`{piece}` is not LEN.HEX"))?;
        slot.0 = small_decimal(length, "LEN")?;
        slot.1 = parse_hex(letters)?
            .try_into()
            .map_err(|_| format!("`{letters}` is not eight bytes"))?;
    }
    match pieces.next() {
        None => Ok(Conjunctions { count, slots }),
        Some(_) => Err("more than four conjunction slots".to_string()),
    }
}

pub fn parse_bytes(field: &str) -> Result<Vec<u8>, String> {
    let mut bytes = Vec::new();
    if field == "-" {
        return Ok(bytes);
    }
    for segment in field.split('+') {
        let (piece, times) = match segment.split_once('*') {
            Some((piece, times)) => (piece, decimal(times, "a segment's count")?),
            None => (segment, 1),
        };
        let piece = parse_hex(piece)?;
        let room = (MOST_FIELD_BYTES - bytes.len()) / piece.len();
        if times > room as u64 {
            return Err(format!("`{segment}` makes the field too long"));
        }
        for _ in 0..times {
            bytes.extend_from_slice(&piece);
        }
    }
    Ok(bytes)
}

/// One or more bytes, two hexadecimal digits each.
fn parse_hex(field: &str) -> Result<Vec<u8>, String> {
    let wrong = || format!("`{field}` is not hexadecimal bytes");
    if field.is_empty() || field.len() % 2 != 0 {
        return Err(wrong());
    }
    field
        .as_bytes()
        .chunks(2)
        .map(|pair| Some(hex_digit(pair[0])? * 16 + hex_digit(pair[1])?))
        .collect::<Option<Vec<u8>>>()
        .ok_or_else(wrong)
}

fn hex_digit(character: u8) -> Option<u8> {
    match character {
        b'0'..=b'9' => Some(character - b'0'),
        b'a'..=b'f' => Some(character - b'a' + 10),
        b'A'..=b'F' => Some(character - b'A' + 10),
        _ => None,
    }
}

fn decimal(field: &str, wanted: &str) -> Result<u64, String> {
    // Parsing alone would let a plus sign pass.
    Some(field)
        .filter(|field| field.bytes().all(|character| character.is_ascii_digit()))
        .and_then(|field| field.parse().ok())
        .ok_or_else(|| format!("`{field}` cannot be {wanted}"))
}

fn small_decimal(field: &str, wanted: &str) -> Result<u8, String> {
    u8::try_from(decimal(field, wanted)?).map_err(|_| format!("`{field}` cannot be {wanted}"))
}
