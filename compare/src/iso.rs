//! ISO timings, read and written from the words of the request.
//!
//! No byte-by-byte machine: a text is split at its letters, and is right if
//! these stand in one of sixteen orders and the pieces between them are
//! numbers. Where a wrong one is refused is found by asking of each prefix
//! whether some right text begins with it. The value is one fraction, whose
//! numerator and power of ten are as large as the text makes them.

use crate::natural::Natural;
use crate::plain::MOST_TEXT_BYTES;
use crate::request::{Answer, Length};

const NANOS: u64 = 1_000_000_000;
const NANOSECOND_DIGITS: i64 = 9;

const TOO_LONG: u8 = 8;
const NOT_ISO: u8 = 12;
const YEAR_OR_MONTH: u8 = 13;
const TOO_LARGE: u8 = 14;

const NEGATIVE: u8 = 5;
const NO_ROOM: u8 = 9;
const BEYOND: u8 = 10;
const MALFORMED: u8 = 11;

/// Every order in which the letters of a right text stand: weeks alone; or days
/// or none, and after them hours, minutes and seconds, each there or not, with
/// `T` before the first of them; at least one of all.
const ORDERS: [&[u8]; 16] = [
    b"PW", b"PD", b"PTH", b"PTM", b"PTS", b"PTHM", b"PTHS", b"PTMS", b"PTHMS", b"PDTH", b"PDTM",
    b"PDTS", b"PDTHM", b"PDTHS", b"PDTMS", b"PDTHMS",
];

/// The letters of the units, and their seconds.
const UNITS: [(u8, u64); 5] = [
    (b'W', 604_800),
    (b'D', 86_400),
    (b'H', 3_600),
    (b'M', 60),
    (b'S', 1),
];

/// What a text is read to.
pub fn read(text: &[u8]) -> Answer {
    if text.len() > MOST_TEXT_BYTES {
        return Answer::refusal(TOO_LONG, MOST_TEXT_BYTES as u64);
    }
    let Some(pieces) = right(text) else {
        let (number, place) = refusal(text);
        return Answer::refusal(number, place as u64);
    };
    match rounded(&pieces) {
        Some(length) => Answer::success(text.len() as u64, length),
        None => Answer::refusal(TOO_LARGE, 0),
    }
}

/// A letter, and the digits and marks straight before it.
type Piece<'a> = (&'a [u8], u8);

/// The pieces of a right text that have a number; none of any other text.
fn right(text: &[u8]) -> Option<Vec<Piece<'_>>> {
    let (pieces, behind) = split(text);
    let letters: Vec<u8> = pieces.iter().map(|(_, letter)| *letter).collect();
    if !ORDERS.contains(&letters.as_slice()) || !behind.is_empty() {
        return None;
    }
    let last = pieces.len() - 1;
    let fits = |(index, (number, letter)): (usize, &Piece)| match letter {
        b'P' | b'T' => number.is_empty(),
        _ => are_digits(number) || index == last && is_number(number),
    };
    let all_fit = pieces.iter().enumerate().all(fits);
    all_fit.then(|| {
        let has_number = |(number, _): &Piece| !number.is_empty();
        pieces.into_iter().filter(has_number).collect()
    })
}

/// A text cut after each byte that is neither a digit nor a mark, and what is
/// left behind the last of them.
fn split(text: &[u8]) -> (Vec<Piece<'_>>, &[u8]) {
    let mut pieces: Vec<Piece> = text
        .split_inclusive(|byte| !byte.is_ascii_digit() && !is_mark(*byte))
        .map(|piece| (&piece[..piece.len() - 1], piece[piece.len() - 1]))
        .collect();
    let ends_in_a_number = |letter: &u8| letter.is_ascii_digit() || is_mark(*letter);
    if text.last().is_some_and(ends_in_a_number) {
        let (but_one, _) = pieces.pop().expect("a text with a last byte has a piece");
        return (pieces, &text[text.len() - but_one.len() - 1..]);
    }
    (pieces, b"")
}

fn is_mark(byte: u8) -> bool {
    byte == b'.' || byte == b','
}

fn are_digits(bytes: &[u8]) -> bool {
    !bytes.is_empty() && bytes.iter().all(u8::is_ascii_digit)
}

/// Digits, or digits, a mark and digits.
fn is_number(bytes: &[u8]) -> bool {
    let halves: Vec<&[u8]> = bytes.split(|byte| is_mark(*byte)).collect();
    halves.len() <= 2 && halves.into_iter().all(are_digits)
}

/// Number and place for a text that is not right and not too long.
fn refusal(text: &[u8]) -> (u8, usize) {
    let Some(place) = (0..text.len()).find(|place| !goes_on(&text[..=*place])) else {
        return (NOT_ISO, text.len());
    };
    let before = &text[..place];
    let (_, number) = split(before);
    let year_or_month = matches!(text[place], b'Y' | b'M');
    if year_or_month && is_number(number) && !before.contains(&b'T') {
        return (YEAR_OR_MONTH, place);
    }
    (NOT_ISO, place)
}

/// Whether some right text begins with these bytes.
///
/// Twelve ways to go on are all that need trying. Take a right text that begins
/// with the bytes. If they are none, `P0D` goes on from them; if they end with
/// `P` or `T`, `0D` or `0S` does. If they end with a component's letter, they
/// are right as they stand, since components are only left out behind it. If
/// they end with a digit, the number may end there, so the letter that it has
/// in that text goes on from them, with nothing behind it; and if they end with
/// a mark, `0` and that letter. The letter is one of five.
fn goes_on(bytes: &[u8]) -> bool {
    let with = |end: &[u8]| right(&[bytes, end].concat()).is_some();
    with(b"")
        || with(b"P0D")
        || UNITS
            .iter()
            .any(|(letter, _)| with(&[*letter]) || with(&[b'0', *letter]))
}

/// The sum of numbers times seconds, over the power of ten that the last
/// number's fraction needs, rounded down to nanoseconds by one division. None if
/// that is more than the largest length.
fn rounded(pieces: &[Piece]) -> Option<Length> {
    let decimals = pieces.last().map_or(0, |(number, _)| decimals(number));
    let mut numerator = Natural::of(0);
    for (number, letter) in pieces {
        let whole_of_it = number.iter().copied().filter(u8::is_ascii_digit);
        let typed = Natural::typed(&whole_of_it.collect::<Vec<u8>>());
        let raised = typed.shifted((decimals - self::decimals(number)) as i64);
        numerator = numerator.plus(&raised.times(&Natural::of(seconds(*letter))));
    }
    let nanoseconds = numerator.shifted(NANOSECOND_DIGITS - decimals as i64);
    Some(Length {
        negative: false,
        seconds: nanoseconds.shifted(-NANOSECOND_DIGITS).to_u64()?,
        nanos: nanoseconds.lowest(NANOSECOND_DIGITS as usize).to_u64()?,
    })
}

/// How many digits stand behind the mark.
fn decimals(number: &[u8]) -> usize {
    let mark = number.iter().position(|byte| is_mark(*byte));
    mark.map_or(0, |mark| number.len() - mark - 1)
}

fn seconds(letter: u8) -> u64 {
    let unit = UNITS.iter().find(|(unit, _)| *unit == letter);
    unit.expect("the letter of a right text is a unit's").1
}

/// A length as it is written; its sign is not.
pub fn written(length: Length) -> String {
    let (minutes, seconds) = (length.seconds / 60, length.seconds % 60);
    let fraction = format!(".{:09}", length.nanos);
    let fraction = fraction.trim_end_matches('0').trim_end_matches('.');
    let components = [
        (format!("{}", minutes / 60), 'H'),
        (format!("{}", minutes % 60), 'M'),
        (format!("{seconds}{fraction}"), 'S'),
    ];
    let mut text = "PT".to_string();
    for (number, letter) in components {
        if number != "0" {
            text += &format!("{number}{letter}");
        }
    }
    if text == "PT" {
        text += "0S";
    }
    text
}

/// What is handed back for a length that is to be written at a place of a
/// buffer of so many bytes.
pub fn write(length: Length, room: usize, place: u64) -> Answer {
    let minus_zero = length.negative && length.seconds == 0 && length.nanos == 0;
    if length.nanos >= NANOS || minus_zero {
        return Answer::refusal(MALFORMED, 0);
    }
    if length.negative {
        return Answer::refusal(NEGATIVE, 0);
    }
    let Some(left) = (room as u64).checked_sub(place) else {
        return Answer::refusal(BEYOND, place);
    };
    let bytes = written(length).len() as u64;
    if left < bytes {
        return Answer::refusal(NO_ROOM, place);
    }
    Answer::success(place + bytes, length)
}
