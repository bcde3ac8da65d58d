//! Requests with texts of the largest size and beyond it: one byte over and
//! over, or a few.

use crate::plain::MOST_TEXT_BYTES;
use crate::request::{Card, Request};
use crate::table::{ROW_BYTES, Row};

/// The largest size from both sides, and one well beyond it.
const SIZES: [usize; 4] = [
    MOST_TEXT_BYTES - 1,
    MOST_TEXT_BYTES,
    MOST_TEXT_BYTES + 1,
    5_000,
];

/// Such texts under a card: their totals, and of the runs also parts from the
/// start, the last byte, the end and the first place beyond it.
pub fn requests(card: &Card) -> Vec<Request> {
    let mut requests = Vec::new();
    for size in SIZES {
        for text in runs(card, size) {
            let places = [0, size - 1, size, size + 1].map(|place| Some(place as u64));
            for place in places.into_iter().chain([None]) {
                requests.push(Request::reading(place, card.clone(), text.clone()));
            }
        }
    }
    for size in [MOST_TEXT_BYTES, MOST_TEXT_BYTES + 1] {
        for pattern in patterns(card) {
            let text = filled(&pattern, size);
            requests.push(Request::reading(None, card.clone(), text));
        }
    }
    requests
}

/// Digits only, signs only, points only, letters only, delimiters only, and a
/// number behind many zeros.
fn runs(card: &Card, size: usize) -> Vec<Vec<u8>> {
    let mut bytes = b"079+-.ei".to_vec();
    bytes.extend(card.inner.bytes().first());
    bytes.extend(card.outer.bytes().last());
    let mut texts: Vec<Vec<u8>> = bytes.into_iter().map(|byte| vec![byte; size]).collect();
    for end in ["1", ".1", ".", "1e19", "e", "+1", "x"] {
        let zeros = size - end.len();
        texts.push([vec![b'0'; zeros], end.as_bytes().to_vec()].concat());
    }
    texts
}

/// Both signs, all digits, all delimiters, and short parts in a row, of numbers
/// and of a numeral.
fn patterns(card: &Card) -> Vec<Vec<u8>> {
    let mut patterns: Vec<Vec<u8>> = ["+-", "1234567890", "+1", ".5", "1e1+", "inf "]
        .iter()
        .map(|pattern| pattern.as_bytes().to_vec())
        .collect();
    let delimiters = [card.inner.bytes(), card.outer.bytes()].concat();
    if !delimiters.is_empty() {
        patterns.push(delimiters);
    }
    patterns.extend(spoken(card));
    patterns
}

/// The card's first numeral with its first unit, the line's if it has any, if a
/// part of them can be read.
fn spoken(card: &Card) -> Option<Vec<u8>> {
    let first_row = |table: &[u8]| table.chunks(ROW_BYTES).next().and_then(Row::from_bytes);
    let numeral = first_row(&card.numerals)?;
    let unit = first_row(&card.line).or_else(|| first_row(&card.hall))?;
    let (inner, outer) = (card.inner.bytes(), card.outer.bytes());
    let part = [
        &numeral.name,
        inner.first_chunk::<1>()?.as_slice(),
        &unit.name,
        outer.get(..1).unwrap_or(b"+"),
    ];
    Some(part.concat())
}

fn filled(pattern: &[u8], size: usize) -> Vec<u8> {
    pattern.iter().copied().cycle().take(size).collect()
}
