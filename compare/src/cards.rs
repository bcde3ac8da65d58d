//! The list of cards that the program `cards` checks again, with the number
//! and the position that the plain reading finds for each.
//!
//! The first line says how often each card is to be checked: eight hexadecimal
//! digits, the lowest byte first. The cards follow, in their stored form.

use std::fmt::Write as _;

use crate::card_a::{card_a, row};
use crate::limits;
use crate::plain;
use crate::request::{ByteSet, Card};
use crate::stored::{self, ONCE, card_lines};
use crate::table::{KINDS, NUMERAL_KIND, Row, table_bytes};

/// Writes the cards into one file and what is found of them into another.
pub fn write_files(cards_path: &str, found_path: &str) -> Result<bool, String> {
    let (mut lines, mut found) = (ONCE.to_string(), String::new());
    let cards = cards();
    for card in &cards {
        lines.push_str(&card_lines(card));
        let (number, position) = plain::check(card);
        let _ = writeln!(found, "{number} {position}");
    }
    let _ = writeln!(found, "{} cards", cards.len());
    stored::write_files([(cards_path, lines), (found_path, found)])?;
    Ok(true)
}

/// The hand-written limits, every byte as a delimiter of either set, in a name
/// and at its front, in a numeral's name and as its kind, and every kind at both
/// ends of its coefficients and powers; each unit in the hall's table and in the
/// line's.
fn cards() -> Vec<Card> {
    let mut cards = limits::cards();
    for byte in 0..=255 {
        cards.extend(in_either_table(Card {
            inner: ByteSet::of(&[byte]),
            ..without_exponents(b"eon")
        }));
        cards.push(Card {
            outer: ByteSet::of(&[byte]),
            hall: Vec::new(),
            ..card_a()
        });
        cards.extend(in_either_table(Card {
            hall: one_second(&[b'm', byte]),
            ..card_a()
        }));
        cards.extend(in_either_table(led_by(byte)));
        cards.push(with_numeral(&[b'm', byte], NUMERAL_KIND));
        cards.push(with_numeral(b"m", byte));
    }
    for kind in 0..KINDS.len() {
        cards.extend(ends_of_kind(kind).into_iter().flat_map(in_either_table));
    }
    cards
}

/// A card without a line's table, and the same with the hall's table as the
/// line's.
fn in_either_table(card: Card) -> [Card; 2] {
    let on_the_line = Card {
        hall: Vec::new(),
        line: card.hall.clone(),
        ..card.clone()
    };
    [card, on_the_line]
}

/// Card A without exponents and with one row; its name may be led by `e` only
/// where an inner delimiter can stand before it.
fn without_exponents(name: &[u8]) -> Card {
    let mut card = card_a();
    card.switches.exponents = false;
    card.hall = one_second(name);
    card
}

/// The same without the delimiter before units, and the name led by the byte.
fn led_by(byte: u8) -> Card {
    let mut card = without_exponents(&[byte, b'm']);
    card.switches.unit_delimiter = false;
    card
}

/// A card without units and with one numeral.
fn with_numeral(name: &[u8], kind: u8) -> Card {
    let numeral = Row {
        name: name.to_vec(),
        kind,
        ..row("", 3, 1, 0)
    };
    Card {
        hall: Vec::new(),
        numerals: table_bytes(&[numeral]),
        ..card_a()
    }
}

fn one_second(name: &[u8]) -> Vec<u8> {
    table_bytes(&[Row {
        name: name.to_vec(),
        ..row("", 3, 1, 0)
    }])
}

/// The largest coefficient that fits the kind and one more, of both signs; the
/// lowest and the highest power that fit and those beside them.
fn ends_of_kind(kind: usize) -> Vec<Card> {
    let (factor, power) = KINDS[kind];
    let largest = i64::MAX / factor;
    let lowest = i16::MIN - power;
    let mut rows = Vec::new();
    for coefficient in [
        largest,
        largest.saturating_add(1),
        -largest,
        (-largest).saturating_sub(1),
    ] {
        rows.push((coefficient, 0));
    }
    for power in [
        lowest,
        lowest.saturating_sub(1),
        lowest + 1,
        i16::MAX - 1,
        i16::MAX,
    ] {
        rows.push((1, power));
    }
    rows.into_iter()
        .map(|(coefficient, power)| Card {
            hall: table_bytes(&[row("u", kind as u8, coefficient, power)]),
            ..card_a()
        })
        .collect()
}
