//! Making requests that the crate cannot be asked about, or seldom is, out of
//! those that it can: wrong cards, places beyond the text, bytes that are no
//! UTF-8, and texts about the largest size.

use crate::card_a::row;
use crate::make::Maker;
use crate::plain::MOST_TEXT_BYTES;
use crate::request::{ByteSet, Card, Request};
use crate::rng::Random;
use crate::table::{
    KIND_PLACE, MOST_NUMERALS, MOST_ROWS, NAME_BYTES, NAME_PLACE, NUMERAL_KIND, ROW_BYTES, Row,
    ZEROS_PLACE,
};

/// Names that are not of letters alone.
const ODD_NUMERALS: &[&str] = &["fi ve", "f1", "+", "a.", "µs", "a@", "`"];

/// One request in so many has a long text, which takes much room and time.
const REQUESTS_TO_A_LONG_ONE: u64 = 500;

/// Requests as `Maker` makes them, some of them made odd.
pub struct OddMaker {
    maker: Maker,
    random: Random,
}

impl OddMaker {
    pub fn new(seed: u64) -> Self {
        Self {
            maker: Maker::new(seed),
            // Any other seed, so that the two do not draw the same numbers.
            random: Random::new(!seed),
        }
    }
}

impl Iterator for OddMaker {
    type Item = Request;

    fn next(&mut self) -> Option<Request> {
        let made = self.maker.next()?;
        let (mut place, card, text) = made.as_reading()?;
        let (mut card, mut text) = (card.clone(), text.to_vec());
        let random = &mut self.random;
        if random.below(REQUESTS_TO_A_LONG_ONE) == 0 {
            lengthen(random, &mut text);
            return Some(Request::reading(place, card, text));
        }
        match random.below(100) {
            0..=3 => spoil(random, &mut card),
            4..=6 => damage(random, &mut text),
            7..=9 => place = Some(odd_place(random, text.len() as u64)),
            _ => {}
        }
        Some(Request::reading(place, card, text))
    }
}

/// Changes one thing of a card, which mostly makes it wrong.
fn spoil(random: &mut Random, card: &mut Card) {
    let byte = random.below(256) as u8;
    let slot = random.below(4) as usize;
    match random.below(28) {
        0 => card.inner = with_byte(&card.inner, byte),
        1 => card.outer = with_byte(&card.outer, byte),
        2 => card.conjunctions.count = *random.pick(&[1, 2, 3, 4, 5, 6, byte]),
        3 => card.conjunctions.slots[slot].0 = *random.pick(&[0, 1, 8, 9, byte]),
        4 => card.conjunctions.slots[slot].1[random.below(8) as usize] = byte,
        5 => card.kind = *random.pick(&[7, 8, 9, byte]),
        6..=7 => spoil_units(random, &mut card.hall),
        8..=9 => spoil_units(random, &mut card.line),
        10..=12 => put_in_led_by_e(random, card),
        13..=14 => change_byte(random, &mut card.hall),
        15..=16 => change_byte(random, &mut card.line),
        17 => {
            spoil_units(random, &mut card.hall);
            change_byte(random, &mut card.hall);
            spoil_units(random, &mut card.line);
            change_byte(random, &mut card.line);
        }
        18 => {
            let size = match random.below(4) {
                0 => random.below(1_650) as usize,
                1 => ROW_BYTES * (MOST_NUMERALS + 1),
                _ => card.numerals.len() + 1 + random.below(ROW_BYTES as u64 - 1) as usize,
            };
            card.numerals.resize(size, 0);
        }
        19 => {
            let size = card.numerals.len().min(ROW_BYTES);
            card.numerals.extend_from_within(..size);
        }
        20 => put_in_a_bad_numeral(random, card),
        21..=22 => spoil_layout(random, &mut card.hall),
        23..=24 => spoil_layout(random, &mut card.line),
        25..=26 => spoil_layout(random, &mut card.numerals),
        _ => change_byte(random, &mut card.numerals),
    }
}

/// Gives a unit table any size, one row more than may be, or some of its rows
/// twice.
fn spoil_units(random: &mut Random, table: &mut Vec<u8>) {
    let rows = table.len() / ROW_BYTES;
    match random.below(4) {
        0 => table.resize(random.below(3_300) as usize, 0),
        1 => table.resize((MOST_ROWS + 1) * ROW_BYTES, 0),
        _ => {
            let size = random.below(rows as u64 + 1) as usize * ROW_BYTES;
            table.extend_from_within(..size);
        }
    }
}

/// Breaks the layout of a row, if there is one: the size of its name, one of the
/// zeros behind the name, or one of the four at its end.
fn spoil_layout(random: &mut Random, table: &mut [u8]) {
    let rows = table.len() / ROW_BYTES;
    if rows == 0 {
        return;
    }
    let start = random.below(rows as u64) as usize * ROW_BYTES;
    let row = &mut table[start..start + ROW_BYTES];
    let behind_name = NAME_PLACE + usize::from(row[0]);
    let byte = *random.pick(&[1, b'a', 128, 255]);
    match random.below(6) {
        0 => row[0] = *random.pick(&[0, NAME_BYTES as u8 + 1, 47, 48, 255]),
        1 => row[0] = random.below(NAME_BYTES as u64 + 1) as u8,
        2 => row[ZEROS_PLACE + random.below(4) as usize] = byte,
        _ if behind_name < KIND_PLACE => {
            let room = (KIND_PLACE - behind_name) as u64;
            row[behind_name + random.below(room) as usize] = byte;
        }
        _ => row[0] += 1,
    }
}

/// Changes a byte of a table, if it has any.
fn change_byte(random: &mut Random, table: &mut [u8]) {
    if !table.is_empty() {
        let place = random.below(table.len() as u64) as usize;
        let byte = random.below(256) as u8;
        table[place] = *random.pick(&[0, 1, 2, 3, 4, 8, 127, 128, 255, byte]);
    }
}

/// Puts a numeral in at any row that is nearly right: of another kind, with a
/// name that is not of letters alone, or with the least coefficient.
fn put_in_a_bad_numeral(random: &mut Random, card: &mut Card) {
    let good = row("five", NUMERAL_KIND, 5, 0);
    let bad = match random.below(3) {
        0 => Row {
            kind: *random.pick(&[0, 2, 4, 255]),
            ..good
        },
        1 => Row {
            coefficient: i64::MIN,
            ..good
        },
        _ => row(*random.pick(ODD_NUMERALS), NUMERAL_KIND, 5, 0),
    };
    let rows = card.numerals.len() / ROW_BYTES;
    let place = random.below(rows as u64 + 1) as usize * ROW_BYTES;
    card.numerals.splice(place..place, bad.to_bytes());
}

/// Switches exponents off, mostly takes the delimiter before units away too,
/// and puts a row led by `e` or `E` in anywhere in one of the two unit tables: a
/// unit that nobody could type.
fn put_in_led_by_e(random: &mut Random, card: &mut Card) {
    card.switches.exponents = false;
    match random.below(5) {
        0..=1 => card.switches.unit_delimiter = false,
        2..=3 => card.inner = ByteSet::EMPTY,
        _ => {}
    }
    let name = random.pick(&["e", "E", "eon", "Eon", "es", "EE"]);
    let table = if random.chance(50) {
        &mut card.hall
    } else {
        &mut card.line
    };
    let rows = table.len() / ROW_BYTES;
    let place = random.below(rows as u64 + 1) as usize * ROW_BYTES;
    table.splice(place..place, row(name, 3, 1, 0).to_bytes());
}

fn with_byte(set: &ByteSet, byte: u8) -> ByteSet {
    let mut bytes = set.bytes();
    bytes.push(byte);
    ByteSet::of(&bytes)
}

/// Puts any bytes, most of which are no letter, into a text.
fn damage(random: &mut Random, text: &mut Vec<u8>) {
    for _ in 0..=random.below(2) {
        let place = random.below(text.len() as u64 + 1) as usize;
        let byte = random.below(256) as u8;
        if place < text.len() && random.chance(50) {
            text[place] = byte;
        } else {
            text.insert(place, byte);
        }
    }
}

/// Any place of a text of that size, its end, or a place beyond it.
fn odd_place(random: &mut Random, size: u64) -> u64 {
    match random.below(8) {
        0..=2 => random.below(size + 1),
        3 => size,
        4 => size + 1,
        5 => size + random.below(5_000),
        6 => size.wrapping_add(random.next()),
        _ => *random.pick(&[1 << 16, 1 << 32, 1 << 63, u64::MAX]),
    }
}

/// The text over and over, to about the largest size.
fn lengthen(random: &mut Random, text: &mut Vec<u8>) {
    let size = MOST_TEXT_BYTES - 2 + random.below(5) as usize;
    if text.is_empty() {
        text.push(b'0');
    }
    *text = text.repeat(size / text.len() + 1);
    text.truncate(size);
}
