//! The port's moves of stored rows, held against the plain way's and against what
//! was written by hand.

use std::fmt;

use crate::found::Found;
use crate::move_limits;
use crate::moves::{Form, NEW, moved};
use crate::port_side;
use crate::request::{Card, bytes_field, hex};
use crate::rng::Random;
use crate::table::ROW_BYTES;

/// So many lists of lines are moved under a card.
const LISTS: usize = 4;

/// What a byte of the target holds before.
const BEFORE: u8 = 7;

/// A list of lines that is moved from a form, into a target of so many bytes.
struct Move<'a> {
    from: Form,
    source: &'a [u8],
    size: usize,
}

impl fmt::Display for Move<'_> {
    fn fmt(&self, out: &mut fmt::Formatter<'_>) -> fmt::Result {
        let (room, source) = (self.from.room, bytes_field(self.source));
        write!(
            out,
            "move from names of {room}, {source}, into {}",
            self.size
        )
    }
}

/// The cases that are written by hand, asked of the port.
pub fn hold_limits(found: &mut Found) {
    for case in move_limits::cases() {
        let port = port_side::moved(case.from, &case.source, &case.target);
        let request = Move {
            from: case.from,
            source: &case.source,
            size: case.target.len(),
        };
        found.hold_move_limit(&request, &case.wanted, &port);
    }
}

/// Rows of a card's tables, stored in the new form, moved to the old one; and what
/// comes of that moved back. Most lists are spoiled.
pub fn hold(found: &mut Found, card: &Card) {
    // So that no two cards of a run are asked alike.
    let mut random = Random::new(!found.cards);
    let rows: Vec<&[u8]> = [&card.hall, &card.line, &card.numerals]
        .into_iter()
        .flat_map(|table| table.chunks(ROW_BYTES))
        .collect();
    for _ in 0..LISTS {
        let mut source = Vec::new();
        for _ in 0..random.below(6) {
            if !rows.is_empty() {
                source.extend(stored(&mut random, &rows));
            }
        }
        spoil(&mut random, &mut source);
        let mut then = hold_one(found, &mut random, NEW, &source);
        spoil(&mut random, &mut then);
        hold_one(found, &mut random, NEW.other(), &then);
    }
}

/// The line of one of the rows. Half of the names are cut to what the old form has
/// room for.
fn stored(random: &mut Random, rows: &[&[u8]]) -> Vec<u8> {
    let mut row = random.pick(rows).to_vec();
    let room = NEW.other().room;
    if usize::from(row[0]) > room && random.chance(50) {
        row[0] = room as u8;
        row[1 + room..=NEW.room].fill(0);
    }
    (hex(&row) + "\n").into_bytes()
}

/// Changes a byte of the lines, takes one out or puts one in, or leaves them.
fn spoil(random: &mut Random, lines: &mut Vec<u8>) {
    let place = random.below(lines.len() as u64 + 1) as usize;
    let any = random.below(256) as u8;
    let byte = *random.pick(&[b'0', b'1', b'2', b'f', b'F', b'g', b'\n', any]);
    match random.below(8) {
        0..=2 if place < lines.len() => lines[place] = byte,
        3 if place < lines.len() => {
            lines.remove(place);
        }
        4 => lines.insert(place, byte),
        _ => {}
    }
}

/// Both move a list, and what is written then is handed back.
fn hold_one(found: &mut Found, random: &mut Random, from: Form, source: &[u8]) -> Vec<u8> {
    let lines = source.len() / from.line_bytes();
    let size = lines * from.other().line_bytes();
    let size = match random.below(4) {
        0 => size.saturating_sub(1),
        1 => size + random.below(200) as usize,
        _ => size,
    };
    let target = vec![BEFORE; size];
    let plain = moved(from, source, &target);
    let port = port_side::moved(from, source, &target);
    found.hold_move(&Move { from, source, size }, &plain, &port);
    let written = plain.answer.position.unwrap_or_default() as usize;
    match plain.answer.number {
        0 => plain.target[..written].to_vec(),
        _ => Vec::new(),
    }
}
