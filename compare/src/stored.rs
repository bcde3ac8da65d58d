//! The form of the lists that programs of the test read again: lines of
//! hexadecimal digits, two to a byte, the fields of a line one after the other
//! and a number's lowest byte first.

use std::fmt::Write as _;
use std::fs;

use crate::request::{ByteSet, Card, Length, RUN_WORTH_FOLDING, hex};
use crate::table::ROW_BYTES;

/// The first line of a list that says how often each thing is done; whoever
/// counts instructions writes another.
pub const ONCE: &str = "01000000\n";

pub fn flag(on: bool) -> String {
    hex(&[u8::from(on)])
}

/// Sign, seconds and nanoseconds.
pub fn length(length: Length) -> String {
    let nanos = u32::try_from(length.nanos).expect("nanoseconds of a stored length fit 32 bits");
    flag(length.negative) + &hex(&length.seconds.to_le_bytes()) + &hex(&nanos.to_le_bytes())
}

/// A line of the settings (switches, inner set, outer set, conjunctions,
/// default kind) with the sizes of the hall's unit table, of the line's and of
/// the numeral table, and a line for each row of the three, in that order, in its
/// stored form. The last row of each is filled with zeros where the size ends
/// within it.
pub fn card_lines(card: &Card) -> String {
    let mut lines = card.switches.in_order().map(flag).concat();
    lines += &set(&card.inner);
    lines += &set(&card.outer);
    let _ = write!(lines, "{:02x}", card.conjunctions.count);
    for (size, letters) in card.conjunctions.slots {
        let _ = write!(lines, "{size:02x}{}", hex(&letters));
    }
    let _ = write!(lines, "{:02x}", card.kind);
    let tables = [&card.hall, &card.line, &card.numerals];
    lines.extend(tables.map(|table| size(table)));
    lines.push('\n');
    for row in tables.into_iter().flat_map(|table| table.chunks(ROW_BYTES)) {
        let mut stored = row.to_vec();
        stored.resize(ROW_BYTES, 0);
        let _ = writeln!(lines, "{}", hex(&stored));
    }
    lines
}

fn size(table: &[u8]) -> String {
    let size = u16::try_from(table.len()).expect("the size of a stored table fits 16 bits");
    hex(&size.to_le_bytes())
}

/// Run and size of a text as fields, and its bytes as a line, before which the
/// first of them stands as often as the run says, so that the longest texts
/// take little room. A program has room for the run and the line.
pub fn text(text: &[u8], room: usize) -> Result<(String, String), String> {
    let run = run_before(text);
    let bytes = &text[run..];
    if run + 2 * bytes.len() + 1 > room || bytes.len() > usize::from(u16::MAX) {
        return Err(format!("a text of {} bytes has no room", text.len()));
    }
    let sizes = hex(&(run as u32).to_le_bytes()) + &hex(&(bytes.len() as u16).to_le_bytes());
    Ok((sizes, hex(bytes)))
}

/// How often the text's first byte stands before the bytes that are written.
fn run_before(text: &[u8]) -> usize {
    let equal = text.iter().take_while(|byte| **byte == text[0]).count();
    if equal < RUN_WORTH_FOLDING {
        0
    } else {
        equal - 1
    }
}

/// Writes a list into one file, and what a program must print of it into
/// another.
pub fn write_files(files: [(&str, String); 2]) -> Result<(), String> {
    for (path, text) in files {
        fs::write(path, text).map_err(|error| format!("{path}: {error}"))?;
    }
    Ok(())
}

/// A set byte for byte: byte b is bit b % 8 of its byte b / 8.
fn set(set: &ByteSet) -> String {
    let mut bytes = [0_u8; 32];
    for byte in set.bytes() {
        bytes[usize::from(byte / 8)] |= 1 << (byte % 8);
    }
    hex(&bytes)
}
