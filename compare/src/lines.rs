//! Sheets for the line program, and what it prints of each line under card A.

use std::fmt::Write as _;
use std::fs;

use crate::card_a::{self, card_a};
use crate::chosen::Chosen;
use crate::make_text::{Offer, make_text};
use crate::request::{Answer, Request};
use crate::rng::Random;

const NEWLINE: u8 = b'\n';

/// The lines that document 01 gives for the program, in its order.
const EXAMPLE: [&str; 4] = ["61.7ms", "1.", ".", "2s ago"];

/// Exponents out of range, with number and place: behind zeros, before a unit and
/// in a second part. Document 01's readings have one alone.
const EXPONENTS: [(&str, u8, u64); 3] = [
    ("1e-0032769", 4, 9),
    ("1e99999s", 3, 6),
    ("1s 1e32768", 3, 9),
];

/// The six slips, with number and place: what document 01's readings and single
/// bytes do not have of them under card A.
const SLIPS: [(&str, u8, u64); 13] = [
    ("1s +", 17, 4),
    ("1e", 17, 2),
    ("1s 1E-", 17, 6),
    ("1 ", 18, 1),
    ("1s ago ", 18, 6),
    ("inf ", 18, 3),
    ("1s and ", 18, 6),
    ("inf and", 19, 4),
    ("1s .s", 20, 3),
    ("1ex", 21, 2),
    ("1s 1E-x", 21, 6),
    ("infix", 22, 4),
    ("infinityx", 22, 8),
];

/// Digits alone, about as many as a text may have, and more than the program
/// reads at once.
const DIGITS: [usize; 5] = [4_095, 4_096, 4_097, 5_000, 70_000];

/// Lines one after another, and what is printed of them.
#[derive(Default)]
struct Sheet {
    lines: Vec<u8>,
    printed: String,
    chosen: Chosen,
}

impl Sheet {
    /// A line, unless document 01 leaves it out of the comparison.
    fn put(&mut self, text: &[u8], written: Option<Answer>) -> Result<(), String> {
        let request = Request::Total {
            card: card_a(),
            text: text.to_vec(),
        };
        let Some(answer) = self.chosen.answer(&request, written)? else {
            return Ok(());
        };
        self.lines.extend_from_slice(text);
        self.lines.push(NEWLINE);
        let _ = writeln!(self.printed, "{answer}");
        Ok(())
    }

    /// Writes the lines into one file, the last without its newline, and what
    /// is printed of them into another.
    fn write_files(mut self, lines_path: &str, printed_path: &str) -> Result<bool, String> {
        self.lines.pop();
        fs::write(lines_path, &self.lines).map_err(|error| format!("{lines_path}: {error}"))?;
        fs::write(printed_path, &self.printed)
            .map_err(|error| format!("{printed_path}: {error}"))?;
        eprintln!("{}", self.chosen.told());
        Ok(true)
    }
}

/// The sheet of the gate: document 01's lines, exponents out of range, slips, every
/// byte as a line but the newline, lines about as long as a text may be, and empty
/// ones.
pub fn write_files(lines_path: &str, printed_path: &str) -> Result<bool, String> {
    let mut sheet = Sheet::default();
    for text in EXAMPLE {
        sheet.put(text.as_bytes(), None)?;
    }
    for (request, answer) in card_a::requests() {
        let Request::Total { text, .. } = request else {
            continue;
        };
        sheet.put(&text, Some(answer))?;
    }
    for (text, number, place) in EXPONENTS.into_iter().chain(SLIPS) {
        sheet.put(text.as_bytes(), Some(Answer::refusal(number, place)))?;
    }
    for byte in (0..=u8::MAX).filter(|byte| *byte != NEWLINE) {
        sheet.put(&[byte], None)?;
    }
    sheet.put(b"1s\r", None)?;
    sheet.put(b"1s \r", None)?;
    for count in DIGITS {
        sheet.put(&vec![b'7'; count], None)?;
        sheet.put(b"", None)?;
        sheet.put(b"5ms ago", None)?;
    }
    sheet.put(b"1s and 200ms", None)?;
    sheet.write_files(lines_path, printed_path)
}

/// A sheet of so many made lines.
pub fn write_made(
    seed: u64,
    count: u64,
    lines_path: &str,
    printed_path: &str,
) -> Result<bool, String> {
    let mut random = Random::new(seed);
    let offer = Offer::new(card_a());
    let mut sheet = Sheet::default();
    for _ in 0..count {
        let text = make_text(&mut random, &offer).bytes;
        if !text.contains(&NEWLINE) {
            sheet.put(&text, None)?;
        }
    }
    sheet.put(b"1s and 200ms", None)?;
    sheet.write_files(lines_path, printed_path)
}
