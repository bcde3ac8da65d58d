//! The list of texts that the program `readings` reads under card A, and what it
//! prints of each.
//!
//! The first line says how often each text is to be read and whether the card
//! is checked in each call: hexadecimal digits, the lowest byte first. Card A
//! follows in its stored form, and then two lines for each text: run and size,
//! and its bytes.

use std::fmt::Write as _;

use crate::card_a::{self, card_a};
use crate::chosen::{Chosen, reading};
use crate::request::{Answer, Request};
use crate::stored::{self, card_lines};

/// The first line of the list: each text once, the card checked once for all.
const READ_ONCE: &str = "0100000000\n";

/// Texts of which the instructions are counted, besides those of document 01.
const COUNTED: [&str; 3] = ["5ms ago", "1s and 200ms", "1min 30s 250ms"];

/// Digits alone, as many as a text may have and one more.
const DIGITS: [usize; 3] = [2_048, 4_096, 4_097];

/// What the program has room for: a run, and the line behind it.
const ROOM: usize = 16_384;

/// Writes the texts into one file and what is printed of them into another.
pub fn write_files(texts_path: &str, found_path: &str) -> Result<bool, String> {
    let mut chosen = Chosen::default();
    let mut lines = READ_ONCE.to_string() + &card_lines(&card_a());
    let mut found = String::new();
    for (request, written) in requests() {
        let Some(answer) = chosen.answer(&request, written)? else {
            continue;
        };
        let (_, _, text) = reading(&request)?;
        let (sizes, bytes) = stored::text(text, ROOM)?;
        let _ = writeln!(lines, "{sizes}\n{bytes}");
        let _ = writeln!(found, "{answer}");
    }
    stored::write_files([(texts_path, lines), (found_path, found)])?;
    eprintln!("{}", chosen.told());
    Ok(true)
}

/// Document 01's readings with their answers, and the other texts.
fn requests() -> Vec<(Request, Option<Answer>)> {
    let mut requests: Vec<(Request, Option<Answer>)> = card_a::requests()
        .into_iter()
        .map(|(request, answer)| (request, Some(answer)))
        .collect();
    let mut texts: Vec<Vec<u8>> = COUNTED.map(|text| text.as_bytes().to_vec()).to_vec();
    for count in DIGITS {
        texts.push(vec![b'7'; count]);
        texts.push([b"0.".to_vec(), vec![b'7'; count - 2]].concat());
    }
    for text in texts {
        let card = card_a();
        requests.push((Request::Total { card, text }, None));
    }
    requests
}
