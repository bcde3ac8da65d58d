//! The list of texts that the program `iso_list` reads, and what it prints of
//! them and of its lengths.

use std::fmt::Write as _;

use crate::iso;
use crate::iso_lengths;
use crate::iso_texts::{EXAMPLES, texts};
use crate::request::{Answer, Length};
use crate::stored;

/// What the program has room for.
const ROOM: usize = 16_384;

/// The numbers that the reader hands back.
const NUMBERS: [u8; 5] = [0, 8, 12, 13, 14];

/// Writes the texts into one file and what is printed into another.
pub fn write_files(texts_path: &str, found_path: &str) -> Result<bool, String> {
    check_examples()?;
    let texts = texts();
    let mut lines = String::new();
    let mut found = String::new();
    let mut counts = [0_u64; 256];
    for text in &texts {
        let answer = iso::read(text);
        let (sizes, bytes) = stored::text(text, ROOM)?;
        let _ = writeln!(lines, "{sizes}\n{bytes}");
        let _ = writeln!(found, "{answer}");
        counts[usize::from(answer.number)] += 1;
    }
    let _ = writeln!(found, "texts: {}", texts.len());
    for number in NUMBERS {
        let _ = writeln!(
            found,
            "{number} of the reader: {}",
            counts[usize::from(number)]
        );
    }
    found += &iso_lengths::printed();
    stored::write_files([(texts_path, lines), (found_path, found)])?;
    Ok(true)
}

/// The request's examples have to be answered as it says.
fn check_examples() -> Result<(), String> {
    for (text, number, position, seconds, nanos) in EXAMPLES {
        let wanted = Answer {
            number,
            position: Some(position),
            length: Length {
                negative: false,
                seconds,
                nanos,
            },
        };
        let answer = iso::read(text.as_bytes());
        if answer != wanted {
            return Err(format!("`{text}`: {answer}, and the request says {wanted}"));
        }
    }
    Ok(())
}
