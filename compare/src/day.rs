//! The list of texts that the program `day` adds to the shift total one after
//! another, on line 7, which has a table of its own, and what it prints of each.
//!
//! The total is computed otherwise: the crate's length of each text as one
//! whole number of nanoseconds, summed in 128 bits and held between the
//! smallest and the largest length after each text.

use std::fmt::Write as _;

use crate::card_a::line_7;
use crate::chosen::{Chosen, reading};
use crate::make_text::{Offer, make_text};
use crate::nanoseconds::{clamped_sum, nanoseconds, written};
use crate::request::{Answer, Request};
use crate::rng::Random;
use crate::stored::{self, ONCE, card_lines};

const SEED: u64 = 2_026;
const TEXTS: u64 = 3_000;

/// After so many texts the total is taken off, so that a sum that was held at
/// a limit does not stay there all day.
const TEXTS_TO_A_RESET: u64 = 50;

/// What the program has room for: a run, and the line behind it.
const ROOM: usize = 16_384;

/// Writes the texts into one file and what is printed of them into another.
pub fn write_files(texts_path: &str, found_path: &str) -> Result<bool, String> {
    let mut chosen = Chosen::default();
    let mut day = Day::new();
    let mut lines = ONCE.to_string() + &card_lines(&line_7());
    let mut found = String::new();
    for _ in 0..TEXTS {
        let text = day.next_text();
        let card = line_7();
        let request = Request::Total { card, text };
        let answer = chosen.answer(&request, None)?.ok_or("a text is left out")?;
        day.add(&answer);
        let (_, _, text) = reading(&request)?;
        let (sizes, bytes) = stored::text(text, ROOM)?;
        let _ = writeln!(lines, "{sizes}\n{bytes}");
        let position = answer.position.ok_or("an answer has no position")?;
        let _ = writeln!(found, "{} {position} {}", answer.number, written(day.total));
    }
    stored::write_files([(texts_path, lines), (found_path, found)])?;
    eprintln!("{}", chosen.told());
    eprintln!("{}", day.told());
    Ok(true)
}

struct Day {
    random: Random,
    offer: Offer,
    total: i128,
    texts: u64,
    refused: u64,
    held: u64,
}

impl Day {
    fn new() -> Self {
        Self {
            random: Random::new(SEED),
            offer: Offer::new(line_7()),
            total: 0,
            texts: 0,
            refused: 0,
            held: 0,
        }
    }

    /// Three in four as operators type them, the others of any kind.
    fn next_text(&mut self) -> Vec<u8> {
        self.texts += 1;
        if self.texts.is_multiple_of(TEXTS_TO_A_RESET) {
            return written(-self.total).into_bytes();
        }
        if self.random.chance(25) {
            return make_text(&mut self.random, &self.offer).bytes;
        }
        self.typed().into_bytes()
    }

    fn typed(&mut self) -> String {
        let random = &mut self.random;
        let tenths = random.below(5_000);
        let seconds = random.below(100);
        match random.below(7) {
            0 => format!("{}.{}ms", tenths / 10, tenths % 10),
            1 => format!("{tenths}ms ago"),
            2 => format!("{seconds}s and {tenths}ms"),
            3 => format!("-{seconds}.{tenths:04}"),
            4 => format!("{seconds}min {seconds}s {tenths}ns"),
            5 => format!("{seconds}jaw {seconds}turn"),
            _ => format!("{seconds} and {tenths}"),
        }
    }

    /// A refusal leaves the total as it is.
    fn add(&mut self, answer: &Answer) {
        if answer.number != 0 {
            self.refused += 1;
            return;
        }
        let length = nanoseconds(answer.length);
        let sum = clamped_sum(self.total, length);
        self.held += u64::from(sum != self.total + length);
        self.total = sum;
    }

    fn told(&self) -> String {
        format!(
            "{} texts, {} refused, {} sums held at a limit",
            self.texts, self.refused, self.held
        )
    }
}
