//! What crate_readings, crate_spoken and crate_line share. They are three
//! programs since a caller who has no numerals says so in the call, and one who
//! has no units of the line's own looks up fewer names, of which the compiler
//! makes use only where no call has any.

use std::hint::black_box;
use std::process::ExitCode;

use fundu_core::config::NumbersLike;
use fundu_core::parse::Parser;
use fundu_core::time::{Duration, TimeUnitsLike};

use crate::card_a::{config_of_card_a, parts_of};

/// The compiler may know neither the card nor that the text is the same each
/// time, and what comes of a round counts as used.
#[inline(always)]
fn read_often(
    rounds: u32,
    text: &str,
    units: impl TimeUnitsLike,
    numerals: Option<&dyn NumbersLike>,
) {
    let units = black_box(units);
    let parser = black_box(Parser::with_config(config_of_card_a(&["and"])));
    for _ in 1..rounds {
        let read = parser.parse_multiple(black_box(text), &units, None, numerals);
        black_box(&read);
    }
    match parser.parse_multiple(text, &units, None, numerals) {
        Ok(length) => print(length),
        Err(_) => println!("refused"),
    }
}

fn print(length: Duration) {
    let (sign, seconds, nanoseconds) = parts_of(length);
    println!("{sign} {seconds} {nanoseconds}");
}

/// A whole program: its words are the rounds and the text.
#[inline(always)]
pub fn run(units: impl TimeUnitsLike, numerals: Option<&dyn NumbersLike>) -> ExitCode {
    let arguments: Vec<String> = std::env::args().skip(1).collect();
    let [rounds, text] = arguments.as_slice() else {
        eprintln!("its words are ROUNDS TEXT");
        return ExitCode::from(2);
    };
    let Ok(rounds) = rounds.parse() else {
        eprintln!("`{rounds}` is no number of rounds");
        return ExitCode::from(2);
    };
    read_often(rounds, text, units, numerals);
    ExitCode::SUCCESS
}
