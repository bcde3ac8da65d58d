//! A line program over fundu-core: texts from standard input, one a line, and
//! for each a line with number, position, sign, seconds and nanoseconds under
//! card A, the parser set up once. The crate gives no position for 1, 3, 4 and
//! 6; there 0 is printed.

mod card_a;

use std::io::{self, BufRead, BufWriter, Write};
use std::process::ExitCode;

use card_a::{Units, config_of_card_a, parts_of};
use fundu_core::error::ParseError;
use fundu_core::parse::Parser;

/// Document 01's number and position of the crate's refusal.
fn number_and_position(error: &ParseError) -> (u8, usize) {
    match error {
        ParseError::Empty => (1, 0),
        ParseError::Syntax(place, _) => (2, *place),
        ParseError::PositiveExponentOverflow => (3, 0),
        ParseError::NegativeExponentOverflow => (4, 0),
        ParseError::NegativeNumber => (5, 0),
        _ => (6, 0),
    }
}

fn answer_sheet() -> io::Result<()> {
    let parser = Parser::with_config(config_of_card_a(&["and"]));
    let mut sheet = io::stdin().lock();
    let mut out = BufWriter::new(io::stdout().lock());
    let mut line = String::new();
    while sheet.read_line(&mut line)? > 0 {
        let text = line.strip_suffix('\n').unwrap_or(&line);
        match parser.parse_multiple(text, &Units, None, None) {
            Ok(length) => {
                let (sign, seconds, nanoseconds) = parts_of(length);
                writeln!(out, "0 {} {sign} {seconds} {nanoseconds}", text.len())?;
            }
            Err(error) => {
                let (number, position) = number_and_position(&error);
                writeln!(out, "{number} {position} + 0 0")?;
            }
        }
        line.clear();
    }
    out.flush()
}

fn main() -> ExitCode {
    match answer_sheet() {
        Ok(()) => ExitCode::SUCCESS,
        Err(error) => {
            eprintln!("{error}");
            ExitCode::FAILURE
        }
    }
}
