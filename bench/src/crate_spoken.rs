//! As crate_readings, with the numeral `five` beside card A.
//!
//! ```text
//! crate_spoken ROUNDS TEXT
//! ```

mod card_a;
mod often;

use std::process::ExitCode;

use fundu_core::config::NumbersLike;
use fundu_core::time::Multiplier;

use card_a::Units;

struct Five;

impl NumbersLike for Five {
    fn get(&self, input: &str) -> Option<Multiplier> {
        match input {
            "five" => Some(Multiplier(5, 0)),
            _ => None,
        }
    }
}

fn main() -> ExitCode {
    often::run(Units, Some(&Five))
}
