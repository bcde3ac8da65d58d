//! Reads one text so many times with fundu-core under card A, the parser set up
//! once, and prints sign, seconds and nanoseconds, or that it is refused.
//!
//! ```text
//! crate_readings ROUNDS TEXT
//! ```

mod card_a;
mod often;

use std::process::ExitCode;

use card_a::Units;

fn main() -> ExitCode {
    often::run(Units, None)
}
