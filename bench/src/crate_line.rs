//! As crate_readings, with the line's own unit `jaw` before those of card A: the
//! merged table, since the crate has one.
//!
//! ```text
//! crate_line ROUNDS TEXT
//! ```

mod card_a;
mod often;

use std::process::ExitCode;

use fundu_core::time::{Multiplier, TimeUnit, TimeUnitsLike};

use card_a::Units;

struct Merged;

impl TimeUnitsLike for Merged {
    fn is_empty(&self) -> bool {
        false
    }

    fn get(&self, identifier: &str) -> Option<(TimeUnit, Multiplier)> {
        match identifier {
            "jaw" => Some((TimeUnit::MilliSecond, Multiplier(40, 0))),
            other => Units.get(other),
        }
    }
}

fn main() -> ExitCode {
    often::run(Merged, None)
}
