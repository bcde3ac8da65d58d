//! Card A as fundu-core takes it, for the programs whose instructions are counted.

use fundu_core::config::Config;
use fundu_core::time::TimeUnit::{MilliSecond, Minute, NanoSecond, Second};
use fundu_core::time::{Duration, Multiplier, TimeUnit, TimeUnitsLike};

/// The rows of card A.
pub struct Units;

impl TimeUnitsLike for Units {
    fn is_empty(&self) -> bool {
        false
    }

    fn get(&self, identifier: &str) -> Option<(TimeUnit, Multiplier)> {
        match identifier {
            "ns" => Some((NanoSecond, Multiplier(1, 0))),
            "ms" => Some((MilliSecond, Multiplier(1, 0))),
            "s" => Some((Second, Multiplier(1, 0))),
            "min" => Some((Minute, Multiplier(1, 0))),
            "turn" => Some((MilliSecond, Multiplier(123, -1))),
            "block" => Some((Second, Multiplier(10_000_000_000, 0))),
            _ => None,
        }
    }
}

fn is_space(byte: u8) -> bool {
    byte == b' '
}

/// The settings of card A: all switches on but the one after a sign. Exponents,
/// fractions and infinity are on unless they are disabled.
pub fn config_of_card_a<'a>(conjunctions: &'a [&'a str]) -> Config<'a> {
    let mut config = Config::new();
    config.default_unit = Second;
    config.allow_multiple = true;
    config.conjunctions = Some(conjunctions);
    config.inner_delimiter = is_space;
    config.outer_delimiter = is_space;
    config.allow_negative = true;
    config.allow_ago = true;
    config.allow_sign_delimiter = false;
    config.allow_time_unit_delimiter = true;
    config
}

/// Sign, seconds and nanoseconds of a length.
pub fn parts_of(length: Duration) -> (char, u64, u32) {
    let sign = if length.is_negative() { '-' } else { '+' };
    let size = std::time::Duration::try_from(length.abs())
        .expect("a length without sign is a duration of the standard library");
    (sign, size.as_secs(), size.subsec_nanos())
}
