//! The list of numbers and multipliers that the program `evaluations` reads
//! again: each line a case with the crate's answer.
//!
//! ```text
//! WHOLE.FRACT EXPONENT SIGN COEFFICIENT UP DOWN SIGN SECONDS NANOS
//! ```
//!
//! The digits of the number, and behind a space the other fields as
//! hexadecimal digits with nothing between them: the exponent with its sign,
//! the typed sign, the coefficient with its sign, the multiplier's power as one
//! number up and one down, and the answer. Every line is filled with spaces to
//! one width, so that a program can read a case at a time.

use fundu_core::parse::{DurationRepr, Fract, Whole};
use fundu_core::time::{Multiplier, TimeUnit};

use crate::crate_side::length_of;
use crate::request::{Length, hex};
use crate::rng::Random;
use crate::stored;

/// Bytes of a line, its newline included.
const LINE_BYTES: usize = 112;

/// Cases that only the generator of random numbers picks.
const RANDOM_CASES: usize = 1_200;

struct Case {
    negative: bool,
    whole: String,
    fract: String,
    exponent: i16,
    coefficient: i64,
    power: i16,
}

/// Prints every case with the crate's answer.
pub fn print() {
    for case in cases() {
        let line = line_of(&case);
        assert!(line.len() < LINE_BYTES, "too long for a line: {line}");
        println!("{line:<width$}", width = LINE_BYTES - 1);
    }
}

fn cases() -> Vec<Case> {
    let mut cases = shifts();
    cases.extend(limits());
    cases.extend(easy_errors());
    cases.extend(random());
    cases
}

/// Digits on both sides of the point, on one side, many and few.
const NUMBERS: [(&str, &str); 12] = [
    ("", "5"),
    ("1", ""),
    ("0", "000000000000000001"),
    ("00100", "0010"),
    ("9", "9999999999999999999"),
    ("123456789", "987654321"),
    ("18446744073709551615", ""),
    ("18446744073709551616", "1"),
    ("12345678901234567890123", "45678901234567890123"),
    ("", "00000000000000000000000000001"),
    ("100000000000000000000", ""),
    ("7", "000000000999999999"),
];

/// Every shift around 0, 18, 19 and 20 to either side, and both ends.
fn shifts() -> Vec<Case> {
    let mut places: Vec<i32> = (-42..=42).collect();
    places.extend([
        -65_536, -65_535, -32_769, -32_768, -100, 100, 32_767, 32_768, 65_533, 65_534,
    ]);
    let mut cases = Vec::new();
    for place in places {
        for (index, (whole, fract)) in NUMBERS.iter().enumerate() {
            let (exponent, power) = split(place, index);
            cases.push(Case {
                negative: index % 5 == 4,
                whole: (*whole).to_string(),
                fract: (*fract).to_string(),
                exponent,
                coefficient: [1, -1, 60, 7][index % 4],
                power,
            });
        }
    }
    cases
}

/// A shift as typed exponent and power, in different ways so that both count.
fn split(place: i32, way: usize) -> (i16, i16) {
    let exponent = match way % 3 {
        0 => place.clamp(-32_768, 32_767),
        1 => (place - 9).clamp(-32_768, 32_767),
        _ => place / 2,
    };
    let power = (place - exponent).clamp(-32_768, 32_767);
    let exponent = place - power;
    (exponent as i16, power as i16)
}

/// The largest length and one more, from both sides, for coefficients from 1
/// to the largest: the last number whose product is below the limit, and the
/// next that eighteen decimals can tell from it.
fn limits() -> Vec<Case> {
    const LIMIT_ATTOS: u128 = (1 << 64) * 1_000_000_000_000_000_000;
    let mut cases = Vec::new();
    for coefficient in [1_i64, 2, 60, 604_800, 10_000_000_000, i64::MAX] {
        for signed in [coefficient, -coefficient] {
            cases.push(plain("18446744073709551615", "999999999", signed));
            cases.push(plain("18446744073709551616", "000000000", signed));
            let last = (LIMIT_ATTOS - 1) / coefficient as u128;
            for attos in [last - 1, last, last + 1, last + 1_000_000_000] {
                let whole = (attos / 1_000_000_000_000_000_000).to_string();
                let fract = format!("{:018}", attos % 1_000_000_000_000_000_000);
                cases.push(plain(&whole, &fract, signed));
                // the same number typed with its point elsewhere
                cases.push(Case {
                    exponent: -18,
                    ..plain(&format!("{whole}{fract}"), "", signed)
                });
                cases.push(Case {
                    power: 18,
                    exponent: 18,
                    ..plain("", &format!("{:0>36}", format!("{whole}{fract}")), signed)
                });
            }
        }
    }
    cases
}

fn plain(whole: &str, fract: &str, coefficient: i64) -> Case {
    Case {
        negative: false,
        whole: whole.to_string(),
        fract: fract.to_string(),
        exponent: 0,
        coefficient,
        power: 0,
    }
}

/// What document 01 calls easy errors: 10 ns and not 19, and their neighbours.
fn easy_errors() -> Vec<Case> {
    let mut cases = Vec::new();
    for (whole, fract) in [
        ("1", "9"),
        ("1", "99"),
        ("0", "9"),
        ("2", "0"),
        ("19", ""),
        ("", "19"),
    ] {
        for exponent in -20..=-8 {
            for coefficient in [10_000_000_000, -999_999_999, 1] {
                cases.push(Case {
                    exponent,
                    ..plain(whole, fract, coefficient)
                });
            }
        }
    }
    cases
}

fn random() -> Vec<Case> {
    let mut rng = Random::new(617);
    (0..RANDOM_CASES).map(|_| random_case(&mut rng)).collect()
}

fn random_case(rng: &mut Random) -> Case {
    let exponent = rng.below(61) as i16 - 30;
    let coefficient = match rng.below(4) {
        0 => rng.below(1_000) as i64,
        1 => (rng.next() >> 1) as i64,
        2 => (rng.next() >> (1 + rng.below(60))) as i64,
        _ => [0, 60, 3_600, 86_400][rng.below(4) as usize],
    };
    Case {
        negative: rng.below(2) == 1,
        whole: digits(rng, 24),
        fract: digits(rng, 22),
        exponent,
        coefficient: if rng.below(3) == 0 {
            -coefficient
        } else {
            coefficient
        },
        power: rng.below(41) as i16 - 20,
    }
}

fn digits(rng: &mut Random, most: u64) -> String {
    let count = rng.below(most + 1);
    (0..count)
        .map(|_| char::from(b'0' + rng.below(10) as u8))
        .collect()
}

fn line_of(case: &Case) -> String {
    let up = case.power.max(0).unsigned_abs();
    let down = case.power.min(0).unsigned_abs();
    let fields = [
        stored::flag(case.exponent < 0),
        hex(&case.exponent.unsigned_abs().to_le_bytes()),
        stored::flag(case.negative),
        stored::flag(case.coefficient < 0),
        hex(&case.coefficient.unsigned_abs().to_le_bytes()),
        hex(&up.to_le_bytes()),
        hex(&down.to_le_bytes()),
        stored::length(answer(case)),
    ];
    format!("{}.{} {}", case.whole, case.fract, fields.concat())
}

/// The crate evaluates the spans of the digits, leading zeros dropped as its
/// own reader does.
fn answer(case: &Case) -> Length {
    let text = format!("{}.{}", case.whole, case.fract);
    let zeros = case.whole.bytes().take_while(|byte| *byte == b'0').count();
    let point = case.whole.len();
    let mut repr = DurationRepr {
        unit: Some(TimeUnit::Second),
        is_negative: Some(case.negative),
        whole: Some(Whole(zeros, point)),
        fract: Some(Fract(point + 1, text.len())),
        input: text.as_bytes(),
        exponent: case.exponent,
        multiplier: Multiplier(case.coefficient, case.power),
        ..DurationRepr::default()
    };
    let length = repr.parse().expect("a finite number is always evaluated");
    length_of(length)
}
