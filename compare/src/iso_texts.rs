//! Texts for the reader of ISO timings: the request's own examples with their
//! answers, each rule from both sides, every byte at each kind of place, the
//! limits of the value in each unit, long texts, and damaged right ones.

use crate::plain::MOST_TEXT_BYTES;
use crate::rng::Random;

const SEED: u64 = 8_601;
const DAMAGED: usize = 1_000;

/// The first number that is too many seconds is one more than this.
const MOST_SECONDS: &str = "18446744073709551615";

/// A number that is too large in every unit.
const HUGE: &str = "99999999999999999999";

/// The examples of the request, and a few more with answers written by hand:
/// text, number, position, seconds, nanoseconds.
pub const EXAMPLES: [(&str, u8, u64, u64, u64); 22] = [
    ("P1Y", 13, 2, 0, 0),
    ("P1.5M", 13, 4, 0, 0),
    ("PT1Y", 12, 3, 0, 0),
    ("P1D1M", 12, 3, 0, 0),
    ("PY", 12, 1, 0, 0),
    ("P1.Y", 12, 3, 0, 0),
    ("PT1.5H3M", 12, 6, 0, 0),
    ("PT1M1H", 12, 5, 0, 0),
    ("PT1S1M", 12, 4, 0, 0),
    ("P1W1D", 12, 3, 0, 0),
    ("P1DT", 12, 4, 0, 0),
    ("P", 12, 1, 0, 0),
    ("", 12, 0, 0, 0),
    ("PT.5S", 12, 2, 0, 0),
    ("pT1S", 12, 0, 0, 0),
    ("P0D", 0, 3, 0, 0),
    ("PT0,1S", 0, 6, 0, 100_000_000),
    ("P1W", 0, 3, 604_800, 0),
    ("P2DT3H4M5.6S", 0, 12, 183_845, 600_000_000),
    (
        "PT18446744073709551615.9999999999S",
        0,
        34,
        u64::MAX,
        999_999_999,
    ),
    ("PT18446744073709551616.9999999999S", 14, 0, 0, 0),
    ("PT18446744073709551616S", 14, 0, 0, 0),
];

/// Each rule of the request from both sides, where no other group has it.
#[rustfmt::skip]
const BY_HAND: &[&str] = &[
    // a component alone, and every two that may follow each other or not
    "P1D", "PT1H", "PT1M", "PT1S", "P1H", "P1M", "P1S", "PT1D", "PT1W", "P1DT1H", "P1DT1M",
    "P1DT1S", "P1DT1D", "P1DT1W", "P1DT1Y", "PT1H1M", "PT1H1S", "PT1M1S", "PT1H1M1S",
    "P1DT1H1M1S", "PT1H1H", "PT1M1M", "PT1S1S", "PT1S1H", "PT1H1D", "P1D1D", "P1D1W", "P1D1H",
    "P1D1Y", "P1W1W", "P1WT1H", "P1WT", "PT1H1W", "PT1H1Y", "PT1M1Y", "PT1S1Y", "PT1H1M1M",
    // `T` with nothing, twice, or straight before a letter
    "PT", "PTT1S", "PT1HT1M", "PT1ST", "P1DTT1S", "T1S", "PTS", "PTM", "PTH", "PTY", "PD", "PW",
    "PM", "PTD",
    // `Y` and `M`: after a number, after its fraction, after a mark, after days, after a year, small
    "P1M1D", "P1Y1M", "P1YT1H", "P1MT1M", "P12Y", "P012M", "P1,5Y", "P1.50M", "P1.M", "P1,M",
    "P1..5M", "P1.5.Y", "P1.5,M", "P1DM", "P1DY", "P1WY", "P1WM", "P1D1.5M", "PT1.5Y", "PT1.5M",
    "P1DT1.5M", "P1DT1.5Y", "P1y", "P1m", "P1DTM", "P1DTY", "M", "Y", "1M", "1Y", "P1D2", "P1D2Y",
    // numbers: one digit or more, a mark only in the last, digits on both sides of it
    "PT1", "PT12", "PT1.", "PT1,", "PT1.5", "PT1,5", "PT1.S", "PT.S", "PT,5S", "PT1..5S",
    "PT1.,5S", "PT1.5.5S", "PT1.5,5S", "P.5D", "P1.5D", "P1,5D", "P1.5W", "P1,5W", "P1.5DT1H",
    "P1,5DT", "P1.5D1", "PT1.5H", "PT1,5H", "PT1,5H1S", "PT1.5M1S", "PT1H1.5M", "PT1.0H0M",
    "PT1.5H1.5M", "PT1H1.5S", "P1DT1.5H", "P1DT1H1M1,5S", "P1.5WT", "P1.5W1D", "P1.", "P1.5",
    "P1,", "P1", "P0.0D", "P00W", "PT0.0H", "PT0M", "PT0S", "PT00H00M00.000S", "P00DT00H00M00S",
    // no sign, no space, capitals only, nothing before or behind
    "-P1D", "+P1D", "P-1D", "P+1D", "PT-1S", "PT+1S", " P1D", "P1D ", "P 1D", "P1 D", "P1D T1H",
    "PT 1H", "p1d", "P1d", "P1w", "Pt1S", "PT1h", "PT1m", "PT1s", "PP1D", "P1DP", "P1DP1D",
    "P1D\n", "P1D\0", "\u{ff10}", "P\u{661}D", "1D", "1", "1 s", "D", "W", ".", ",", "PT1e3S",
    "PT1E3S", "PTInfS",
    // what is rounded away and what is not
    "PT0.000000001S", "PT0.0000000009S", "PT0.0000000010S", "PT0.9999999999S", "PT0.1234567899S",
    "PT0.123456789S", "PT1.000000000S", "PT0.0000000001M", "PT0.00000000002M",
    "PT0.000000000016M", "PT0.000000000017M", "PT0.1M", "PT0.01M", "PT0.5H", "P0.5D", "P0.5W",
    "P0.1W", "PT0.3333333333H", "P0.000011574074074074D", "P0.000011574074074075D",
    "P0.0000016534391534391534W", "P0.0000016534391534391535W", "PT1H1M0.9999999999S",
    "P1DT23H59M59.999999999S", "PT59.9999999999S", "PT60S", "PT3600S", "PT60M", "PT24H", "P7D",
    "PT86400S", "PT604800S",
    // the largest length by several units, and one nanosecond or one of a unit more
    "P213503982334601DT7H0M15.999999999S", "P213503982334601DT7H0M15.9999999999S",
    "P213503982334601DT7H0M16S", "P213503982334601DT25215.5S", "P213503982334601DT25216S",
    "P213503982334601DT8H", "P213503982334601DT7H1M", "PT5124095576030431H15S",
    "PT5124095576030431H15.999999999S", "PT5124095576030431H16S", "PT5124095576030431H1M",
    "PT307445734561825860M15S", "PT307445734561825860M16S", "P0DT18446744073709551615S",
    "P1DT18446744073709551615S", "PT1H18446744073709551615S", "PT1M18446744073709551615S",
    "PT0H0M18446744073709551615.9S",
    // numbers that come to little if their product is held in 64 bits
    "P144115188075855872W", "P144115188075855873W", "P144115188075855872D",
    "P144115188075855873D", "PT1152921504606846976H", "PT1152921504606846977H",
    "PT4611686018427387904M", "PT4611686018427387905M", "PT18446744073709551621S",
    "PT36893488147419103232S", "PT36893488147419103233S",
    "PT340282366920938463463374607431768211456S", "PT340282366920938463463374607431768211457S",
    "PT340282366921S", "PT18446744073.709551616S", "P340282366920938463463374607431768211456DT1S",
    "PT9223372036854775808S", "PT9223372036854775808.5M", "PT9223372036854775807H",
    // 14 comes last
    "PT99999999999999999999", "PT99999999999999999999S1", "P99999999999999999999Y",
    "P99999999999999999999M", "P99999999999999999999DT", "P99999999999999999999DT1Y",
    "P99999999999999999999DT1S", "P99999999999999999999.", "P99999999999999999999.5D",
];

/// Before a byte and behind it: each kind of place, once with what a right text
/// has there left standing and once at the text's end.
const PLACES: [(&str, &str); 14] = [
    ("", "P1D"),
    ("", ""),
    ("P", "1D"),
    ("P", ""),
    ("PT", "1S"),
    ("P1", "2D"),
    ("P1", ""),
    ("P1.5", ""),
    ("PT1", "2S"),
    ("PT1.", "5S"),
    ("PT1.2", "5S"),
    ("P1D", "T1S"),
    ("PT1H", "1M"),
    ("PT1S", ""),
];

/// The bytes of which every text of up to three is tried behind `P`.
const ALPHABET: &[u8] = b"T1.DHMSWYP";

/// The letters of the units with what stands before the number, and their
/// seconds.
const UNITS: [(&str, char, u64); 5] = [
    ("P", 'W', 604_800),
    ("P", 'D', 86_400),
    ("PT", 'H', 3_600),
    ("PT", 'M', 60),
    ("PT", 'S', 1),
];

/// How many digits fractions have at the limits of the value, short ones and a
/// long one. Others are as long as a text may be.
const SHORT_FRACTIONS: [usize; 12] = [0, 1, 2, 8, 9, 10, 11, 19, 20, 38, 39, 100];
const LONG_FRACTION: usize = 4_000;

/// All texts, each once.
pub fn texts() -> Vec<Vec<u8>> {
    let mut texts: Vec<Vec<u8>> = EXAMPLES.iter().map(|case| case.0.into()).collect();
    texts.extend(BY_HAND.iter().map(|text| (*text).into()));
    texts.extend(every_byte());
    texts.extend(every_short_text());
    texts.extend(limits());
    texts.extend(leading_zeros());
    texts.extend(sizes());
    texts.extend(damaged());
    let mut seen = std::collections::HashSet::new();
    texts.retain(|text| seen.insert(text.clone()));
    texts
}

fn every_byte() -> Vec<Vec<u8>> {
    let at = |(before, behind): &(&str, &str)| {
        let (before, behind) = (before.as_bytes().to_vec(), behind.as_bytes().to_vec());
        (0..=255).map(move |byte| [before.clone(), vec![byte], behind.clone()].concat())
    };
    PLACES.iter().flat_map(at).collect()
}

fn every_short_text() -> Vec<Vec<u8>> {
    let mut texts = vec![b"P".to_vec()];
    let mut longest = texts.clone();
    for _ in 0..3 {
        let longer = |text: &Vec<u8>| {
            let text = text.clone();
            ALPHABET
                .iter()
                .map(move |byte| [text.clone(), vec![*byte]].concat())
        };
        longest = longest.iter().flat_map(longer).collect();
        texts.extend(longest.clone());
    }
    texts
}

/// For each unit the largest number below a value and the next one, with so many
/// decimals: of the first length that is too large, of one second, and of one
/// nanosecond. With many decimals it is the last that decides.
fn limits() -> Vec<Vec<u8>> {
    let mut texts = Vec::new();
    for (before, letter, seconds) in UNITS {
        let mut both_sides = |below: &str, decimals: usize| {
            let number = divided(below, seconds);
            for number in [number.clone(), successor(&number)] {
                let number = pointed(&number, decimals);
                texts.push(format!("{before}{number}{letter}").into_bytes());
            }
        };
        for decimals in SHORT_FRACTIONS {
            both_sides(&format!("{MOST_SECONDS}{}", "9".repeat(decimals)), decimals);
            if decimals > 0 {
                both_sides(&"9".repeat(decimals), decimals);
            }
            if decimals > 9 {
                both_sides(&"9".repeat(decimals - 9), decimals);
            }
        }
        let nines = "9".repeat(LONG_FRACTION);
        both_sides(&format!("{MOST_SECONDS}{nines}"), LONG_FRACTION);
        let longest = MOST_TEXT_BYTES - format!("{before}0.{letter}").len();
        both_sides(&"9".repeat(longest - 9), longest);
        both_sides(HUGE, 0);
    }
    texts
}

/// The digits of a number over a small one, rounded down.
fn divided(digits: &str, by: u64) -> String {
    let mut rest = 0;
    let mut quotient = String::new();
    for digit in digits.bytes() {
        rest = rest * 10 + u64::from(digit - b'0');
        quotient.push(char::from(b'0' + (rest / by) as u8));
        rest %= by;
    }
    let without_zeros = quotient.trim_start_matches('0');
    without_zeros.to_string()
}

/// The digits of the next number.
fn successor(digits: &str) -> String {
    let low = digits.trim_end_matches('9');
    let nines = "0".repeat(digits.len() - low.len());
    match low.bytes().last() {
        Some(digit) => format!("{}{}{nines}", &low[..low.len() - 1], char::from(digit + 1)),
        None => format!("1{nines}"),
    }
}

/// A number with its last digits behind a mark.
fn pointed(digits: &str, decimals: usize) -> String {
    let digits = format!("{digits:0>width$}", width = decimals + 1);
    let (whole, fraction) = digits.split_at(digits.len() - decimals);
    let mark = match decimals {
        0 => "",
        even if even % 2 == 0 => ".",
        _ => ",",
    };
    format!("{whole}{mark}{fraction}")
}

fn leading_zeros() -> Vec<Vec<u8>> {
    let mut texts = Vec::new();
    for zeros in [1, 2, 10, 20, 40, 300, 4_000] {
        let zeros = "0".repeat(zeros);
        texts.push(format!("P{zeros}1W"));
        texts.push(format!("PT{zeros}S"));
        if zeros.len() <= 300 {
            texts.push(format!("P{zeros}7DT{zeros}8H{zeros}9M{zeros}1.5S"));
            texts.push(format!("PT{zeros}{MOST_SECONDS}.9S"));
            texts.push(format!("PT{zeros}18446744073709551616S"));
            texts.push(format!("PT{zeros}.{zeros}S"));
            texts.push(format!("P{zeros}Y"));
        }
    }
    texts.into_iter().map(String::into_bytes).collect()
}

/// Texts as long as a text may be, one byte shorter and one longer: right ones,
/// wrong ones at their start and at their end, and ones that stop short.
fn sizes() -> Vec<Vec<u8>> {
    let mut texts = Vec::new();
    for size in [MOST_TEXT_BYTES - 1, MOST_TEXT_BYTES, MOST_TEXT_BYTES + 1] {
        let mut with = |before: &str, byte: char, behind: &str| {
            let filled = String::from(byte).repeat(size - before.len() - behind.len());
            texts.push(format!("{before}{filled}{behind}").into_bytes());
        };
        with("P", '0', "5W");
        with("PT1H2M3.", '7', "S");
        with("PT", '7', "");
        with("P1.", '7', "M");
        with("P", '9', "H");
        with("x", '9', "");
        with("", 'P', "");
    }
    texts.push(vec![b'x'; 5_000]);
    texts
}

/// Right texts made at random, and each of them with a byte dropped, doubled or
/// replaced, with two swapped, or with years or months for days or weeks.
fn damaged() -> Vec<Vec<u8>> {
    let mut random = Random::new(SEED);
    let mut texts = Vec::new();
    for _ in 0..DAMAGED {
        let mut text = right_text(&mut random);
        if texts.len() % 4 == 0 {
            texts.push(text.clone());
        }
        damage(&mut random, &mut text);
        if random.chance(25) && !text.is_empty() {
            damage(&mut random, &mut text);
        }
        texts.push(text);
    }
    texts
}

fn right_text(random: &mut Random) -> Vec<u8> {
    if random.chance(15) {
        let fraction = fraction(random);
        return format!("P{}{fraction}W", digits(random, 12)).into_bytes();
    }
    let there: Vec<bool> = (0..4).map(|_| random.chance(50)).collect();
    let mut kinds: Vec<usize> = (0..4).filter(|kind| there[*kind]).collect();
    if kinds.is_empty() {
        kinds.push(random.below(4) as usize);
    }
    let mut text = "P".to_string();
    for (index, kind) in kinds.iter().enumerate() {
        if *kind > 0 && !text.contains('T') {
            text.push('T');
        }
        text += &digits(random, 20);
        if index + 1 == kinds.len() {
            text += &fraction(random);
        }
        text.push(['D', 'H', 'M', 'S'][*kind]);
    }
    text.into_bytes()
}

/// Few digits mostly, and at times as many as this.
fn digits(random: &mut Random, most: i64) -> String {
    let most = if random.chance(80) { 3 } else { most };
    let count = random.between(1, most);
    let digit = |_| char::from(b'0' + random.below(10) as u8);
    (0..count).map(digit).collect()
}

fn fraction(random: &mut Random) -> String {
    match random.below(4) {
        0 => format!(".{}", digits(random, 25)),
        1 => format!(",{}", digits(random, 25)),
        _ => String::new(),
    }
}

fn damage(random: &mut Random, text: &mut Vec<u8>) {
    let place = random.below(text.len() as u64) as usize;
    let other = random.below(text.len() as u64) as usize;
    match random.below(5) {
        0 => {
            text.remove(place);
        }
        1 => text.insert(place, text[place]),
        2 if random.chance(80) => text[place] = *random.pick(b"PTWDHMSY0123456789.,+- pt"),
        2 => text[place] = random.below(256) as u8,
        3 => text.swap(place, other),
        _ => {
            let long = *random.pick(b"YM");
            let days = text.iter_mut().filter(|byte| matches!(byte, b'D' | b'W'));
            days.for_each(|byte| *byte = long);
        }
    }
}
