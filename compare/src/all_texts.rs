//! All texts of up to five bytes over an alphabet of sixteen, under six cards on
//! which they come to every step.

use crate::card_a::{card_a, row};
use crate::found::Found;
use crate::request::{ByteSet, Card, Conjunctions, Switches};
use crate::side_by_side::under_card;
use crate::table::{Row, table_bytes};

/// Digits, signs, the point, the exponent's letter, what begins infinity, a
/// letter in both cases, names, and two delimiters.
const ALPHABET: &[u8; 16] = b"017+-.einfsmaA ,";

const MOST_BYTES: usize = 5;

/// How many readings these are: the texts of each size, the empty one too.
pub fn count() -> u64 {
    let sizes = 0..=MOST_BYTES as u32;
    let texts: u64 = sizes.map(|size| 16_u64.pow(size)).sum();
    texts * cards().len() as u64
}

pub fn ask(found: &mut Found) -> Result<(), String> {
    for card in cards() {
        under_card(found, &card, |both| {
            let mut text = Vec::new();
            // The text as a number, its first byte the lowest digit.
            let mut digits = [0; MOST_BYTES];
            for size in 0..=MOST_BYTES {
                for _ in 0..16_u64.pow(size as u32) {
                    text.clear();
                    text.extend(digits[..size].iter().map(|digit| ALPHABET[*digit]));
                    both.total(&text);
                    count_up(&mut digits[..size]);
                }
                both.tell_progress();
            }
        })?;
    }
    Ok(())
}

/// The next number, or zero after the last.
fn count_up(digits: &mut [usize]) {
    for digit in digits {
        *digit = (*digit + 1) % ALPHABET.len();
        if *digit != 0 {
            return;
        }
    }
}

/// Card A; all switches on, two sets that share nothing, and words and names
/// that are prefixes of each other and of `inf`, some of them the line's alone,
/// the hall's alone and of both; all switches off; negatives and infinity
/// forbidden, one set within the other, and a unit `inf`, all units the line's;
/// and two with numerals, which are also names of units, of a word and of
/// infinity, and whose products come to the limits: all switches on and names of
/// both tables, and ago, infinity and negatives forbidden.
fn cards() -> [Card; 6] {
    let all_on = Switches {
        sign_delimiter: true,
        ..card_a().switches
    };
    let all_off = Switches {
        negatives: false,
        fractions: false,
        exponents: false,
        infinity: false,
        ago: false,
        sign_delimiter: false,
        unit_delimiter: false,
    };
    let no_negatives = Switches {
        negatives: false,
        infinity: false,
        ..all_on.clone()
    };
    let no_ago = Switches {
        ago: false,
        ..no_negatives.clone()
    };
    let numerals = table_bytes(&[
        row("a", 3, 5, 0),
        row("s", 3, -1, -1),
        row("i", 3, i64::MAX, 0),
        row("inf", 3, 7, -18),
        row("e", 3, 1, 20),
        row("A", 3, -(1 << 62), 0),
        row("n", 3, 3, i16::MIN),
        row("m", 3, 0, i16::MAX),
    ]);
    let units = [
        row("s", 3, 1, 0),
        row("m", 4, 1, 0),
        row("a", 3, 2, 1),
        row("n", 2, 1, 3),
        row("f", 0, -1, 0),
    ];
    let own = [row("n", 2, -1, 3), row("e", 0, 9, 9), row("a", 3, 1, 0)];
    [
        card_a(),
        card(
            (all_on.clone(), b",", b" ", 2),
            &["a", "am", "i"],
            &[
                row("s", 4, 3, 0),
                row("e", 0, 7, 3),
                row("in", 4, 1, -1),
                row("a", 2, 1, 0),
                row("A", 1, 1, 0),
            ],
            &[
                row("A", 5, 0, 0),
                row("fs", 7, -1, -20),
                row("i", 1, -3, 0),
                row("s", 3, 1, 0),
            ],
        ),
        card(
            (all_off, b" ", b",", 4),
            &["s", "m"],
            &[row("s", 3, -1, 0), row("m", 4, 1, 0), row("ms", 2, 1, 0)],
            &[],
        ),
        card(
            (no_negatives, b" ,", b" ", 7),
            &["am", "a"],
            &[],
            &[
                row("inf", 3, i64::MAX, 0),
                row("n", 6, -5, 4),
                row("m", 0, 1, 9),
                row("nf", 3, 1, i16::MIN),
            ],
        ),
        Card {
            numerals: numerals.clone(),
            ..card((all_on, b" ,", b" ", 3), &["a", "i"], &units, &own)
        },
        Card {
            numerals,
            ..card((no_ago, b",", b" ", 3), &["m"], &units, &[])
        },
    ]
}

fn card(
    (switches, inner, outer, kind): (Switches, &[u8], &[u8], u8),
    words: &[&str],
    hall: &[Row],
    line: &[Row],
) -> Card {
    let words: Vec<Vec<u8>> = words.iter().map(|word| word.as_bytes().to_vec()).collect();
    Card {
        switches,
        inner: ByteSet::of(inner),
        outer: ByteSet::of(outer),
        conjunctions: Conjunctions::of(&words),
        kind,
        hall: table_bytes(hall),
        line: table_bytes(line),
        numerals: Vec::new(),
    }
}
