//! Spoken numbers where the crate and request four differ, asked of both: the
//! smallest texts, those beside them, and what each is to say, written by hand.

use crate::card_a::{card_a, row};
use crate::crate_side::under;
use crate::plain;
use crate::request::{ByteSet, Card};
use crate::table::{Row, table_bytes};

/// A text with the crate's answer and the one by the request's words. Where the
/// crate panics its answer is 16.
type Asked = (&'static str, &'static str, &'static str);

/// Above the nineteenth power the crate forgets the typed sign.
const SIGNS: [Asked; 10] = [
    (
        "near s",
        "0 6 + 10000000000000000000 0",
        "0 6 + 10000000000000000000 0",
    ),
    (
        "-near s",
        "0 7 - 10000000000000000000 0",
        "0 7 - 10000000000000000000 0",
    ),
    ("big s", "0 5 MAX", "0 5 MAX"),
    ("+big s", "0 6 MAX", "0 6 MAX"),
    ("-big s", "0 6 MAX", "0 6 MIN"),
    ("-big s ago", "0 10 MIN", "0 10 MAX"),
    ("low s", "0 5 MIN", "0 5 MIN"),
    ("-low s", "0 6 MIN", "0 6 MAX"),
    ("-nil s", "0 6 + 0 0", "0 6 + 0 0"),
    // What is refused later does not depend on the sign.
    ("-big s x", "6 * + 0 0", "6 7 + 0 0"),
];

/// The same with negatives forbidden.
const FORBIDDEN_SIGNS: [Asked; 5] = [
    ("-near s", "5 0 + 0 0", "5 0 + 0 0"),
    ("-big s", "0 6 MAX", "5 0 + 0 0"),
    ("-low s", "5 0 + 0 0", "0 6 MAX"),
    ("low s", "5 0 + 0 0", "5 0 + 0 0"),
    ("-big s x", "6 * + 0 0", "5 0 + 0 0"),
];

/// With ago off the crate takes the stretch of a unit that was not found again,
/// if it is followed by the text's end or by a byte that is an inner delimiter
/// too.
const STRETCHES: [Asked; 9] = [
    ("five,min", "0 8 + 300 0", "0 8 + 300 0"),
    ("1 five,min", "0 10 + 301 0", "0 10 + 301 0"),
    ("1+five,min", "0 10 + 301 0", "0 10 + 301 0"),
    ("1five,min", "6 * + 0 0", "0 9 + 301 0"),
    ("1five,min 1", "0 11 + 302 0", "0 11 + 302 0"),
    ("1five,min+1", "0 11 + 302 0", "0 11 + 302 0"),
    ("1five,min_1", "6 * + 0 0", "0 11 + 302 0"),
    ("1five,x", "6 * + 0 0", "15 6 + 0 0"),
    ("1five,", "6 * + 0 0", "18 5 + 0 0"),
];

/// With ago on that stretch ends at an inner delimiter, as a numeral's does.
const STRETCHES_WITH_AGO: [Asked; 2] = [
    ("1five,min", "0 9 + 301 0", "0 9 + 301 0"),
    ("1five,min_1", "0 11 + 302 0", "0 11 + 302 0"),
];

/// Products at the limits and beyond them: -4611686018427387904 is `half`,
/// 9223372036854775807 `most` and its negative `least`.
const PRODUCTS: [Asked; 16] = [
    (
        "most s",
        "0 6 + 9223372036854775807 0",
        "0 6 + 9223372036854775807 0",
    ),
    (
        "least s",
        "0 7 - 9223372036854775807 0",
        "0 7 - 9223372036854775807 0",
    ),
    (
        "half s",
        "0 6 - 4611686018427387904 0",
        "0 6 - 4611686018427387904 0",
    ),
    // Exactly -9223372036854775808.
    ("half two", "0 8 - 9223372036854775808 0", "16 0 + 0 0"),
    ("-half two", "0 9 + 9223372036854775808 0", "16 0 + 0 0"),
    ("half two x", "6 * + 0 0", "16 0 + 0 0"),
    // Exactly 9223372036854775808, and further out on both sides.
    ("half two ago", "16 0 + 0 0", "16 0 + 0 0"),
    ("most two", "16 0 + 0 0", "16 0 + 0 0"),
    ("least two", "16 0 + 0 0", "16 0 + 0 0"),
    // The first product is out of range, whatever the row is.
    ("most min", "16 0 + 0 0", "16 0 + 0 0"),
    ("most nilmin", "16 0 + 0 0", "16 0 + 0 0"),
    // Powers at the limits and beyond them, by the row and by the kind.
    ("up s", "0 4 MAX", "0 4 MAX"),
    ("up ten", "16 0 + 0 0", "16 0 + 0 0"),
    ("down s", "0 6 + 0 0", "0 6 + 0 0"),
    ("down ms", "16 0 + 0 0", "16 0 + 0 0"),
    ("down back", "16 0 + 0 0", "16 0 + 0 0"),
];

/// Asks the texts; true if both answer each as is written here.
pub fn ask_points() -> Result<bool, String> {
    let ago_off = stretch_card(false);
    let asked: [(&str, Card, &[Asked]); 5] = [
        ("a typed sign and a power above 19", sign_card(true), &SIGNS),
        (
            "the same, negatives off",
            sign_card(false),
            &FORBIDDEN_SIGNS,
        ),
        ("a unit's stretch taken again, ago off", ago_off, &STRETCHES),
        ("the same, ago on", stretch_card(true), &STRETCHES_WITH_AGO),
        ("products at the limits", product_card(), &PRODUCTS),
    ];
    let mut all_as_written = true;
    for (subject, card, texts) in asked {
        println!("spoken numbers, {subject}");
        under(&card, |set_up| {
            for (text, by_the_crate, here) in texts {
                let said = set_up.said_of_total(text).to_string();
                let read = plain::total(&card, text.as_bytes()).to_string();
                let as_written = said == in_full(by_the_crate) && read == in_full(here);
                all_as_written &= as_written;
                let verdict = if as_written {
                    "as written"
                } else {
                    "DIFFERENT"
                };
                println!("    `{text}` crate {said}, plain {read}: {verdict}");
            }
        })?;
    }
    Ok(all_as_written)
}

/// An answer with its MAX or MIN written out.
fn in_full(answer: &str) -> String {
    answer
        .replace("MAX", "+ 18446744073709551615 999999999")
        .replace("MIN", "- 18446744073709551615 999999999")
}

/// Card A with numerals.
fn with_numerals(numerals: &[Row]) -> Card {
    Card {
        numerals: table_bytes(numerals),
        ..card_a()
    }
}

fn sign_card(negatives: bool) -> Card {
    let mut card = with_numerals(&[
        row("near", 3, 1, 19),
        row("big", 3, 1, 20),
        row("low", 3, -1, 20),
        row("nil", 3, 0, 20),
    ]);
    card.switches.negatives = negatives;
    card
}

/// Inner comma and low line, outer space and low line.
fn stretch_card(ago: bool) -> Card {
    let mut card = with_numerals(&[row("five", 3, 5, 0)]);
    card.switches.ago = ago;
    card.inner = ByteSet::of(b",_");
    card.outer = ByteSet::of(b" _");
    card
}

fn product_card() -> Card {
    let most = i64::MAX;
    let mut card = with_numerals(&[
        row("most", 3, most, 0),
        row("least", 3, -most, 0),
        row("half", 3, -(1 << 62), 0),
        row("up", 3, 1, i16::MAX),
        row("down", 3, 1, i16::MIN),
    ]);
    card.hall.extend(table_bytes(&[
        row("two", 3, 2, 0),
        row("nilmin", 4, 0, 0),
        row("ten", 3, 1, 1),
        row("back", 2, 1, 3),
    ]));
    card
}
