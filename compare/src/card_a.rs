//! Card A of document 01 and its readings.

use crate::crate_side::{CrateAnswer, ask};
use crate::request::{Answer, ByteSet, Card, Conjunctions, Length, Request, Switches};
use crate::slips::folded;
use crate::table::{Row, table_bytes};

/// All switches on but the one after a sign; both sets hold the space.
pub fn card_a() -> Card {
    let rows = [
        row("ns", 0, 1, 0),
        row("ms", 2, 1, 0),
        row("s", 3, 1, 0),
        row("min", 4, 1, 0),
        row("turn", 2, 123, -1),
        row("block", 3, 10_000_000_000, 0),
    ];
    Card {
        switches: Switches {
            negatives: true,
            fractions: true,
            exponents: true,
            infinity: true,
            ago: true,
            sign_delimiter: false,
            unit_delimiter: true,
        },
        inner: ByteSet::of(b" "),
        outer: ByteSet::of(b" "),
        conjunctions: Conjunctions::of(&[b"and".to_vec()]),
        kind: 3,
        hall: table_bytes(&rows),
        line: Vec::new(),
        numerals: Vec::new(),
    }
}

/// Card A on line 7, which has a jaw stroke of 40 ms and a turn of its own.
pub fn line_7() -> Card {
    let rows = [row("jaw", 2, 40, 0), row("turn", 2, 15, 0)];
    Card {
        line: table_bytes(&rows),
        ..card_a()
    }
}

pub fn row(name: &str, kind: u8, coefficient: i64, power: i16) -> Row {
    Row {
        name: name.as_bytes().to_vec(),
        kind,
        coefficient,
        power,
    }
}

/// The table "Card A and its readings" and the line program's example. The table
/// has no place for its 3; that is request three's. For its 2 stand the numbers of
/// request six.
fn readings() -> Vec<(&'static str, Answer)> {
    vec![
        ("61.7ms", reads("61.7ms", '+', 0, 61_700_000)),
        ("", Answer::refusal(1, 0)),
        (".", Answer::refusal(20, 0)),
        ("1.", reads("1.", '+', 1, 0)),
        ("1e-32768", reads("1e-32768", '+', 0, 0)),
        ("1e32768", Answer::refusal(3, 6)),
        (
            "18446744073709551615s",
            reads("18446744073709551615s", '+', u64::MAX, 0),
        ),
        (
            "18446744073709551616s",
            reads("18446744073709551616s", '+', u64::MAX, 999_999_999),
        ),
        ("1.9e-18block", reads("1.9e-18block", '+', 0, 10)),
        ("3turn", reads("3turn", '+', 0, 36_900_000)),
        ("1.5.5", reads("1.5.5", '+', 2, 0)),
        ("1s and 2ms", reads("1s and 2ms", '+', 1, 2_000_000)),
        ("1 and 2", Answer::refusal(6, 2)),
        ("1s android", Answer::refusal(19, 6)),
        ("1s and", Answer::refusal(19, 3)),
        ("-2s ago", reads("-2s ago", '+', 2, 0)),
        ("1s ", Answer::refusal(18, 2)),
        ("inf+1", Answer::refusal(22, 3)),
        ("infi", Answer::refusal(22, 0)),
        ("+1.5-2+0", reads("+1.5-2+0", '-', 0, 500_000_000)),
        ("2s ago", reads("2s ago", '-', 2, 0)),
        (" ", Answer::refusal(6, 0)),
    ]
}

/// The same readings as requests.
pub fn requests() -> Vec<(Request, Answer)> {
    let total = |text: &str| Request::Total {
        card: card_a(),
        text: text.as_bytes().to_vec(),
    };
    readings()
        .into_iter()
        .map(|(text, answer)| (total(text), answer))
        .collect()
}

/// The answer of a total that is read: its position is the text's length.
fn reads(text: &str, sign: char, seconds: u64, nanos: u64) -> Answer {
    let length = Length {
        negative: sign == '-',
        seconds,
        nanos,
    };
    Answer::success(text.len() as u64, length)
}

/// Whether the crate's answer is the one wanted, of which a slip is folded; for 1,
/// 3, 4 and 6 the crate gives no place, so only the number counts there.
pub fn same_answer(crate_answer: &Answer, wanted: &Answer) -> bool {
    Some(crate_answer.number) == folded(wanted.number)
        && crate_answer.length == wanted.length
        && (crate_answer.position.is_none() || crate_answer.position == wanted.position)
}

/// Asks the crate for every reading of card A; true if all are the document's.
pub fn check() -> bool {
    let mut all_as_written = true;
    for (text, wanted) in readings() {
        let request = Request::Total {
            card: card_a(),
            text: text.as_bytes().to_vec(),
        };
        let answer = ask(&request);
        let as_written =
            matches!(&answer, CrateAnswer::Says(answer) if same_answer(answer, &wanted));
        if as_written {
            println!("`{text}` -> {answer} (as document 01)");
        } else {
            println!("`{text}` -> {answer} (DIFFERENT: {wanted} is wanted)");
        }
        all_as_written &= as_written;
    }
    all_as_written
}
