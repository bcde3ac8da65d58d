//! Document 01's readings under card A.

use herovinga::{Card, Length, Refusal, raw};

fn length(negative: bool, seconds: u64, nanoseconds: u32) -> Result<Length, Refusal> {
    Ok(Length::new(negative, seconds, nanoseconds).expect("a well-formed length"))
}

fn plus(seconds: u64, nanoseconds: u32) -> Result<Length, Refusal> {
    length(false, seconds, nanoseconds)
}

fn minus(seconds: u64, nanoseconds: u32) -> Result<Length, Refusal> {
    length(true, seconds, nanoseconds)
}

fn refused(number: u8, position: usize) -> Result<Length, Refusal> {
    Err(Refusal { number, position })
}

/// The table "Card A and its readings", with request three's place for its 3 and
/// request six's numbers for its 2, the texts of the line program and the text of
/// one space.
fn readings() -> Vec<(&'static str, Result<Length, Refusal>)> {
    vec![
        ("61.7ms", plus(0, 61_700_000)),
        ("", refused(1, 0)),
        (".", refused(20, 0)),
        ("1.", plus(1, 0)),
        ("1e-32768", plus(0, 0)),
        ("1e32768", refused(3, 6)),
        ("18446744073709551615s", plus(u64::MAX, 0)),
        ("18446744073709551616s", Ok(Length::MAX)),
        ("1.9e-18block", plus(0, 10)),
        ("3turn", plus(0, 36_900_000)),
        ("1.5.5", plus(2, 0)),
        ("1s and 2ms", plus(1, 2_000_000)),
        ("1 and 2", refused(6, 2)),
        ("1s android", refused(19, 6)),
        ("1s and", refused(19, 3)),
        ("-2s ago", plus(2, 0)),
        ("1s ", refused(18, 2)),
        ("inf+1", refused(22, 3)),
        ("infi", refused(22, 0)),
        ("+1.5-2+0", minus(0, 500_000_000)),
        ("2s ago", minus(2, 0)),
        (" ", refused(6, 0)),
    ]
}

#[test]
fn totals_are_the_documents() {
    let card = Card::a();
    for (text, wanted) in readings() {
        assert_eq!(card.read_total(text), wanted, "`{text}`");
    }
}

#[test]
fn a_totals_position_is_the_texts_size() {
    let card = Card::a();
    for (text, wanted) in readings() {
        let answer = raw::read_total(
            card.settings(),
            card.hall(),
            card.line(),
            card.numerals(),
            text.as_bytes(),
        );
        let wanted = match wanted {
            Ok(length) => (0, text.len(), length.record()),
            Err(refusal) => (refusal.number, refusal.position, [0; 3]),
        };
        let position = answer.position as usize;
        assert_eq!((answer.number, position, answer.length), wanted, "`{text}`");
    }
}

#[test]
fn the_line_programs_lines() {
    let card = Card::a();
    let lines = ["61.7ms", "1.", ".", "2s ago"].map(|text| {
        let answer = raw::read_total(
            card.settings(),
            card.hall(),
            card.line(),
            card.numerals(),
            text.as_bytes(),
        );
        let [negative, seconds, nanoseconds] = answer.length;
        let sign = if negative == 0 { '+' } else { '-' };
        format!(
            "{} {} {sign} {seconds} {nanoseconds}",
            answer.number, answer.position
        )
    });
    assert_eq!(
        lines,
        ["0 6 + 0 61700000", "0 2 + 1 0", "20 0 + 0 0", "0 6 - 2 0"]
    );
}
