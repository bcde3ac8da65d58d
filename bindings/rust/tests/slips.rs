//! The six slips, 17 to 22: each of their causes, and beside each a text that has
//! none or another.

use herovinga::{Card, CardBuilder, Kind, Length, Refusal};

/// Card A's switches, delimiters and conjunction, with a unit and a numeral.
fn hall() -> CardBuilder {
    Card::builder()
        .negatives(true)
        .fractions(true)
        .exponents(true)
        .infinity(true)
        .ago(true)
        .before_unit(true)
        .inner(" ")
        .outer(" ")
        .conjunction("and")
        .unit("s", Kind::Second, 1, 0)
        .numeral("five", 5, 0)
}

fn card() -> Card {
    built(hall())
}

fn built(builder: CardBuilder) -> Card {
    builder.build().expect("the card is accepted")
}

/// Each text is refused so, in total, in its last part from its place, and added
/// to a shift total, which stays as it was.
fn refused(card: &Card, number: u8, texts: &[(&str, usize)]) {
    for (text, position) in texts {
        let refusal = Refusal {
            number,
            position: *position,
        };
        assert_eq!(card.read_total(text), Err(refusal), "`{text}`");
        let last = card.read_part(text, place_of_last_part(card, text));
        assert_eq!(last, Err(refusal), "`{text}`");
        let mut shift = Length::MIN;
        assert_eq!(card.add_total(&mut shift, text), Err(refusal), "`{text}`");
        assert_eq!(shift, Length::MIN, "`{text}`");
    }
}

/// Where the part begins that is not read.
fn place_of_last_part(card: &Card, text: &str) -> usize {
    let parts = card.parts(text).map_while(Result::ok);
    parts.last().map_or(0, |part| part.next)
}

/// Each text is read to so many seconds.
fn read(card: &Card, texts: &[(&str, u64)]) {
    for (text, seconds) in texts {
        assert_eq!(
            card.read_total(text),
            Length::new(false, *seconds, 0),
            "`{text}`"
        );
    }
}

/// 17: the text ends straight after a sign, or within an exponent.
#[test]
fn texts_that_end() {
    let card = card();
    read(&card, &[("+1", 1), ("1s+1", 2), ("1e0", 1), ("1E+1", 10)]);
    refused(
        &card,
        17,
        &[("+", 1), ("-", 1), ("1+", 2), ("1s -", 4), ("1s and+", 7)],
    );
    refused(&card, 17, &[("inf -", 5), ("five s+", 7)]);
    refused(
        &card,
        17,
        &[("1e", 2), ("1E", 2), ("1e+", 3), ("1E-", 3), ("1.5e", 4)],
    );
    refused(&card, 17, &[("1s 2e-", 6), ("five s 2e", 9)]);
    refused(&card, 6, &[("+x", 1), ("+ ", 1)]);
}

/// 18: delimiters that a step takes end the text.
#[test]
fn delimiters_at_the_end() {
    let card = card();
    read(&card, &[("1 s", 1), ("1s 1s", 2), ("1s and 1s", 2)]);
    // Before a unit, before `ago`, behind it, behind a numeral.
    refused(&card, 18, &[("1 ", 1), ("1.5  ", 3), ("2s 1 ", 4)]);
    refused(&card, 18, &[("1s ", 2), ("1s  ", 2), ("1s ago ", 6)]);
    refused(&card, 18, &[("five ", 4), ("1s five ", 7), ("five s ", 6)]);
    // Of a connection, and behind a conjunction.
    refused(&card, 18, &[("inf ", 3), ("-INFINITY ", 9)]);
    refused(&card, 18, &[("1s and ", 6), ("1s AND  ", 6)]);
    // After a sign where that is on, and of a connection where all else is off.
    let on = built(hall().after_sign(true));
    refused(&on, 18, &[("+ ", 1), ("1s -  ", 4)]);
    let off = built(hall().ago(false).before_unit(false));
    refused(&off, 18, &[("1 ", 1), ("1s ", 2)]);
    // No step takes these.
    refused(&card, 6, &[(" ", 0), ("+ ", 1), ("1s x ", 3)]);
}

/// 19: a conjunction ends the text, or is not followed as it should be.
#[test]
fn conjunctions() {
    let card = card();
    read(&card, &[("1s and 1s", 2), ("1s and1s", 2), ("1s And+1", 2)]);
    refused(&card, 19, &[("1s and", 3), ("1s  AND", 4), ("inf and", 4)]);
    refused(&card, 19, &[("1s ago and", 7), ("five s and", 7)]);
    refused(&card, 19, &[("1s android", 6), ("1s and.5", 6)]);
    refused(&card, 19, &[("1s andfive s", 6), ("1s and 2s andx", 13)]);
    refused(&card, 6, &[("1s an", 3)]);
    let first_fits = built(hall().conjunction("or").conjunction("ora"));
    refused(&first_fits, 19, &[("1s or", 3), ("1s ora 1s", 5)]);
}

/// 20: a point with a digit on neither side, or while fractions are off.
#[test]
fn fractions() {
    let on = card();
    read(&on, &[("1.", 1), ("1.0", 1), ("1.s", 1), ("0.5.5", 1)]);
    refused(&on, 20, &[(".", 0), (".s", 0), ("+.", 1), ("1..", 2)]);
    refused(&on, 20, &[("1s .", 3), ("1s and -.", 8), ("five s .e1", 7)]);
    let off = built(hall().fractions(false));
    read(&off, &[("15", 15)]);
    refused(&off, 20, &[(".", 0), ("1.", 1), (".5", 0), ("-1.5", 2)]);
    refused(&off, 20, &[("1s 2.5", 4), ("five s 2.", 8)]);
}

/// 21: a byte in the place of an exponent's digit, or an exponent while they are
/// off.
#[test]
fn exponents() {
    let on = card();
    read(&on, &[("1e1", 10), ("1E+1s", 10)]);
    refused(&on, 21, &[("1ex", 2), ("1E ", 2), ("1e.5", 2), ("1es", 2)]);
    refused(&on, 21, &[("1e+x", 3), ("1E--1", 3), ("1s 2ex", 5)]);
    refused(&on, 21, &[("five s 2e-x", 10)]);
    let off = built(hall().exponents(false));
    read(&off, &[("1", 1)]);
    refused(&off, 21, &[("1e", 1), ("1E5", 1), ("1.5e5", 3)]);
    refused(&off, 21, &[("1s 2e5", 4), ("five s 2E", 8)]);
}

/// 22: infinity with a wrong letter, cut short, or with something directly behind
/// it.
#[test]
fn infinity() {
    let on = card();
    for text in ["inf", "infinity", "InFiNiTy", "INF 1s"] {
        assert_eq!(on.read_total(text), Ok(Length::MAX), "`{text}`");
    }
    refused(&on, 22, &[("infi", 0), ("INFIN", 0), ("-infinit", 1)]);
    refused(&on, 22, &[("1s infini", 3), ("five s infi", 7)]);
    refused(&on, 22, &[("infx", 3), ("infix", 4), ("infinx", 5)]);
    refused(&on, 22, &[("infinix", 6), ("InfinitX", 7)]);
    refused(&on, 22, &[("inf+1", 3), ("inf1", 3), ("1s infs", 6)]);
    refused(&on, 22, &[("infinityx", 8), ("infinity-1", 8)]);
    let off = built(hall().infinity(false));
    refused(&off, 6, &[("infi", 0), ("inf+1", 0)]);
}

/// The first from the left is given, and in its part it comes before 5.
#[test]
fn order() {
    let card = built(hall().negatives(false));
    refused(&card, 19, &[("-1s and", 4)]);
    refused(&card, 17, &[("-1e", 3)]);
    refused(&card, 22, &[("-infi", 1), ("infx 1e", 3)]);
    refused(&card, 20, &[(". 1ex", 0)]);
    refused(&card, 21, &[("1ex .", 2)]);
    refused(&card, 5, &[("-1s 1e", 0), ("-1s .", 0), ("-1s infi", 0)]);
    refused(&card, 3, &[("1e99999 1e", 6)]);
    refused(&card, 15, &[("five x 1e", 5)]);
}
