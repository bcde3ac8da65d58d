//! Spoken numbers: what they are read to, and what is refused.

use herovinga::{Card, CardBuilder, Kind, Length, Part, Refusal, raw};

fn refusal(number: u8, position: usize) -> Refusal {
    Refusal { number, position }
}

fn seconds(negative: bool, seconds: u64) -> Length {
    Length::new(negative, seconds, 0).expect("a well-formed length")
}

/// The delimiters, the conjunction and some units of card A.
fn hall() -> CardBuilder {
    Card::builder()
        .negatives(true)
        .infinity(true)
        .ago(true)
        .inner(" ")
        .outer(" ")
        .conjunction("and")
        .unit("ns", Kind::Nanosecond, 1, 0)
        .unit("s", Kind::Second, 1, 0)
        .unit("min", Kind::Minute, 1, 0)
}

fn spoken() -> Card {
    hall()
        .numeral("five", 5, 0)
        .numeral("half", 5, -1)
        .numeral("last", -1, 0)
        .numeral("most", i64::MAX, 0)
        .numeral("vast", 1, i16::MAX)
        .numeral("tiny", 1, i16::MIN)
        .build()
        .expect("the card is accepted")
}

fn build(builder: CardBuilder) -> Refusal {
    builder.build().expect_err("the card is refused")
}

#[test]
fn totals() {
    let card = spoken();
    for (text, wanted) in [
        ("five min", seconds(false, 300)),
        ("+five  min", seconds(false, 300)),
        ("-five min", seconds(true, 300)),
        ("five min ago", seconds(true, 300)),
        ("-five min ago", seconds(false, 300)),
        ("half min", seconds(false, 30)),
        ("last min", seconds(true, 60)),
        ("last min ago", seconds(false, 60)),
        ("1s five min and half min-2", seconds(false, 329)),
        ("tiny s", Length::ZERO),
        ("vast s", Length::MAX),
        ("-vast s", Length::MIN),
        ("most s", seconds(false, i64::MAX as u64)),
        ("inf", Length::MAX),
    ] {
        assert_eq!(card.read_total(text), Ok(wanted), "`{text}`");
    }
}

#[test]
fn refused() {
    let card = spoken();
    for (text, wanted) in [
        // No numeral, or one that no delimiter follows.
        ("six min", refusal(6, 0)),
        ("Five min", refusal(6, 0)),
        ("fivemin", refusal(6, 0)),
        ("five", refusal(6, 0)),
        ("1s -five", refusal(6, 4)),
        ("five ", refusal(18, 4)),
        // No unit behind it.
        ("five x", refusal(15, 5)),
        ("five five min", refusal(15, 5)),
        ("1s and five  5min", refusal(15, 13)),
        // A product out of range, found when the part is over.
        ("most min", refusal(16, 0)),
        ("1s most min 1s", refusal(16, 0)),
        ("tiny ns", refusal(16, 0)),
        ("most min and", refusal(19, 9)),
        ("most x", refusal(15, 5)),
    ] {
        assert_eq!(card.read_total(text), Err(wanted), "`{text}`");
        assert_eq!(card.parts(text).last(), Some(Err(wanted)), "`{text}`");
        let mut shift = Length::MIN;
        assert_eq!(card.add_total(&mut shift, text), Err(wanted), "`{text}`");
        assert_eq!(shift, Length::MIN, "`{text}`");
        let answer = raw::read_total(
            card.settings(),
            card.hall(),
            card.line(),
            card.numerals(),
            text.as_bytes(),
        );
        assert_eq!(answer.length, [0; 3], "`{text}`");
    }
}

#[test]
fn a_forbidden_negative_comes_after_the_product() {
    let card = hall()
        .negatives(false)
        .numeral("five", 5, 0)
        .numeral("most", i64::MAX, 0)
        .build()
        .expect("the card is accepted");
    assert_eq!(card.read_total("five min ago"), Err(refusal(5, 0)));
    assert_eq!(card.read_total("most min ago"), Err(refusal(16, 0)));
    assert_eq!(card.read_total("-most min"), Err(refusal(16, 0)));
}

#[test]
fn parts_and_the_shift_total() {
    let card = spoken();
    let text = "five min and half min ago";
    let parts: Result<Vec<Part>, Refusal> = card.parts(text).collect();
    let part = |length, next| Part { length, next };
    let wanted = [part(seconds(false, 300), 13), part(seconds(true, 30), 25)];
    assert_eq!(parts.as_deref(), Ok(wanted.as_slice()));
    assert_eq!(card.read_part(text, 5), Err(refusal(6, 5)));

    let mut total = seconds(true, 70);
    assert_eq!(card.add_total(&mut total, text), Ok(seconds(false, 200)));
    assert_eq!(total, seconds(false, 200));
}

/// A numeral may have the name of a unit, of a conjunction, or `inf`, which is
/// infinity where that is on.
#[test]
fn names_that_stand_for_something_else_too() {
    let card = |infinity| {
        hall()
            .infinity(infinity)
            .numeral("min", 7, 0)
            .numeral("and", 8, 0)
            .numeral("inf", 9, 0)
            .build()
            .expect("the card is accepted")
    };
    let off = card(false);
    assert_eq!(off.read_total("min min"), Ok(seconds(false, 420)));
    assert_eq!(off.read_total("1min"), Ok(seconds(false, 60)));
    assert_eq!(off.read_total("and s and and s"), Ok(seconds(false, 16)));
    assert_eq!(off.read_total("inf s"), Ok(seconds(false, 9)));
    let on = card(true);
    assert_eq!(on.read_total("inf s"), Err(refusal(6, 4)));
    assert_eq!(on.read_total("inf and 1s"), Ok(Length::MAX));
}

#[test]
fn without_numerals_or_units() {
    let none = hall().build().expect("the card is accepted");
    assert_eq!(none.numerals(), []);
    assert_eq!(none.read_total("five min"), Err(refusal(6, 0)));
    let no_units = Card::builder().inner(" ").numeral("five", 5, 0);
    let no_units = no_units.build().expect("the card is accepted");
    assert_eq!(no_units.read_total("five min"), Err(refusal(15, 5)));
    assert_eq!(no_units.read_total("5"), Ok(seconds(false, 5)));
}

#[test]
fn the_tables_size() {
    let numerals = |count| {
        (0..count).fold(hall(), |builder, number| {
            let letters = [b'a' + number / 26, b'a' + number % 26];
            builder.numeral(letters, number.into(), 0)
        })
    };
    let most = numerals(32).build().expect("the card is accepted");
    assert_eq!(most.read_total("bf s"), Ok(seconds(false, 31)));
    assert_eq!(build(numerals(33)), refusal(7, 100));

    let with = |numerals| {
        let (hall, line) = (most.hall().to_vec(), most.line().to_vec());
        Card::from_words(*most.settings(), hall, line, numerals)
    };
    for size in [1, 32, 47, 49, 1_535, 1_537] {
        let numerals = [most.numerals(), &[0]].concat()[..size].to_vec();
        assert_eq!(with(numerals), Err(refusal(7, 100)), "{size} bytes");
    }
    let whole = with(most.numerals().to_vec());
    assert_eq!(whole.as_ref(), Ok(&most));
}

#[test]
fn rows() {
    let first = || hall().numeral("five", 5, 0);
    for name in ["", "five", "fi5e", "five ", "f_ve", "fünf"] {
        assert_eq!(
            build(first().numeral(name, 6, 0)),
            refusal(7, 69),
            "`{name}`"
        );
    }
    for size in [33, 256 + 4, 300] {
        let name = "n".repeat(size);
        assert_eq!(build(first().numeral(name, 6, 0)), refusal(7, 69), "{size}");
    }
    for size in [16, 17, 32] {
        assert!(first().numeral("n".repeat(size), 6, 0).build().is_ok());
    }
    assert!(first().numeral("Five", -i64::MAX, 0).build().is_ok());
    let least = hall().numeral("least", i64::MIN, 0);
    assert_eq!(build(least), refusal(7, 68));
}

#[test]
fn a_kind_that_is_no_second() {
    let card = spoken();
    for kind in (0..=u8::MAX).filter(|kind| *kind != 3) {
        let mut numerals = card.numerals().to_vec();
        numerals[2 * 48 + 33] = kind;
        let hall = card.hall().to_vec();
        let refused = Card::from_words(*card.settings(), hall, Vec::new(), numerals);
        assert_eq!(refused, Err(refusal(7, 70)), "kind {kind}");
    }
}

/// Settings and units are looked at first, the hall's and the line's, then the
/// size, then the rows.
#[test]
fn the_first_that_is_wrong() {
    let numerals = |card: CardBuilder| (0..33).fold(card, |card, _| card.numeral("1", 1, 0));
    assert_eq!(build(numerals(hall().outer("."))), refusal(7, 65));
    let twice = hall().unit("s", Kind::Second, 1, 0);
    assert_eq!(build(numerals(twice)), refusal(7, 3));
    let of_the_line = hall().line_unit("1", Kind::Second, 1, 0);
    assert_eq!(build(numerals(of_the_line)), refusal(7, 128));
    assert_eq!(build(numerals(hall())), refusal(7, 100));
    assert_eq!(build(hall().numeral("1", 1, 0)), refusal(7, 68));
}
