//! Each number that is handed back, with its position, and the sentences.

use herovinga::{Card, CardBuilder, Kind, Length, Refusal, raw};

fn refusal(number: u8, position: usize) -> Refusal {
    Refusal { number, position }
}

fn total(card: &Card, text: &str) -> Refusal {
    card.read_total(text).expect_err("the text is refused")
}

fn build(builder: CardBuilder) -> Refusal {
    builder.build().expect_err("the card is refused")
}

#[test]
fn texts() {
    let card = Card::a();
    assert_eq!(total(&card, ""), refusal(1, 0));
    assert_eq!(card.read_part("1s", 2), Err(refusal(1, 2)));
    assert_eq!(total(&card, "1s 2e"), refusal(17, 5));
    assert_eq!(total(&card, "1s 1e32768"), refusal(3, 9));
    assert_eq!(total(&card, "1s 1e-32769"), refusal(4, 10));
    assert_eq!(total(&card, "1s hour"), refusal(6, 3));
    assert_eq!(card.read_part("1s", 3), Err(refusal(10, 3)));
    assert_eq!(
        card.read_part("1s", usize::MAX),
        Err(refusal(10, usize::MAX))
    );
}

/// The digit at which an exponent passes its range, counted in the whole text.
#[test]
fn exponents_out_of_range() {
    let card = Card::a();
    for (text, number, position, place) in [
        ("1e32768", 3, 6, 0),
        ("1e-0032769", 4, 9, 0),
        ("1e99999s", 3, 6, 0),
        ("1s 1e32768", 3, 9, 3),
    ] {
        let refused = refusal(number, position);
        assert_eq!(total(&card, text), refused, "`{text}`");
        assert_eq!(card.read_part(text, place), Err(refused), "`{text}`");
        assert_eq!(card.parts(text).last(), Some(Err(refused)), "`{text}`");
        let mut shift = Length::MIN;
        assert_eq!(card.add_total(&mut shift, text), Err(refused), "`{text}`");
        assert_eq!(shift, Length::MIN, "`{text}`");
    }
    assert_eq!(card.read_total("1e32767"), Ok(Length::MAX));
    assert_eq!(card.read_total("1e-0032768"), Ok(Length::ZERO));
}

#[test]
fn a_forbidden_negative() {
    let card = Card::builder().build().expect("the card is accepted");
    assert_eq!(total(&card, "2-1"), refusal(5, 0));
    assert_eq!(card.read_total("2+1").map(Length::seconds), Ok(3));
}

#[test]
fn the_largest_text_and_one_byte_more() {
    let card = Card::a();
    assert_eq!(card.read_total("0".repeat(4_096)), Ok(Length::ZERO));
    assert_eq!(total(&card, &"0".repeat(4_097)), refusal(8, 4_096));
}

#[test]
fn delimiters() {
    for byte in [b'a', b'Z', b'0', b'9', b'+', b'-', b'.', 128, 255] {
        assert_eq!(build(Card::builder().inner([byte])), refusal(7, 65));
        assert_eq!(build(Card::builder().outer([byte])), refusal(7, 65));
    }
    assert!(Card::builder().inner(" \t\0\x7f").build().is_ok());
}

#[test]
fn conjunctions() {
    let with = |words: &[&str]| words.iter().fold(Card::builder(), CardBuilder::conjunction);
    for words in [
        vec![""],
        vec!["fiftyfive"],
        vec!["a1"],
        vec!["and", "&"],
        vec!["a", "b", "c", "d", "e"],
    ] {
        assert_eq!(build(with(&words)), refusal(7, 66), "{words:?}");
    }
    assert!(with(&["a", "b", "c", "plusplus"]).build().is_ok());
}

#[test]
fn the_default_kind() {
    let mut settings = *Card::a().settings();
    settings[raw::DEFAULT_KIND] = 8;
    let refused = Card::from_words(settings, Vec::new(), Vec::new(), Vec::new());
    assert_eq!(refused, Err(refusal(7, 67)));
    settings[raw::DEFAULT_KIND] = 7;
    let card = Card::from_words(settings, Vec::new(), Vec::new(), Vec::new())
        .expect("the card is accepted");
    assert_eq!(card.read_total("1").map(Length::seconds), Ok(604_800));
}

#[test]
fn the_tables_size() {
    let units = |count| {
        (0..count).fold(Card::builder(), |builder, number| {
            let letters = [b'a' + number / 26, b'a' + number % 26];
            builder.unit(letters, Kind::Second, 1, 0)
        })
    };
    assert!(units(64).build().is_ok());
    assert_eq!(build(units(65)), refusal(7, 64));
    assert_eq!(build(Card::builder().rows(&[1; 47])), refusal(7, 64));
}

#[test]
fn rows() {
    let first = || Card::builder().outer(" ").unit("s", Kind::Second, 1, 0);
    for name in ["", "s", "a b", "a1", "a.b", "a-b", &"n".repeat(33)] {
        let second = first().unit(name, Kind::Second, 1, 0);
        assert_eq!(build(second), refusal(7, 1), "`{name}`");
    }
    assert_eq!(
        build(first().unit("n".repeat(256 + 32), Kind::Second, 1, 0)),
        refusal(7, 1)
    );
    let largest = i64::MAX / 604_800;
    assert!(first().unit("w", Kind::Week, largest, 0).build().is_ok());
    let beyond = first().unit("w", Kind::Week, largest + 1, 0);
    assert_eq!(build(beyond), refusal(7, 1));
    let lowest = first().unit("n", Kind::Nanosecond, 1, i16::MIN);
    assert_eq!(build(lowest), refusal(7, 1));
}

/// A name led by `e` needs exponents, or a delimiter before units; else nobody could type it.
#[test]
fn names_led_by_e() {
    for name in ["eon", "Eon", "e", "E"] {
        let card = || {
            Card::builder()
                .unit("s", Kind::Second, 1, 0)
                .unit(name, Kind::Second, 5, 0)
        };
        let fifteen = |card: CardBuilder, between: &str| {
            let card = card.build().expect("the card is accepted");
            let text = format!("3{between}{name}");
            assert_eq!(
                card.read_total(&text).map(Length::seconds),
                Ok(15),
                "`{text}`"
            );
        };
        assert_eq!(build(card()), refusal(7, 1), "`{name}`");
        assert_eq!(build(card().inner(" ")), refusal(7, 1), "`{name}`");
        assert_eq!(build(card().before_unit(true)), refusal(7, 1), "`{name}`");
        fifteen(card().exponents(true), "e0");
        fifteen(card().before_unit(true).inner(" "), " ");
    }
}

#[test]
fn places_and_room_of_a_buffer() {
    let mut buffer = *b"........";
    let length = Length::new(true, 12, 500_000_000).expect("a well-formed length");
    assert_eq!(length.write_at(&mut buffer, 4), Err(refusal(9, 4)));
    assert_eq!(length.write_at(&mut buffer, 8), Err(refusal(9, 8)));
    assert_eq!(length.write_at(&mut buffer, 9), Err(refusal(10, 9)));
    assert_eq!(&buffer, b"........");
    assert_eq!(length.write_at(&mut buffer, 3), Ok(8));
    assert_eq!(&buffer, b"...-12.5");
}

#[test]
fn malformed_records() {
    let card = Card::a();
    for record in [[1, 0, 0], [0, 1, 1_000_000_000], [0, 0, u64::MAX]] {
        let mut buffer = [b'.'; 40];
        let written = raw::write(&record, &mut buffer, 0);
        assert_eq!((written.number, written.position), (11, 0));
        assert_eq!(written.length, [0; 3]);
        assert_eq!(buffer, [b'.'; 40]);

        let mut total = record;
        let added = raw::add_total(
            &mut total,
            card.settings(),
            card.hall(),
            card.line(),
            card.numerals(),
            b"1",
        );
        assert_eq!((added.number, added.position), (11, 0));
        assert_eq!(total, record);
    }
    assert_eq!(Length::new(true, 0, 0), Err(refusal(11, 0)));
    assert_eq!(Length::new(false, 0, 1_000_000_000), Err(refusal(11, 0)));
    assert!(Length::new(true, 0, 999_999_999).is_ok());
}

/// A well-formed length is what the port calls one.
#[test]
fn what_is_well_formed() {
    for negative in [false, true] {
        for seconds in [0, 1, u64::MAX] {
            for nanoseconds in [0, 1, 999_999_999, 1_000_000_000, u32::MAX] {
                let record = [negative.into(), seconds, nanoseconds.into()];
                let written = raw::write(&record, &mut [0; 40], 0);
                let made = Length::new(negative, seconds, nanoseconds);
                assert_eq!(made.is_ok(), written.number == 0, "{record:?}");
            }
        }
    }
}

#[test]
fn sentences() {
    let sentences = [
        ((1, 0), "there is nothing to read at place 0"),
        // It is no longer given, and has no sentence of its own.
        ((2, 6), "refusal 2 at 6"),
        ((3, 6), "an exponent goes above 32767 at place 6"),
        ((4, 9), "an exponent goes below -32768 at place 9"),
        (
            (5, 0),
            "a length is negative, which the card forbids or an ISO text cannot say",
        ),
        ((6, 2), "the part begins with no number at place 2"),
        (
            (7, 65),
            "a delimiter is a letter, a digit, `+`, `-`, `.` or a byte above 127",
        ),
        (
            (7, 66),
            "there are more than four conjunctions, or one is not 1 to 8 ASCII letters",
        ),
        ((7, 67), "the default kind is not one of 0 to 7"),
        (
            (7, 64),
            "the hall's unit table is not 0 to 64 rows of 48 bytes",
        ),
        (
            (7, 3),
            "row 3 of the hall's unit table has a name, kind or multiplier that is not accepted",
        ),
        (
            (7, 63),
            "row 63 of the hall's unit table has a name, kind or multiplier that is not accepted",
        ),
        (
            (7, 192),
            "the line's unit table is not 0 to 64 rows of 48 bytes",
        ),
        (
            (7, 128),
            "row 0 of the line's unit table has a name, kind or multiplier that is not accepted",
        ),
        (
            (7, 191),
            "row 63 of the line's unit table has a name, kind or multiplier that is not accepted",
        ),
        (
            (7, 100),
            "the numeral table is not 0 to 32 rows of 48 bytes",
        ),
        (
            (7, 68),
            "row 0 of the numeral table has a name, kind or multiplier that is not accepted",
        ),
        (
            (7, 99),
            "row 31 of the numeral table has a name, kind or multiplier that is not accepted",
        ),
        ((8, 4096), "the text has more than 4096 bytes"),
        ((9, 4), "the buffer has too few bytes left at place 4"),
        (
            (10, 9),
            "place 9 is beyond the text or buffer, or row 9 past the table's last",
        ),
        (
            (11, 0),
            "the length record is malformed: a second or more of nanoseconds, or minus zero",
        ),
        (
            (12, 3),
            "the text is no ISO timing: at place 3 it is wrong, or ends too soon",
        ),
        (
            (13, 2),
            "years and months have no length, and place 2 has the letter of one",
        ),
        ((14, 0), "the ISO timing is beyond the largest length"),
        (
            (15, 5),
            "a numeral needs a unit, and none begins at place 5",
        ),
        (
            (16, 0),
            "a numeral times its unit has a coefficient or a power of ten that is out of range",
        ),
        (
            (17, 3),
            "the text ends at place 3, after a sign or within an exponent: type the digits, or take it away",
        ),
        (
            (18, 2),
            "delimiters end the text from place 2 on: take them away, or type what they lead to",
        ),
        (
            (19, 6),
            "a conjunction leads to no part at place 6: type a delimiter and a part behind it, or take it away",
        ),
        (
            (20, 0),
            "the point at place 0 has no digit beside it, or the card allows no fraction: type a digit, or take the point away",
        ),
        (
            (21, 2),
            "an exponent has no digit at place 2, or the card allows no exponent: type a digit there, or take the exponent away",
        ),
        (
            (22, 8),
            "infinity is not whole or not alone at place 8: type `inf` or `infinity`, and a delimiter before what follows",
        ),
        (
            (23, 0),
            "the index of the hall's unit table is wrong at entry 0, or in its length if the table has 0 rows: make it anew",
        ),
        (
            (23, 64),
            "the index of the hall's unit table is wrong at entry 64, or in its length if the table has 64 rows: make it anew",
        ),
        (
            (23, 128),
            "the index of the line's unit table is wrong at entry 0, or in its length if the table has 0 rows: make it anew",
        ),
        (
            (23, 130),
            "the index of the line's unit table is wrong at entry 2, or in its length if the table has 2 rows: make it anew",
        ),
        (
            (24, 3),
            "line 3 is no stored row: its length, a digit, the size of its name, or a byte that must be zero is wrong",
        ),
        (
            (25, 0),
            "the name in line 0 has more than 16 bytes, and the old form has no room for it",
        ),
        ((26, 1), "refusal 26 at 1"),
    ];
    for ((number, position), sentence) in sentences {
        let error: Box<dyn std::error::Error> = Box::new(refusal(number, position));
        assert_eq!(error.to_string(), sentence);
    }
}
