//! The line's own units: which are read, and what is refused.

use herovinga::{Card, CardBuilder, Kind, Length, Part, Refusal, raw};

fn refusal(number: u8, position: usize) -> Refusal {
    Refusal { number, position }
}

fn milliseconds(count: u64) -> Length {
    let nanoseconds = (count % 1_000 * 1_000_000) as u32;
    Length::new(false, count / 1_000, nanoseconds).expect("a well-formed length")
}

/// The settings of card A, as far as they matter here.
fn bare() -> CardBuilder {
    Card::builder()
        .negatives(true)
        .exponents(true)
        .ago(true)
        .before_unit(true)
        .inner(" ")
        .outer(" ")
        .conjunction("and")
}

/// With some units.
fn hall() -> CardBuilder {
    bare()
        .unit("s", Kind::Second, 1, 0)
        .unit("min", Kind::Minute, 1, 0)
        .unit("turn", Kind::Millisecond, 123, -1)
}

/// A jaw stroke, and a turn of its own.
fn line_7(hall: CardBuilder) -> CardBuilder {
    hall.line_unit("jaw", Kind::Millisecond, 40, 0)
        .line_unit("turn", Kind::Millisecond, 15, 0)
}

fn card(builder: CardBuilder) -> Card {
    builder.build().expect("the card is accepted")
}

fn build(builder: CardBuilder) -> Refusal {
    builder.build().expect_err("the card is refused")
}

/// A unit as the builder takes it: of the hall's or of the line's.
type Add = fn(CardBuilder, [u8; 2], i64) -> CardBuilder;

fn of_the_hall(card: CardBuilder, name: [u8; 2], seconds: i64) -> CardBuilder {
    card.unit(name, Kind::Second, seconds, 0)
}

fn of_the_line(card: CardBuilder, name: [u8; 2], seconds: i64) -> CardBuilder {
    card.line_unit(name, Kind::Second, seconds, 0)
}

/// Units with names from `aa` on, each worth so many seconds.
fn many(card: CardBuilder, add: Add, names: std::ops::Range<u8>, seconds: i64) -> CardBuilder {
    names.fold(card, |card, number| {
        add(card, [b'a' + number / 26, b'a' + number % 26], seconds)
    })
}

#[test]
fn the_lines_rows_win() {
    let card = card(line_7(hall()));
    for (text, wanted) in [
        ("1jaw", 40),
        ("2 jaw", 80),
        ("1turn", 15),
        ("1s", 1_000),
        ("1min and 1s", 61_000),
        ("1min1jaw1turn", 60_055),
        ("-1jaw ago", 40),
    ] {
        assert_eq!(card.read_total(text), Ok(milliseconds(wanted)), "`{text}`");
    }
    for text in ["1ja", "1jaws", "1Jaw", "1hour"] {
        assert_eq!(card.read_total(text), Err(refusal(6, 1)), "`{text}`");
    }
}

#[test]
fn parts_and_the_shift_total() {
    let card = card(line_7(hall()).numeral("five", 5, 0));
    let text = "five jaw and 1turn 1s";
    let parts: Result<Vec<Part>, Refusal> = card.parts(text).collect();
    let part = |count, next| Part {
        length: milliseconds(count),
        next,
    };
    let wanted = [part(200, 13), part(15, 19), part(1_000, 21)];
    assert_eq!(parts.as_deref(), Ok(wanted.as_slice()));

    let mut total = milliseconds(785);
    assert_eq!(card.add_total(&mut total, text), Ok(milliseconds(2_000)));
    assert_eq!(card.add_total(&mut total, "five x"), Err(refusal(15, 5)));
    assert_eq!(total, milliseconds(2_000));
}

#[test]
fn one_table_empty() {
    let only_line = card(line_7(Card::builder()));
    assert_eq!(only_line.hall(), []);
    assert_eq!(only_line.read_total("1jaw1turn"), Ok(milliseconds(55)));
    assert_eq!(only_line.read_total("1s"), Err(refusal(6, 1)));

    let only_hall = card(hall());
    assert_eq!(only_hall.line(), []);
    assert_eq!(only_hall.read_total("10turn"), Ok(milliseconds(123)));
    assert_eq!(only_hall.read_total("1jaw"), Err(refusal(6, 1)));
}

/// The same units as the line's alone or as the hall's alone are read the same.
#[test]
fn either_table_alone() {
    let hall = card(hall());
    let (settings, rows) = (*hall.settings(), hall.hall().to_vec());
    let line = Card::from_words(settings, Vec::new(), rows, Vec::new());
    let line = line.expect("the card is accepted");
    assert_eq!(line.line(), hall.hall());
    for text in [
        "1s",
        "1min 2turn",
        "1s ago",
        "1x",
        "",
        "1e99999s",
        "1s ",
        "1 and 1",
    ] {
        assert_eq!(line.read_total(text), hall.read_total(text), "`{text}`");
    }
}

/// With both tables full the line's 64 stand beside the hall's 64, or before them.
#[test]
fn both_tables_full() {
    let full = |line| many(many(bare(), of_the_hall, 0..64, 1), of_the_line, line, 5);
    let seconds = |count: u64| Ok(milliseconds(1_000 * count));
    let apart = card(full(64..128));
    assert_eq!(apart.hall().len() + apart.line().len(), 128 * 48);
    assert_eq!(apart.read_total("1aa1cl"), seconds(2));
    assert_eq!(apart.read_total("1cm1 ex"), seconds(10));
    assert_eq!(apart.read_total("1 ey"), Err(refusal(6, 2)));
    let some = card(full(40..104));
    assert_eq!(some.read_total("1bn"), seconds(1));
    assert_eq!(some.read_total("1bo1cl1dz"), seconds(15));
    let all = card(full(0..64));
    assert_eq!(all.read_total("1aa1cl"), seconds(10));
}

#[test]
fn the_tables_size() {
    let line = |count| many(hall(), of_the_line, 0..count, 1);
    assert!(line(64).build().is_ok());
    assert_eq!(build(line(65)), refusal(7, 192));
    let most = card(line(64));
    for size in [1, 32, 47, 49, 3_071, 3_073] {
        let rows = [most.line(), &[0]].concat();
        let refused = hall().line_rows(&rows[..size]).build();
        assert_eq!(refused, Err(refusal(7, 192)), "{size} bytes");
    }
    assert_eq!(hall().line_rows(most.line()).build(), Ok(most));
}

#[test]
fn rows() {
    let first = || hall().line_unit("jaw", Kind::Second, 1, 0);
    for name in ["", "jaw", "a b", "a1", "a.b", "a-b", &"n".repeat(33)] {
        let second = first().line_unit(name, Kind::Second, 1, 0);
        assert_eq!(build(second), refusal(7, 129), "`{name}`");
    }
    let longest = "n".repeat(32);
    let second = card(first().line_unit(&longest, Kind::Second, 1, 0));
    assert_eq!(
        second.read_total(format!("1{longest}")),
        Ok(milliseconds(1_000))
    );
    let largest = i64::MAX / 604_800;
    let week = |coefficient| first().line_unit("w", Kind::Week, coefficient, 0);
    assert!(week(largest).build().is_ok());
    assert_eq!(build(week(largest + 1)), refusal(7, 129));
    let lowest = first().line_unit("n", Kind::Nanosecond, 1, i16::MIN);
    assert_eq!(build(lowest), refusal(7, 129));
    let last = many(hall(), of_the_line, 0..63, 1).line_unit("1", Kind::Second, 1, 0);
    assert_eq!(build(last), refusal(7, 191));

    let mut rows = card(first()).line().to_vec();
    rows[33] = 8;
    assert_eq!(build(hall().line_rows(&rows)), refusal(7, 128));
}

/// A name may stand once in each table.
#[test]
fn a_name_in_both() {
    let both = hall().line_unit("s", Kind::Minute, 1, 0);
    assert_eq!(
        card(both.clone()).read_total("1s"),
        Ok(milliseconds(60_000))
    );
    let twice = both.line_unit("s", Kind::Minute, 1, 0);
    assert_eq!(build(twice), refusal(7, 129));
    let twice = line_7(hall()).unit("s", Kind::Second, 1, 0);
    assert_eq!(build(twice), refusal(7, 3));
}

/// A name led by `e` needs exponents or a delimiter before units in the line's table too.
#[test]
fn names_led_by_e() {
    let line = |card: CardBuilder| card.line_unit("eon", Kind::Second, 5, 0);
    assert_eq!(build(line(Card::builder())), refusal(7, 128));
    assert_eq!(build(line(Card::builder().inner(" "))), refusal(7, 128));
    let exponents = card(line(Card::builder().exponents(true)));
    assert_eq!(exponents.read_total("3e0eon"), Ok(milliseconds(15_000)));
    let delimiter = card(line(Card::builder().before_unit(true).inner(" ")));
    assert_eq!(delimiter.read_total("3 eon"), Ok(milliseconds(15_000)));
}

/// Settings are looked at first, then the hall's table, then the line's, then
/// the numerals, of each its size before its rows.
#[test]
fn the_first_that_is_wrong() {
    let bad = || hall().numeral("1", 1, 0);
    let of_the_line = |card: CardBuilder| card.line_unit("1", Kind::Second, 1, 0);
    let of_the_hall = |card: CardBuilder| card.unit("1", Kind::Second, 1, 0);
    assert_eq!(build(bad()), refusal(7, 68));
    assert_eq!(build(of_the_line(bad())), refusal(7, 128));
    assert_eq!(build(of_the_line(bad()).line_rows(&[0])), refusal(7, 192));
    assert_eq!(build(of_the_hall(of_the_line(bad()))), refusal(7, 3));
    assert_eq!(build(of_the_hall(bad().line_rows(&[0]))), refusal(7, 3));
    assert_eq!(build(of_the_line(bad()).rows(&[0])), refusal(7, 64));
    assert_eq!(
        build(of_the_line(bad()).rows(&[0]).outer(".")),
        refusal(7, 65)
    );
}

/// The text is not looked at while a table is wrong, and nothing lent changes.
#[test]
fn before_the_text() {
    let card = card(line_7(hall()));
    let wrong = &card.line()[..63];
    for text in ["", "1s ", "1jaw", &"0".repeat(4_097)] {
        let text = text.as_bytes();
        let (settings, hall) = (card.settings(), card.hall());
        let mut total = [1, 0, 0];
        for answer in [
            raw::read_total(settings, hall, wrong, &[], text),
            raw::read_part(settings, hall, wrong, &[], text, usize::MAX),
            raw::add_total(&mut total, settings, hall, wrong, &[], text),
        ] {
            assert_eq!((answer.number, answer.position), (7, 192));
            assert_eq!(answer.length, [0; 3]);
        }
        assert_eq!(total, [1, 0, 0]);
    }
}
