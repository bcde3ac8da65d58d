//! Indexes beside the unit tables: made, checked, kept while a unit is replaced,
//! and what is looked up through them.

use herovinga::raw::{self, Answer, Found};
use herovinga::{Card, CardBuilder, Kind, Length, LookedUp, Refusal, Table};

/// The index of card A's table: block, min, ms, ns, s, turn.
const INDEX_A: [u8; 6] = [5, 3, 1, 0, 2, 4];

/// Text and place before which an index is looked at.
const LONG: [u8; 4_097] = [b'1'; 4_097];
const BEYOND: usize = usize::MAX;

/// A name of 33 bytes.
const TOO_LONG: &str = "abcdefghijklmnopqrstuvwxyzABCDEFG";

fn refusal(number: u8, position: usize) -> Refusal {
    Refusal { number, position }
}

fn milliseconds(count: u64) -> Length {
    let nanoseconds = (count % 1_000 * 1_000_000) as u32;
    Length::new(false, count / 1_000, nanoseconds).expect("a well-formed length")
}

fn card(builder: CardBuilder) -> Card {
    builder.build().expect("the card is accepted")
}

/// Card A with a numeral, on a line with a jaw stroke and a turn of its own.
fn line_7() -> Card {
    let a = Card::a();
    let own = Card::builder()
        .line_unit("jaw", Kind::Millisecond, 40, 0)
        .line_unit("turn", Kind::Millisecond, 15, 0)
        .numeral("five", 5, 0);
    let own = card(own);
    with_tables(&a, a.hall(), own.line(), own.numerals())
}

/// The card's settings with other tables.
fn with_tables(card: &Card, hall: &[u8], line: &[u8], numerals: &[u8]) -> Card {
    let [hall, line, numerals] = [hall, line, numerals].map(<[u8]>::to_vec);
    Card::from_words(*card.settings(), hall, line, numerals).expect("the card is accepted")
}

/// A hall's unit of a second for each name.
fn units<Name: AsRef<[u8]>>(names: impl IntoIterator<Item = Name>) -> CardBuilder {
    let unit = |card: CardBuilder, name: Name| card.unit(name, Kind::Second, 1, 0);
    names.into_iter().fold(Card::builder(), unit)
}

/// Names from `aa` on.
fn many(count: u8) -> Vec<[u8; 2]> {
    let name = |number| [b'a' + number / 26, b'a' + number % 26];
    (0..count).map(name).collect()
}

fn found(table: Table, row: usize, compared: usize) -> LookedUp {
    LookedUp {
        at: Some((table, row)),
        compared,
    }
}

fn nowhere(compared: usize) -> LookedUp {
    LookedUp { at: None, compared }
}

/// What is handed back of a table and its index.
fn answer(number: u8, position: u64) -> Answer {
    Answer {
        number,
        position,
        length: [0; 3],
    }
}

fn checked(card: &Card, index: &[u8]) -> Answer {
    raw::check_index(card.settings(), card.hall(), index)
}

#[test]
fn the_index_of_a_card() {
    let a = Card::a();
    assert_eq!(a.hall_index(), INDEX_A);
    assert_eq!(a.line_index(), []);
    let line_7 = line_7();
    assert_eq!(line_7.hall_index(), INDEX_A);
    assert_eq!(line_7.line_index(), [0, 1]);
    assert_eq!(card(Card::builder()).hall_index(), []);
    let full = card(units(many(64).into_iter().rev()));
    let falling: Vec<u8> = (0..64).rev().collect();
    assert_eq!(full.hall_index(), falling);
}

/// Byte by byte, as numbers from 0 to 255, a prefix first.
#[test]
fn the_order_of_names() {
    let names: [&[u8]; 12] = [
        b"\0",
        b"\0\0",
        b"M",
        b"Z",
        b"a",
        b"m",
        b"min",
        b"ms",
        b"\x7f",
        b"\x80",
        "µs".as_bytes(),
        b"\xff",
    ];
    for shift in 0..names.len() {
        let mut turned = names;
        turned.rotate_left(shift);
        let card = card(units(turned));
        let in_order: Vec<&[u8]> = card
            .hall_index()
            .iter()
            .map(|row| turned[usize::from(*row)])
            .collect();
        assert_eq!(in_order, names, "from {shift} on");
    }
}

/// Name, where it stands, and the names that are compared row by row and through
/// the index.
#[test]
fn looked_up_both_ways() {
    let a = Card::a();
    for (name, row, one_by_one, halving) in [
        ("ns", Some(0), 1, 1),
        ("ms", Some(1), 2, 3),
        ("s", Some(2), 3, 3),
        ("min", Some(3), 4, 2),
        ("turn", Some(4), 5, 2),
        ("block", Some(5), 6, 3),
        ("blocks", None, 6, 3),
        ("a", None, 6, 3),
        ("z", None, 6, 2),
        ("", None, 6, 3),
    ] {
        let at = row.map(|row| (Table::Hall, row));
        let looked_up = |compared| LookedUp { at, compared };
        assert_eq!(a.look_up(name), looked_up(halving), "`{name}`");
        let by_row = a.look_up_row_by_row(name);
        assert_eq!(by_row, looked_up(one_by_one), "`{name}`");
    }
}

/// The counts add up: the line's, and the hall's where the line has not got it.
#[test]
fn looked_up_in_both_tables() {
    let card = line_7();
    for (name, halving, by_row) in [
        ("jaw", found(Table::Line, 0, 2), found(Table::Line, 0, 1)),
        ("turn", found(Table::Line, 1, 1), found(Table::Line, 1, 2)),
        ("s", found(Table::Hall, 2, 5), found(Table::Hall, 2, 5)),
        ("block", found(Table::Hall, 5, 5), found(Table::Hall, 5, 8)),
        ("pouch", nowhere(5), nowhere(8)),
        ("", nowhere(5), nowhere(8)),
    ] {
        assert_eq!(card.look_up(name), halving, "`{name}`");
        assert_eq!(card.look_up_row_by_row(name), by_row, "`{name}`");
    }
}

/// The words that a lookup hands back.
#[test]
fn looked_up_as_words() {
    let card = line_7();
    let (settings, hall, line) = (card.settings(), card.hall(), card.line());
    let (hall_index, line_index) = (card.hall_index(), card.line_index());
    for (name, table, row, by_row, halving) in [
        ("turn", 2, 1, 2, 1),
        ("block", 1, 5, 8, 5),
        ("pouch", 0, 0, 8, 5),
    ] {
        let found = |compared| Found {
            number: 0,
            position: 0,
            table,
            row,
            compared,
        };
        let name = name.as_bytes();
        let looked_up = raw::look_up(settings, hall, line, name);
        assert_eq!(looked_up, found(by_row));
        let looked_up = raw::look_up_indexed(settings, hall, hall_index, line, line_index, name);
        assert_eq!(looked_up, found(halving));
    }
}

/// A name of any size is looked up whole.
#[test]
fn names_longer_than_a_rows() {
    let longest = "abcdefghijklmnop";
    let card = card(units([longest]));
    assert_eq!(card.look_up(longest), found(Table::Hall, 0, 1));
    for behind in ["q", "\0", &"\0".repeat(256)] {
        let name = format!("{longest}{behind}");
        assert_eq!(card.look_up(&name), nowhere(1));
        assert_eq!(card.look_up_row_by_row(&name), nowhere(1));
    }
}

#[test]
fn at_most_seven_names_of_64() {
    let names = many(64);
    let card = card(units(&names));
    let mut most = 0;
    for (row, name) in names.iter().enumerate() {
        let looked_up = card.look_up(name);
        assert_eq!(looked_up.at, Some((Table::Hall, row)));
        assert!((1..=7).contains(&looked_up.compared));
        most = most.max(looked_up.compared);
        let by_row = found(Table::Hall, row, row + 1);
        assert_eq!(card.look_up_row_by_row(name), by_row);
    }
    assert_eq!(most, 7);
    assert_eq!(card.look_up("a"), nowhere(7));
    assert_eq!(card.look_up("zz"), nowhere(6));
    assert_eq!(card.look_up_row_by_row("zz"), nowhere(64));
    assert_eq!(card.look_up("n".repeat(10_000)), nowhere(6));
}

/// Through its indexes a card reads what it reads without.
#[test]
fn readings_are_the_same() {
    let card = line_7();
    for text in [
        "61.7ms",
        "1jaw 2turn and five s",
        "1block",
        "-five min ago",
        "",
        "1x",
        "five x",
        "1s android",
        "1e99999s",
    ] {
        let (settings, bytes) = (card.settings(), text.as_bytes());
        let (hall, line, numerals) = (card.hall(), card.line(), card.numerals());
        let total = raw::read_total(settings, hall, line, numerals, bytes);
        let length = match total.number {
            0 => Ok(total.length),
            number => Err(refusal(number, total.position as usize)),
        };
        let through = card.read_total(text);
        assert_eq!(through.map(Length::record), length, "`{text}`");
        let mut shift = Length::ZERO;
        assert_eq!(card.add_total(&mut shift, text), through, "`{text}`");
        assert_eq!(shift, through.unwrap_or(Length::ZERO), "`{text}`");
        for place in 0..=text.len() + 1 {
            let part = raw::read_part(settings, hall, line, numerals, bytes, place);
            let position = part.position as usize;
            let without = match part.number {
                0 => Ok((part.length, position)),
                number => Err(refusal(number, position)),
            };
            let through = card.read_part(text, place);
            let through = through.map(|part| (part.length.record(), part.next));
            assert_eq!(through, without, "`{text}` from {place} on");
        }
    }
}

#[test]
fn made_whole_or_not_at_all() {
    let a = Card::a();
    let make = |index: &mut [u8]| raw::make_index(a.settings(), a.hall(), index);
    let mut index = [9; 8];
    for size in [0, 1, 5, 7, 8] {
        assert_eq!(make(&mut index[..size]), answer(23, 6), "{size} bytes");
    }
    assert_eq!(index, [9; 8]);
    assert_eq!(make(&mut index[..6]), answer(0, 6));
    assert_eq!(index, [5, 3, 1, 0, 2, 4, 9, 9]);

    // A wrong table, and wrong settings, come first.
    let mut index = [9; 6];
    let bad = &a.hall()[..49];
    let made = raw::make_index(a.settings(), bad, &mut index);
    assert_eq!(made, answer(7, 64));
    let twice = [&a.hall()[..48], &a.hall()[..48]].concat();
    let made = raw::make_index(a.settings(), &twice, &mut index[..2]);
    assert_eq!(made, answer(7, 1));
    let mut settings = *a.settings();
    settings[raw::DEFAULT_KIND] = 8;
    let made = raw::make_index(&settings, a.hall(), &mut index);
    assert_eq!(made, answer(7, 67));
    assert_eq!(index, [9; 6]);
    assert_eq!(raw::make_index(a.settings(), &[], &mut []), answer(0, 0));
}

/// Wrong in its length, or at the first entry that is not the true order's.
#[test]
fn checked_against_its_table() {
    let a = Card::a();
    assert_eq!(checked(&a, &INDEX_A), answer(0, 6));
    assert_eq!(checked(&a, &[]), answer(23, 6));
    assert_eq!(checked(&a, &INDEX_A[..5]), answer(23, 6));
    let longer = [&INDEX_A[..], &[6]].concat();
    assert_eq!(checked(&a, &longer), answer(23, 6));
    for shift in 1..6 {
        let mut turned = INDEX_A;
        turned.rotate_left(shift);
        assert_eq!(checked(&a, &turned), answer(23, 0), "{turned:?}");
    }
    for first in 0..6 {
        for second in first + 1..6 {
            let mut swapped = INDEX_A;
            swapped.swap(first, second);
            let at = answer(23, first as u64);
            assert_eq!(checked(&a, &swapped), at, "{swapped:?}");
        }
        for row in [6, 7, 64, 128, 255] {
            let mut past = INDEX_A;
            past[first] = row;
            assert_eq!(checked(&a, &past), answer(23, first as u64), "{past:?}");
        }
    }
    let none = card(Card::builder());
    assert_eq!(checked(&none, &[]), answer(0, 0));
    assert_eq!(checked(&none, &[0]), answer(23, 0));
}

/// A card's tables with any indexes beside them, asked through each entry that
/// takes both: what is handed back, which has to be a refusal of all of them.
fn refused(card: &Card, hall_index: &[u8], line_index: &[u8]) -> (u8, u64) {
    let settings = card.settings();
    let (hall, line, numerals) = (card.hall(), card.line(), card.numerals());
    let malformed = [1, 0, 0];
    let mut total = malformed;
    let answers = [
        raw::read_part_indexed(
            settings, hall, hall_index, line, line_index, numerals, b"1s", BEYOND,
        ),
        raw::read_total_indexed(
            settings, hall, hall_index, line, line_index, numerals, &LONG,
        ),
        raw::add_total_indexed(
            &mut total, settings, hall, hall_index, line, line_index, numerals, &LONG,
        ),
    ];
    assert_eq!(total, malformed);
    let first = (answers[0].number, answers[0].position);
    for answer in answers {
        assert_eq!((answer.number, answer.position), first);
        assert_eq!(answer.length, [0; 3]);
    }
    let (number, position) = first;
    let nothing = Found {
        number,
        position,
        table: 0,
        row: 0,
        compared: 0,
    };
    let looked_up = raw::look_up_indexed(settings, hall, hall_index, line, line_index, b"jaw");
    assert_eq!(looked_up, nothing);
    first
}

/// 7, then 23 of the hall's index, then of the line's with 128, then all else.
#[test]
fn the_order_of_refusals() {
    let card = line_7();
    let (hall, line) = (card.hall_index(), card.line_index());
    assert_eq!(refused(&card, &[], &[]), (23, 6));
    assert_eq!(refused(&card, &[3, 5, 1, 0, 2, 4], &[1, 0]), (23, 0));
    assert_eq!(refused(&card, &[5, 3, 1, 0, 2, 6], line), (23, 5));
    assert_eq!(refused(&card, hall, &[1, 0]), (23, 128));
    assert_eq!(refused(&card, hall, &[0, 2]), (23, 129));
    assert_eq!(refused(&card, hall, &[]), (23, 130));
    assert_eq!(refused(&card, hall, &[0, 1, 2]), (23, 130));

    let mut wrong = *card.settings();
    wrong[raw::DEFAULT_KIND] = 8;
    let (hall, line, numerals) = (card.hall(), card.line(), card.numerals());
    let settings = card.settings();
    for (settings, line, numerals, position) in [
        (&wrong, line, numerals, 67),
        (settings, &line[..95], numerals, 192),
        (settings, line, &numerals[..47], 100),
    ] {
        let read = raw::read_total_indexed(settings, hall, &[], line, &[], numerals, b"1");
        assert_eq!((read.number, read.position), (7, position));
    }
    // Of numerals a lookup is told nothing.
    let looked_up = raw::look_up(settings, hall, &line[..95], b"s");
    assert_eq!((looked_up.number, looked_up.position), (7, 192));
    let looked_up = raw::look_up_indexed(settings, &hall[..47], &[], line, &[], b"s");
    assert_eq!((looked_up.number, looked_up.position), (7, 64));
}

#[test]
fn a_unit_replaced() {
    let mut card = line_7();
    assert_eq!(
        card.replace_unit(2, "apart", Kind::Second, 1, 0),
        Ok(()),
        "`s` becomes the first"
    );
    assert_eq!(card.hall_index(), [2, 5, 3, 1, 0, 4]);
    assert_eq!(card.read_total("1apart"), Ok(milliseconds(1_000)));
    assert_eq!(card.read_total("1s"), Err(refusal(6, 1)));
    assert_eq!(
        card.replace_unit(5, "zone", Kind::Minute, 2, 0),
        Ok(()),
        "`block` becomes the last"
    );
    assert_eq!(card.hall_index(), [2, 3, 1, 0, 4, 5]);
    assert_eq!(card.read_total("1zone"), Ok(milliseconds(120_000)));
    // It may keep its name.
    assert_eq!(card.replace_unit(1, "ms", Kind::Millisecond, 2, 0), Ok(()));
    assert_eq!(card.read_total("1ms"), Ok(milliseconds(2)));
    assert_eq!(card.line_index(), [0, 1]);

    assert_eq!(
        card.replace_line_unit(0, "zone", Kind::Millisecond, 50, 0),
        Ok(())
    );
    assert_eq!(card.line_index(), [1, 0]);
    assert_eq!(card.read_total("1zone"), Ok(milliseconds(50)));
    assert_eq!(card.look_up("zone"), found(Table::Line, 0, 1));
    assert_eq!(card.read_total("1jaw"), Err(refusal(6, 1)));

    // What was replaced is what would have been made.
    let anew = with_tables(&card, card.hall(), card.line(), card.numerals());
    assert_eq!(anew, card);
}

/// 10 at a row past the last, then 7 at the row; and the card stays as it was.
#[test]
fn a_unit_not_replaced() {
    let before = line_7();
    let mut card = before.clone();
    for row in [6, 7, 64, usize::MAX] {
        let replaced = card.replace_unit(row, "s", Kind::Week, i64::MIN, 0);
        assert_eq!(replaced, Err(refusal(10, row)));
        let replaced = card.replace_line_unit(row, "x", Kind::Second, 1, 0);
        assert_eq!(replaced, Err(refusal(10, row)));
    }
    // The name of another row, whichever of the two the check would name.
    for (row, name) in [(0, "s"), (4, "s"), (5, "ns"), (0, "block")] {
        let replaced = card.replace_unit(row, name, Kind::Second, 1, 0);
        assert_eq!(replaced, Err(refusal(7, row)), "`{name}`");
    }
    for name in ["", "1", "a b", "a.b", TOO_LONG] {
        let replaced = card.replace_unit(3, name, Kind::Second, 1, 0);
        assert_eq!(replaced, Err(refusal(7, 3)), "`{name}`");
    }
    let replaced = card.replace_unit(1, "w", Kind::Week, i64::MAX, 0);
    assert_eq!(replaced, Err(refusal(7, 1)));
    let replaced = card.replace_line_unit(0, "turn", Kind::Second, 1, 0);
    assert_eq!(replaced, Err(refusal(7, 128)));
    let replaced = card.replace_line_unit(1, "jaw", Kind::Second, 1, 0);
    assert_eq!(replaced, Err(refusal(7, 129)));
    let replaced = card.replace_line_unit(2, "pouch", Kind::Second, 1, 0);
    assert_eq!(replaced, Err(refusal(10, 2)));
    assert_eq!(card, before);

    let mut empty = Card::builder().build().expect("the card is accepted");
    let replaced = empty.replace_unit(0, "s", Kind::Second, 1, 0);
    assert_eq!(replaced, Err(refusal(10, 0)));
}

/// A row as it is lent: 7 and 23 before 10, and a size that is not 48.
#[test]
fn a_row_replaced_as_it_is_lent() {
    let a = Card::a();
    let settings = a.settings();
    let new = card(units(["zone"])).hall().to_vec();
    let longer = [&new[..], &[0]].concat();
    let two = [&new[..], &new[..]].concat();
    let unchanged = |index: &[u8], row: usize, new_row: &[u8], wanted: Answer| {
        let (mut table, mut lent) = (a.hall().to_vec(), index.to_vec());
        let replaced = raw::replace_row(settings, &mut table, &mut lent, row, new_row);
        assert_eq!(replaced, wanted, "{index:?}, row {row}");
        assert_eq!((&table[..], &lent[..]), (a.hall(), index));
    };
    for new_row in [&[], &new[..47], &longer, &two] {
        unchanged(&INDEX_A, 5, new_row, answer(7, 5));
        unchanged(&INDEX_A, 6, new_row, answer(10, 6));
        unchanged(&[], 6, new_row, answer(23, 6));
    }
    unchanged(&[3, 5, 1, 0, 2, 4], 6, &new, answer(23, 0));
    unchanged(&INDEX_A, 6, &new, answer(10, 6));

    let (mut table, mut index) = (a.hall()[..287].to_vec(), [9; 6]);
    let replaced = raw::replace_row(settings, &mut table, &mut index, 6, &new);
    assert_eq!(replaced, answer(7, 64));
    assert_eq!((&table[..], index), (&a.hall()[..287], [9; 6]));

    let (mut table, mut index) = (a.hall().to_vec(), INDEX_A);
    let replaced = raw::replace_row(settings, &mut table, &mut index, 5, &new);
    assert_eq!(replaced, answer(0, 6));
    assert_eq!(table, [&a.hall()[..240], &new].concat());
    assert_eq!(index, [3, 1, 0, 2, 4, 5]);
}
