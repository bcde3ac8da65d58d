//! Cases at the limits of indexes and lookups, with answers written by hand from
//! request seven: the order of names of up to 32 bytes, each length and each entry
//! of an index, 23 between 7 and all else, a row replaced, and the names that a
//! lookup compares. Each rule is tried from both sides.

use crate::card_a::{card_a, line_7, row};
use crate::index_request::{Found, IndexRequest, Indexes, Outcome};
use crate::plain_index;
use crate::request::{Answer, ByteSet, Card, Length};
use crate::table::{KIND_PLACE, ROW_BYTES, Row, table_bytes};

/// Card A's index: block, min, ms, ns, s, turn. Line 7's: jaw, turn.
const RIGHT: [u8; 6] = [5, 3, 1, 0, 2, 4];
const LINE: [u8; 2] = [0, 1];

/// What a byte of an index holds before it is made.
const BEFORE: u8 = 99;

/// The number of an index.
const WRONG: u8 = 23;

/// 48 times this is 2 to the 64th and 32.
const WRAPS_TO_32: u64 = 384_307_168_202_282_326;

/// The longest name, and sixteen letters of two bytes each.
const LONGEST: &[u8; 32] = b"abcdefghijklmnopqrstuvwxyzABCDEF";
const CYRILLIC: &str = "абвгдежзийклмноп";
const GREEK: &str = "αβγδεζηθικλμνξοπ";

pub struct Case {
    pub name: String,
    pub request: IndexRequest,
    pub outcome: Outcome,
}

/// The whole list, each name led by its group's.
pub fn cases() -> Vec<Case> {
    let groups = [
        ("order of names", order_of_names()),
        ("made", made()),
        ("length", lengths()),
        ("entry", entries()),
        ("7 before 23", cards_before_indexes()),
        ("23 before all else", indexes_before_texts()),
        ("order among 7 and 23", order_of_refusals()),
        ("read", read_through_indexes()),
        ("row replaced", rows_replaced()),
        ("row not replaced", rows_not_replaced()),
        ("order of a replacement", order_of_a_replacement()),
        ("looked up", looked_up()),
        ("looked up in both", looked_up_in_both()),
        ("looked up in many", looked_up_in_many()),
        ("lookup refused", lookups_refused()),
    ];
    let mut list = Vec::new();
    for (group, cases) in groups {
        for case in cases {
            let name = format!("{group}: {}", case.name);
            list.push(Case { name, ..case });
        }
    }
    list
}

/// Asks the plain reading for every case; true if it answers all as written here.
/// It is asked by the printed line, so the line format is under test too.
pub fn check() -> Result<bool, String> {
    let cases = cases();
    let mut same = 0;
    for case in &cases {
        let line = case.request.to_string();
        let read = IndexRequest::parse(&line)?.ok_or("a line that is no request")?;
        let outcome = plain_index::answer(&read);
        if read == case.request && outcome == case.outcome {
            same += 1;
        } else {
            println!("differs: {}", case.name);
            println!("    {line}");
            println!("    plain {outcome}");
            println!("    limit {}", case.outcome);
        }
    }
    let all = cases.len();
    println!("{all} cases at the limits of indexes, {same} answered the same by the plain reading");
    Ok(same == all)
}

// Builders: cards.

/// Card A with another table of the hall's.
fn hall(rows: &[Row]) -> Card {
    Card {
        hall: table_bytes(rows),
        ..card_a()
    }
}

/// A second by any name.
fn second(name: &[u8]) -> Row {
    Row {
        name: name.to_vec(),
        ..row("", 3, 1, 0)
    }
}

/// A table of seconds by these names, under settings that have no delimiters, so
/// that a name may hold nearly any byte.
fn seconds<Name: AsRef<[u8]>>(names: &[Name]) -> Card {
    let rows: Vec<Row> = names.iter().map(|name| second(name.as_ref())).collect();
    Card {
        inner: ByteSet::EMPTY,
        outer: ByteSet::EMPTY,
        ..hall(&rows)
    }
}

/// So many names from `aa` on, which stand in order.
fn many(count: usize) -> Vec<String> {
    let letter = |number: usize| char::from(b'a' + number as u8);
    (0..count)
        .map(|number| format!("{}{}", letter(number / 26), letter(number % 26)))
        .collect()
}

/// The numbers from 0 on.
fn rising(count: usize) -> Vec<u8> {
    (0..count as u8).collect()
}

fn falling(count: usize) -> Vec<u8> {
    (0..count as u8).rev().collect()
}

/// A table of the hall's as it is, which may end within a row.
fn cut(card: Card, size: usize) -> Card {
    let mut card = card;
    card.hall.resize(size, 0);
    card
}

fn with_kind(card: Card, kind: u8) -> Card {
    Card { kind, ..card }
}

fn with_line(card: Card, rows: &[Row]) -> Card {
    let line = table_bytes(rows);
    Card { line, ..card }
}

fn with_numerals(card: Card, rows: &[Row]) -> Card {
    let numerals = table_bytes(rows);
    Card { numerals, ..card }
}

/// Card A with its third row's kind wrong, and with `turn` twice.
fn bad_row() -> Card {
    let mut card = card_a();
    card.hall[2 * ROW_BYTES + KIND_PLACE] = 8;
    card
}

fn twice() -> Card {
    hall(&[row("turn", 3, 1, 0), row("turn", 3, 2, 0)])
}

fn indexes(hall: &[u8], line: &[u8]) -> Indexes {
    Indexes {
        hall: hall.to_vec(),
        line: line.to_vec(),
    }
}

/// An index with another entry.
fn with_entry(index: &[u8], entry: usize, row: u8) -> Vec<u8> {
    let mut changed = index.to_vec();
    changed[entry] = row;
    changed
}

// Builders: cases.

fn case(name: impl Into<String>, request: IndexRequest, outcome: Outcome) -> Case {
    Case {
        name: name.into(),
        request,
        outcome,
    }
}

fn rows(card: &Card) -> u64 {
    (card.hall.len() / ROW_BYTES) as u64
}

fn done(card: &Card) -> Answer {
    Answer::success(rows(card), Length::ZERO)
}

/// An index of so many bytes is made.
fn makes(name: &str, card: Card, index: &[u8]) -> Case {
    let outcome = Outcome::Made {
        answer: done(&card),
        index: index.to_vec(),
    };
    let index = vec![BEFORE; index.len()];
    case(name, IndexRequest::Make { card, index }, outcome)
}

/// An index of so many bytes is not, and stays as it was.
fn makes_not(name: &str, card: Card, size: usize, number: u8, position: u64) -> Case {
    let index = vec![BEFORE; size];
    let outcome = Outcome::Made {
        answer: Answer::refusal(number, position),
        index: index.clone(),
    };
    case(name, IndexRequest::Make { card, index }, outcome)
}

fn checks(name: impl Into<String>, card: Card, index: &[u8]) -> Case {
    let outcome = Outcome::Answered(done(&card));
    let index = index.to_vec();
    case(name, IndexRequest::Check { card, index }, outcome)
}

fn checks_not(
    name: impl Into<String>,
    card: Card,
    index: &[u8],
    number: u8,
    position: u64,
) -> Case {
    let outcome = Outcome::Answered(Answer::refusal(number, position));
    let index = index.to_vec();
    case(name, IndexRequest::Check { card, index }, outcome)
}

/// A row is replaced, and the index is then another.
fn replaces(name: &str, card: Card, index: &[u8], number: usize, new: Row, then: &[u8]) -> Case {
    let new_row = new.to_bytes().to_vec();
    let mut table = card.hall.clone();
    table[ROW_BYTES * number..ROW_BYTES * (number + 1)].copy_from_slice(&new_row);
    let outcome = Outcome::Replaced {
        answer: done(&card),
        table,
        index: then.to_vec(),
    };
    let request = IndexRequest::Replace {
        row: number as u64,
        new_row,
        card,
        index: index.to_vec(),
    };
    case(name, request, outcome)
}

/// A row is not, and table and index stay as they were.
fn replaces_not(
    name: impl Into<String>,
    card: Card,
    index: &[u8],
    (row, new_row): (u64, &[u8]),
    number: u8,
    position: u64,
) -> Case {
    let outcome = Outcome::Replaced {
        answer: Answer::refusal(number, position),
        table: card.hall.clone(),
        index: index.to_vec(),
    };
    let request = IndexRequest::Replace {
        row,
        new_row: new_row.to_vec(),
        card,
        index: index.to_vec(),
    };
    case(name, request, outcome)
}

/// Card and indexes are refused by each of the four that take both, whatever else
/// is wrong: a text too long, a place beyond it, a record that is none.
fn refused(name: &str, card: &Card, indexes: &Indexes, number: u8, position: u64) -> Vec<Case> {
    let (card, indexes) = (card.clone(), indexes.clone());
    let (long, answer) = (vec![b'1'; 4_097], Answer::refusal(number, position));
    let minus_zero = Length {
        negative: true,
        ..Length::ZERO
    };
    let total = IndexRequest::Total {
        card: card.clone(),
        indexes: indexes.clone(),
        text: long.clone(),
    };
    let part = IndexRequest::Part {
        place: 3,
        card: card.clone(),
        indexes: indexes.clone(),
        text: b"1s".to_vec(),
    };
    let shift = IndexRequest::Shift {
        record: minus_zero,
        card: card.clone(),
        indexes: indexes.clone(),
        text: long,
    };
    let shifted = Outcome::Shifted {
        answer: answer.clone(),
        record: minus_zero,
    };
    // Numerals are no part of a lookup.
    let look_up = IndexRequest::LookUpIndexed {
        card,
        indexes,
        name: b"s".to_vec(),
    };
    let mut cases = vec![
        case(
            format!("{name}, total"),
            total,
            Outcome::Answered(answer.clone()),
        ),
        case(format!("{name}, part"), part, Outcome::Answered(answer)),
        case(format!("{name}, shift"), shift, shifted),
    ];
    if !(68..=100).contains(&position) {
        cases.push(case(
            format!("{name}, lookup"),
            look_up,
            not_found(number, position),
        ));
    }
    cases
}

fn not_found(number: u8, position: u64) -> Outcome {
    Outcome::LookedUp(Found {
        number,
        position,
        table: 0,
        row: 0,
        compared: 0,
    })
}

/// What a total, a part from a place and a shift total come to under right
/// indexes.
fn total(name: &str, card: &Card, indexes: &Indexes, text: &[u8], answer: Answer) -> Case {
    let request = IndexRequest::Total {
        card: card.clone(),
        indexes: indexes.clone(),
        text: text.to_vec(),
    };
    case(name, request, Outcome::Answered(answer))
}

fn part(
    name: &str,
    card: &Card,
    indexes: &Indexes,
    (text, place): (&str, u64),
    answer: Answer,
) -> Case {
    let request = IndexRequest::Part {
        place,
        card: card.clone(),
        indexes: indexes.clone(),
        text: text.as_bytes().to_vec(),
    };
    case(name, request, Outcome::Answered(answer))
}

fn shift(
    name: &str,
    card: &Card,
    indexes: &Indexes,
    (record, text): (Length, &[u8]),
    answer: Answer,
) -> Case {
    let after = match answer.number {
        0 => answer.length,
        _ => record,
    };
    let request = IndexRequest::Shift {
        record,
        card: card.clone(),
        indexes: indexes.clone(),
        text: text.to_vec(),
    };
    let outcome = Outcome::Shifted {
        answer,
        record: after,
    };
    case(name, request, outcome)
}

/// Table and row of a name, and the names that are compared row by row and through
/// the indexes.
fn finds(
    card: &Card,
    indexes: &Indexes,
    name: &[u8],
    (table, row): (u64, u64),
    by_row: u64,
    halving: u64,
) -> [Case; 2] {
    let found = |compared| {
        Outcome::LookedUp(Found {
            number: 0,
            position: 0,
            table,
            row,
            compared,
        })
    };
    let look_up = IndexRequest::LookUp {
        card: card.clone(),
        name: name.to_vec(),
    };
    let indexed = IndexRequest::LookUpIndexed {
        card: card.clone(),
        indexes: indexes.clone(),
        name: name.to_vec(),
    };
    let shown = name.escape_ascii();
    [
        case(format!("`{shown}` row by row"), look_up, found(by_row)),
        case(format!("`{shown}` by halving"), indexed, found(halving)),
    ]
}

fn plus(seconds: u64, nanos: u64) -> Length {
    Length {
        negative: false,
        seconds,
        nanos,
    }
}

// The list. It is kept one case a line where that can be, which rustfmt would break.

// Byte by byte as numbers from 0 to 255, a prefix first; each pair in both orders of rows.
#[rustfmt::skip]
fn order_of_names() -> Vec<Case> {
    let pairs: [(&str, &[u8], &[u8]); 46] = [
        ("a prefix", b"m", b"ms"),
        ("a longer prefix", b"abcdefgh", b"abcdefghi"),
        ("16 bytes and a byte less", b"abcdefghijklmno", b"abcdefghijklmnop"),
        ("the longest name and a byte less", &LONGEST[..31], LONGEST),
        ("the longest name and its first byte", b"a", LONGEST),
        ("the longest name and its first 8", &LONGEST[..8], LONGEST),
        ("the longest name and its first 16", &LONGEST[..16], LONGEST),
        ("the longest name and its first 24", &LONGEST[..24], LONGEST),
        ("8 bytes and 9", &LONGEST[..8], &LONGEST[..9]),
        ("16 bytes and 17", &LONGEST[..16], &LONGEST[..17]),
        ("24 bytes and 25", &LONGEST[..24], &LONGEST[..25]),
        ("8 bytes and 16", &LONGEST[..8], &LONGEST[..16]),
        ("16 bytes and 24", &LONGEST[..16], &LONGEST[..24]),
        ("a prefix and byte 0", b"m", b"m\0"),
        ("byte 0 once and twice", b"\0", b"\0\0"),
        ("byte 0 31 times and 32", &[0; 31], &[0; 32]),
        ("byte 0 once and 32 times", b"\0", &[0; 32]),
        ("8 bytes and byte 0", b"abcdefgh", b"abcdefgh\0"),
        ("16 bytes and byte 0", b"abcdefghijklmnop", b"abcdefghijklmnop\0"),
        ("24 bytes and byte 0", b"abcdefghijklmnopqrstuvwx", b"abcdefghijklmnopqrstuvwx\0"),
        ("31 bytes and byte 0", &LONGEST[..31], b"abcdefghijklmnopqrstuvwxyzABCDE\0"),
        ("byte 0 inside, and a longer name", b"a\0b", b"a\x01"),
        ("first byte", b"as", b"bs"),
        ("second byte", b"min", b"ms"),
        ("a shorter name behind", b"az", b"b"),
        ("a longer name before", b"aaaaaaaaaaaaaaaa", b"b"),
        ("capitals before small letters", b"Z", b"a"),
        ("eighth byte", b"abcdefgha", b"abcdefgia"),
        ("ninth byte", b"abcdefgha", b"abcdefghb"),
        ("16th byte", b"abcdefghijklmnop", b"abcdefghijklmnoq"),
        ("17th byte", b"abcdefghijklmnopa", b"abcdefghijklmnopb"),
        ("24th byte", b"abcdefghijklmnopqrstuvwxz", b"abcdefghijklmnopqrstuvwya"),
        ("25th byte", b"abcdefghijklmnopqrstuvwxa", b"abcdefghijklmnopqrstuvwxb"),
        ("31st byte", b"abcdefghijklmnopqrstuvwxyzABCDAz", b"abcdefghijklmnopqrstuvwxyzABCDBa"),
        ("last byte", b"abcdefghijklmnopqrstuvwxyzABCDEA", b"abcdefghijklmnopqrstuvwxyzABCDEB"),
        ("last byte, above 127", b"abcdefghijklmnopqrstuvwxyzABCDE\x7f", b"abcdefghijklmnopqrstuvwxyzABCDE\x80"),
        ("an early byte of the longest", b"abcdefgAijklmnopqrstuvwxyz\xff\xff\xff\xff\xff\xff", b"abcdefgBijklmnopqrstuvwxyz\0\0\0\0\0\0"),
        ("0 and 255", b"\0", b"\xff"),
        ("127 and 128", b"\x7f", b"\x80"),
        ("128 and 255", b"\x80", b"\xff"),
        ("a letter and a byte above 127", b"z", b"\xc2\xb5"),
        ("us and \u{b5}s", b"us", b"\xc2\xb5s"),
        ("Greek and Cyrillic", GREEK.as_bytes(), CYRILLIC.as_bytes()),
        ("15 letters and 16 of two bytes", &CYRILLIC.as_bytes()[..30], CYRILLIC.as_bytes()),
        ("a later byte above 127", b"ab\x7fz", b"ab\x80a"),
        ("an early byte decides", b"a\xff\xff", b"b\0\0"),
    ];
    let mut cases = Vec::new();
    for (name, first, second) in pairs {
        cases.push(makes(name, seconds(&[first, second]), &[0, 1]));
        cases.push(makes(&format!("{name}, turned"), seconds(&[second, first]), &[1, 0]));
        cases.push(checks_not(format!("{name}, exchanged"), seconds(&[first, second]), &[1, 0], WRONG, 0));
    }
    cases
}

#[rustfmt::skip]
fn made() -> Vec<Case> {
    let full = many(64);
    let turned: Vec<&String> = full.iter().rev().collect();
    vec![
        makes("no rows", hall(&[]), &[]),
        makes("one row", seconds(&["s"]), &[0]),
        makes("card A", card_a(), &RIGHT),
        makes("64 rows in order", seconds(&full), &rising(64)),
        makes("64 rows turned", seconds(&turned), &falling(64)),
        // What stands as the line's and as numerals is no part of it.
        makes("beside a line's table", Card { line: vec![0], numerals: vec![0], ..card_a() }, &RIGHT),
    ]
}

// At the number of rows, however long it is.
#[rustfmt::skip]
fn lengths() -> Vec<Case> {
    let full = seconds(&many(64));
    let longer = |index: &[u8], row: u8| [index, &[row]].concat();
    let mut cases = vec![
        makes_not("made, none of 6", card_a(), 0, WRONG, 6),
        makes_not("made, one less", card_a(), 5, WRONG, 6),
        makes_not("made, one more", card_a(), 7, WRONG, 6),
        makes_not("made, 255", card_a(), 255, WRONG, 6),
        makes_not("made, 6 more than 256", card_a(), 262, WRONG, 6),
        makes_not("made, one for no rows", hall(&[]), 1, WRONG, 0),
        makes_not("made, none for one row", seconds(&["s"]), 0, WRONG, 1),
        makes_not("made, two for one row", seconds(&["s"]), 2, WRONG, 1),
        makes_not("made, 63 of 64", full.clone(), 63, WRONG, 64),
        makes_not("made, 65 of 64", full.clone(), 65, WRONG, 64),
        checks("card A", card_a(), &RIGHT),
        checks_not("none of 6", card_a(), &[], WRONG, 6),
        checks_not("one of 6", card_a(), &RIGHT[..1], WRONG, 6),
        checks_not("one less", card_a(), &RIGHT[..5], WRONG, 6),
        checks_not("one more, a row that is there", card_a(), &longer(&RIGHT, 4), WRONG, 6),
        checks_not("one more, the next row", card_a(), &longer(&RIGHT, 6), WRONG, 6),
        checks_not("twice", card_a(), &RIGHT.repeat(2), WRONG, 6),
        checks_not("256 more", card_a(), &[&RIGHT[..], &[0; 256]].concat(), WRONG, 6),
        checks_not("wrong entries too", card_a(), &[9; 5], WRONG, 6),
        checks("no rows", hall(&[]), &[]),
        checks_not("one for no rows", hall(&[]), &[0], WRONG, 0),
        checks("one row", seconds(&["s"]), &[0]),
        checks_not("none for one row", seconds(&["s"]), &[], WRONG, 1),
        checks_not("two for one row", seconds(&["s"]), &[0, 0], WRONG, 1),
        checks("64 rows", full.clone(), &rising(64)),
        checks_not("none of 64", full.clone(), &[], WRONG, 64),
        checks_not("63 of 64", full.clone(), &rising(63), WRONG, 64),
        checks_not("65 of 64", full, &rising(65), WRONG, 64),
    ];
    // Through the readers and the lookup: the hall's at the number of rows, the line's 128 further on.
    let seven = line_7();
    cases.extend(refused("none of the hall's", &seven, &indexes(&[], &LINE), WRONG, 6));
    cases.extend(refused("the hall's one less", &seven, &indexes(&RIGHT[..5], &LINE), WRONG, 6));
    cases.extend(refused("the hall's one more", &seven, &indexes(&longer(&RIGHT, 6), &LINE), WRONG, 6));
    cases.extend(refused("none of the line's", &seven, &indexes(&RIGHT, &[]), WRONG, 130));
    cases.extend(refused("the line's one less", &seven, &indexes(&RIGHT, &[0]), WRONG, 130));
    cases.extend(refused("the line's one more", &seven, &indexes(&RIGHT, &[0, 1, 2]), WRONG, 130));
    cases.extend(refused("one for no line's table", &card_a(), &indexes(&RIGHT, &[0]), WRONG, 128));
    let line_alone = Card { hall: Vec::new(), ..seven };
    cases.extend(refused("one for no hall's table", &line_alone, &indexes(&[0], &LINE), WRONG, 0));
    let both = Card { line: seconds(&many(64)).hall, ..seconds(&many(64)) };
    cases.extend(refused("none of 64 of the hall's", &both, &indexes(&[], &rising(64)), WRONG, 64));
    cases.extend(refused("none of 64 of the line's", &both, &indexes(&rising(64), &[]), WRONG, 192));
    cases
}

// The first entry that is not the true order's: every rotation and swap of card A's, rows that are not there, rows twice.
#[rustfmt::skip]
fn entries() -> Vec<Case> {
    let full = seconds(&many(64));
    let mut cases = vec![
        checks_not("the rows in their own order", card_a(), &rising(6), WRONG, 0),
        checks_not("backwards", card_a(), &[4, 2, 0, 1, 3, 5], WRONG, 0),
        checks_not("all the first", card_a(), &[5; 6], WRONG, 1),
        checks_not("all the last", card_a(), &[4; 6], WRONG, 0),
        checks_not("one twice", card_a(), &[5, 5, 1, 0, 2, 4], WRONG, 1),
        checks_not("the last twice", card_a(), &[5, 3, 1, 0, 2, 2], WRONG, 5),
        checks_not("two wrong, the first counts", card_a(), &[5, 3, 0, 1, 4, 2], WRONG, 2),
        checks_not("one row, another", seconds(&["s"]), &[1], WRONG, 0),
        checks_not("one row, 255", seconds(&["s"]), &[255], WRONG, 0),
        checks_not("64 rows, the last one past", full.clone(), &with_entry(&rising(64), 63, 64), WRONG, 63),
        checks_not("64 rows, the last one 0", full.clone(), &with_entry(&rising(64), 63, 0), WRONG, 63),
        checks_not("64 rows, the last two exchanged", full.clone(), &with_entry(&with_entry(&rising(64), 62, 63), 63, 62), WRONG, 62),
        checks_not("64 rows, backwards", full, &falling(64), WRONG, 0),
    ];
    for by in 1..RIGHT.len() {
        let mut turned = RIGHT;
        turned.rotate_left(by);
        cases.push(checks_not(format!("turned by {by}"), card_a(), &turned, WRONG, 0));
    }
    for first in 0..RIGHT.len() {
        for second in first + 1..RIGHT.len() {
            let mut swapped = RIGHT;
            swapped.swap(first, second);
            cases.push(checks_not(format!("{first} and {second} exchanged"), card_a(), &swapped, WRONG, first as u64));
        }
        for row in [6, 7, 63, 64, 127, 128, 255] {
            let past = with_entry(&RIGHT, first, row);
            cases.push(checks_not(format!("row {row} at {first}"), card_a(), &past, WRONG, first as u64));
        }
    }
    let seven = line_7();
    cases.extend(refused("the hall's first two", &seven, &indexes(&[3, 5, 1, 0, 2, 4], &LINE), WRONG, 0));
    cases.extend(refused("the hall's last two", &seven, &indexes(&[5, 3, 1, 0, 4, 2], &LINE), WRONG, 4));
    cases.extend(refused("the hall's last past", &seven, &indexes(&[5, 3, 1, 0, 2, 6], &LINE), WRONG, 5));
    cases.extend(refused("the line's exchanged", &seven, &indexes(&RIGHT, &[1, 0]), WRONG, 128));
    cases.extend(refused("the line's last past", &seven, &indexes(&RIGHT, &[0, 2]), WRONG, 129));
    cases.extend(refused("the line's is the hall's", &seven, &indexes(&RIGHT, &RIGHT[..2]), WRONG, 128));
    cases.extend(refused("the two exchanged", &seven, &indexes(&LINE, &RIGHT), WRONG, 6));
    let both = Card { line: seconds(&many(64)).hall, ..seconds(&many(64)) };
    cases.extend(refused("the line's last of 64", &both, &indexes(&rising(64), &with_entry(&rising(64), 63, 0)), WRONG, 191));
    cases
}

// Settings and table are looked at before the index, also where that is wrong in its length or not there.
#[rustfmt::skip]
fn cards_before_indexes() -> Vec<Case> {
    let mut cases = Vec::new();
    for (name, card, position) in [
        ("delimiters", Card { inner: ByteSet::of(b"+"), ..card_a() }, 65),
        ("kind", with_kind(card_a(), 8), 67),
        ("table size", cut(card_a(), 287), 64),
        ("table of 65", seconds(&many(65)), 64),
        ("bad row", bad_row(), 2),
        ("name twice", twice(), 1),
    ] {
        let right = card.hall.len() / ROW_BYTES;
        cases.push(makes_not(&format!("{name}, made"), card.clone(), right, 7, position));
        cases.push(makes_not(&format!("{name}, made, no index"), card.clone(), 0, 7, position));
        cases.push(checks_not(format!("{name}, checked"), card.clone(), &rising(right), 7, position));
        cases.push(checks_not(format!("{name}, checked, no index"), card.clone(), &[], 7, position));
        cases.push(replaces_not(format!("{name}, replaced"), card.clone(), &[], (1_000, b""), 7, position));
        cases.extend(refused(&format!("{name}, read"), &card, &indexes(&[], &[0]), 7, position));
    }
    cases
}

// 23 is found before what is wrong with record, text and place; and with right indexes that is found in its order.
#[rustfmt::skip]
fn indexes_before_texts() -> Vec<Case> {
    let (card, right) = (line_7(), indexes(&RIGHT, &LINE));
    let (wrong, wrong_line) = (indexes(&[], &LINE), indexes(&RIGHT, &[1, 0]));
    let minus_zero = Length { negative: true, ..Length::ZERO };
    let long = vec![b'1'; 4_097];
    vec![
        shift("11, right", &card, &right, (minus_zero, &long), Answer::refusal(11, 0)),
        shift("11, wrong", &card, &wrong, (minus_zero, &long), Answer::refusal(WRONG, 6)),
        shift("11, wrong line's", &card, &wrong_line, (minus_zero, &long), Answer::refusal(WRONG, 128)),
        shift("11, many nanoseconds, wrong", &card, &wrong, (plus(0, 1_000_000_000), b"1s"), Answer::refusal(WRONG, 6)),
        shift("8, right", &card, &right, (plus(1, 0), &long), Answer::refusal(8, 4_096)),
        shift("8, wrong", &card, &wrong, (plus(1, 0), &long), Answer::refusal(WRONG, 6)),
        total("8, right, total", &card, &right, &long, Answer::refusal(8, 4_096)),
        total("8, wrong, total", &card, &wrong_line, &long, Answer::refusal(WRONG, 128)),
        part("10, right", &card, &right, ("1s", 3), Answer::refusal(10, 3)),
        part("10, wrong", &card, &wrong, ("1s", 3), Answer::refusal(WRONG, 6)),
        part("10, wrong line's", &card, &wrong_line, ("1s", u64::MAX), Answer::refusal(WRONG, 128)),
        total("1, right", &card, &right, b"", Answer::refusal(1, 0)),
        total("1, wrong", &card, &wrong, b"", Answer::refusal(WRONG, 6)),
        total("18, right", &card, &right, b"1s ", Answer::refusal(18, 2)),
        total("18, wrong", &card, &wrong, b"1s ", Answer::refusal(WRONG, 6)),
        total("a text without units, wrong", &card, &wrong, b"1", Answer::refusal(WRONG, 6)),
        total("a unit of the line's, the hall's wrong", &card, &wrong, b"1jaw", Answer::refusal(WRONG, 6)),
        total("a unit of the hall's, the line's wrong", &card, &wrong_line, b"1s", Answer::refusal(WRONG, 128)),
        part("a part without units, wrong", &card, &wrong_line, ("1s 1", 3), Answer::refusal(WRONG, 128)),
        shift("a text that is read, wrong", &card, &wrong_line, (plus(1, 0), b"1s"), Answer::refusal(WRONG, 128)),
    ]
}

// Settings, hall, line, numerals, and only then the hall's index and the line's. Each has all wrong that the one before has.
#[rustfmt::skip]
fn order_of_refusals() -> Vec<Case> {
    let both_wrong = indexes(&[4; 6], &[1; 9]);
    let bad = row("1", 3, 1, 0);
    let mut cases = Vec::new();
    cases.extend(refused("the line's index", &line_7(), &indexes(&RIGHT, &[1; 9]), WRONG, 130));
    cases.extend(refused("the hall's index", &line_7(), &both_wrong, WRONG, 0));
    let card = with_numerals(line_7(), std::slice::from_ref(&bad));
    cases.extend(refused("numerals", &card, &both_wrong, 7, 68));
    let card = Card { numerals: vec![0; 47], ..card };
    cases.extend(refused("size of the numerals", &card, &both_wrong, 7, 100));
    let card = with_line(card, &[row("jaw", 2, 40, 0), bad.clone()]);
    cases.extend(refused("the line's row", &card, &both_wrong, 7, 129));
    let card = Card { line: vec![0; 49], ..card };
    cases.extend(refused("size of the line's", &card, &both_wrong, 7, 192));
    let card = Card { hall: table_bytes(&[row("s", 3, 1, 0), row("t", 3, 1, 0), bad]), ..card };
    cases.extend(refused("the hall's row", &card, &both_wrong, 7, 2));
    let card = cut(card, 49);
    cases.extend(refused("size of the hall's", &card, &both_wrong, 7, 64));
    let card = with_kind(card, 8);
    cases.extend(refused("kind", &card, &both_wrong, 7, 67));
    cases
}

// With right indexes as without.
#[rustfmt::skip]
fn read_through_indexes() -> Vec<Case> {
    let card = with_numerals(line_7(), &[row("five", 3, 5, 0)]);
    let right = indexes(&RIGHT, &LINE);
    let none = Card { hall: Vec::new(), ..card_a() };
    let empty = indexes(&[], &[]);
    vec![
        total("the line's", &card, &right, b"3jaw", Answer::success(4, plus(0, 120_000_000))),
        total("the line's wins", &card, &right, b"1turn", Answer::success(5, plus(0, 15_000_000))),
        total("the hall's", &card, &right, b"61.7ms", Answer::success(6, plus(0, 61_700_000))),
        total("the hall's first by name", &card, &right, b"1.9e-18block", Answer::success(12, plus(0, 10))),
        total("of both", &card, &right, b"1s 2jaw", Answer::success(7, plus(1, 80_000_000))),
        total("spoken", &card, &right, b"five turn", Answer::success(9, plus(0, 75_000_000))),
        total("no unit", &card, &right, b"1hour", Answer::refusal(6, 1)),
        total("a name that goes on", &card, &right, b"1blocks", Answer::refusal(6, 1)),
        total("a name cut short", &card, &right, b"1bloc", Answer::refusal(6, 1)),
        total("spoken, no unit", &card, &right, b"five x", Answer::refusal(15, 5)),
        total("no tables", &none, &empty, b"1", Answer::success(1, plus(1, 0))),
        total("no tables, a name", &none, &empty, b"1s", Answer::refusal(6, 1)),
        part("a part of the line's", &card, &right, ("1s and five turn", 7), Answer::success(16, plus(0, 75_000_000))),
        part("a part of the hall's", &card, &right, ("1jaw 2min", 5), Answer::success(9, plus(120, 0))),
        part("at the end", &card, &right, ("1s", 2), Answer::refusal(1, 2)),
        shift("added", &card, &right, (plus(1, 0), b"1s 1jaw"), Answer::success(7, plus(2, 40_000_000))),
        shift("refused", &card, &right, (plus(1, 0), b"1hour"), Answer::refusal(6, 1)),
    ]
}

// To the first place, to the last, to its own and to one between; the name kept; one row; the last of 64.
#[rustfmt::skip]
fn rows_replaced() -> Vec<Case> {
    let full = seconds(&many(64));
    let to_the_front: Vec<u8> = [&[63], &rising(63)[..]].concat();
    let to_the_end: Vec<u8> = [&rising(64)[1..], &[0]].concat();
    vec![
        replaces("s becomes the first", card_a(), &RIGHT, 2, row("apart", 3, 1, 0), &[2, 5, 3, 1, 0, 4]),
        replaces("block becomes the last", card_a(), &RIGHT, 5, row("zone", 3, 1, 0), &[3, 1, 0, 2, 4, 5]),
        replaces("ns goes on", card_a(), &RIGHT, 0, row("nss", 0, 1, 0), &RIGHT),
        replaces("turn between min and ms", card_a(), &RIGHT, 4, row("mn", 3, 1, 0), &[5, 3, 4, 1, 0, 2]),
        replaces("min before block", card_a(), &RIGHT, 3, row("bloc", 3, 1, 0), &[3, 5, 1, 0, 2, 4]),
        replaces("min behind block", card_a(), &RIGHT, 3, row("blocks", 3, 1, 0), &RIGHT),
        replaces("ms keeps its name", card_a(), &RIGHT, 1, row("ms", 2, 2, 0), &RIGHT),
        replaces("by itself", card_a(), &RIGHT, 4, row("turn", 2, 123, -1), &RIGHT),
        replaces("a byte above 127", card_a(), &RIGHT, 5, second(b"\xc2\xb5s"), &[3, 1, 0, 2, 4, 5]),
        replaces("the longest name", card_a(), &RIGHT, 2, second(LONGEST), &[2, 5, 3, 1, 0, 4]),
        replaces("sixteen letters of two bytes", card_a(), &RIGHT, 5, second(CYRILLIC.as_bytes()), &[3, 1, 0, 2, 4, 5]),
        replaces("the longest name by one that differs last", seconds(&[LONGEST, b"abcdefghijklmnopqrstuvwxyzABCDEH"]), &[0, 1], 0,
            second(b"abcdefghijklmnopqrstuvwxyzABCDEI"), &[1, 0]),
        replaces("byte 0", card_a(), &RIGHT, 4, second(b"\0"), &[4, 5, 3, 1, 0, 2]),
        replaces("one row", seconds(&["s"]), &[0], 0, row("t", 3, 1, 0), &[0]),
        replaces("two rows, first", seconds(&["a", "b"]), &[0, 1], 0, row("c", 3, 1, 0), &[1, 0]),
        replaces("two rows, second", seconds(&["a", "b"]), &[0, 1], 1, row("A", 3, 1, 0), &[1, 0]),
        replaces("64 rows, last to the front", full.clone(), &rising(64), 63, row("a", 3, 1, 0), &to_the_front),
        replaces("64 rows, first to the end", full, &rising(64), 0, row("z", 3, 1, 0), &to_the_end),
    ]
}

// 10 at a row past the last; 7 at the row, by the new row's own faults, by its size, and where the check would name another row.
#[rustfmt::skip]
fn rows_not_replaced() -> Vec<Case> {
    let good = row("zone", 3, 1, 0).to_bytes();
    let full = seconds(&many(64));
    let led_by_e = row("eon", 3, 1, 0).to_bytes();
    let mut cases = vec![
        replaces("the last row", card_a(), &RIGHT, 5, row("zone", 3, 1, 0), &[3, 1, 0, 2, 4, 5]),
        replaces_not("past the last", card_a(), &RIGHT, (6, &good), 10, 6),
        replaces_not("further on", card_a(), &RIGHT, (7, &good), 10, 7),
        replaces_not("256 rows on", card_a(), &RIGHT, (256, &good), 10, 256),
        replaces_not("2 to the 60th, which is 0 in bytes", card_a(), &RIGHT, (1 << 60, &good), 10, 1 << 60),
        replaces_not("the same and one, which is 48 in bytes", card_a(), &RIGHT, ((1 << 60) + 1, &good), 10, (1 << 60) + 1),
        replaces_not("a row that is 32 in bytes", card_a(), &RIGHT, (WRAPS_TO_32, &good), 10, WRAPS_TO_32),
        replaces_not("the largest", card_a(), &RIGHT, (u64::MAX, &good), 10, u64::MAX),
        replaces_not("no rows", hall(&[]), &[], (0, &good), 10, 0),
        replaces_not("one row", seconds(&["s"]), &[0], (1, &good), 10, 1),
        replaces_not("64 rows", full.clone(), &rising(64), (64, &good), 10, 64),
        replaces_not("no bytes", card_a(), &RIGHT, (0, b""), 7, 0),
        replaces_not("a byte less", card_a(), &RIGHT, (0, &good[..47]), 7, 0),
        replaces_not("a byte more", card_a(), &RIGHT, (5, &[&good[..], &[0]].concat()), 7, 5),
        replaces_not("two rows", card_a(), &RIGHT, (1, &[good, row("y", 3, 1, 0).to_bytes()].concat()), 7, 1),
        replaces_not("a row less in one of two", seconds(&["a", "b"]), &[0, 1], (1, b""), 7, 1),
        replaces_not("the name of a later row", card_a(), &RIGHT, (0, &row("s", 3, 1, 0).to_bytes()), 7, 0),
        replaces_not("the name of the last row", card_a(), &RIGHT, (4, &row("block", 3, 1, 0).to_bytes()), 7, 4),
        replaces_not("the name of an earlier row", card_a(), &RIGHT, (4, &row("s", 3, 1, 0).to_bytes()), 7, 4),
        replaces_not("the name of the first row", card_a(), &RIGHT, (5, &row("ns", 3, 1, 0).to_bytes()), 7, 5),
        replaces_not("the name of another row, 32 bytes", seconds(&[&LONGEST[..31], LONGEST]), &[0, 1], (0, &second(LONGEST).to_bytes()), 7, 0),
        replaces_not("an old row of 32 bytes", card_a(), &RIGHT, (3, b"\x04zone\0\0\0\0\0\0\0\0\0\0\0\0\x03\x01\0\0\0\0\0\0\0\0\0\0\0\0\0"), 7, 3),
        replaces_not("a digit", card_a(), &RIGHT, (3, &row("1", 3, 1, 0).to_bytes()), 7, 3),
        replaces_not("a delimiter", card_a(), &RIGHT, (2, &row("a b", 3, 1, 0).to_bytes()), 7, 2),
        replaces_not("kind 8", card_a(), &RIGHT, (5, &row("x", 8, 1, 0).to_bytes()), 7, 5),
        replaces_not("all zeros", card_a(), &RIGHT, (0, &[0; ROW_BYTES]), 7, 0),
        replaces_not("the product", card_a(), &RIGHT, (1, &row("x", 7, i64::MAX, 0).to_bytes()), 7, 1),
        replaces_not("64 rows, the last", full, &rising(64), (63, &row("aa", 3, 1, 0).to_bytes()), 7, 63),
        replaces("led by e, exponents on", card_a(), &RIGHT, 0, row("eon", 3, 1, 0), &[5, 0, 3, 1, 2, 4]),
    ];
    let mut no_exponents = card_a();
    no_exponents.switches.exponents = false;
    no_exponents.inner = ByteSet::EMPTY;
    cases.push(replaces_not("led by e, nothing before it", no_exponents, &RIGHT, (0, &led_by_e), 7, 0));
    cases
}

// 7, 23, 10, 7: each has all wrong that comes behind it.
#[rustfmt::skip]
fn order_of_a_replacement() -> Vec<Case> {
    let bad = [0; 47];
    vec![
        replaces_not("the new row", card_a(), &RIGHT, (5, &bad), 7, 5),
        replaces_not("the row's number", card_a(), &RIGHT, (6, &bad), 10, 6),
        replaces_not("an entry", card_a(), &[5, 3, 1, 0, 4, 2], (6, &bad), WRONG, 4),
        replaces_not("an entry, a right row", card_a(), &[5, 3, 1, 0, 4, 2], (5, &row("zone", 3, 1, 0).to_bytes()), WRONG, 4),
        replaces_not("the length", card_a(), &[], (6, &bad), WRONG, 6),
        replaces_not("the length, the new table's", card_a(), &[RIGHT[0]; 7], (6, &row("zone", 3, 1, 0).to_bytes()), WRONG, 6),
        replaces_not("an index that would be right then", card_a(), &[3, 1, 0, 2, 4, 5], (5, &row("zone", 3, 1, 0).to_bytes()), WRONG, 0),
        replaces_not("a row of the table", bad_row(), &[], (6, &bad), 7, 2),
        replaces_not("a row of the table that the new one would mend", bad_row(), &RIGHT, (2, &row("s", 3, 1, 0).to_bytes()), 7, 2),
        replaces_not("the table's size", cut(card_a(), 289), &[], (1_000, &bad), 7, 64),
        replaces_not("settings", with_kind(cut(card_a(), 289), 8), &[], (1_000, &bad), 7, 67),
    ]
}

// Names that stand in card A's table and that do not, before, between and behind those that do.
#[rustfmt::skip]
fn looked_up() -> Vec<Case> {
    let (a, right) = (card_a(), indexes(&RIGHT, &[]));
    let (none, empty) = (hall(&[]), indexes(&[], &[]));
    let (one, first) = (seconds(&["s"]), indexes(&[0], &[]));
    let (two, both) = (seconds(&["b", "a"]), indexes(&[1, 0], &[]));
    let longest = seconds(&[LONGEST]);
    let letters = (seconds(&[CYRILLIC, GREEK, "µs"]), indexes(&[2, 1, 0], &[]));
    // Its rooms differ in nothing; sizes decide.
    let zeros = (seconds(&[&[0; 32][..], &[0; 1], &[0; 8], &[0; 31], &[0; 9]]), indexes(&[1, 2, 4, 3, 0], &[]));
    [
        finds(&a, &right, b"ns", (1, 0), 1, 1),
        finds(&a, &right, b"ms", (1, 1), 2, 3),
        finds(&a, &right, b"s", (1, 2), 3, 3),
        finds(&a, &right, b"min", (1, 3), 4, 2),
        finds(&a, &right, b"turn", (1, 4), 5, 2),
        finds(&a, &right, b"block", (1, 5), 6, 3),
        finds(&a, &right, b"", (0, 0), 6, 3),
        finds(&a, &right, b"\0", (0, 0), 6, 3),
        finds(&a, &right, b"a", (0, 0), 6, 3),
        finds(&a, &right, b"bloc", (0, 0), 6, 3),
        finds(&a, &right, b"blocks", (0, 0), 6, 3),
        finds(&a, &right, b"m", (0, 0), 6, 3),
        finds(&a, &right, b"mins", (0, 0), 6, 3),
        finds(&a, &right, b"mr", (0, 0), 6, 3),
        finds(&a, &right, b"n", (0, 0), 6, 3),
        finds(&a, &right, b"nss", (0, 0), 6, 3),
        finds(&a, &right, b"S", (0, 0), 6, 3),
        finds(&a, &right, b"ss", (0, 0), 6, 3),
        finds(&a, &right, b"turns", (0, 0), 6, 2),
        finds(&a, &right, b"z", (0, 0), 6, 2),
        finds(&a, &right, b"\x80", (0, 0), 6, 2),
        finds(&a, &right, b"\xff", (0, 0), 6, 2),
        finds(&a, &right, b"s\0", (0, 0), 6, 3),
        finds(&a, &right, b"block\0\0\0\0\0\0\0\0\0\0\0", (0, 0), 6, 3),
        finds(&a, &right, &[&b"block"[..], &[0; 27]].concat(), (0, 0), 6, 3),
        finds(&a, &right, b"nnnnnnnnnnnnnnnnn", (0, 0), 6, 3),
        finds(&a, &right, &[b'n'; 32], (0, 0), 6, 3),
        finds(&a, &right, &[b'n'; 33], (0, 0), 6, 3),
        finds(&a, &right, &[b'x'; 5_000], (0, 0), 6, 2),
        finds(&a, &right, &[&b"s"[..], &[0; 256]].concat(), (0, 0), 6, 3),
        finds(&longest, &first, LONGEST, (1, 0), 1, 1),
        finds(&longest, &first, &LONGEST[..31], (0, 0), 1, 1),
        finds(&longest, &first, &LONGEST[..24], (0, 0), 1, 1),
        finds(&longest, &first, &LONGEST[..16], (0, 0), 1, 1),
        finds(&longest, &first, &LONGEST[..8], (0, 0), 1, 1),
        finds(&longest, &first, b"abcdefghijklmnopqrstuvwxyzABCDEG", (0, 0), 1, 1),
        finds(&longest, &first, b"abcdefghijklmnopqrstuvwxyzABCDEFG", (0, 0), 1, 1),
        finds(&longest, &first, b"abcdefghijklmnopqrstuvwxyzABCDEF\x03", (0, 0), 1, 1),
        finds(&letters.0, &letters.1, CYRILLIC.as_bytes(), (1, 0), 1, 2),
        finds(&letters.0, &letters.1, GREEK.as_bytes(), (1, 1), 2, 1),
        finds(&letters.0, &letters.1, "µs".as_bytes(), (1, 2), 3, 2),
        finds(&letters.0, &letters.1, "абвгдежзийклмноо".as_bytes(), (0, 0), 3, 2),
        finds(&letters.0, &letters.1, "абвгдежзийклмнопр".as_bytes(), (0, 0), 3, 2),
        finds(&letters.0, &letters.1, &CYRILLIC.as_bytes()[..31], (0, 0), 3, 2),
        finds(&letters.0, &letters.1, &GREEK.as_bytes()[..16], (0, 0), 3, 2),
        finds(&letters.0, &letters.1, b"us", (0, 0), 3, 2),
        finds(&zeros.0, &zeros.1, &[0; 32], (1, 0), 1, 2),
        finds(&zeros.0, &zeros.1, &[0; 31], (1, 3), 4, 3),
        finds(&zeros.0, &zeros.1, &[0; 9], (1, 4), 5, 1),
        finds(&zeros.0, &zeros.1, &[0; 8], (1, 2), 3, 2),
        finds(&zeros.0, &zeros.1, &[0; 1], (1, 1), 2, 3),
        finds(&zeros.0, &zeros.1, &[0; 33], (0, 0), 5, 2),
        finds(&zeros.0, &zeros.1, &[0; 16], (0, 0), 5, 3),
        finds(&none, &empty, b"s", (0, 0), 0, 0),
        finds(&none, &empty, b"", (0, 0), 0, 0),
        finds(&one, &first, b"s", (1, 0), 1, 1),
        finds(&one, &first, b"r", (0, 0), 1, 1),
        finds(&one, &first, b"t", (0, 0), 1, 1),
        finds(&one, &first, b"", (0, 0), 1, 1),
        finds(&two, &both, b"a", (1, 1), 2, 2),
        finds(&two, &both, b"b", (1, 0), 1, 1),
        finds(&two, &both, b"A", (0, 0), 2, 2),
        finds(&two, &both, b"aa", (0, 0), 2, 2),
        finds(&two, &both, b"bb", (0, 0), 2, 1),
    ]
    .into_iter()
    .flatten()
    .collect()
}

// The line's table first, and the hall's only where it has not got the name: so many are compared in the one and in the other.
#[rustfmt::skip]
fn looked_up_in_both() -> Vec<Case> {
    let (seven, right) = (line_7(), indexes(&RIGHT, &LINE));
    let line_alone = Card { hall: Vec::new(), ..line_7() };
    let alone = indexes(&[], &LINE);
    let same = Card { line: card_a().hall, ..card_a() };
    let twice = indexes(&RIGHT, &RIGHT);
    // Numerals are no part of it, whether there are any or not.
    let spoken = Card { numerals: vec![0; 7], ..line_7() };
    [
        finds(&seven, &right, b"jaw", (2, 0), 1, 2),
        finds(&seven, &right, b"turn", (2, 1), 2, 1),
        finds(&seven, &right, b"s", (1, 2), 5, 5),
        finds(&seven, &right, b"ns", (1, 0), 3, 3),
        finds(&seven, &right, b"min", (1, 3), 6, 4),
        finds(&seven, &right, b"block", (1, 5), 8, 5),
        finds(&seven, &right, b"pouch", (0, 0), 8, 5),
        finds(&seven, &right, b"", (0, 0), 8, 5),
        finds(&seven, &right, b"zone", (0, 0), 8, 3),
        finds(&line_alone, &alone, b"jaw", (2, 0), 1, 2),
        finds(&line_alone, &alone, b"s", (0, 0), 2, 2),
        finds(&same, &twice, b"block", (2, 5), 6, 3),
        finds(&same, &twice, b"z", (0, 0), 12, 4),
        finds(&spoken, &right, b"block", (1, 5), 8, 5),
    ]
    .into_iter()
    .flatten()
    .collect()
}

// Tables of 64 rows and of 63: no more than 64 are compared one by one and 7 by halving, of each table.
#[rustfmt::skip]
fn looked_up_in_many() -> Vec<Case> {
    let (full, right) = (seconds(&many(64)), indexes(&rising(64), &[]));
    let both = Card { line: full.hall.clone(), ..seconds(&many(128)[64..]) };
    let twice = indexes(&rising(64), &rising(64));
    let odd = (seconds(&many(63)), indexes(&rising(63), &[]));
    [
        finds(&full, &right, b"bg", (1, 32), 33, 1),
        finds(&full, &right, b"aq", (1, 16), 17, 2),
        finds(&full, &right, b"bw", (1, 48), 49, 2),
        finds(&full, &right, b"ai", (1, 8), 9, 3),
        finds(&full, &right, b"ae", (1, 4), 5, 4),
        finds(&full, &right, b"ac", (1, 2), 3, 5),
        finds(&full, &right, b"ab", (1, 1), 2, 6),
        finds(&full, &right, b"aa", (1, 0), 1, 7),
        finds(&full, &right, b"cl", (1, 63), 64, 6),
        finds(&full, &right, b"ck", (1, 62), 63, 5),
        finds(&full, &right, b"bf", (1, 31), 32, 6),
        finds(&full, &right, b"bh", (1, 33), 34, 6),
        finds(&full, &right, b"a", (0, 0), 64, 7),
        finds(&full, &right, b"", (0, 0), 64, 7),
        finds(&full, &right, b"aaa", (0, 0), 64, 7),
        finds(&full, &right, b"aba", (0, 0), 64, 6),
        finds(&full, &right, b"cm", (0, 0), 64, 6),
        finds(&odd.0, &odd.1, b"bf", (1, 31), 32, 1),
        finds(&odd.0, &odd.1, b"aa", (1, 0), 1, 6),
        finds(&odd.0, &odd.1, b"ck", (1, 62), 63, 6),
        finds(&odd.0, &odd.1, b"a", (0, 0), 63, 6),
        finds(&odd.0, &odd.1, b"zz", (0, 0), 63, 6),
        finds(&both, &twice, b"aa", (2, 0), 1, 7),
        finds(&both, &twice, b"cm", (1, 0), 65, 13),
        finds(&both, &twice, b"a", (0, 0), 128, 14),
        finds(&both, &twice, b"z", (0, 0), 128, 12),
    ]
    .into_iter()
    .flatten()
    .collect()
}

// 7 by both lookups, without the numerals, with zeros in the place of what is found.
#[rustfmt::skip]
fn lookups_refused() -> Vec<Case> {
    let look_up = |card: Card| IndexRequest::LookUp { card, name: b"s".to_vec() };
    let refused = |name: &str, card: &Card, position| case(name, look_up(card.clone()), not_found(7, position));
    let bad = row("1", 3, 1, 0);
    let card = with_line(line_7(), &[row("jaw", 2, 40, 0), bad.clone()]);
    let line_size = Card { line: vec![0; 47], ..line_7() };
    vec![
        refused("the line's row", &card, 129),
        refused("size of the line's", &line_size, 192),
        refused("65 rows of the line's", &Card { line: seconds(&many(65)).hall, ..card_a() }, 192),
        refused("the hall's row", &bad_row(), 2),
        refused("name twice", &twice(), 1),
        refused("size of the hall's", &cut(line_size.clone(), 1), 64),
        refused("delimiters", &Card { outer: ByteSet::of(b"x"), ..line_size.clone() }, 65),
        refused("kind", &with_kind(line_size, 255), 67),
    ]
}
