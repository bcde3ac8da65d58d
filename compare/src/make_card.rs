//! Making cards and tables that document 01 accepts, requests two, four, five and
//! eight counted in.

use crate::request::{ByteSet, Card, Conjunctions, Switches};
use crate::rng::Random;
use crate::table::{
    KINDS, MOST_NUMERALS, MOST_ROWS, NAME_BYTES, NUMERAL_KIND, Row, is_led_by_e, merged,
    table_bytes,
};

/// Delimiters that people use, and a few that they do not: NUL and delete.
const COMMON_DELIMITERS: &[u8] = b" \t\n\0,;:_/|&\x7f";

/// Words that get in each other's way: prefixes of one another, of unit names,
/// of `inf`, and the exponent's letter.
const COMMON_WORDS: &[&str] = &[
    "and", "a", "an", "And", "andor", "or", "o", "und", "e", "E", "es", "i", "in", "inf", "ago",
    "ag", "s", "m", "mi", "then", "plusplus",
];

const COMMON_NAMES: &[&str] = &[
    "ns",
    "ms",
    "s",
    "S",
    "min",
    "h",
    "d",
    "w",
    "turn",
    "block",
    "e",
    "E",
    "es",
    "eon",
    "inf",
    "infinity",
    "inity",
    "in",
    "i",
    "ago",
    "AGO",
    "a",
    "ag",
    "agos",
    "and",
    "an",
    "android",
    "or",
    "x",
    "µs",
    "µ",
    "é",
    "ßß",
    "сек",
    "день",
    "秒",
    "😀",
    "abcdefghijklmnop",
    "éééééééé",
    "мкс",
    "оборот",
    "миллисекунда",
    "миллисекунды",
    "микросекунда",
    "ώρα",
    "λεπτό",
    "δευτερόλεπτο",
    "χιλιοστοδευτερόλ",
    "абвгдежзийклмноп",
    "abcdefghijklmnopqrstuvwxyzABCDEF",
];

/// What names begin with that differ only behind it, each of 24 bytes: letters of
/// one byte, and Cyrillic and Greek ones of two.
const LONG_BEGINNINGS: &[&str] = &["abcdefghijklmnopqrstuvwx", "абвгдежзийкл", "αβγδεζηθικλμ"];

/// What stands behind such a beginning: few letters, so that names meet.
const LAST_LETTERS: &[&str] = &["a", "b", "B", "µ", "я", "ω"];

/// Numerals that get in the way of units, words, infinity, `ago`, exponents and
/// each other: prefixes, other cases, one letter, sixteen, thirty-two.
const COMMON_NUMERALS: &[&str] = &[
    "five",
    "fiv",
    "fi",
    "f",
    "Five",
    "fives",
    "one",
    "on",
    "a",
    "an",
    "and",
    "half",
    "next",
    "s",
    "ms",
    "min",
    "inf",
    "Inf",
    "infinity",
    "infi",
    "in",
    "i",
    "ago",
    "AGO",
    "e",
    "E",
    "eleven",
    "Eight",
    "abcdefghijklmnop",
    "abcdefghijklmno",
    "ABCDEFGHIJKLMNOP",
    "abcdefghijklmnopq",
    "abcdefghijklmnopqrstuvwxyzABCDEF",
    "abcdefghijklmnopqrstuvwxyzABCDEG",
    "abcdefghijklmnopqrstuvwxyzABCDE",
];

/// Signs that may stand in a name as long as they are no delimiters.
const NAME_ODDITIES: &[char] = &['/', ' ', '_', '\0', ',', '%', '\u{7f}', '€'];

pub fn make_card(random: &mut Random) -> Card {
    let (inner, outer) = make_delimiters(random);
    let words = make_words(random);
    let mut card = Card {
        switches: make_switches(random),
        inner,
        outer,
        conjunctions: Conjunctions::of(&words),
        kind: make_kind(random),
        hall: Vec::new(),
        line: Vec::new(),
        numerals: Vec::new(),
    };
    // Which names are allowed depends on all the rest.
    let hall = make_rows(random, &card, &words);
    if random.chance(60) {
        card.line = table_bytes(&make_line(random, &card, &words, &hall));
    }
    card.hall = table_bytes(&hall);
    if random.chance(50) {
        let numerals = make_numerals(random, &units_of(&card), &words);
        card.numerals = table_bytes(&numerals);
    }
    card
}

/// The units that a text of the card may have.
fn units_of(card: &Card) -> Vec<Row> {
    merged(&card.hall, &card.line).unwrap_or_default()
}

/// A card whose words and names are single letters, so that texts of three or
/// four letters come to every step.
pub fn make_small_card(random: &mut Random) -> Card {
    let mut card = make_card(random);
    let letters = ["a", "e", "i", "s", "µ"];
    let words: Vec<Vec<u8>> = (0..random.below(3))
        .map(|_| random.pick(&letters[..4]).as_bytes().to_vec())
        .collect();
    card.conjunctions = Conjunctions::of(&words);
    let most = random.below(3);
    card.hall = table_bytes(&make_small_rows(random, &card, &letters, most));
    if !card.line.is_empty() {
        let most = 1 + random.below(3);
        card.line = table_bytes(&make_small_rows(random, &card, &letters, most));
    }
    if !card.numerals.is_empty() {
        let rows = units_of(&card);
        let mut numerals: Vec<Row> = Vec::new();
        for _ in 0..=random.below(3) {
            let name = random.pick(&letters[..4]).as_bytes().to_vec();
            if numerals.iter().all(|numeral| numeral.name != name) {
                numerals.push(make_numeral(random, name, &rows));
            }
        }
        card.numerals = table_bytes(&numerals);
    }
    card
}

/// At most so many rows with one of the names each.
fn make_small_rows(random: &mut Random, card: &Card, names: &[&str], most: u64) -> Vec<Row> {
    let mut rows: Vec<Row> = Vec::new();
    for _ in 0..most {
        let name = random.pick(names).as_bytes().to_vec();
        if is_free(&name, card, &rows) {
            rows.push(make_row(random, name));
        }
    }
    rows
}

fn make_switches(random: &mut Random) -> Switches {
    Switches {
        negatives: random.chance(70),
        fractions: random.chance(75),
        exponents: random.chance(75),
        infinity: random.chance(70),
        ago: random.chance(65),
        sign_delimiter: random.chance(50),
        unit_delimiter: random.chance(60),
    }
}

fn make_kind(random: &mut Random) -> u8 {
    if random.chance(40) {
        3
    } else {
        random.below(8) as u8
    }
}

/// What document 01 lets be a delimiter.
pub fn may_delimit(byte: u8) -> bool {
    byte.is_ascii() && !byte.is_ascii_alphanumeric() && !matches!(byte, b'+' | b'-' | b'.')
}

/// The inner and the outer set: equal, apart, overlapping, one within the
/// other, or empty.
fn make_delimiters(random: &mut Random) -> (ByteSet, ByteSet) {
    let one = some_delimiters(random);
    let other = some_delimiters(random);
    let both = [one.clone(), other.clone()].concat();
    let apart: Vec<u8> = other
        .iter()
        .copied()
        .filter(|byte| !one.contains(byte))
        .collect();
    let (inner, outer) = match random.below(20) {
        0..=5 => (one.clone(), one),
        6..=8 => (one, other),
        9..=11 => (one, apart),
        12..=13 => (one, both),
        14..=15 => (both, one),
        16 => (Vec::new(), one),
        17 => (one, Vec::new()),
        18 => (Vec::new(), Vec::new()),
        _ => (all_delimiters(), one),
    };
    (ByteSet::of(&inner), ByteSet::of(&outer))
}

fn all_delimiters() -> Vec<u8> {
    (0..=255).filter(|byte| may_delimit(*byte)).collect()
}

fn some_delimiters(random: &mut Random) -> Vec<u8> {
    let every = all_delimiters();
    (0..=random.below(3))
        .map(|_| match random.below(10) {
            0..=3 => b' ',
            4..=8 => *random.pick(COMMON_DELIMITERS),
            _ => *random.pick(&every),
        })
        .collect()
}

fn make_words(random: &mut Random) -> Vec<Vec<u8>> {
    let mut words: Vec<Vec<u8>> = Vec::new();
    for _ in 0..random.below(5) {
        let word = make_word(random, &words);
        words.push(word);
    }
    words
}

fn make_word(random: &mut Random, earlier: &[Vec<u8>]) -> Vec<u8> {
    let mut word = match random.below(10) {
        0..=5 => random.pick(COMMON_WORDS).as_bytes().to_vec(),
        6..=8 if !earlier.is_empty() => random.pick(earlier).clone(),
        _ => random_letters(random, 8),
    };
    // A longer or shorter neighbour of the same word, to try the order of
    // words that are prefixes of each other.
    match random.below(4) {
        0 if word.len() < 8 => word.push(random_letter(random)),
        1 if word.len() > 1 => {
            word.pop();
        }
        _ => {}
    }
    word
}

fn random_letter(random: &mut Random) -> u8 {
    let letter = b'a' + random.below(26) as u8;
    if random.chance(25) {
        letter.to_ascii_uppercase()
    } else {
        letter
    }
}

fn random_letters(random: &mut Random, most: u64) -> Vec<u8> {
    (0..=random.below(most))
        .map(|_| random_letter(random))
        .collect()
}

fn make_rows(random: &mut Random, card: &Card, words: &[Vec<u8>]) -> Vec<Row> {
    let wanted = match random.below(100) {
        0..=9 => 0,
        10..=69 => 1 + random.below(4),
        70..=95 => 5 + random.below(5),
        96..=97 => 10 + random.below(30),
        _ => MOST_ROWS as u64,
    };
    let mut rows: Vec<Row> = Vec::new();
    while (rows.len() as u64) < wanted {
        let name = make_name(random, words);
        if is_free(&name, card, &rows) {
            rows.push(make_row(random, name));
        }
    }
    rows
}

/// The line's rows: a few or as many as may be, with names of which some, most
/// or none are also the hall's; or just the hall's names, in the other order.
fn make_line(random: &mut Random, card: &Card, words: &[Vec<u8>], hall: &[Row]) -> Vec<Row> {
    if !hall.is_empty() && random.chance(10) {
        let names = hall.iter().rev().map(|row| row.name.clone());
        return names.map(|name| make_row(random, name)).collect();
    }
    let wanted = match random.below(100) {
        _ if hall.len() == MOST_ROWS && random.chance(60) => MOST_ROWS as u64,
        0..=74 => 1 + random.below(4),
        75..=95 => 5 + random.below(5),
        96..=98 => 10 + random.below(30),
        _ => MOST_ROWS as u64,
    };
    let shared = *random.pick(&[0, 30, 60, 90]);
    let mut rows: Vec<Row> = Vec::new();
    while (rows.len() as u64) < wanted {
        let name = if !hall.is_empty() && random.chance(shared) {
            let name = random.pick(hall).name.clone();
            beside_a_name(random, name)
        } else {
            make_name(random, words)
        };
        if is_free(&name, card, &rows) {
            rows.push(make_row(random, name));
        }
    }
    rows
}

/// Mostly the name itself, else a neighbour: longer, shorter, or in another case.
fn beside_a_name(random: &mut Random, name: Vec<u8>) -> Vec<u8> {
    let mut name = String::from_utf8_lossy(&name).into_owned();
    match random.below(12) {
        0 => name.push(char::from(random_letter(random))),
        1 => {
            name.pop();
        }
        2 => name.make_ascii_uppercase(),
        _ => {}
    }
    name.into_bytes()
}

fn make_name(random: &mut Random, words: &[Vec<u8>]) -> Vec<u8> {
    match random.below(26) {
        0..=11 => random.pick(COMMON_NAMES).as_bytes().to_vec(),
        12..=14 if !words.is_empty() => {
            let mut name = random.pick(words).clone();
            match random.below(3) {
                0 => name.push(random_letter(random)),
                1 => name.truncate(1),
                _ => {}
            }
            name
        }
        15 => {
            let mut name = String::from_utf8_lossy(&random_letters(random, 6)).into_owned();
            let at = random.below(name.len() as u64 + 1) as usize;
            name.insert(at, *random.pick(NAME_ODDITIES));
            name.into_bytes()
        }
        16..=17 => random_letters(random, NAME_BYTES as u64),
        18..=21 => make_long_name(random),
        22..=23 => two_byte_letters(random),
        _ => random_letters(random, 4),
    }
}

/// A name that begins as others do for 8, 16 or 24 bytes, and goes on for no
/// more than another 8.
fn make_long_name(random: &mut Random) -> Vec<u8> {
    let same = *random.pick(&[8, 16, 24]);
    let mut name = random.pick(LONG_BEGINNINGS).as_bytes()[..same].to_vec();
    let room = same + random.below(9) as usize;
    while name.len() < room {
        name.extend(random.pick(LAST_LETTERS).as_bytes());
    }
    // The last letter may be one byte too long.
    if name.len() > NAME_BYTES {
        name.truncate(name.len() - 2);
    }
    name
}

/// One to sixteen letters of two bytes each: Cyrillic ones, or Greek ones.
fn two_byte_letters(random: &mut Random) -> Vec<u8> {
    let first = *random.pick(&['а', 'α']);
    let mut name = String::new();
    for _ in 0..=random.below(NAME_BYTES as u64 / 2 - 1) {
        // Both scripts have more small letters than these behind the first.
        let letter = u32::from(first) + random.below(16) as u32;
        name.extend(char::from_u32(letter));
    }
    name.into_bytes()
}

/// Whether a row with the name may stand behind the rows.
fn is_free(name: &[u8], card: &Card, rows: &[Row]) -> bool {
    name_is_allowed(name, card) && rows.iter().all(|row| row.name != name)
}

fn name_is_allowed(name: &[u8], card: &Card) -> bool {
    let all_allowed = name.iter().all(|byte| {
        !card.inner.holds(*byte)
            && !card.outer.holds(*byte)
            && !byte.is_ascii_digit()
            && !matches!(byte, b'+' | b'-' | b'.')
    });
    (1..=NAME_BYTES).contains(&name.len())
        && all_allowed
        && (!is_led_by_e(name) || e_can_lead(card))
}

/// Whether a text of the card can have something between a number's digits and
/// a name: an exponent, or a delimiter.
fn e_can_lead(card: &Card) -> bool {
    let delimiter = card.switches.unit_delimiter && !card.inner.bytes().is_empty();
    card.switches.exponents || delimiter
}

fn make_row(random: &mut Random, name: Vec<u8>) -> Row {
    let kind = make_kind(random);
    let (kind_coefficient, kind_power) = KINDS[usize::from(kind)];
    Row {
        name,
        kind,
        coefficient: make_coefficient(random, i64::MAX / kind_coefficient),
        power: make_power(random, kind_power),
    }
}

/// One to 32 numerals, most of the time a few.
fn make_numerals(random: &mut Random, rows: &[Row], words: &[Vec<u8>]) -> Vec<Row> {
    let wanted = match random.below(100) {
        0..=69 => 1 + random.below(4),
        70..=95 => 5 + random.below(5),
        96..=98 => 10 + random.below(MOST_NUMERALS as u64 - 10),
        _ => MOST_NUMERALS as u64,
    };
    let mut numerals: Vec<Row> = Vec::new();
    while (numerals.len() as u64) < wanted {
        let name = make_numeral_name(random, &numerals, rows, words);
        let is_new = numerals.iter().all(|numeral| numeral.name != name);
        if is_new && (1..=NAME_BYTES).contains(&name.len()) {
            numerals.push(make_numeral(random, name, rows));
        }
    }
    numerals
}

fn make_numeral_name(
    random: &mut Random,
    earlier: &[Row],
    rows: &[Row],
    words: &[Vec<u8>],
) -> Vec<u8> {
    let mut name = match random.below(20) {
        0..=8 => random.pick(COMMON_NUMERALS).as_bytes().to_vec(),
        9..=11 if !rows.is_empty() => random.pick(rows).name.clone(),
        12..=13 if !words.is_empty() => random.pick(words).clone(),
        14..=16 if !earlier.is_empty() => random.pick(earlier).name.clone(),
        17 => random_letters(random, NAME_BYTES as u64),
        _ => random_letters(random, 5),
    };
    // A neighbour of the same name: longer, shorter, or in another case.
    match random.below(10) {
        0..=1 => name.push(random_letter(random)),
        2..=3 => {
            name.pop();
        }
        4 => name.iter_mut().for_each(|letter| *letter ^= 32),
        _ => {}
    }
    // Of a unit's name only the letters can be a numeral's.
    name.retain(u8::is_ascii_alphabetic);
    name
}

fn make_numeral(random: &mut Random, name: Vec<u8>, rows: &[Row]) -> Row {
    let mut numeral = Row {
        name,
        kind: NUMERAL_KIND,
        coefficient: make_coefficient(random, i64::MAX),
        power: make_power(random, 0),
    };
    if !rows.is_empty() && random.chance(40) {
        let row = random.pick(rows);
        meet_limits(random, &mut numeral, row);
    }
    numeral
}

/// Changes a numeral so that one of its two products with a row, the one with
/// the kind alone or the one with the row too, comes to a limit or beside it.
fn meet_limits(random: &mut Random, numeral: &mut Row, row: &Row) {
    let (mut coefficient, power) = KINDS[usize::from(row.kind)];
    let mut power = i64::from(power);
    if random.chance(70) {
        coefficient *= row.coefficient;
        power += i64::from(row.power);
    }
    if coefficient != 0 && random.chance(50) {
        // Where the factor is a power of two this comes to 2^63 itself.
        let limit = (1_u64 << 63) / coefficient.unsigned_abs();
        let beside = limit.saturating_add_signed(*random.pick(&[-1, 0, 0, 1]));
        let size = i64::try_from(beside).unwrap_or(i64::MAX);
        numeral.coefficient = if random.chance(50) { -size } else { size };
    } else {
        let limit = *random.pick(&[i64::from(i16::MIN), -18, 0, 19, i64::from(i16::MAX)]);
        let beside = limit + random.between(-2, 2) - power;
        numeral.power = beside.clamp(i64::from(i16::MIN), i64::from(i16::MAX)) as i16;
    }
}

/// A coefficient between `-limit` and `limit`.
fn make_coefficient(random: &mut Random, limit: i64) -> i64 {
    let size = match random.below(20) {
        0 => 0,
        1..=6 => 1,
        7..=8 => 1 << random.below(63),
        9..=11 => random.between(2, 1_000),
        12 => 10_i64.pow(random.below(13) as u32),
        13..=14 => limit,
        15..=16 => limit - random.between(0, 1_000),
        17 => limit / random.between(2, 100),
        18 => limit >> random.below(40),
        _ => random.between(1, limit),
    };
    let size = size.min(limit);
    if random.chance(20) { -size } else { size }
}

/// A power that stays within 16 bits when the kind's power is added.
fn make_power(random: &mut Random, kind_power: i16) -> i16 {
    // Only kinds with powers of at most 0 exist, so the upper end is free.
    let lowest = i64::from(i16::MIN) - i64::from(kind_power);
    let highest = i64::from(i16::MAX);
    let power = match random.below(20) {
        0..=10 => 0,
        11..=14 => random.between(-12, 12),
        15..=16 => random.between(-40, 40),
        17 => lowest + random.between(0, 3),
        18 => highest - random.between(0, 3),
        _ => random.between(lowest, highest),
    };
    power as i16
}
