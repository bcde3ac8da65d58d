//! Cases at the limits, with answers written by hand from document 01, requests
//! two to six and request eight: for the numbers the crate does not have, 7 to 11
//! and the six slips, 17 to 22, for the places of 3 and 4, which it does not have
//! either, for spoken numbers, for the line's own units, for names of up to 32
//! bytes, and for what a lent record or buffer holds afterwards. Each limit is
//! tried from both sides.

use std::fmt::Write as _;
use std::fs;
use std::ops::Range;

use crate::card_a::{card_a, line_7, row};
use crate::plain;
use crate::request::{
    Answer, ByteSet, Card, Conjunctions, Length, Request, bytes_field, parse_bytes,
};
use crate::table::{KIND_PLACE, NAME_BYTES, ROW_BYTES, ZEROS_PLACE};

/// As many letters as the longest name has, and one more.
const LETTERS: &str = "abcdefghijklmnopqrstuvwxyzABCDEFG";

/// Sixteen letters of two bytes each, which fill a row's room for the name, and
/// one more.
const CYRILLIC: &str = "абвгдежзийклмнопр";
const GREEK: &str = "αβγδεζηθικλμνξοπρ";

/// Sizes of names on both sides of each eighth byte, and the two longest.
const SIZES_AT_EDGES: [usize; 9] = [7, 8, 9, 16, 17, 24, 25, 31, 32];

/// The seconds of MAX, and its nanoseconds.
const MOST: u64 = 18_446_744_073_709_551_615;
const NINES: u64 = 999_999_999;

struct Case {
    name: String,
    request: Request,
    answer: String,
}

fn case(name: impl Into<String>, request: Request, answer: impl Into<String>) -> Case {
    Case {
        name: name.into(),
        request,
        answer: answer.into(),
    }
}

/// The whole list, each name led by its group's.
fn cases() -> Vec<Case> {
    let groups = [
        ("delimiters", delimiters()),
        ("conjunctions", conjunctions()),
        ("default kind", default_kind()),
        ("table size", table_size()),
        ("row layout", row_layout()),
        ("row name", row_names()),
        ("zeros after the name", zeros_after_names()),
        ("two-byte letters", two_byte_letters()),
        ("place of a name", places_of_names()),
        ("names at words' edges", names_at_edges()),
        ("beginning of a name", beginnings_of_names()),
        ("zero bytes of a name", zero_bytes_of_names()),
        ("name led by e", names_led_by_e()),
        ("name not led by e", names_not_led_by_e()),
        ("row led by e", rows_led_by_e()),
        ("equal names", equal_names()),
        ("coefficient", coefficients()),
        ("power", powers()),
        ("first bad row", first_bad_row()),
        ("order", order_of_refusals()),
        ("text size", text_size()),
        ("place", places()),
        ("record", records()),
        ("buffer", buffers()),
        ("shift", shifts()),
        ("refused shift", shifts_refused()),
        ("exponent", exponents_at_the_range()),
        ("passing digit", digits_that_pass()),
        ("before and behind", before_and_behind_exponents()),
        ("place of an exponent", places_of_exponents()),
        ("long exponent", long_exponents()),
        ("numeral table size", numeral_table_size()),
        ("numeral layout", numeral_layout()),
        ("numeral name", numeral_names()),
        ("place of a numeral's name", places_of_numerals()),
        ("numerals at words' edges", numerals_at_edges()),
        ("beginning of a numeral", beginnings_of_numerals()),
        ("numeral with another's name", names_that_others_have()),
        ("equal numerals", equal_numerals()),
        (
            "numeral's coefficient and power",
            numerals_at_their_limits(),
        ),
        ("first bad numeral", first_bad_numeral()),
        ("order with numerals", order_with_numerals()),
        ("spoken", spoken_numbers()),
        ("no numeral", no_numerals()),
        ("sign before a numeral", signs_before_numerals()),
        ("delimiters behind a numeral", delimiters_behind_numerals()),
        ("no unit", numerals_without_units()),
        ("product coefficient", product_coefficients()),
        ("product power", product_powers()),
        ("order with products", order_with_products()),
        ("spoken worth", spoken_worth()),
        ("spoken negative", spoken_negatives()),
        ("where a unit's lookup failed", where_a_lookup_failed()),
        ("line's table size", on_the_line(table_size())),
        ("line's row layout", on_the_line(row_layout())),
        ("line's row name", on_the_line(row_names())),
        (
            "line's zeros after the name",
            on_the_line(zeros_after_names()),
        ),
        ("line's two-byte letters", on_the_line(two_byte_letters())),
        (
            "line's names at words' edges",
            on_the_line(names_at_edges()),
        ),
        (
            "line's beginning of a name",
            on_the_line(beginnings_of_names()),
        ),
        (
            "line's zero bytes of a name",
            on_the_line(zero_bytes_of_names()),
        ),
        ("line's name led by e", on_the_line(names_led_by_e())),
        (
            "line's name not led by e",
            on_the_line(names_not_led_by_e()),
        ),
        ("line's row led by e", on_the_line(rows_led_by_e())),
        ("line's equal names", on_the_line(equal_names())),
        ("line's coefficient", on_the_line(coefficients())),
        ("line's power", on_the_line(powers())),
        ("line's first bad row", on_the_line(first_bad_row())),
        ("size of the line's table", line_size()),
        ("both tables full", both_full()),
        ("bad row of the line's", bad_line_rows()),
        ("order with a line's table", order_with_a_line()),
        ("line's own", lines_own_units()),
        ("line's own, spoken", lines_own_units_spoken()),
        ("end after a sign", texts_that_end_after_a_sign()),
        (
            "end within an exponent",
            texts_that_end_within_an_exponent(),
        ),
        ("delimiters at the end", delimiters_that_end_the_text()),
        ("conjunction", conjunctions_that_slip()),
        ("fraction", fractions_that_slip()),
        ("exponent's byte", exponents_that_slip()),
        ("infinity", infinities_that_slip()),
        ("order with slips", order_with_slips()),
        ("behind a sign", bytes_behind_a_sign()),
        ("behind e", bytes_behind_e()),
        (
            "behind an exponent's sign",
            bytes_behind_an_exponents_sign(),
        ),
        ("behind a conjunction", bytes_behind_a_conjunction()),
        ("behind inf", bytes_behind_inf()),
        ("behind infinity", bytes_behind_infinity()),
    ];
    let mut list = Vec::new();
    for (group, cases) in groups {
        for case in cases {
            let name = format!("{group}: {}", case.name);
            list.push(Case { name, ..case });
        }
    }
    list
}

/// The cards of the list, each once, in its order.
pub fn cards() -> Vec<Card> {
    let mut cards: Vec<Card> = Vec::new();
    for case in cases() {
        if let Some(card) = case.request.card() {
            if !cards.contains(card) {
                cards.push(card.clone());
            }
        }
    }
    cards
}

/// The totals and parts of the list, with their answers.
pub fn requests() -> Result<Vec<(Request, Answer)>, String> {
    let mut requests = Vec::new();
    for case in cases() {
        if case.request.as_reading().is_some() {
            requests.push((case.request, outcome(&case.answer)?.answer));
        }
    }
    Ok(requests)
}

// The commands.

/// Writes the requests into one file and the answers into another.
pub fn write_files(requests_path: &str, answers_path: &str) -> Result<bool, String> {
    let (mut requests, mut answers) = (String::new(), String::new());
    for case in cases() {
        let _ = writeln!(requests, "{}", case.request);
        let _ = writeln!(answers, "{}", case.answer);
    }
    for (path, lines) in [(requests_path, requests), (answers_path, answers)] {
        fs::write(path, lines).map_err(|error| format!("{path}: {error}"))?;
    }
    Ok(true)
}

/// Asks the plain reading for every case; true if it answers all as written
/// here. It is asked by the printed line, so the line format is under test too.
pub fn check() -> Result<bool, String> {
    let cases = cases();
    let mut same = 0;
    for case in &cases {
        let line = case.request.to_string();
        let plain_answer = plain::answer_line(&Request::parse(&line)?);
        if outcome(&plain_answer)? == outcome(&case.answer)? {
            same += 1;
        } else {
            println!("differs: {}", case.name);
            println!("    {line}");
            println!("    plain {plain_answer}");
            println!("    limit {}", case.answer);
        }
    }
    let all = cases.len();
    println!("{all} cases at the limits, {same} answered the same by the plain reading");
    Ok(same == all)
}

/// An answer line taken apart: bytes may be folded on one line and not on
/// another, and are still the same bytes.
#[derive(PartialEq)]
struct Outcome {
    answer: Answer,
    after: After,
}

/// What is lent to be changed, as it is afterwards.
#[derive(PartialEq)]
enum After {
    Nothing,
    Record(Length),
    Buffer(Vec<u8>),
}

fn outcome(line: &str) -> Result<Outcome, String> {
    let taken_apart = || {
        let fields: Vec<&str> = line.split(' ').collect();
        let [number, position, sign, seconds, nanos, after @ ..] = fields.as_slice() else {
            return None;
        };
        let answer = Answer {
            number: number.parse().ok()?,
            position: Some(position.parse().ok()?),
            length: length(sign, seconds, nanos)?,
        };
        let after = match after {
            [] => After::Nothing,
            [buffer] => After::Buffer(parse_bytes(buffer).ok()?),
            [sign, seconds, nanos] => After::Record(length(sign, seconds, nanos)?),
            _ => return None,
        };
        Some(Outcome { answer, after })
    };
    taken_apart().ok_or_else(|| format!("`{line}` is no answer"))
}

fn length(sign: &str, seconds: &str, nanos: &str) -> Option<Length> {
    let (seconds, nanos) = (seconds.parse().ok()?, nanos.parse().ok()?);
    match sign {
        "+" => Some(plus(seconds, nanos)),
        "-" => Some(minus(seconds, nanos)),
        _ => None,
    }
}

// Builders.

fn total(card: Card, text: impl AsRef<[u8]>) -> Request {
    let text = text.as_ref().to_vec();
    Request::Total { card, text }
}

fn part(place: u64, card: Card, text: impl AsRef<[u8]>) -> Request {
    let text = text.as_ref().to_vec();
    Request::Part { place, card, text }
}

fn shift(record: Length, card: Card, text: impl AsRef<[u8]>) -> Request {
    let text = text.as_ref().to_vec();
    Request::Shift { record, card, text }
}

fn write(record: Length, place: u64, buffer: impl AsRef<[u8]>) -> Request {
    let buffer = buffer.as_ref().to_vec();
    Request::Write {
        record,
        place,
        buffer,
    }
}

/// The answer line of a write: the answer, and the buffer afterwards.
fn wrote(answer: &str, buffer: impl AsRef<[u8]>) -> String {
    format!("{answer} {}", bytes_field(buffer.as_ref()))
}

fn plus(seconds: u64, nanos: u64) -> Length {
    Length {
        negative: false,
        seconds,
        nanos,
    }
}

fn minus(seconds: u64, nanos: u64) -> Length {
    Length {
        negative: true,
        seconds,
        nanos,
    }
}

/// A text of so many bytes that reads as one second: zeros and a one.
fn text(size: usize) -> String {
    format!("{}1", "0".repeat(size - 1))
}

/// Card A, in which a case changes one thing.
fn card() -> Card {
    card_a()
}

impl Card {
    fn with_inner(mut self, bytes: &[u8]) -> Self {
        self.inner = ByteSet::of(bytes);
        self
    }

    fn with_outer(mut self, bytes: &[u8]) -> Self {
        self.outer = ByteSet::of(bytes);
        self
    }

    /// A count of conjunctions, and the first slots by length and letters.
    fn with_words(mut self, count: u8, words: &[(u8, &[u8])]) -> Self {
        let mut slots = [(0, [0; 8]); 4];
        for (slot, (length, letters)) in slots.iter_mut().zip(words) {
            slot.0 = *length;
            slot.1[..letters.len()].copy_from_slice(letters);
        }
        self.conjunctions = Conjunctions { count, slots };
        self
    }

    /// One conjunction, of length 3.
    fn with_word(self, letters: &[u8; 3]) -> Self {
        self.with_words(1, &[(3, letters)])
    }

    fn with_kind(mut self, kind: u8) -> Self {
        self.kind = kind;
        self
    }

    /// Rows of the hall's.
    fn with_rows(mut self, rows: &[[u8; ROW_BYTES]]) -> Self {
        self.hall = rows.concat();
        self
    }

    /// A table of the hall's of so many bytes.
    fn with_size(mut self, size: usize) -> Self {
        self.hall = cut(size);
        self
    }

    fn with_more_rows(mut self, rows: &[[u8; ROW_BYTES]]) -> Self {
        self.hall.extend(rows.concat());
        self
    }

    /// Rows of the line's, behind which card A's are the hall's.
    fn with_line(mut self, rows: &[[u8; ROW_BYTES]]) -> Self {
        self.line = rows.concat();
        self
    }

    fn with_line_size(mut self, size: usize) -> Self {
        self.line = cut(size);
        self
    }

    fn with_numerals(mut self, numerals: &[[u8; ROW_BYTES]]) -> Self {
        self.numerals = numerals.concat();
        self
    }

    fn with_numeral_size(mut self, size: usize) -> Self {
        self.numerals = cut(size);
        self
    }

    fn without_negatives(mut self) -> Self {
        self.switches.negatives = false;
        self
    }

    fn without_fractions(mut self) -> Self {
        self.switches.fractions = false;
        self
    }

    fn without_infinity(mut self) -> Self {
        self.switches.infinity = false;
        self
    }

    fn without_ago(mut self) -> Self {
        self.switches.ago = false;
        self
    }

    fn without_exponents(mut self) -> Self {
        self.switches.exponents = false;
        self
    }

    fn without_unit_delimiter(mut self) -> Self {
        self.switches.unit_delimiter = false;
        self
    }

    fn with_sign_delimiter(mut self) -> Self {
        self.switches.sign_delimiter = true;
        self
    }

    /// Nothing that could stand between a number's digits and a unit.
    fn without_both(self) -> Self {
        self.without_exponents().without_unit_delimiter()
    }
}

/// A row called `x`.
fn unit(kind: u8, coefficient: i64, power: i16) -> [u8; ROW_BYTES] {
    row("x", kind, coefficient, power).to_bytes()
}

/// So many letters, no two of them equal.
fn letters(size: usize) -> &'static str {
    &LETTERS[..size]
}

/// The first so many of a text's letters, of whatever size each is.
fn beginning(text: &str, size: usize) -> String {
    text.chars().take(size).collect()
}

/// A text with another letter at a place.
fn with_letter(text: &str, place: usize, letter: &str) -> String {
    [&text[..place], letter, &text[place + 1..]].concat()
}

/// A second by another name, of 1 to 32 bytes.
fn named(name: &str) -> [u8; ROW_BYTES] {
    row(name, 3, 1, 0).to_bytes()
}

/// Five seconds by a name, so that a text shows whether it was found.
fn five(name: &str) -> [u8; ROW_BYTES] {
    row(name, 3, 5, 0).to_bytes()
}

/// A row of kind 3, of a numeral or of a unit.
fn times(name: &str, coefficient: i64, power: i16) -> [u8; ROW_BYTES] {
    row(name, 3, coefficient, power).to_bytes()
}

/// Card A with a few numerals.
fn spoken() -> Card {
    card().with_numerals(&[
        times("five", 5, 0),
        times("half", 5, -1),
        times("off", -1, 0),
        times("nil", 0, 0),
        times("eight", 8, 0),
    ])
}

/// The row with some bytes changed, each given by its place.
fn changed(mut row: [u8; ROW_BYTES], changes: &[(usize, u8)]) -> [u8; ROW_BYTES] {
    for (place, byte) in changes {
        row[*place] = *byte;
    }
    row
}

/// So many seconds by different names: `aa`, `ab`, and on to `az`, `ba`.
fn rows(count: usize) -> Vec<[u8; ROW_BYTES]> {
    rows_worth(0..count, 1)
}

/// Some of these names, each worth so many seconds.
fn rows_worth(numbers: Range<usize>, seconds: i64) -> Vec<[u8; ROW_BYTES]> {
    let letter = |number: usize| char::from(b'a' + number as u8);
    let name = |index: usize| format!("{}{}", letter(index / 26), letter(index % 26));
    numbers
        .map(|index| times(&name(index), seconds, 0))
        .collect()
}

/// A table of so many bytes, cut from good rows.
fn cut(size: usize) -> Vec<u8> {
    let mut table = rows(size.div_ceil(ROW_BYTES)).concat();
    table.truncate(size);
    table
}

/// The same cases with the hall's table as the line's, and none of the hall's.
/// What was wrong with the one is wrong with the other, 128 further on.
fn on_the_line(cases: Vec<Case>) -> Vec<Case> {
    cases.into_iter().map(case_on_the_line).collect()
}

fn case_on_the_line(mut case: Case) -> Case {
    match &mut case.request {
        Request::Total { card, .. } | Request::Part { card, .. } | Request::Shift { card, .. } => {
            std::mem::swap(&mut card.hall, &mut card.line);
        }
        Request::Write { .. } => {}
    }
    if let Some((position, rest)) = case
        .answer
        .strip_prefix("7 ")
        .and_then(|refusal| refusal.split_once(' '))
        && let Ok(position @ 0..=64) = position.parse::<u64>()
    {
        case.answer = format!("7 {} {rest}", 128 + position);
    }
    case
}

// The list. It is kept one case a line where that can be, which rustfmt would break.

// 7 at 65: a byte alone in one of the two sets, and a text that uses it there.
#[rustfmt::skip]
fn delimiters() -> Vec<Case> {
    let mut cases = vec![
        case("no inner", total(card().with_inner(b""), "1s 2s"), "0 5 + 3 0"),
        case("no outer", total(card().with_outer(b""), "1 s"), "0 3 + 1 0"),
        case("neither", total(card().with_inner(b"").with_outer(b""), "1s2s"), "0 4 + 3 0"),
        case("inner, wrong one last", total(card().with_inner(b" ,\x80"), "1"), "7 65 + 0 0"),
        case("outer, wrong one last", total(card().with_outer(b" ,\x80"), "1"), "7 65 + 0 0"),
        case("inner, wrong one first", total(card().with_inner(b"+,/"), "1"), "7 65 + 0 0"),
        case("outer, wrong one first", total(card().with_outer(b"+,/"), "1"), "7 65 + 0 0"),
        case("inner, part", part(0, card().with_inner(b"\x80"), "1"), "7 65 + 0 0"),
        case("outer, part", part(0, card().with_outer(b"\x80"), "1"), "7 65 + 0 0"),
    ];
    // 0 and 127 are the ends; the others stand beside signs, point, digits and letters.
    for byte in [0, b'*', b',', b'/', b':', b'@', b'[', b'`', b'{', 127] {
        let (inner, outer) = (card().with_inner(&[byte]), card().with_outer(&[byte]));
        let (before_unit, between) = ([b'1', byte, b's'], [b'1', b's', byte, b'2', b's']);
        cases.push(case(format!("inner {byte}"), total(inner, before_unit), "0 3 + 1 0"));
        cases.push(case(format!("outer {byte}"), total(outer, between), "0 5 + 3 0"));
    }
    for byte in [b'+', b'-', b'.', b'0', b'9', b'A', b'Z', b'a', b'z', 128, 255] {
        let (inner, outer) = (card().with_inner(&[byte]), card().with_outer(&[byte]));
        cases.push(case(format!("inner {byte}"), total(inner, "1"), "7 65 + 0 0"));
        cases.push(case(format!("outer {byte}"), total(outer, "1"), "7 65 + 0 0"));
    }
    cases
}

// 7 at 66: the count, then lengths, then letters, then what is not looked at.
#[rustfmt::skip]
fn conjunctions() -> Vec<Case> {
    let four: [(u8, &[u8]); 4] = [(3, b"and"), (2, b"or"), (4, b"plus"), (4, b"then")];
    let fourth_wrong: [(u8, &[u8]); 4] = [(3, b"and"), (2, b"or"), (4, b"plus"), (4, b"the!")];
    let all_wrong: [(u8, &[u8]); 4] = [(0, b""), (9, b"together"), (255, b"and"), (1, b"1")];
    let mut cases = vec![
        case("count 0", total(card().with_words(0, &[]), "1s 2s"), "0 5 + 3 0"),
        case("count 4", total(card().with_words(4, &four), "1s then 2s"), "0 10 + 3 0"),
        case("count 5", total(card().with_words(5, &four), "1"), "7 66 + 0 0"),
        case("count 255", total(card().with_words(255, &four), "1"), "7 66 + 0 0"),
        case("the same twice", total(card().with_words(2, &[(1, b"a"), (1, b"a")]), "1s a 2s"), "0 7 + 3 0"),

        case("length 0", total(card().with_words(1, &[(0, b"")]), "1"), "7 66 + 0 0"),
        case("length 0, letters", total(card().with_words(1, &[(0, b"and")]), "1"), "7 66 + 0 0"),
        case("length 1", total(card().with_words(1, &[(1, b"a")]), "1s a 2s"), "0 7 + 3 0"),
        case("length 8", total(card().with_words(1, &[(8, b"together")]), "1s together 2s"), "0 14 + 3 0"),
        case("length 9", total(card().with_words(1, &[(9, b"together")]), "1"), "7 66 + 0 0"),
        case("length 255", total(card().with_words(1, &[(255, b"together")]), "1"), "7 66 + 0 0"),
        case("second of length 0", total(card().with_words(2, &[(3, b"and"), (0, b"")]), "1"), "7 66 + 0 0"),
        case("second of length 9", total(card().with_words(2, &[(3, b"and"), (9, b"together")]), "1"), "7 66 + 0 0"),

        case("eighth letter", total(card().with_words(1, &[(8, b"togethe1")]), "1"), "7 66 + 0 0"),
        case("letter in the middle", total(card().with_word(b"a d"), "1"), "7 66 + 0 0"),
        case("fourth", total(card().with_words(4, &fourth_wrong), "1"), "7 66 + 0 0"),
        case("part", part(0, card().with_word(b"an1"), "1"), "7 66 + 0 0"),

        case("past the length", total(card().with_words(1, &[(3, b"and\xff\0@1 ")]), "1s and 2s"), "0 9 + 3 0"),
        case("just past it", total(card().with_words(1, &[(7, b"togethe1")]), "1s togethe 2s"), "0 13 + 3 0"),
        case("past a count of 3", total(card().with_words(3, &fourth_wrong), "1s plus 2s"), "0 10 + 3 0"),
        case("past a count of 0", total(card().with_words(0, &all_wrong), "1s 2s"), "0 5 + 3 0"),
    ];
    for letter in [b'A', b'Z', b'a', b'z'] {
        let (first, last) = ([letter, b'n', b'd'], [b'a', b'n', letter]);
        let between = |word: [u8; 3]| [*b"1s ", word, *b" 2s"].concat();
        cases.push(case(format!("first {letter}"), total(card().with_word(&first), between(first)), "0 9 + 3 0"));
        cases.push(case(format!("last {letter}"), total(card().with_word(&last), between(last)), "0 9 + 3 0"));
    }
    for byte in [0, b'0', b'@', b'[', b'`', b'{', 200] {
        let (first, last) = ([byte, b'n', b'd'], [b'a', b'n', byte]);
        cases.push(case(format!("first {byte}"), total(card().with_word(&first), "1"), "7 66 + 0 0"));
        cases.push(case(format!("last {byte}"), total(card().with_word(&last), "1"), "7 66 + 0 0"));
    }
    cases
}

// 7 at 67: the default kind.
#[rustfmt::skip]
fn default_kind() -> Vec<Case> {
    vec![
        case("default kind 0", total(card().with_kind(0), "1"), "0 1 + 0 1"),
        case("default kind 7", total(card().with_kind(7), "1"), "0 1 + 604800 0"),
        case("default kind 8", total(card().with_kind(8), "1"), "7 67 + 0 0"),
        case("default kind 8, unused", total(card().with_kind(8), "1s"), "7 67 + 0 0"),
        case("default kind 8, part", part(0, card().with_kind(8), "1"), "7 67 + 0 0"),
        case("default kind 255", total(card().with_kind(255), "1"), "7 67 + 0 0"),
    ]
}

// 7 at 64: the size of the table; `ai` is the row 8, `cl` the row 63.
#[rustfmt::skip]
fn table_size() -> Vec<Case> {
    vec![
        case("no rows", total(card().with_size(0), "1"), "0 1 + 1 0"),
        case("no rows, a name", total(card().with_size(0), "1s"), "6 1 + 0 0"),
        case("1 byte", total(card().with_size(1), "1"), "7 64 + 0 0"),
        case("47 bytes", total(card().with_size(47), "1"), "7 64 + 0 0"),
        case("1 row", total(card().with_size(48), "1aa"), "0 3 + 1 0"),
        case("49 bytes", total(card().with_size(49), "1"), "7 64 + 0 0"),
        case("9 rows", total(card().with_size(432), "1ai"), "0 3 + 1 0"),
        case("3071 bytes", total(card().with_size(3071), "1"), "7 64 + 0 0"),
        case("64 rows", total(card().with_rows(&rows(64)), "1cl"), "0 3 + 1 0"),
        case("64 rows, part", part(0, card().with_rows(&rows(64)), "1cl"), "0 3 + 1 0"),
        case("3073 bytes", total(card().with_size(3073), "1"), "7 64 + 0 0"),
        case("65 rows", total(card().with_rows(&rows(65)), "1"), "7 64 + 0 0"),
        case("65 rows, part", part(0, card().with_rows(&rows(65)), "1"), "7 64 + 0 0"),
        case("256 rows", total(card().with_rows(&rows(256)), "1"), "7 64 + 0 0"),
    ]
}

// 7 at a row: lengths, bytes that must be zero, kinds; first four rows byte by byte.
#[rustfmt::skip]
fn row_layout() -> Vec<Case> {
    let turn = b"\x04turn\0\0\0\0\0\0\0\0\0\0\0\0\0\0\0\0\0\0\0\0\0\0\0\0\0\0\0\0\x02\x7b\0\0\0\0\0\0\0\xff\xff\0\0\0\0";
    let low_first = b"\x01x\0\0\0\0\0\0\0\0\0\0\0\0\0\0\0\0\0\0\0\0\0\0\0\0\0\0\0\0\0\0\0\x03\x08\x07\x06\x05\x04\x03\x02\x01\0\0\0\0\0\0";
    let minus_two = b"\x01x\0\0\0\0\0\0\0\0\0\0\0\0\0\0\0\0\0\0\0\0\0\0\0\0\0\0\0\0\0\0\0\x03\xfe\xff\xff\xff\xff\xff\xff\xff\0\0\0\0\0\0";
    let power_258 = b"\x01x\0\0\0\0\0\0\0\0\0\0\0\0\0\0\0\0\0\0\0\0\0\0\0\0\0\0\0\0\0\0\0\x03\x01\0\0\0\0\0\0\0\x02\x01\0\0\0\0";
    let one = |row| card().with_rows(&[row]);
    let x = named("x");
    let longest = named(letters(32));
    let thirty_one = named(letters(31));
    vec![
        case("turn", total(one(*turn), "3turn"), "0 5 + 0 36900000"),
        case("coefficient low byte first", total(one(*low_first), "1x"), "0 2 + 72623859790382856 0"),
        case("coefficient -2", total(one(*minus_two), "1x"), "0 2 - 2 0"),
        case("power 258", total(one(*power_258), "1e-258x"), "0 7 + 1 0"),

        case("name length 0", total(one(changed(x, &[(0, 0), (1, 0)])), "1"), "7 0 + 0 0"),
        case("name length 0, a letter", total(one(changed(x, &[(0, 0)])), "1"), "7 0 + 0 0"),
        case("all zeros", total(one([0; ROW_BYTES]), "1"), "7 0 + 0 0"),
        case("name length 1", total(one(x), "1x"), "0 2 + 1 0"),
        case("name length 15", total(one(named(letters(15))), "1abcdefghijklmno"), "0 16 + 1 0"),
        case("name length 16", total(one(named(letters(16))), "1abcdefghijklmnop"), "0 17 + 1 0"),
        case("name length 17", total(one(named(letters(17))), "1abcdefghijklmnopq"), "0 18 + 1 0"),
        case("name length 32", total(one(longest), "1abcdefghijklmnopqrstuvwxyzABCDEF"), "0 33 + 1 0"),
        case("name length 33", total(one(changed(longest, &[(0, 33)])), "1"), "7 0 + 0 0"),
        case("name length 33, the kind a letter", total(one(changed(longest, &[(0, 33), (KIND_PLACE, b'G')])), "1"), "7 0 + 0 0"),
        case("name length 47", total(one(changed(longest, &[(0, 47)])), "1"), "7 0 + 0 0"),
        case("name length 48", total(one(changed(longest, &[(0, 48)])), "1"), "7 0 + 0 0"),
        case("name length 255", total(one(changed(longest, &[(0, 255)])), "1"), "7 0 + 0 0"),

        case("letter after the name", total(one(changed(x, &[(2, b'y')])), "1"), "7 0 + 0 0"),
        case("letter in the name", total(one(changed(x, &[(0, 2), (2, b'y')])), "1xy"), "0 3 + 1 0"),
        case("last name byte, x", total(one(changed(x, &[(32, 1)])), "1"), "7 0 + 0 0"),
        case("name length 31", total(one(thirty_one), "1abcdefghijklmnopqrstuvwxyzABCDE"), "0 32 + 1 0"),
        case("last name byte, 31", total(one(changed(thirty_one, &[(32, 255)])), "1"), "7 0 + 0 0"),

        case("kind 0", total(one(unit(0, 1, 0)), "1x"), "0 2 + 0 1"),
        case("kind 7", total(one(unit(7, 1, 0)), "1x"), "0 2 + 604800 0"),
        case("kind 8", total(one(unit(8, 1, 0)), "1"), "7 0 + 0 0"),
        case("kind 255", total(one(unit(255, 1, 0)), "1"), "7 0 + 0 0"),

        case("first zero", total(one(changed(x, &[(ZEROS_PLACE, 1)])), "1"), "7 0 + 0 0"),
        case("second zero", total(one(changed(x, &[(ZEROS_PLACE + 1, 1)])), "1"), "7 0 + 0 0"),
        case("third zero", total(one(changed(x, &[(ZEROS_PLACE + 2, 1)])), "1"), "7 0 + 0 0"),
        case("fourth zero", total(one(changed(x, &[(ZEROS_PLACE + 3, 255)])), "1"), "7 0 + 0 0"),
    ]
}

// 7 at a row: bytes that no name may hold, first, inside and last, and those beside them.
#[rustfmt::skip]
fn row_names() -> Vec<Case> {
    let one = |name| card().with_rows(&[named(name)]);
    let inner_only = |name| one(name).with_inner(b" ,");
    let outer_only = |name| one(name).with_outer(b" /");
    vec![
        case("comma, no delimiter", total(one("a,b"), "1a,b"), "0 4 + 1 0"),
        case("comma, inner only", total(inner_only("a,b"), "1"), "7 0 + 0 0"),
        case("comma, inner only, first", total(inner_only(",a"), "1"), "7 0 + 0 0"),
        case("comma, inner only, last", total(inner_only("a,"), "1"), "7 0 + 0 0"),
        case("slash, inner has the comma", total(inner_only("a/b"), "1a/b"), "0 4 + 1 0"),
        case("slash, no delimiter", total(one("a/b"), "1a/b"), "0 4 + 1 0"),
        case("slash, outer only", total(outer_only("a/b"), "1"), "7 0 + 0 0"),
        case("slash, outer only, first", total(outer_only("/a"), "1"), "7 0 + 0 0"),
        case("slash, outer only, last", total(outer_only("a/"), "1"), "7 0 + 0 0"),
        case("comma, outer has the slash", total(outer_only("a,b"), "1a,b"), "0 4 + 1 0"),
        case("space, in both", total(one("a b"), "1"), "7 0 + 0 0"),

        case("digit 0", total(one("a0b"), "1"), "7 0 + 0 0"),
        case("digit 9, first", total(one("9a"), "1"), "7 0 + 0 0"),
        case("digit 5, last", total(one("a5"), "1"), "7 0 + 0 0"),
        case("plus", total(one("a+b"), "1"), "7 0 + 0 0"),
        case("plus, alone", total(one("+"), "1"), "7 0 + 0 0"),
        case("minus", total(one("a-b"), "1"), "7 0 + 0 0"),
        case("minus, last of 16", total(one("abcdefghijklmno-"), "1"), "7 0 + 0 0"),
        case("minus, last of 32", total(one("abcdefghijklmnopqrstuvwxyzABCDE-"), "1"), "7 0 + 0 0"),
        case("point", total(one("a.b"), "1"), "7 0 + 0 0"),
        case("point, first", total(one(".a"), "1"), "7 0 + 0 0"),
        case("beside them", total(one("*,/:"), "1*,/:"), "0 5 + 1 0"),
        case("over 127", total(one("µs"), "1µs"), "0 4 + 1 0"),
        case("byte 0", total(one("\0"), "1\0"), "0 2 + 1 0"),
    ]
}

// 7 at a row: each byte of the name's room behind a name of one byte, of eight and of all but one, whatever the others are.
#[rustfmt::skip]
fn zeros_after_names() -> Vec<Case> {
    let mut cases = Vec::new();
    for size in [1, 8, 16, 31] {
        let row = named(letters(size));
        for place in size + 1..=NAME_BYTES {
            let one = card().with_rows(&[changed(row, &[(place, 1)])]);
            cases.push(case(format!("byte {place} behind {size}"), total(one, "1"), "7 0 + 0 0"));
        }
    }
    cases
}

// Names of two-byte letters, by their bytes: sixteen fill the room, one more has no place in it; a letter may be cut in two.
#[rustfmt::skip]
fn two_byte_letters() -> Vec<Case> {
    let one = |row| card().with_rows(&[row]);
    let both = |first: &str, second: &str| card().with_rows(&[named(first), five(second)]);
    let micro = b"\x03\xc2\xb5s\0\0\0\0\0\0\0\0\0\0\0\0\0\0\0\0\0\0\0\0\0\0\0\0\0\0\0\0\0\x01\x01\0\0\0\0\0\0\0\0\0\0\0\0\0";
    let full = named(&CYRILLIC[..32]);
    let mut cases = vec![
        case("µs by its bytes", total(one(*micro), b"5\xc2\xb5s"), "0 4 + 0 5000"),
        case("µs", total(one(row("µs", 1, 1, 0).to_bytes()), "61.7µs"), "0 7 + 0 61700"),
        case("µs, the first byte alone", total(one(*micro), b"5\xc2"), "6 1 + 0 0"),
        case("µs, the second byte alone", total(one(*micro), b"5\xb5s"), "6 1 + 0 0"),
        case("µs, another letter's second byte", total(one(*micro), b"5\xc2\xb4s"), "6 1 + 0 0"),
        case("µs beside us", total(both("us", "µs"), "1us 1µs"), "0 8 + 6 0"),
        case("µ beside µs", total(both("µ", "µs"), "1µ 1µs"), "0 8 + 6 0"),
        case("µs and µ of other bytes", total(both("µs", "μs"), "1µs 2μs"), "0 9 + 11 0"),
        case("cut in two", total(one(changed(full, &[(0, 31), (32, 0)])), [b"1", &CYRILLIC.as_bytes()[..31]].concat()), "0 32 + 1 0"),
        case("17 letters of two rows", total(both("р", &CYRILLIC[..32]), format!("1{CYRILLIC}")), "6 1 + 0 0"),
        case("the last letters differ in a byte", total(both(&(beginning(CYRILLIC, 15) + "о"), &CYRILLIC[..32]), format!("1{}", &CYRILLIC[..32])), "0 33 + 5 0"),
        case("the last letters differ in both", total(both(&(beginning(CYRILLIC, 15) + "р"), &CYRILLIC[..32]), format!("1{}", &CYRILLIC[..32])), "0 33 + 5 0"),
    ];
    for (script, text) in [("Cyrillic", CYRILLIC), ("Greek", GREEK)] {
        let row = named(&text[..32]);
        for size in [1, 4, 5, 8, 9, 12, 13, 15, 16] {
            let name = beginning(text, size);
            cases.push(case(format!("{size} {script} letters"), total(one(five(&name)), format!("1{name}")), format!("0 {} + 5 0", 1 + 2 * size)));
        }
        let last = &text.as_bytes()[32..];
        cases.push(case(format!("17 {script} letters, typed"), total(one(row), format!("1{text}")), "6 1 + 0 0"));
        cases.push(case(format!("17 {script} letters by the size"), total(one(changed(row, &[(0, 34)])), "1"), "7 0 + 0 0"));
        cases.push(case(format!("17 {script} letters, over the kind"), total(one(changed(row, &[(0, 34), (33, last[0]), (34, last[1])])), "1"), "7 0 + 0 0"));
        cases.push(case(format!("17 {script} letters, a size of letters"), total(one(changed(row, &[(0, 17)])), "1"), "7 0 + 0 0"));
        cases.push(case(format!("16 {script} letters, a size of letters"), total(one(changed(row, &[(0, 16)])), "1"), "7 0 + 0 0"));
        cases.push(case(format!("15 {script} letters and a byte"), total(one(five(&(beginning(text, 15) + "s"))), format!("1{}s", beginning(text, 15))), "0 32 + 5 0"));
    }
    cases
}

// 7 at a row: a byte that no name may hold at each place of the longest name; and one that it may.
#[rustfmt::skip]
fn places_of_names() -> Vec<Case> {
    let one = |name: &str| card().with_rows(&[named(name)]);
    let mut cases = Vec::new();
    for place in 0..NAME_BYTES {
        for (what, byte) in [("digit", "5"), ("minus", "-"), ("point", "."), ("delimiter", " ")] {
            cases.push(case(format!("{what} at {place}"), total(one(&with_letter(letters(32), place, byte)), "1"), "7 0 + 0 0"));
        }
        let name = with_letter(letters(32), place, "/");
        cases.push(case(format!("slash at {place}"), total(one(&name), format!("1{name}")), "0 33 + 1 0"));
    }
    cases
}

/// Two names of a size that differ at the last byte, and at the bytes on both
/// sides of each eighth, with the number of the byte.
fn pairs_at_edges(size: usize) -> Vec<(usize, String)> {
    let places = [0, 6, 7, 8, 15, 16, 23, 24, 30, 31];
    let within = places.into_iter().filter(|place| *place < size);
    within
        .map(|place| (place, with_letter(letters(size), place, "Z")))
        .collect()
}

// Names of eight bytes, of sixteen, and so on, and of one more: equal ones, and ones that differ in one byte.
#[rustfmt::skip]
fn names_at_edges() -> Vec<Case> {
    let two = |first: &str, second: &str| card().with_rows(&[named(first), five(second)]);
    let mut cases = Vec::new();
    for size in SIZES_AT_EDGES {
        let name = letters(size);
        let end = size + 1;
        cases.push(case(format!("{size} bytes, equal"), total(two(name, name), "1"), "7 1 + 0 0"));
        cases.push(case(format!("{size} bytes, one more typed"), total(two(name, "x"), format!("1{}", letters(size + 1))), "6 1 + 0 0"));
        cases.push(case(format!("{size} bytes, one less typed"), total(two(name, "x"), format!("1{}", letters(size - 1))), "6 1 + 0 0"));
        for (place, other) in pairs_at_edges(size) {
            let both = two(name, &other);
            cases.push(case(format!("{size} bytes but {place}, the first"), total(both.clone(), format!("1{name}")), format!("0 {end} + 1 0")));
            cases.push(case(format!("{size} bytes but {place}, the second"), total(both, format!("1{other}")), format!("0 {end} + 5 0")));
            cases.push(case(format!("{size} bytes but {place}, missing"), total(two(name, "x"), format!("1{other}")), "6 1 + 0 0"));
        }
    }
    cases
}

// A name and its own first bytes as another name, in both orders.
#[rustfmt::skip]
fn beginnings_of_names() -> Vec<Case> {
    let two = |first: &str, second: &str| card().with_rows(&[named(first), five(second)]);
    let mut cases = Vec::new();
    for (size, short) in [(9, 8), (16, 8), (17, 16), (24, 16), (25, 24), (32, 8), (32, 16), (32, 24), (32, 31)] {
        let (long, start) = (letters(size), letters(short));
        cases.push(case(format!("{short} of {size}, the long one"), total(two(long, start), format!("1{long}")), format!("0 {} + 1 0", size + 1)));
        cases.push(case(format!("{short} of {size}, the short one"), total(two(long, start), format!("1{start}")), format!("0 {} + 5 0", short + 1)));
        cases.push(case(format!("{short} of {size}, turned, the long one"), total(two(start, long), format!("1{long}")), format!("0 {} + 5 0", size + 1)));
        cases.push(case(format!("{short} of {size}, turned, the short one"), total(two(start, long), format!("1{start}")), format!("0 {} + 1 0", short + 1)));
        cases.push(case(format!("{short} of {size}, one less"), total(two(start, long), format!("1{}", letters(short - 1))), "6 1 + 0 0"));
    }
    cases
}

// Names with bytes 0 beside the same without them: the rooms are then equal, and the sizes tell them apart.
#[rustfmt::skip]
fn zero_bytes_of_names() -> Vec<Case> {
    let two = |first: &str, second: &str| card().with_rows(&[named(first), five(second)]);
    let zeros = |size| "\0".repeat(size);
    let mut cases = vec![
        case("zeros alone, equal", total(two(&zeros(32), &zeros(32)), "1"), "7 1 + 0 0"),
        case("one inside and none", total(two("ab", "a\0b"), "1a\0b"), "0 4 + 5 0"),
        case("one inside and its beginning", total(two("a", "a\0b"), "1a\0b 1a"), "0 7 + 6 0"),
        case("a zero typed too many", total(two("a", "b"), "1a\0"), "6 1 + 0 0"),
        case("a zero typed too few", total(two("a\0", "b"), "1a"), "6 1 + 0 0"),
    ];
    for (size, more) in [(1, 1), (7, 1), (8, 1), (8, 8), (15, 1), (16, 1), (16, 16), (23, 1), (24, 1), (24, 8), (30, 1), (31, 1), (1, 31)] {
        let (short, long) = (letters(size).to_string(), letters(size).to_string() + &zeros(more));
        cases.push(case(format!("{more} behind {size}, with them"), total(two(&short, &long), format!("1{long}")), format!("0 {} + 5 0", 1 + long.len())));
        cases.push(case(format!("{more} behind {size}, without"), total(two(&short, &long), format!("1{short}")), format!("0 {} + 1 0", 1 + size)));
        cases.push(case(format!("{more} behind {size}, equal"), total(two(&long, &long), "1"), "7 1 + 0 0"));
        let alone = two(&zeros(size), &zeros(size + more));
        cases.push(case(format!("{more} behind {size} of them"), total(alone.clone(), format!("1{}", zeros(size + more))), format!("0 {} + 5 0", 1 + size + more)));
        cases.push(case(format!("{size} of {} of them", size + more), total(alone, format!("1{}", zeros(size))), format!("0 {} + 1 0", 1 + size)));
    }
    cases
}

// 7 at a row: a name led by `e` or `E` under each switch, with inner delimiters and without, and the texts that find it.
#[rustfmt::skip]
fn names_led_by_e() -> Vec<Case> {
    let one = |name| card().with_rows(&[five(name)]);
    let no_exponents = |name| one(name).without_exponents();
    let neither = |name| one(name).without_both();
    let mut cases = vec![
        // The outer set is not asked.
        case("no inner, outer comma", total(no_exponents("eon").with_inner(b"").with_outer(b","), "1"), "7 0 + 0 0"),
        case("no inner, no outer", total(no_exponents("eon").with_inner(b"").with_outer(b""), "1"), "7 0 + 0 0"),
        case("inner, no outer", total(no_exponents("eon").with_outer(b""), "3 eon"), "0 5 + 15 0"),
        case("unused inner, no outer", total(neither("eon").with_outer(b""), "1"), "7 0 + 0 0"),
        case("inner after a sign only", total(neither("eon").with_sign_delimiter(), "1"), "7 0 + 0 0"),
        case("all bytes of 32", total(neither("eEeEeEeEeEeEeEeEeEeEeEeEeEeEeEeE"), "1"), "7 0 + 0 0"),

        // What else is read of an accepted one: a number's own `e` comes first.
        case("exponents off, no delimiter typed", total(no_exponents("eon"), "3eon"), "21 1 + 0 0"),
        case("exponents off, E, no delimiter typed", total(no_exponents("Eon"), "3Eon"), "21 1 + 0 0"),
        case("exponents off, point", total(no_exponents("eon"), "3.eon"), "21 2 + 0 0"),
        case("exponents off, fraction and delimiter", total(no_exponents("eon"), "3.5 eon"), "0 7 + 17 500000000"),
        case("exponents off, exponent", total(no_exponents("eon"), "3e0eon"), "21 1 + 0 0"),
        case("exponents off, exponent behind a unit", total(no_exponents("e"), "3 e0e"), "21 4 + 0 0"),
        case("exponents off, other case", total(no_exponents("eon"), "3 Eon"), "6 2 + 0 0"),
        case("exponents off, ago", total(no_exponents("eon"), "3 eon ago"), "0 9 - 15 0"),
        case("exponents off, two parts", total(no_exponents("eon"), "3 eon and 1 eon"), "0 15 + 20 0"),
        case("exponents on, no exponent typed", total(one("eon"), "3eon"), "21 2 + 0 0"),
        case("exponents on, delimiter typed", total(one("eon"), "3 eon"), "0 5 + 15 0"),
        case("exponents on, both typed", total(one("eon"), "3e1 eon"), "0 7 + 150 0"),
        case("exponents on, outer delimiter typed", total(one("eon").without_unit_delimiter(), "3 eon"), "6 2 + 0 0"),
        case("exponents on, outer delimiter behind it", total(one("E").without_unit_delimiter(), "3e0 E"), "6 4 + 0 0"),

        case("part", part(0, neither("eon"), "1"), "7 0 + 0 0"),
        case("part, found", part(1, no_exponents("eon"), "1+3 eon"), "0 7 + 15 0"),
        case("shift", shift(minus(7, 5), neither("E"), "1"), "7 0 + 0 0 - 7 5"),
        case("shift, found", shift(plus(1, 0), no_exponents("E"), "3 E"), "0 3 + 16 0 + 16 0"),
    ];
    for name in ["e", "E", "eon", "Eon"] {
        let behind = |typed: &str| format!("{typed}{name}");
        let found = |typed: &str| format!("0 {} + 15 0", typed.len() + name.len());
        let with = |what: &str| format!("{name}, {what}");
        cases.extend([
            case(with("exponents and delimiter"), total(one(name), behind("3e0")), found("3e0")),
            case(with("exponents and no inner"), total(one(name).with_inner(b""), behind("3e0")), found("3e0")),
            case(with("exponents alone"), total(one(name).without_unit_delimiter(), behind("3E0")), found("3E0")),
            case(with("exponents alone, no inner"),
                total(one(name).without_unit_delimiter().with_inner(b""), behind("3e+0")), found("3e+0")),
            case(with("delimiter alone"), total(no_exponents(name), behind("3 ")), found("3 ")),
            case(with("delimiter alone, no inner"), total(no_exponents(name).with_inner(b""), "1"), "7 0 + 0 0"),
            case(with("neither"), total(neither(name), "1"), "7 0 + 0 0"),
            case(with("neither, no inner"), total(neither(name).with_inner(b""), "1"), "7 0 + 0 0"),
        ]);
    }
    // One inner delimiter is enough: the lowest and the highest of either word of a set, and some between.
    for byte in [0, b' ', b'?', b'@', b'_', b'|', 127] {
        let text = [b"3".as_slice(), &[byte], b"eon"].concat();
        cases.push(case(format!("inner {byte}"), total(no_exponents("eon").with_inner(&[byte]), text), "0 5 + 15 0"));
    }
    cases
}

// Names that are not led by `e` or `E` need nothing: an `e` further on, and bytes that are nearly one of the two.
#[rustfmt::skip]
fn names_not_led_by_e() -> Vec<Case> {
    let neither = |name| card().without_both().with_rows(&[five(name)]);
    let mut cases = vec![
        case("second", total(neither("neon").with_inner(b""), "3neon"), "0 5 + 15 0"),
        case("last", total(neither("sE"), "3sE"), "0 3 + 15 0"),
        case("another row", total(card().without_both().with_rows(&[five("se"), five("s")]), "3s"), "0 2 + 15 0"),
        // 229 and 197 are `e` and `E` with 128 more.
        case("first byte 229", total(neither("剑"), "3剑"), "0 4 + 15 0"),
        case("first byte 197", total(neither("Ő"), "3Ő"), "0 3 + 15 0"),
    ];
    for name in ["de", "fe", "De", "Fe", "%e", "\x05e"] {
        cases.push(case(format!("{name:?}"), total(neither(name), format!("3{name}")), "0 3 + 15 0"));
    }
    cases
}

// 7 at a row that nobody could type: which row is named, and what comes before it.
#[rustfmt::skip]
fn rows_led_by_e() -> Vec<Case> {
    let rows_of = |rows: &[[u8; ROW_BYTES]]| card().with_rows(rows);
    let (s, t, eon, upper) = (five("s"), five("t"), five("eon"), five("Eon"));
    let kind = unit(8, 1, 0);
    let last_of_64 = rows_of(&[rows(63), vec![eon]].concat());
    let first_of_65 = rows_of(&[vec![eon], rows(64)].concat());
    vec![
        case("first of two", total(rows_of(&[eon, s]).without_both(), "1s"), "7 0 + 0 0"),
        case("second", total(rows_of(&[s, eon]).without_both(), "1s"), "7 1 + 0 0"),
        case("second of three", total(rows_of(&[s, upper, t]).without_both(), "1s"), "7 1 + 0 0"),
        case("third, part", part(0, rows_of(&[s, t, upper]).without_both(), "1s"), "7 2 + 0 0"),
        case("both letters", total(rows_of(&[s, upper, eon]).without_both(), "1s"), "7 1 + 0 0"),
        case("both letters, typed", total(rows_of(&[s, upper, eon]).without_exponents(), "3 Eon 3 eon"), "0 11 + 30 0"),
        case("row 63", total(last_of_64.clone().without_both(), "1aa"), "7 63 + 0 0"),
        case("row 63, typed", total(last_of_64.without_exponents(), "3 eon"), "0 5 + 15 0"),
        case("twice", total(rows_of(&[eon, eon]).without_both(), "1"), "7 0 + 0 0"),
        case("twice, typed", total(rows_of(&[eon, eon]), "1"), "7 1 + 0 0"),
        case("before a kind", total(rows_of(&[s, eon, kind]).without_both(), "1"), "7 1 + 0 0"),
        case("behind a kind", total(rows_of(&[s, kind, eon]).without_both(), "1"), "7 1 + 0 0"),
        case("typed, before a kind", total(rows_of(&[s, eon, kind]), "1"), "7 2 + 0 0"),
        case("before equal names", total(rows_of(&[s, eon, s]).without_both(), "1"), "7 1 + 0 0"),
        case("65 rows", total(first_of_65.without_both(), "1"), "7 64 + 0 0"),
        case("default kind", total(rows_of(&[eon]).without_both().with_kind(8), "1"), "7 67 + 0 0"),
        case("wrong inner", total(rows_of(&[eon]).without_exponents().with_inner(&[200]), "1"), "7 65 + 0 0"),
        case("long text", total(rows_of(&[eon]).without_both(), text(4097)), "7 0 + 0 0"),
        case("empty text", total(rows_of(&[s, eon]).without_both(), ""), "7 1 + 0 0"),
        case("place", part(2, rows_of(&[s, eon]).without_both(), "1"), "7 1 + 0 0"),
        case("record", shift(minus(0, 0), rows_of(&[s, eon]).without_both(), "1"), "7 1 + 0 0 - 0 0"),
    ]
}

// 7 at a row: equal names, the later row being the bad one, and names that nearly are.
#[rustfmt::skip]
fn equal_names() -> Vec<Case> {
    let names = |names: &[&str]| {
        let rows: Vec<_> = names.iter().map(|name| named(name)).collect();
        card().with_rows(&rows)
    };
    let other_unit = card().with_rows(&[unit(3, 1, 0), unit(4, 2, 0)]);
    let first_and_last = card().with_rows(&[rows(63), vec![named("aa")]].concat());
    vec![
        case("neighbours", total(names(&["a", "a"]), "1"), "7 1 + 0 0"),
        case("neighbours, other unit", total(other_unit, "1"), "7 1 + 0 0"),
        case("two apart", total(names(&["a", "b", "a"]), "1"), "7 2 + 0 0"),
        case("three apart", total(names(&["a", "b", "c", "a"]), "1"), "7 3 + 0 0"),
        case("last two", total(names(&["a", "b", "c", "c"]), "1"), "7 3 + 0 0"),
        case("first of 64 and last", total(first_and_last, "1"), "7 63 + 0 0"),
        case("three times", total(names(&["a", "a", "a"]), "1"), "7 1 + 0 0"),
        case("two pairs", total(names(&["a", "b", "b", "a"]), "1"), "7 2 + 0 0"),
        case("16 bytes", total(names(&["abcdefghijklmnop", "abcdefghijklmnop"]), "1"), "7 1 + 0 0"),
        case("16 bytes but the last", total(names(&["abcdefghijklmnop", "abcdefghijklmnoq"]), "1abcdefghijklmnoq"),
            "0 17 + 1 0"),
        case("16 bytes but the first", total(names(&["abcdefghijklmnop", "bbcdefghijklmnop"]), "1bbcdefghijklmnop"),
            "0 17 + 1 0"),
        case("32 bytes", total(names(&[letters(32), letters(32)]), "1"), "7 1 + 0 0"),
        case("32 bytes of two-byte letters", total(names(&[&CYRILLIC[..32], &GREEK[..32], &CYRILLIC[..32]]), "1"), "7 2 + 0 0"),
        case("last byte", total(names(&["ab", "ac"]), "1ac"), "0 3 + 1 0"),
        case("longer", total(names(&["ab", "abc"]), "1abc"), "0 4 + 1 0"),
        case("shorter", total(names(&["abc", "ab"]), "1ab"), "0 3 + 1 0"),
        case("longer by a byte 0", total(names(&["a", "a\0"]), "1a\0"), "0 3 + 1 0"),
        case("other case", total(names(&["a", "A"]), "1A"), "0 2 + 1 0"),
    ]
}

// 7 at a row: the product coefficient within plus or minus 9223372036854775807.
#[rustfmt::skip]
fn coefficients() -> Vec<Case> {
    let x = |kind, coefficient| card().with_rows(&[unit(kind, coefficient, 0)]);
    let (most, least) = (9_223_372_036_854_775_807, -9_223_372_036_854_775_808);
    vec![
        case("kind 3, most", total(x(3, most), "1x"), "0 2 + 9223372036854775807 0"),
        case("kind 3, minus most", total(x(3, -most), "1x"), "0 2 - 9223372036854775807 0"),
        case("kind 3, minus most, ago", total(x(3, -most), "1x ago"), "0 6 + 9223372036854775807 0"),
        case("kind 3, least", total(x(3, least), "1"), "7 0 + 0 0"),
        case("kind 0, most", total(x(0, most), "1x"), "0 2 + 9223372036 854775807"),
        case("kind 0, least", total(x(0, least), "1"), "7 0 + 0 0"),
        case("kind 1, minus most", total(x(1, -most), "1x"), "0 2 - 9223372036854 775807000"),
        case("kind 1, least", total(x(1, least), "1"), "7 0 + 0 0"),
        case("kind 2, most", total(x(2, most), "1x"), "0 2 + 9223372036854775 807000000"),
        case("kind 2, least", total(x(2, least), "1"), "7 0 + 0 0"),

        case("kind 4", total(x(4, 153722867280912930), "1x"), "0 2 + 9223372036854775800 0"),
        case("kind 4, over", total(x(4, 153722867280912931), "1"), "7 0 + 0 0"),
        case("kind 4, minus", total(x(4, -153722867280912930), "1x"), "0 2 - 9223372036854775800 0"),
        case("kind 4, minus, over", total(x(4, -153722867280912931), "1"), "7 0 + 0 0"),
        case("kind 5", total(x(5, 2562047788015215), "1x"), "0 2 + 9223372036854774000 0"),
        case("kind 5, over", total(x(5, 2562047788015216), "1"), "7 0 + 0 0"),
        case("kind 6", total(x(6, 106751991167300), "1x"), "0 2 + 9223372036854720000 0"),
        case("kind 6, over", total(x(6, 106751991167301), "1"), "7 0 + 0 0"),
        case("kind 7", total(x(7, 15250284452471), "1x"), "0 2 + 9223372036854460800 0"),
        case("kind 7, over", total(x(7, 15250284452472), "1"), "7 0 + 0 0"),
        case("kind 7, minus", total(x(7, -15250284452471), "1x"), "0 2 - 9223372036854460800 0"),
        case("kind 7, minus, over", total(x(7, -15250284452472), "1"), "7 0 + 0 0"),

        // The product is 44 and 0 in its low 64 bits.
        case("kind 4, 44 beyond 64 bits", total(x(4, 307445734561825861), "1"), "7 0 + 0 0"),
        case("kind 7, least", total(x(7, least), "1"), "7 0 + 0 0"),
        case("kind 7, most", total(x(7, most), "1"), "7 0 + 0 0"),
        case("kind 7, none", total(x(7, 0), "1x"), "0 2 + 0 0"),
    ]
}

// 7 at a row: the power from -32768 to 32767; a typed exponent brings the value back.
#[rustfmt::skip]
fn powers() -> Vec<Case> {
    let x = |kind, power| card().with_rows(&[unit(kind, 1, power)]);
    vec![
        case("kind 3, most", total(x(3, 32767), "1e-32767x"), "0 9 + 1 0"),
        case("kind 3, least", total(x(3, -32768), "1e32767x"), "0 8 + 0 100000000"),
        case("kind 7, most", total(x(7, 32767), "1e-32767x"), "0 9 + 604800 0"),
        case("kind 7, least", total(x(7, -32768), "1e32767x"), "0 8 + 60480 0"),
        case("kind 0, most", total(x(0, 32767), "1e-32758x"), "0 9 + 1 0"),
        case("kind 0, -32768", total(x(0, -32759), "1e32767x"), "0 8 + 0 100000000"),
        case("kind 0, -32769", total(x(0, -32760), "1"), "7 0 + 0 0"),
        case("kind 0, least", total(x(0, -32768), "1"), "7 0 + 0 0"),
        case("kind 1, -32768", total(x(1, -32762), "1e32767x"), "0 8 + 0 100000000"),
        case("kind 1, -32769", total(x(1, -32763), "1"), "7 0 + 0 0"),
        case("kind 2, -32768", total(x(2, -32765), "1e32767x"), "0 8 + 0 100000000"),
        case("kind 2, -32769", total(x(2, -32766), "1"), "7 0 + 0 0"),
    ]
}

// 7 at a row: which row is named when it is not the first, or not the only one.
#[rustfmt::skip]
fn first_bad_row() -> Vec<Case> {
    let (a, b, c) = (named("a"), named("b"), named("c"));
    let (kind, name, power) = (unit(8, 1, 0), named("1"), unit(0, 1, -32768));
    let last_of_64 = card().with_rows(&[rows(63), vec![kind]].concat());
    let last_of_64_good = card().with_rows(&[rows(63), vec![c]].concat());
    vec![
        case("row 1", total(card().with_rows(&[a, kind, b]), "1"), "7 1 + 0 0"),
        case("row 2", total(card().with_rows(&[a, b, name]), "1"), "7 2 + 0 0"),
        case("row 2, part", part(0, card().with_rows(&[a, b, name]), "1"), "7 2 + 0 0"),
        case("row 63", total(last_of_64, "1"), "7 63 + 0 0"),
        case("row 63, good", total(last_of_64_good, "1c"), "0 2 + 1 0"),
        case("rows 0 and 1", total(card().with_rows(&[name, kind]), "1"), "7 0 + 0 0"),
        case("rows 1 and 3", total(card().with_rows(&[a, power, b, name]), "1"), "7 1 + 0 0"),
        case("rows 1 and 2, equal", total(card().with_rows(&[a, kind, a]), "1"), "7 1 + 0 0"),
        case("rows 1, equal, and 2", total(card().with_rows(&[a, a, kind]), "1"), "7 1 + 0 0"),
    ]
}

// The order 7 (65, 66, 67, 64, rows), 11, 8, 10: each card has all that the one before has wrong, and more.
#[rustfmt::skip]
fn order_of_refusals() -> Vec<Case> {
    let bad_row = changed(named("x"), &[(KIND_PLACE, 8)]);
    let row = card().with_rows(&[bad_row]);
    let size = card().with_rows(&[vec![bad_row], rows(64)].concat());
    let kind = size.clone().with_kind(8);
    let words = kind.clone().with_word(b"an1");
    let inner = words.clone().with_inner(b"0");
    let outer = words.clone().with_outer(b"0");
    let malformed = plus(0, 1_000_000_000);
    let long = text(4097);
    vec![
        case("row, long text", total(row.clone(), &long), "7 0 + 0 0"),
        case("size, row, long text", total(size.clone(), &long), "7 64 + 0 0"),
        case("kind, size, row, long text", total(kind.clone(), &long), "7 67 + 0 0"),
        case("words and the same", total(words.clone(), &long), "7 66 + 0 0"),
        case("inner and the same", total(inner.clone(), &long), "7 65 + 0 0"),
        case("outer and the same", total(outer.clone(), &long), "7 65 + 0 0"),
        case("row, long text, place", part(4098, row.clone(), &long), "7 0 + 0 0"),
        case("row, place", part(2, row.clone(), "1"), "7 0 + 0 0"),
        case("inner, long text, place", part(4098, inner.clone(), &long), "7 65 + 0 0"),
        case("long text, place", part(4098, card(), &long), "8 4096 + 0 0"),
        case("row, record, long text", shift(malformed, row.clone(), &long), "7 0 + 0 0 + 0 1000000000"),
        case("inner, record, long text", shift(malformed, inner, &long), "7 65 + 0 0 + 0 1000000000"),
        case("row, record", shift(minus(0, 0), row.clone(), "1"), "7 0 + 0 0 - 0 0"),
        case("record, long text", shift(malformed, card(), &long), "11 0 + 0 0 + 0 1000000000"),
        case("record, delimiters at the end", shift(malformed, card(), "1s "), "11 0 + 0 0 + 0 1000000000"),
        case("record, empty text", shift(minus(0, 0), card(), ""), "11 0 + 0 0 - 0 0"),
        case("row, empty text", total(row.clone(), ""), "7 0 + 0 0"),
        case("row, delimiters at the end", total(row, "1s "), "7 0 + 0 0"),

        // The writer: 11, 10, 9.
        case("record, place", write(malformed, 3, "ab"), wrote("11 0 + 0 0", "ab")),
        case("record, room", write(minus(0, 0), 1, "ab"), wrote("11 0 + 0 0", "ab")),
        case("place, room", write(plus(1, 0), 3, "ab"), wrote("10 3 + 0 0", "ab")),
    ]
}

// 8: the size of the text.
#[rustfmt::skip]
fn text_size() -> Vec<Case> {
    vec![
        case("4096, total", total(card(), text(4096)), "0 4096 + 1 0"),
        case("4097, total", total(card(), text(4097)), "8 4096 + 0 0"),
        case("65537, total", total(card(), text(65537)), "8 4096 + 0 0"),
        case("4096 spaces, total", total(card(), " ".repeat(4096)), "6 0 + 0 0"),
        case("4097 spaces, total", total(card(), " ".repeat(4097)), "8 4096 + 0 0"),
        case("4096, part", part(0, card(), text(4096)), "0 4096 + 1 0"),
        case("4097, part", part(0, card(), text(4097)), "8 4096 + 0 0"),
        case("4097, part at its end", part(4097, card(), text(4097)), "8 4096 + 0 0"),
        case("4096, shift", shift(plus(1, 0), card(), text(4096)), "0 4096 + 2 0 + 2 0"),
        case("4097, shift", shift(plus(1, 0), card(), text(4097)), "8 4096 + 0 0 + 1 0"),
    ]
}

// 10: the place; at the very end it is 1 for a part, and 9 for a write.
#[rustfmt::skip]
fn places() -> Vec<Case> {
    vec![
        case("empty text, 0", part(0, card(), ""), "1 0 + 0 0"),
        case("empty text, 1", part(1, card(), ""), "10 1 + 0 0"),
        case("second part", part(3, card(), "1s 2s"), "0 5 + 2 0"),
        case("last byte", part(1, card(), "12"), "0 2 + 2 0"),
        case("end", part(2, card(), "12"), "1 2 + 0 0"),
        case("one beyond", part(3, card(), "12"), "10 3 + 0 0"),
        case("256 beyond", part(258, card(), "12"), "10 258 + 0 0"),
        case("far beyond", part(MOST, card(), "12"), "10 18446744073709551615 + 0 0"),
        case("last byte of 4096", part(4095, card(), text(4096)), "0 4096 + 1 0"),
        case("end of 4096", part(4096, card(), text(4096)), "1 4096 + 0 0"),
        case("beyond 4096", part(4097, card(), text(4096)), "10 4097 + 0 0"),

        case("empty buffer, 0", write(plus(1, 0), 0, ""), wrote("9 0 + 0 0", "")),
        case("empty buffer, 1", write(plus(1, 0), 1, ""), wrote("10 1 + 0 0", "")),
        case("buffer, end", write(plus(1, 0), 4, "abcd"), wrote("9 4 + 0 0", "abcd")),
        case("buffer, one beyond", write(plus(1, 0), 5, "abcd"), wrote("10 5 + 0 0", "abcd")),
        case("buffer, far beyond", write(plus(1, 0), MOST, "abcd"), wrote("10 18446744073709551615 + 0 0", "abcd")),
    ]
}

// 11: the record, lent to a shift and to a write.
#[rustfmt::skip]
fn records() -> Vec<Case> {
    vec![
        case("most nanoseconds", shift(plus(0, NINES), card(), "1ns"), "0 3 + 1 0 + 1 0"),
        case("one more", shift(plus(0, 1_000_000_000), card(), "1ns"), "11 0 + 0 0 + 0 1000000000"),
        case("32 bits full", shift(plus(0, 4_294_967_295), card(), "1ns"), "11 0 + 0 0 + 0 4294967295"),
        case("minus, most nanoseconds", shift(minus(0, NINES), card(), "-1ns"), "0 4 - 1 0 - 1 0"),
        case("minus, one more", shift(minus(0, 1_000_000_000), card(), "1ns"), "11 0 + 0 0 - 0 1000000000"),
        case("most seconds", shift(plus(MOST, 0), card(), "1ns"),
            "0 3 + 18446744073709551615 1 + 18446744073709551615 1"),
        case("most seconds, one nanosecond more", shift(plus(MOST, 1_000_000_000), card(), "1ns"),
            "11 0 + 0 0 + 18446744073709551615 1000000000"),
        case("plus zero", shift(plus(0, 0), card(), "1ns"), "0 3 + 0 1 + 0 1"),
        case("minus zero", shift(minus(0, 0), card(), "1ns"), "11 0 + 0 0 - 0 0"),
        case("minus a nanosecond", shift(minus(0, 1), card(), "1ns"), "0 3 + 0 0 + 0 0"),
        case("minus a second", shift(minus(1, 0), card(), "1ns"), "0 3 - 0 999999999 - 0 999999999"),

        case("write most nanoseconds", write(plus(0, NINES), 0, "abcdefghijklm"),
            wrote("0 12 + 0 999999999", "+0.999999999m")),
        case("write one more", write(plus(0, 1_000_000_000), 0, "abcdefghijklm"),
            wrote("11 0 + 0 0", "abcdefghijklm")),
        case("write 32 bits full", write(plus(0, 4_294_967_295), 0, "abcdefghijklm"),
            wrote("11 0 + 0 0", "abcdefghijklm")),
        case("write minus, one more", write(minus(0, 1_000_000_000), 1, "abcdefghijklm"),
            wrote("11 0 + 0 0", "abcdefghijklm")),
        case("write plus zero", write(plus(0, 0), 0, "abc"), wrote("0 2 + 0 0", "+0c")),
        case("write minus zero", write(minus(0, 0), 0, "abc"), wrote("11 0 + 0 0", "abc")),
        case("write minus a nanosecond", write(minus(0, 1), 0, "abcdefghijklm"),
            wrote("0 12 - 0 1", "-0.000000001m")),
        case("write minus a second", write(minus(1, 0), 0, "abc"), wrote("0 2 - 1 0", "-1c")),
    ]
}

// 9: the room in the buffer, exactly enough and one byte fewer, and the buffer afterwards.
#[rustfmt::skip]
fn buffers() -> Vec<Case> {
    let spare = |count: usize| "#".repeat(count);
    let seconds = "0 21 + 18446744073709551615 0";
    let longest = "0 31 - 18446744073709551615 999999999";
    vec![
        case("zero, enough", write(plus(0, 0), 0, "ab"), wrote("0 2 + 0 0", "+0")),
        case("zero, short", write(plus(0, 0), 0, "a"), wrote("9 0 + 0 0", "a")),
        case("zero, inside", write(plus(0, 0), 1, "abcd"), wrote("0 3 + 0 0", "a+0d")),
        case("zero, inside, enough", write(plus(0, 0), 2, "abcd"), wrote("0 4 + 0 0", "ab+0")),
        case("zero, inside, short", write(plus(0, 0), 3, "abcd"), wrote("9 3 + 0 0", "abcd")),
        case("one digit, enough", write(plus(9, 0), 0, "ab"), wrote("0 2 + 9 0", "+9")),
        case("two digits, short", write(plus(10, 0), 0, "ab"), wrote("9 0 + 0 0", "ab")),
        case("two digits, enough", write(plus(10, 0), 0, "abc"), wrote("0 3 + 10 0", "+10")),
        case("tenths, enough", write(plus(0, 500_000_000), 0, "abcd"), wrote("0 4 + 0 500000000", "+0.5")),
        case("tenths, short", write(plus(0, 500_000_000), 0, "abc"), wrote("9 0 + 0 0", "abc")),
        case("hundredths, enough", write(minus(3, 120_000_000), 1, "abcdef"), wrote("0 6 - 3 120000000", "a-3.12")),
        case("hundredths, short", write(minus(3, 120_000_000), 2, "abcdef"), wrote("9 2 + 0 0", "abcdef")),
        case("zeros between digits", write(plus(7, 100_200_000), 0, "abcdefghi"),
            wrote("0 7 + 7 100200000", "+7.1002hi")),
        case("eight digits, enough", write(plus(0, 999_999_990), 0, "abcdefghijk"),
            wrote("0 11 + 0 999999990", "+0.99999999")),
        case("eight digits, short", write(plus(0, 999_999_990), 0, "abcdefghij"), wrote("9 0 + 0 0", "abcdefghij")),
        case("nine digits, enough", write(plus(0, 1), 0, "abcdefghijkl"), wrote("0 12 + 0 1", "+0.000000001")),
        case("nine digits, short", write(plus(0, 1), 0, "abcdefghijk"), wrote("9 0 + 0 0", "abcdefghijk")),

        case("most seconds, enough", write(plus(MOST, 0), 0, spare(21)), wrote(seconds, "+18446744073709551615")),
        case("most seconds, short", write(plus(MOST, 0), 0, spare(20)), wrote("9 0 + 0 0", spare(20))),
        case("longest, enough", write(minus(MOST, NINES), 0, spare(31)),
            wrote(longest, "-18446744073709551615.999999999")),
        case("longest, short", write(minus(MOST, NINES), 0, spare(30)), wrote("9 0 + 0 0", spare(30))),
        case("longest, spare", write(minus(MOST, NINES), 0, spare(32)),
            wrote(longest, "-18446744073709551615.999999999#")),
        case("longest, inside", write(minus(MOST, NINES), 1, spare(33)),
            wrote("0 32 - 18446744073709551615 999999999", "#-18446744073709551615.999999999#")),
        case("longest, inside, short", write(minus(MOST, NINES), 2, spare(32)), wrote("9 2 + 0 0", spare(32))),

        case("over digits and signs", write(plus(1, 0), 1, "9-9+9"), wrote("0 3 + 1 0", "9+1+9")),
        case("over any bytes", write(plus(1, 0), 1, [0, 200, 0, 255]), wrote("0 3 + 1 0", [0, b'+', b'1', 255])),
        case("short of any bytes", write(plus(1, 0), 3, [0, 200, 0, 255]), wrote("9 3 + 0 0", [0, 200, 0, 255])),
        case("4096 bytes", write(plus(1, 0), 4094, spare(4096)), wrote("0 4096 + 1 0", spare(4094) + "+1")),
        case("4097 bytes", write(plus(1, 0), 4095, spare(4097)), wrote("0 4097 + 1 0", spare(4095) + "+1")),
    ]
}

// The record after a shift: added to, with the sign of the sum, clamped at MAX and MIN.
#[rustfmt::skip]
fn shifts() -> Vec<Case> {
    let half = 9_223_372_036_854_775_808;
    // Answer and record carry the same length.
    let both = |position: usize, length: &str| format!("0 {position} {length} {length}");
    let (max, min) = ("+ 18446744073709551615 999999999", "- 18446744073709551615 999999999");
    vec![
        case("parts", shift(plus(1, 0), card(), "1s and 2ms"), both(10, "+ 2 2000000")),
        case("nothing to plus", shift(plus(7, 5), card(), "0"), both(1, "+ 7 5")),
        case("nothing to minus", shift(minus(7, 5), card(), "-0"), both(2, "- 7 5")),
        case("carry", shift(plus(0, 500_000_000), card(), "0.5s"), both(4, "+ 1 0")),
        case("borrow", shift(plus(1, 0), card(), "-0.000000001s"), both(13, "+ 0 999999999")),
        case("plus to zero", shift(plus(1, 5), card(), "-1.000000005s"), both(13, "+ 0 0")),
        case("minus to zero", shift(minus(1, 0), card(), "1s"), both(2, "+ 0 0")),
        case("plus to minus", shift(plus(1, 0), card(), "-3s"), both(3, "- 2 0")),
        case("minus to plus", shift(minus(1, 0), card(), "3s"), both(2, "+ 2 0")),

        case("just MAX", shift(plus(MOST, 999_999_998), card(), "1ns"), both(3, max)),
        case("MAX and a nanosecond", shift(plus(MOST, NINES), card(), "1ns"), both(3, max)),
        case("MAX less a nanosecond", shift(plus(MOST, NINES), card(), "-1ns"),
            both(4, "+ 18446744073709551615 999999998")),
        case("seconds beyond MAX", shift(plus(MOST, 0), card(), "1s"), both(2, max)),
        case("halves, most seconds", shift(plus(half, 0), card(), "9223372036854775807s"),
            both(20, "+ 18446744073709551615 0")),
        case("halves, one more", shift(plus(half, 0), card(), "9223372036854775808s"), both(20, max)),
        case("just MIN", shift(minus(MOST, 999_999_998), card(), "-1ns"), both(4, min)),
        case("MIN and a nanosecond", shift(minus(MOST, NINES), card(), "-1ns"), both(4, min)),
        case("MIN less a nanosecond", shift(minus(MOST, NINES), card(), "1ns"),
            both(3, "- 18446744073709551615 999999998")),
        case("minus halves", shift(minus(half, 0), card(), "-9223372036854775808s"), both(21, min)),

        case("infinity", shift(plus(0, 0), card(), "inf"), both(3, max)),
        case("minus infinity to plus", shift(plus(5, 0), card(), "-inf"),
            both(4, "- 18446744073709551610 999999999")),
        case("minus infinity to MAX", shift(plus(MOST, NINES), card(), "-inf"), both(4, "+ 0 0")),
        case("infinity to MIN", shift(minus(MOST, NINES), card(), "inf"), both(3, "+ 0 0")),
        // The text's total is clamped before it is added.
        case("total beyond MAX", shift(minus(1, 0), card(), "inf 5s"), both(6, "+ 18446744073709551614 999999999")),
    ]
}

// The record after a refused shift: as it was.
#[rustfmt::skip]
fn shifts_refused() -> Vec<Case> {
    let so_far = minus(7, 5);
    let bad_row = card().with_rows(&[named("a"), named("b"), unit(8, 1, 0)]);
    vec![
        case("7 at 65, inner", shift(so_far, card().with_inner(b"."), "1s"), "7 65 + 0 0 - 7 5"),
        case("7 at 65, outer", shift(so_far, card().with_outer(b"."), "1s"), "7 65 + 0 0 - 7 5"),
        case("7 at 66", shift(so_far, card().with_words(5, &[]), "1s"), "7 66 + 0 0 - 7 5"),
        case("7 at 67", shift(so_far, card().with_kind(8), "1s"), "7 67 + 0 0 - 7 5"),
        case("7 at 64", shift(so_far, card().with_rows(&rows(65)), "1aa"), "7 64 + 0 0 - 7 5"),
        case("64 rows", shift(so_far, card().with_rows(&rows(64)), "1aa"), "0 3 - 6 5 - 6 5"),
        case("7 at a row", shift(so_far, bad_row, "1a"), "7 2 + 0 0 - 7 5"),
        case("8", shift(so_far, card(), text(4097)), "8 4096 + 0 0 - 7 5"),
        case("1", shift(so_far, card(), ""), "1 0 + 0 0 - 7 5"),
        case("18", shift(so_far, card(), "1s "), "18 2 + 0 0 - 7 5"),
        case("18, second part", shift(so_far, card(), "1s 2s "), "18 5 + 0 0 - 7 5"),
        case("3", shift(so_far, card(), "1s 1e32768"), "3 9 + 0 0 - 7 5"),
        case("4", shift(so_far, card(), "1s 1e-32769"), "4 10 + 0 0 - 7 5"),
        case("5", shift(so_far, card().without_negatives(), "1s -1s"), "5 0 + 0 0 - 7 5"),
        case("6", shift(so_far, card(), "1s x"), "6 3 + 0 0 - 7 5"),
        // Only a part is forbidden to be negative, not the record.
        case("minus record, no negatives", shift(so_far, card().without_negatives(), "1s"), "0 2 - 6 5 - 6 5"),
    ]
}

// 3 and 4: an exponent at either end of its range and one beyond it, whatever number it belongs to.
#[rustfmt::skip]
fn exponents_at_the_range() -> Vec<Case> {
    vec![
        case("most", total(card(), "1e32767"), "0 7 + 18446744073709551615 999999999"),
        case("one more", part(0, card(), "1e32768"), "3 6 + 0 0"),
        case("one more, plus, E", total(card(), "1E+32768"), "3 7 + 0 0"),
        case("least", total(card(), "1e-32768"), "0 8 + 0 0"),
        case("least, E, shift", shift(minus(7, 5), card(), "1E-32768"), "0 8 - 7 5 - 7 5"),
        case("one less", total(card(), "1e-32769"), "4 7 + 0 0"),
        case("one less, E, shift", shift(minus(7, 5), card(), "1E-32769"), "4 7 + 0 0 - 7 5"),
        case("of zero", total(card(), "0e32768"), "3 6 + 0 0"),
        case("behind a fraction", total(card(), "-1.5e32768"), "3 9 + 0 0"),
    ]
}

// 3 and 4 at the first digit with which those typed so far pass the range: behind zeros that is the fifth or the sixth.
#[rustfmt::skip]
fn digits_that_pass() -> Vec<Case> {
    vec![
        case("fifth of ten", total(card(), "1e-9999999999"), "4 7 + 0 0"),
        case("fifth, more than the least", total(card(), "1e327680"), "3 6 + 0 0"),
        case("sixth, behind the most", total(card(), "1e327670"), "3 7 + 0 0"),
        case("sixth, behind the least", total(card(), "1e-327680"), "4 8 + 0 0"),
        case("sixth of nine", part(0, card(), "1e+123456789"), "3 8 + 0 0"),
        case("sixth of 25", shift(plus(1, 0), card(), "1e-1000000000000000000000000"), "4 8 + 0 0 + 1 0"),
        case("behind zeros", total(card(), "1e-0032769"), "4 9 + 0 0"),
        case("behind zeros, in range", total(card(), "1e-0000032768"), "0 13 + 0 0"),
        case("behind zeros, plus", part(0, card(), "1e+0000032768"), "3 12 + 0 0"),
        // A run that ends before the range is passed.
        case("a letter among them", total(card(), "1e3276x8"), "6 6 + 0 0"),
        case("a point among them", total(card(), "1e3276.8"), "0 8 + 18446744073709551615 999999999"),
        case("a letter instead", total(card(), "1e-x32769"), "21 3 + 0 0"),
    ]
}

// 3 and 4 among other parts and other refusals: the first from the left is given, with a place of the whole text.
#[rustfmt::skip]
fn before_and_behind_exponents() -> Vec<Case> {
    let no_exponents = card().with_rows(&[five("eon")]).without_exponents();
    let no_negatives = || card().without_negatives();
    vec![
        case("unit behind", total(card(), "1e99999s"), "3 6 + 0 0"),
        case("point behind", total(card(), "1e32768.5"), "3 6 + 0 0"),
        case("delimiter behind, then the end", total(card(), "1e-32769 "), "4 7 + 0 0"),
        case("part behind", total(card(), "1e32768 1e-32769"), "3 6 + 0 0"),
        case("part before", total(card(), "1s 1e32768"), "3 9 + 0 0"),
        case("parts before", shift(minus(7, 5), card(), "1s and 2ms 1e-32769"), "4 18 + 0 0 - 7 5"),
        case("part in range before", total(card(), "1e-32768-1e-32769"), "4 16 + 0 0"),

        case("exponents off", total(no_exponents.clone(), "1e32768"), "21 1 + 0 0"),
        case("exponents off, second part", part(2, no_exponents, "1 1e-32769"), "21 3 + 0 0"),
        case("negative, negatives off", total(no_negatives(), "-1e32768"), "3 7 + 0 0"),
        case("negative before, negatives off", total(no_negatives(), "-1s 1e32768"), "5 0 + 0 0"),
        case("minus zero before, negatives off", total(no_negatives(), "-0s 1e32768"), "3 10 + 0 0"),
        case("negative behind, negatives off", total(no_negatives(), "1e-32769 -1s"), "4 7 + 0 0"),
    ]
}

// 3 and 4 of a part from a place: they too have a place of the whole text, whatever stands before the part.
#[rustfmt::skip]
fn places_of_exponents() -> Vec<Case> {
    vec![
        case("second part", part(3, card(), "1s 1e32768"), "3 9 + 0 0"),
        case("first part, second out of range", part(0, card(), "1s 1e32768"), "0 3 + 1 0"),
        case("behind bytes that are no part", part(4, card(), "xyz 1E-0099999ns"), "4 13 + 0 0"),
        case("behind bytes that are no letters", part(2, card(), b"\xff\xfe1e32768"), "3 8 + 0 0"),
        case("within the exponent", part(2, card(), "1e32768"), "0 7 + 32768 0"),
    ]
}

// 3 and 4 in texts of the largest size: the digit that passes the range is the last byte, or stands long before it.
#[rustfmt::skip]
fn long_exponents() -> Vec<Case> {
    let filled = |start: &str, digit: &str, size: usize, end: &str| {
        format!("{start}{}{end}", digit.repeat(size - start.len() - end.len()))
    };
    vec![
        case("zeros", total(card(), filled("1e", "0", 4096, "")), "0 4096 + 1 0"),
        case("last byte", total(card(), filled("1e", "0", 4096, "32768")), "3 4095 + 0 0"),
        case("last byte, minus, part", part(0, card(), filled("1e-", "0", 4096, "32769")), "4 4095 + 0 0"),
        case("last byte, zeros before the number", shift(plus(1, 0), card(), filled("", "0", 4096, "1e32768")),
            "3 4095 + 0 0 + 1 0"),
        case("nines", total(card(), filled("1e", "9", 4096, "")), "3 6 + 0 0"),
        case("text too long", total(card(), filled("1e", "0", 4097, "32768")), "8 4096 + 0 0"),
    ]
}

// 7 at 100: the size of the numeral table; `aa` is the numeral 0, `bf` the numeral 31.
#[rustfmt::skip]
fn numeral_table_size() -> Vec<Case> {
    let size = |size| card().with_numeral_size(size);
    vec![
        case("none", total(size(0), "1s"), "0 2 + 1 0"),
        case("none, a name", total(size(0), "aa s"), "6 0 + 0 0"),
        case("none, a name and a delimiter", total(size(0), "aa "), "6 0 + 0 0"),
        case("1 byte", total(size(1), "1s"), "7 100 + 0 0"),
        case("47 bytes", total(size(47), "1s"), "7 100 + 0 0"),
        case("1 numeral", total(size(48), "aa s"), "0 4 + 1 0"),
        case("1 numeral, another", total(size(48), "ab s"), "6 0 + 0 0"),
        case("49 bytes", total(size(49), "1s"), "7 100 + 0 0"),
        case("2 numerals", total(size(96), "ab s"), "0 4 + 1 0"),
        case("1535 bytes", total(size(1535), "1s"), "7 100 + 0 0"),
        case("32 numerals", total(size(1536), "bf s"), "0 4 + 1 0"),
        case("32 numerals, another", total(size(1536), "bg s"), "6 0 + 0 0"),
        case("32 numerals, part", part(0, size(1536), "bf s"), "0 4 + 1 0"),
        case("32 numerals, shift", shift(plus(1, 0), size(1536), "bf s"), "0 4 + 2 0 + 2 0"),
        case("1537 bytes", total(size(1537), "1s"), "7 100 + 0 0"),
        case("33 numerals", total(size(1584), "1s"), "7 100 + 0 0"),
        case("33 numerals, part", part(0, size(1584), "1s"), "7 100 + 0 0"),
        case("33 numerals, shift", shift(plus(1, 0), size(1584), "1s"), "7 100 + 0 0 + 1 0"),
        case("64 numerals", total(size(3072), "1s"), "7 100 + 0 0"),
        case("256 numerals", total(size(12288), "1s"), "7 100 + 0 0"),
    ]
}

// 7 at 68 and the numeral's row: lengths, bytes that must be zero, kinds; first five rows byte by byte.
#[rustfmt::skip]
fn numeral_layout() -> Vec<Case> {
    let five = b"\x04five\0\0\0\0\0\0\0\0\0\0\0\0\0\0\0\0\0\0\0\0\0\0\0\0\0\0\0\0\x03\x05\0\0\0\0\0\0\0\0\0\0\0\0\0";
    let half = b"\x04half\0\0\0\0\0\0\0\0\0\0\0\0\0\0\0\0\0\0\0\0\0\0\0\0\0\0\0\0\x03\x05\0\0\0\0\0\0\0\xff\xff\0\0\0\0";
    let low_first = b"\x01x\0\0\0\0\0\0\0\0\0\0\0\0\0\0\0\0\0\0\0\0\0\0\0\0\0\0\0\0\0\0\0\x03\x08\x07\x06\x05\x04\x03\x02\x01\0\0\0\0\0\0";
    let minus_two = b"\x01x\0\0\0\0\0\0\0\0\0\0\0\0\0\0\0\0\0\0\0\0\0\0\0\0\0\0\0\0\0\0\0\x03\xfe\xff\xff\xff\xff\xff\xff\xff\0\0\0\0\0\0";
    let power_258 = b"\x01x\0\0\0\0\0\0\0\0\0\0\0\0\0\0\0\0\0\0\0\0\0\0\0\0\0\0\0\0\0\0\0\x03\x01\0\0\0\0\0\0\0\x02\x01\0\0\0\0";
    let one = |row| card().with_numerals(&[row]);
    let back = |row| one(row).with_rows(&[times("b", 1, -258)]);
    let x = named("x");
    let longest = named(letters(32));
    let thirty_one = named(letters(31));
    let kind = |kind| one(changed(x, &[(KIND_PLACE, kind)]));
    vec![
        case("five", total(one(*five), "five min"), "0 8 + 300 0"),
        case("half", total(one(*half), "half s"), "0 6 + 0 500000000"),
        case("coefficient low byte first", total(one(*low_first), "x s"), "0 3 + 72623859790382856 0"),
        case("coefficient -2", total(one(*minus_two), "x s"), "0 3 - 2 0"),
        case("power 258", total(back(*power_258), "x b"), "0 3 + 1 0"),

        case("name length 0", total(one(changed(x, &[(0, 0), (1, 0)])), "1"), "7 68 + 0 0"),
        case("name length 0, a letter", total(one(changed(x, &[(0, 0)])), "1"), "7 68 + 0 0"),
        case("all zeros", total(one([0; ROW_BYTES]), "1"), "7 68 + 0 0"),
        case("name length 1", total(one(x), "x s"), "0 3 + 1 0"),
        case("name length 15", total(one(named(letters(15))), "abcdefghijklmno s"), "0 17 + 1 0"),
        case("name length 16", total(one(named(letters(16))), "abcdefghijklmnop s"), "0 18 + 1 0"),
        case("name length 17", total(one(named(letters(17))), "abcdefghijklmnopq s"), "0 19 + 1 0"),
        case("name length 32", total(one(longest), "abcdefghijklmnopqrstuvwxyzABCDEF s"), "0 34 + 1 0"),
        case("name length 33", total(one(changed(longest, &[(0, 33)])), "1"), "7 68 + 0 0"),
        case("name length 33, the kind a letter", total(one(changed(longest, &[(0, 33), (KIND_PLACE, b'G')])), "1"), "7 68 + 0 0"),
        case("name length 255", total(one(changed(longest, &[(0, 255)])), "1"), "7 68 + 0 0"),

        case("letter after the name", total(one(changed(x, &[(2, b'y')])), "1"), "7 68 + 0 0"),
        case("letter in the name", total(one(changed(x, &[(0, 2), (2, b'y')])), "xy s"), "0 4 + 1 0"),
        case("last name byte, x", total(one(changed(x, &[(32, b'y')])), "1"), "7 68 + 0 0"),
        case("name length 31", total(one(thirty_one), "abcdefghijklmnopqrstuvwxyzABCDE s"), "0 33 + 1 0"),
        case("last name byte, 31", total(one(changed(thirty_one, &[(32, b'p')])), "1"), "7 68 + 0 0"),

        case("kind 0", total(kind(0), "1"), "7 68 + 0 0"),
        case("kind 2", total(kind(2), "1"), "7 68 + 0 0"),
        case("kind 3", total(kind(3), "x s"), "0 3 + 1 0"),
        case("kind 4", total(kind(4), "1"), "7 68 + 0 0"),
        case("kind 7", total(kind(7), "1"), "7 68 + 0 0"),
        case("kind 8", total(kind(8), "1"), "7 68 + 0 0"),
        case("kind 131", total(kind(131), "1"), "7 68 + 0 0"),
        case("kind 255", total(kind(255), "1"), "7 68 + 0 0"),

        case("first zero", total(one(changed(x, &[(ZEROS_PLACE, 1)])), "1"), "7 68 + 0 0"),
        case("second zero", total(one(changed(x, &[(ZEROS_PLACE + 1, 1)])), "1"), "7 68 + 0 0"),
        case("third zero", total(one(changed(x, &[(ZEROS_PLACE + 2, 1)])), "1"), "7 68 + 0 0"),
        case("fourth zero", total(one(changed(x, &[(ZEROS_PLACE + 3, 255)])), "1"), "7 68 + 0 0"),
        case("part", part(0, kind(2), "1"), "7 68 + 0 0"),
        case("shift", shift(minus(7, 5), kind(2), "1"), "7 68 + 0 0 - 7 5"),
    ]
}

// 7 at 68 and the numeral's row: letters and the bytes beside them, first and last, whatever a unit's name may have.
#[rustfmt::skip]
fn numeral_names() -> Vec<Case> {
    let one = |row| card().with_numerals(&[row]);
    let mut cases = vec![
        case("digit of 16", total(one(named("abcdefgh1jklmnop")), "1"), "7 68 + 0 0"),
        case("two-byte letters of 32", total(one(named(&CYRILLIC[..32])), "1"), "7 68 + 0 0"),
        case("comma, a unit's too", total(one(named("a,b")).with_rows(&[named("a,b")]), "1a,b"), "7 68 + 0 0"),
        case("comma, of a unit alone", total(one(named("ab")).with_rows(&[named("a,b")]), "ab a,b"), "0 6 + 1 0"),
        case("two bytes", total(one(named("µ")), "1"), "7 68 + 0 0"),
        case("two bytes, of a unit alone", total(one(named("u")).with_rows(&[named("µ")]), "u µ"), "0 4 + 1 0"),
    ];
    for letter in [b'A', b'Z', b'a', b'z'] {
        let (first, last) = (changed(named("nn"), &[(1, letter)]), changed(named("nn"), &[(2, letter)]));
        let behind = |row: [u8; ROW_BYTES]| [&row[1..3], b" s"].concat();
        cases.push(case(format!("first {letter}"), total(one(first), behind(first)), "0 4 + 1 0"));
        cases.push(case(format!("last {letter}"), total(one(last), behind(last)), "0 4 + 1 0"));
    }
    for byte in [0, b' ', b'+', b'-', b'.', b'/', b'0', b'9', b':', b'@', b'[', b'`', b'{', 127, 128, 200, 229, 255] {
        let (first, last) = (changed(named("nn"), &[(1, byte)]), changed(named("nn"), &[(2, byte)]));
        cases.push(case(format!("first {byte}"), total(one(first), "1"), "7 68 + 0 0"));
        cases.push(case(format!("last {byte}"), total(one(last), "1"), "7 68 + 0 0"));
    }
    cases
}

// 7 at 68 and the numeral's row: a byte that is no letter at each place of the longest word; and one that is.
#[rustfmt::skip]
fn places_of_numerals() -> Vec<Case> {
    let one = |name: &str| card().with_numerals(&[named(name)]);
    let mut cases = Vec::new();
    for place in 0..NAME_BYTES {
        for (what, byte) in [("digit", "5"), ("slash", "/"), ("delimiter", " "), ("byte 0", "\0"), ("at sign", "@")] {
            cases.push(case(format!("{what} at {place}"), total(one(&with_letter(letters(32), place, byte)), "1"), "7 68 + 0 0"));
        }
        let name = with_letter(letters(32), place, "Z");
        cases.push(case(format!("a letter at {place}"), total(one(&name), format!("{name} s")), "0 34 + 1 0"));
    }
    for size in [1, 8, 16, 31] {
        for place in size + 1..=NAME_BYTES {
            let row = changed(named(letters(size)), &[(place, b'y')]);
            cases.push(case(format!("byte {place} behind {size}"), total(card().with_numerals(&[row]), "1"), "7 68 + 0 0"));
        }
    }
    cases
}

// The same of numerals as of names: equal ones, ones that differ in one byte, and their first bytes as words of their own.
#[rustfmt::skip]
fn numerals_at_edges() -> Vec<Case> {
    let two = |first: &str, second: &str| card().with_numerals(&[named(first), five(second)]);
    let mut cases = Vec::new();
    for size in SIZES_AT_EDGES {
        let name = letters(size);
        let end = size + 2;
        cases.push(case(format!("{size} bytes, equal"), total(two(name, name), "1"), "7 69 + 0 0"));
        cases.push(case(format!("{size} bytes, one more typed"), total(two(name, "x"), format!("{} s", letters(size + 1))), "6 0 + 0 0"));
        for (place, other) in pairs_at_edges(size) {
            let both = two(name, &other);
            cases.push(case(format!("{size} bytes but {place}, the first"), total(both.clone(), format!("{name} s")), format!("0 {end} + 1 0")));
            cases.push(case(format!("{size} bytes but {place}, the second"), total(both, format!("{other} s")), format!("0 {end} + 5 0")));
            cases.push(case(format!("{size} bytes but {place}, missing"), total(two(name, "x"), format!("{other} s")), "6 0 + 0 0"));
        }
    }
    cases
}

#[rustfmt::skip]
fn beginnings_of_numerals() -> Vec<Case> {
    let two = |first: &str, second: &str| card().with_numerals(&[named(first), five(second)]);
    let mut cases = Vec::new();
    for (size, short) in [(9, 8), (17, 16), (25, 24), (32, 8), (32, 16), (32, 24), (32, 31)] {
        let (long, start) = (letters(size), letters(short));
        cases.push(case(format!("{short} of {size}, the long one"), total(two(long, start), format!("{long} s")), format!("0 {} + 1 0", size + 2)));
        cases.push(case(format!("{short} of {size}, the short one"), total(two(long, start), format!("{start} s")), format!("0 {} + 5 0", short + 2)));
        cases.push(case(format!("{short} of {size}, turned, the short one"), total(two(start, long), format!("{start} s")), format!("0 {} + 1 0", short + 2)));
    }
    cases
}

// A numeral may have the name of a unit, of a conjunction, of infinity, of `ago`, or one led by `e` that no unit may have.
#[rustfmt::skip]
fn names_that_others_have() -> Vec<Case> {
    let one = |name| card().with_numerals(&[five(name)]);
    let no_inner = one("eon").without_both().with_inner(b"");
    vec![
        case("a unit's", total(one("min"), "min s"), "0 5 + 5 0"),
        case("a unit's, and the unit", total(one("min"), "min min"), "0 7 + 300 0"),
        case("a unit's, behind a number", total(one("min"), "1min min"), "6 5 + 0 0"),
        case("a conjunction's", total(one("and"), "and s"), "0 5 + 5 0"),
        case("a conjunction's, behind a part", total(one("and"), "1s and s"), "6 7 + 0 0"),
        case("a conjunction's, behind the conjunction", total(one("and"), "1s and and s"), "0 12 + 6 0"),
        case("infinity's, allowed", total(one("inf"), "inf s"), "6 4 + 0 0"),
        case("infinity's, forbidden", total(one("inf").without_infinity(), "inf s"), "0 5 + 5 0"),
        case("infinity's, forbidden, another case", total(one("inf").without_infinity(), "Inf s"), "6 0 + 0 0"),
        case("led by inf, allowed", total(one("infx"), "infx s"), "22 3 + 0 0"),
        case("led by inf, forbidden", total(one("infx").without_infinity(), "infx s"), "0 6 + 5 0"),
        case("beginning of inf", total(one("in"), "in s"), "0 4 + 5 0"),
        case("infinity's long one, forbidden", total(one("infinity").without_infinity(), "infinity s"), "0 10 + 5 0"),
        case("ago's", total(one("ago"), "ago s"), "0 5 + 5 0"),
        case("ago's, behind a unit", total(one("ago"), "1s ago s"), "6 7 + 0 0"),
        case("ago's, behind ago", total(one("ago"), "1s ago ago s"), "0 12 + 4 0"),
        case("led by e", total(one("eon"), "eon s"), "0 5 + 5 0"),
        case("led by e, neither", total(one("eon").without_both(), "eon s"), "0 5 + 5 0"),
        case("led by E, neither", total(one("E").without_both(), "E s"), "0 3 + 5 0"),
        case("led by e, neither, no inner", total(no_inner, "1s"), "0 2 + 1 0"),
        case("a unit's that nobody could type", total(one("eon").with_rows(&[five("eon")]).without_both(), "1"),
            "7 0 + 0 0"),
    ]
}

// 7 at 68 and the numeral's row: equal names, the later row being the bad one, and names that nearly are.
#[rustfmt::skip]
fn equal_numerals() -> Vec<Case> {
    let names = |names: &[&str]| {
        let rows: Vec<_> = names.iter().map(|name| named(name)).collect();
        card().with_numerals(&rows)
    };
    let other_worth = card().with_numerals(&[times("x", 1, 0), times("x", 2, 1)]);
    let first_and_last = card().with_numerals(&[rows(31), vec![named("aa")]].concat());
    vec![
        case("neighbours", total(names(&["a", "a"]), "1"), "7 69 + 0 0"),
        case("neighbours, other worth", total(other_worth, "1"), "7 69 + 0 0"),
        case("two apart", total(names(&["a", "b", "a"]), "1"), "7 70 + 0 0"),
        case("three apart", total(names(&["a", "b", "c", "a"]), "1"), "7 71 + 0 0"),
        case("last two", total(names(&["a", "b", "c", "c"]), "1"), "7 71 + 0 0"),
        case("first of 32 and last", total(first_and_last, "1"), "7 99 + 0 0"),
        case("three times", total(names(&["a", "a", "a"]), "1"), "7 69 + 0 0"),
        case("two pairs", total(names(&["a", "b", "b", "a"]), "1"), "7 70 + 0 0"),
        case("16 bytes", total(names(&["abcdefghijklmnop", "abcdefghijklmnop"]), "1"), "7 69 + 0 0"),
        case("16 bytes but the last", total(names(&["abcdefghijklmnop", "abcdefghijklmnoq"]), "abcdefghijklmnoq s"),
            "0 18 + 1 0"),
        case("16 bytes but the first", total(names(&["abcdefghijklmnop", "bbcdefghijklmnop"]), "bbcdefghijklmnop s"),
            "0 18 + 1 0"),
        case("32 bytes", total(names(&[letters(32), letters(32)]), "1"), "7 69 + 0 0"),
        case("last byte", total(names(&["ab", "ac"]), "ac s"), "0 4 + 1 0"),
        case("longer", total(names(&["ab", "abc"]), "abc s"), "0 5 + 1 0"),
        case("shorter", total(names(&["abc", "ab"]), "ab s"), "0 4 + 1 0"),
        case("other case", total(names(&["a", "A"]), "A s"), "0 3 + 1 0"),
    ]
}

// 7 at 68 and the numeral's row: the coefficient within plus or minus 9223372036854775807, and any power.
#[rustfmt::skip]
fn numerals_at_their_limits() -> Vec<Case> {
    let x = |coefficient, power| card().with_numerals(&[times("x", coefficient, power)]);
    let (most, least) = (9_223_372_036_854_775_807, -9_223_372_036_854_775_808);
    vec![
        case("most", total(x(most, 0), "x s"), "0 3 + 9223372036854775807 0"),
        case("minus most", total(x(-most, 0), "x s"), "0 3 - 9223372036854775807 0"),
        case("minus most, ago", total(x(-most, 0), "x s ago"), "0 7 + 9223372036854775807 0"),
        case("least", total(x(least, 0), "1"), "7 68 + 0 0"),
        case("least, with a power", total(x(least, -18), "1"), "7 68 + 0 0"),
        case("none", total(x(0, 0), "x s"), "0 3 + 0 0"),
        case("most, most power", total(x(most, 32767), "x s"), "0 3 + 18446744073709551615 999999999"),
        case("most, least power", total(x(most, -32768), "x s"), "0 3 + 0 0"),
        case("power brought back", total(x(1, 32767).with_rows(&[times("b", 1, -32767)]), "x b"), "0 3 + 1 0"),
        case("least power brought back", total(x(1, -32768).with_rows(&[times("b", 1, 32767)]), "x b"),
            "0 3 + 0 100000000"),
    ]
}

// 7 at 68 and the numeral's row: which row is named when it is not the first, or not the only one.
#[rustfmt::skip]
fn first_bad_numeral() -> Vec<Case> {
    let (a, b, c) = (named("a"), named("b"), named("c"));
    let (kind, name, least) = (unit(2, 1, 0), named("1"), times("x", i64::MIN, 0));
    let numerals = |rows: &[[u8; ROW_BYTES]]| card().with_numerals(rows);
    let last_of_32 = numerals(&[rows(31), vec![kind]].concat());
    let last_of_32_good = numerals(&[rows(31), vec![c]].concat());
    vec![
        case("row 1", total(numerals(&[a, kind, b]), "1"), "7 69 + 0 0"),
        case("row 2", total(numerals(&[a, b, name]), "1"), "7 70 + 0 0"),
        case("row 2, part", part(0, numerals(&[a, b, name]), "1"), "7 70 + 0 0"),
        case("row 31", total(last_of_32, "1"), "7 99 + 0 0"),
        case("row 31, good", total(last_of_32_good, "c s"), "0 3 + 1 0"),
        case("rows 0 and 1", total(numerals(&[name, kind]), "1"), "7 68 + 0 0"),
        case("rows 1 and 3", total(numerals(&[a, least, b, name]), "1"), "7 69 + 0 0"),
        case("rows 1 and 2, equal", total(numerals(&[a, kind, a]), "1"), "7 69 + 0 0"),
        case("rows 1, equal, and 2", total(numerals(&[a, a, kind]), "1"), "7 69 + 0 0"),
    ]
}

// The order of 7 (64, the units' rows, 100, the numerals'), then 11, 8, 10: each card has all that the one before has wrong.
#[rustfmt::skip]
fn order_with_numerals() -> Vec<Case> {
    let bad = unit(8, 1, 0);
    let numeral = card().with_numerals(&[bad]);
    let size = card().with_numerals(&[vec![bad], rows(32)].concat());
    let last_row = size.clone().with_rows(&[rows(63), vec![bad]].concat());
    let row = size.clone().with_rows(&[bad]);
    let table = size.clone().with_rows(&[vec![bad], rows(64)].concat());
    let kind = table.clone().with_kind(8);
    let words = kind.clone().with_word(b"an1");
    let inner = words.clone().with_inner(b"0");
    let ragged = numeral.clone().with_numeral_size(49);
    let malformed = plus(0, 1_000_000_000);
    let long = text(4097);
    vec![
        case("numeral, long text", total(numeral.clone(), &long), "7 68 + 0 0"),
        case("size, numeral, long text", total(size.clone(), &long), "7 100 + 0 0"),
        case("size within a row, long text", total(ragged, &long), "7 100 + 0 0"),
        case("last row, size, numeral, long text", total(last_row, &long), "7 63 + 0 0"),
        case("row, size, numeral, long text", total(row.clone(), &long), "7 0 + 0 0"),
        case("table size and the same", total(table, &long), "7 64 + 0 0"),
        case("kind and the same", total(kind, &long), "7 67 + 0 0"),
        case("words and the same", total(words, &long), "7 66 + 0 0"),
        case("inner and the same", total(inner, &long), "7 65 + 0 0"),
        case("row, numeral", total(numeral.clone().with_rows(&[bad]), "1"), "7 0 + 0 0"),
        case("row that nobody could type, numeral", total(numeral.clone().with_rows(&[five("e")]).without_both(), "1"),
            "7 0 + 0 0"),
        case("numeral, long text, place", part(4098, numeral.clone(), &long), "7 68 + 0 0"),
        case("size, long text, place", part(4098, size.clone(), &long), "7 100 + 0 0"),
        case("numeral, place", part(2, numeral.clone(), "1"), "7 68 + 0 0"),
        case("size, place", part(2, size.clone(), "1"), "7 100 + 0 0"),
        case("numeral, record, long text", shift(malformed, numeral.clone(), &long), "7 68 + 0 0 + 0 1000000000"),
        case("size, record, long text", shift(malformed, size.clone(), &long), "7 100 + 0 0 + 0 1000000000"),
        case("numeral, empty text", total(numeral.clone(), ""), "7 68 + 0 0"),
        case("size, empty text", total(size, ""), "7 100 + 0 0"),
        case("numeral, delimiters at the end", total(numeral, "1s "), "7 68 + 0 0"),
        case("record, spoken", shift(malformed, spoken(), "five min"), "11 0 + 0 0 + 0 1000000000"),
        case("place, spoken", part(9, spoken(), "five min"), "10 9 + 0 0"),
        case("end, spoken", part(8, spoken(), "five min"), "1 8 + 0 0"),
    ]
}

// A numeral, inner delimiters and a unit stand for a part, wherever a part may begin.
#[rustfmt::skip]
fn spoken_numbers() -> Vec<Case> {
    let nothing_on = spoken().without_fractions().without_both().without_ago().without_infinity();
    let filled = |size: usize, end: &str| format!("five{}{end}", " ".repeat(size - 4 - end.len()));
    let two_parts = "five min and eight s";
    vec![
        case("five min", total(spoken(), "five min"), "0 8 + 300 0"),
        case("two delimiters", total(spoken(), "five  min"), "0 9 + 300 0"),
        case("two parts", total(spoken(), two_parts), "0 20 + 308 0"),
        case("first part", part(0, spoken(), two_parts), "0 13 + 300 0"),
        case("second part", part(13, spoken(), two_parts), "0 20 + 8 0"),
        case("within the first part", part(5, spoken(), two_parts), "6 5 + 0 0"),
        case("shift", shift(minus(7, 5), spoken(), "five min"), "0 8 + 292 999999995 + 292 999999995"),
        case("a power", total(spoken(), "half s"), "0 6 + 0 500000000"),
        case("a unit with coefficient and power", total(spoken(), "five turn"), "0 9 + 0 61500000"),
        case("the last numeral, the first unit", total(spoken(), "eight ns"), "0 8 + 0 8"),
        case("no default kind", total(spoken().with_kind(7), "five s"), "0 6 + 5 0"),
        case("everything off", total(nothing_on, "five min"), "0 8 + 300 0"),
        case("the switch before units off", total(spoken().without_unit_delimiter(), "five min"), "0 8 + 300 0"),

        case("behind a number", total(spoken(), "1 five min"), "0 10 + 301 0"),
        case("directly behind a number", total(spoken(), "1five min"), "0 9 + 301 0"),
        case("directly behind a point", total(spoken(), "1.five min"), "0 10 + 301 0"),
        case("directly behind an exponent", total(spoken(), "1e1five min"), "0 11 + 310 0"),
        case("directly behind a number, led by e", total(spoken(), "1eight s"), "21 2 + 0 0"),
        case("behind a number, led by e", total(spoken(), "1 eight s"), "0 9 + 9 0"),
        case("behind a unit", total(spoken(), "1s five min"), "0 11 + 301 0"),
        case("directly behind a unit", total(spoken(), "1sfive min"), "6 1 + 0 0"),
        case("directly behind a unit, with a sign", total(spoken(), "1s+five min"), "0 11 + 301 0"),
        case("behind a conjunction", total(spoken(), "1s and five min"), "0 15 + 301 0"),
        case("directly behind a conjunction", total(spoken(), "1s andfive min"), "19 6 + 0 0"),
        case("directly behind a conjunction, with a sign", total(spoken(), "1s and-five min"), "0 15 - 299 0"),
        case("behind infinity", total(spoken(), "-inf five min"), "0 13 - 18446744073709551315 999999999"),
        case("behind a spoken number", total(spoken(), "half s five min"), "0 15 + 300 500000000"),
        case("before a number", total(spoken(), "five min1"), "0 9 + 301 0"),
        case("before a sign", total(spoken(), "five min-1"), "0 10 + 299 0"),

        case("4096 bytes", total(spoken(), filled(4096, "min")), "0 4096 + 300 0"),
        case("4097 bytes", total(spoken(), filled(4097, "min")), "8 4096 + 0 0"),
        case("4096 bytes, no unit", total(spoken(), filled(4096, "x")), "15 4095 + 0 0"),
        case("4096 bytes, delimiters", total(spoken(), filled(4096, "")), "18 4 + 0 0"),
        case("4096 bytes, letters", total(spoken(), "f".repeat(4096)), "6 0 + 0 0"),
    ]
}

// 6: the stretch up to an inner delimiter or the end, looked up byte for byte, and the delimiter that has to follow.
#[rustfmt::skip]
fn no_numerals() -> Vec<Case> {
    let inner_comma = || spoken().with_inner(b",");
    let outer_comma = || spoken().with_outer(b",");
    vec![
        case("end behind it", total(spoken(), "five"), "6 0 + 0 0"),
        case("end behind it, second part", total(spoken(), "1s five"), "6 3 + 0 0"),
        case("end behind it, part", part(3, spoken(), "1s five"), "6 3 + 0 0"),
        case("end behind it, shift", shift(minus(7, 5), spoken(), "five"), "6 0 + 0 0 - 7 5"),
        case("a unit directly behind it", total(spoken(), "fivemin"), "6 0 + 0 0"),
        case("another case", total(spoken(), "Five min"), "6 0 + 0 0"),
        case("another case, last letter", total(spoken(), "fivE min"), "6 0 + 0 0"),
        case("a letter less", total(spoken(), "fiv min"), "6 0 + 0 0"),
        case("a letter more", total(spoken(), "fives min"), "6 0 + 0 0"),
        case("a letter before it", total(spoken(), "xfive min"), "6 0 + 0 0"),
        case("a digit behind it", total(spoken(), "five5 min"), "6 0 + 0 0"),
        case("a sign behind it", total(spoken(), "five+ min"), "6 0 + 0 0"),
        case("a point behind it", total(spoken(), "five. min"), "6 0 + 0 0"),
        case("a byte that is no letter", total(spoken(), b"five\xff min"), "6 0 + 0 0"),
        case("a byte 0", total(spoken(), b"five\0 min"), "6 0 + 0 0"),
        case("a delimiter before it", total(spoken(), " five min"), "6 0 + 0 0"),
        case("a unit", total(spoken(), "min min"), "6 0 + 0 0"),

        case("inner comma", total(inner_comma(), "five,min"), "0 8 + 300 0"),
        case("inner comma, outer space", total(inner_comma(), "five min"), "6 0 + 0 0"),
        case("inner comma, outer space and another part", total(inner_comma(), "five min,s"), "6 0 + 0 0"),
        case("inner comma behind an outer space", total(inner_comma(), "five ,min"), "6 0 + 0 0"),
        case("outer comma", total(outer_comma(), "five,min"), "6 0 + 0 0"),
        case("outer comma in the stretch", total(outer_comma(), "five,x min"), "6 0 + 0 0"),
        case("outer comma, inner space", total(outer_comma(), "five min,five s"), "0 15 + 305 0"),
        case("no inner", total(spoken().with_inner(b""), "five min"), "6 0 + 0 0"),
        case("no inner, the name alone", total(spoken().with_inner(b""), "five"), "6 0 + 0 0"),
    ]
}

// The sign before a numeral, and the switch behind it.
#[rustfmt::skip]
fn signs_before_numerals() -> Vec<Case> {
    let with = || spoken().with_sign_delimiter();
    vec![
        case("plus", total(spoken(), "+five min"), "0 9 + 300 0"),
        case("minus", total(spoken(), "-five min"), "0 9 - 300 0"),
        case("minus, minus", total(spoken(), "-off s"), "0 6 + 1 0"),
        case("plus, minus", total(spoken(), "+off s"), "0 6 - 1 0"),
        case("minus, no numeral", total(spoken(), "-x min"), "6 1 + 0 0"),
        case("minus, end behind it", total(spoken(), "-five"), "6 1 + 0 0"),
        case("delimiter, switch off", total(spoken(), "- five min"), "6 1 + 0 0"),
        case("delimiter, switch on", total(with(), "- five min"), "0 10 - 300 0"),
        case("delimiters, switch on", total(with(), "+  five min"), "0 11 + 300 0"),
        case("no delimiter, switch on", total(with(), "-five min"), "0 9 - 300 0"),
        case("delimiter, switch on, no numeral", total(with(), "- x min"), "6 2 + 0 0"),
        case("delimiter, switch on, end behind it", total(with(), "- five"), "6 2 + 0 0"),
        case("delimiter, switch on, no unit", total(with(), "- five x"), "15 7 + 0 0"),
        case("delimiter, switch on, delimiters", total(with(), "- five "), "18 6 + 0 0"),
        case("two signs", total(spoken(), "--five min"), "6 1 + 0 0"),
    ]
}

// 18 at the first of the delimiters behind a numeral that end the text, and what else of a spoken part is 18 or 19.
#[rustfmt::skip]
fn delimiters_behind_numerals() -> Vec<Case> {
    let inner_comma = || spoken().with_inner(b",");
    vec![
        case("one", total(spoken(), "five "), "18 4 + 0 0"),
        case("two", total(spoken(), "five  "), "18 4 + 0 0"),
        case("inner comma", total(inner_comma(), "five,,"), "18 4 + 0 0"),
        case("inner comma, outer space", total(inner_comma(), "five, "), "15 5 + 0 0"),
        case("sign", total(spoken(), "-five "), "18 5 + 0 0"),
        case("second part", total(spoken(), "1s five "), "18 7 + 0 0"),
        case("second part, from its place", part(3, spoken(), "1s five "), "18 7 + 0 0"),
        case("shift", shift(minus(7, 5), spoken(), "five "), "18 4 + 0 0 - 7 5"),
        case("no units", total(spoken().with_size(0), "five "), "18 4 + 0 0"),
        case("no numeral", total(spoken(), "fives "), "6 0 + 0 0"),

        case("behind the unit", total(spoken(), "five min "), "18 8 + 0 0"),
        case("behind the unit, ago off", total(spoken().without_ago(), "five min "), "18 8 + 0 0"),
        case("behind the unit, inner comma", total(inner_comma(), "five,min,"), "18 8 + 0 0"),
        case("behind the unit, inner comma, ago off", total(inner_comma().without_ago(), "five,min,"), "15 5 + 0 0"),
        case("behind ago", total(spoken(), "five min ago "), "18 12 + 0 0"),
        case("a conjunction", total(spoken(), "five min and"), "19 9 + 0 0"),
        case("a conjunction and delimiters", total(spoken(), "five min and "), "18 12 + 0 0"),
        case("a conjunction and a letter", total(spoken(), "five min andx"), "19 12 + 0 0"),
        case("a conjunction and a part", total(spoken(), "five min and x"), "6 13 + 0 0"),
    ]
}

// 15 at the byte behind a numeral's delimiters, where step 6 finds no unit; and `ago` behind one that it finds.
#[rustfmt::skip]
fn numerals_without_units() -> Vec<Case> {
    let inner_comma = || spoken().with_inner(b",");
    let negatives_off = || spoken().without_negatives();
    vec![
        case("a letter", total(spoken(), "five x"), "15 5 + 0 0"),
        case("a letter behind two delimiters", total(spoken(), "five  x"), "15 6 + 0 0"),
        case("a digit", total(spoken(), "five 5"), "15 5 + 0 0"),
        case("a number with a unit", total(spoken(), "five 5s"), "15 5 + 0 0"),
        case("a sign", total(spoken(), "five -"), "15 5 + 0 0"),
        case("a point", total(spoken(), "five .5"), "15 5 + 0 0"),
        case("infinity", total(spoken(), "five inf"), "15 5 + 0 0"),
        case("a conjunction", total(spoken(), "five and min"), "15 5 + 0 0"),
        case("ago", total(spoken(), "five ago"), "15 5 + 0 0"),
        case("another numeral", total(spoken(), "five eight s"), "15 5 + 0 0"),
        case("the unit in another case", total(spoken(), "five Min"), "15 5 + 0 0"),
        case("a letter more than the unit", total(spoken(), "five mins"), "15 5 + 0 0"),
        case("a point behind the unit", total(spoken(), "five min."), "15 5 + 0 0"),
        case("no units", total(spoken().with_size(0), "five min"), "15 5 + 0 0"),
        case("no units, a digit", total(spoken().with_size(0), "five 5"), "15 5 + 0 0"),
        case("an outer delimiter", total(inner_comma(), "five, min"), "15 5 + 0 0"),
        case("sign", total(spoken(), "-five x"), "15 6 + 0 0"),
        case("second part", total(spoken(), "1s five x"), "15 8 + 0 0"),
        case("second part, from its place", part(3, spoken(), "1s five x"), "15 8 + 0 0"),
        case("first part, from its place", part(0, spoken(), "1s five x"), "0 3 + 1 0"),
        case("shift", shift(minus(7, 5), spoken(), "five x"), "15 5 + 0 0 - 7 5"),
        case("delimiters at the end", total(spoken(), "five x "), "15 5 + 0 0"),
        case("an exponent behind it", total(spoken(), "five x 1e99999"), "15 5 + 0 0"),
        case("an exponent before it", total(spoken(), "1e99999 five x"), "3 6 + 0 0"),
        case("negatives off", total(negatives_off(), "-five x"), "15 6 + 0 0"),
        case("negatives off, negative before it", total(negatives_off(), "-1s five x"), "5 0 + 0 0"),

        // Where the unit's stretch ends, and what may follow it.
        case("ago on, an inner delimiter", total(inner_comma(), "five,min,x"), "6 8 + 0 0"),
        case("ago off, an inner delimiter", total(inner_comma().without_ago(), "five,min,x"), "15 5 + 0 0"),
        case("ago", total(spoken(), "five min ago"), "0 12 - 300 0"),
        case("ago, another case", total(spoken(), "five min AgO"), "0 12 - 300 0"),
        case("ago, minus", total(spoken(), "-five min ago"), "0 13 + 300 0"),
        case("ago, minus, minus", total(spoken(), "-off s ago"), "0 10 - 1 0"),
        case("ago and a letter", total(spoken(), "five min agos"), "6 9 + 0 0"),
        case("ago and a digit", total(spoken(), "five min ago1"), "0 13 - 299 0"),
        case("ago and a part", total(spoken(), "five min ago eight s"), "0 20 - 292 0"),
        case("ago off", total(spoken().without_ago(), "five min ago"), "6 9 + 0 0"),
    ]
}

// 16: each of the two products within plus or minus 9223372036854775807: 7 times `seventh` is that, 60 times `sixty` nearly.
#[rustfmt::skip]
fn product_coefficients() -> Vec<Case> {
    let card = || {
        let numerals = [
            times("most", i64::MAX, 0), times("least", -i64::MAX, 0), times("half", -(1 << 62), 0),
            times("seventh", 1_317_624_576_693_539_401, 0), times("more", 1_317_624_576_693_539_402, 0),
            times("sixty", 153_722_867_280_912_930, 0), times("moresixty", 153_722_867_280_912_931, 0),
            times("wrap", 1 << 32, 0), times("nil", 0, 0),
        ];
        card().with_numerals(&numerals).with_more_rows(&[
            times("two", 2, 0), times("mtwo", -2, 0), times("seven", 7, 0), times("mseven", -7, 0),
            times("wrap", 1 << 32, 0), times("none", 0, 0), row("nomin", 4, 0, 0).to_bytes(),
            times("top", i64::MAX, 0), times("back", 1, -1),
        ])
    };
    vec![
        case("most", total(card(), "most s"), "0 6 + 9223372036854775807 0"),
        case("minus most", total(card(), "least s"), "0 7 - 9223372036854775807 0"),
        case("minus most, ago", total(card(), "least s ago"), "0 11 + 9223372036854775807 0"),
        case("most by the row", total(card(), "seventh seven"), "0 13 + 9223372036854775807 0"),
        case("minus most by the row", total(card(), "seventh mseven"), "0 14 - 9223372036854775807 0"),
        case("minus most by ago", total(card(), "seventh seven ago"), "0 17 - 9223372036854775807 0"),
        case("6 more", total(card(), "more seven"), "16 0 + 0 0"),
        case("6 more, minus", total(card(), "more mseven"), "16 0 + 0 0"),
        case("6 more, typed minus", total(card(), "-more seven"), "16 0 + 0 0"),
        case("6 more, ago", total(card(), "more seven ago"), "16 0 + 0 0"),
        case("half", total(card(), "half s"), "0 6 - 4611686018427387904 0"),
        // Exactly -9223372036854775808, and that without its minus.
        case("least", total(card(), "half two"), "16 0 + 0 0"),
        case("least, typed minus", total(card(), "-half two"), "16 0 + 0 0"),
        case("least by ago", total(card(), "half mtwo ago"), "16 0 + 0 0"),
        case("one more than most", total(card(), "half mtwo"), "16 0 + 0 0"),
        case("one more than most by ago", total(card(), "half two ago"), "16 0 + 0 0"),
        case("twice most", total(card(), "most two"), "16 0 + 0 0"),
        case("twice minus most", total(card(), "least two"), "16 0 + 0 0"),
        case("most times most", total(card(), "most top"), "16 0 + 0 0"),
        case("0 in 64 bits", total(card(), "wrap wrap"), "16 0 + 0 0"),

        case("by the kind", total(card(), "sixty min"), "0 9 + 9223372036854775800 0"),
        case("by the kind, over", total(card(), "moresixty min"), "16 0 + 0 0"),
        case("by the kind, minus, over", total(card(), "-moresixty min"), "16 0 + 0 0"),
        case("by the kind, then by none", total(card(), "sixty nomin"), "0 11 + 0 0"),
        case("by the kind, over, then by none", total(card(), "moresixty nomin"), "16 0 + 0 0"),
        case("by none", total(card(), "most none"), "0 9 + 0 0"),
        case("none", total(card(), "nil top"), "0 7 + 0 0"),
        case("none, minus", total(card(), "-nil top"), "0 8 + 0 0"),
        // A power does not bring a coefficient back.
        case("a tenth", total(card(), "most back"), "0 9 + 922337203685477580 700000000"),
        case("part", part(3, card(), "1s half two"), "16 0 + 0 0"),
        case("shift", shift(minus(7, 5), card(), "half two"), "16 0 + 0 0 - 7 5"),
    ]
}

// 16: each of the two powers within -32768 to 32767.
#[rustfmt::skip]
fn product_powers() -> Vec<Case> {
    let card = || {
        let numerals = [times("up", 1, 32767), times("down", 1, -32768), times("nil", 0, 32767), times("one", 1, 0)];
        card().with_numerals(&numerals).with_more_rows(&[
            times("ten", 1, 1), times("tenth", 1, -1), times("up", 1, 32767), times("down", 1, -32768),
            row("mten", 2, 1, 1).to_bytes(), row("mback", 2, 1, 3).to_bytes(), row("mfar", 2, 1, 4).to_bytes(),
            row("nback", 0, 1, 9).to_bytes(), times("none", 0, 1),
        ])
    };
    vec![
        case("most", total(card(), "up s"), "0 4 + 18446744073709551615 999999999"),
        case("one more", total(card(), "up ten"), "16 0 + 0 0"),
        case("one less than most", total(card(), "up tenth"), "0 8 + 18446744073709551615 999999999"),
        case("most by the row", total(card(), "one up"), "0 6 + 18446744073709551615 999999999"),
        case("least", total(card(), "down s"), "0 6 + 0 0"),
        case("one less", total(card(), "down tenth"), "16 0 + 0 0"),
        case("one more than least", total(card(), "down ten"), "0 8 + 0 0"),
        case("least by the row", total(card(), "one down"), "0 8 + 0 0"),
        case("most and least", total(card(), "up down"), "0 7 + 0 100000000"),
        case("least and most", total(card(), "down up"), "0 7 + 0 100000000"),
        case("twice most", total(card(), "up up"), "16 0 + 0 0"),
        // 65536 below zero is 0 in 16 bits.
        case("twice least", total(card(), "down down"), "16 0 + 0 0"),

        case("by the kind", total(card(), "up ms"), "0 5 + 18446744073709551615 999999999"),
        case("by the kind, most", total(card(), "up mback"), "0 8 + 18446744073709551615 999999999"),
        case("by the kind, one more", total(card(), "up mfar"), "16 0 + 0 0"),
        case("by the kind, less", total(card(), "down ms"), "16 0 + 0 0"),
        case("by the kind, less, and more by the row", total(card(), "down mten"), "16 0 + 0 0"),
        case("by the kind, less, brought back by the row", total(card(), "down mback"), "16 0 + 0 0"),
        case("by the kind, less, brought back beyond", total(card(), "down mfar"), "16 0 + 0 0"),
        case("by nanoseconds, brought back by the row", total(card(), "down nback"), "16 0 + 0 0"),
        case("of none", total(card(), "nil s"), "0 5 + 0 0"),
        case("of none, one more", total(card(), "nil ten"), "16 0 + 0 0"),
        case("by none", total(card(), "one none"), "0 8 + 0 0"),
        case("by none, one more", total(card(), "up none"), "16 0 + 0 0"),
        case("minus", total(card(), "-up ten"), "16 0 + 0 0"),
        case("ago", total(card(), "up ten ago"), "16 0 + 0 0"),
    ]
}

// 16 at 0: after every refusal of the same part's steps, connection included, before 5, and left to right among parts.
#[rustfmt::skip]
fn order_with_products() -> Vec<Case> {
    let numerals = [times("most", i64::MAX, 0), times("five", 5, 0)];
    let card = || card().with_numerals(&numerals).with_more_rows(&[times("two", 2, 0)]);
    let negatives_off = || card().without_negatives();
    vec![
        case("delimiters", total(card(), "most "), "18 4 + 0 0"),
        case("no unit", total(card(), "most x"), "15 5 + 0 0"),
        case("delimiters behind the unit", total(card(), "most two "), "18 8 + 0 0"),
        case("delimiters behind ago", total(card(), "most two ago "), "18 12 + 0 0"),
        case("conjunction", total(card(), "most two and"), "19 9 + 0 0"),
        case("conjunction and a letter", total(card(), "most two andx"), "19 12 + 0 0"),
        case("conjunction and delimiters", total(card(), "most two and "), "18 12 + 0 0"),
        case("conjunction and a part", total(card(), "most two and 1s"), "16 0 + 0 0"),
        case("a later 6", total(card(), "most two x"), "16 0 + 0 0"),
        case("a later 18", total(card(), "most two 1s "), "16 0 + 0 0"),
        case("a later 15", total(card(), "most two five x"), "16 0 + 0 0"),
        case("a later 3", total(card(), "most two 1e99999"), "16 0 + 0 0"),
        case("an earlier 3", total(card(), "1e99999 most two"), "3 6 + 0 0"),
        case("an earlier 6", total(card(), "x most two"), "6 0 + 0 0"),
        case("an earlier 15", total(card(), "five x most two"), "15 5 + 0 0"),
        case("an earlier part", total(card(), "1s most two"), "16 0 + 0 0"),
        case("an earlier part, from its place", part(0, card(), "1s most two"), "0 3 + 1 0"),
        case("an earlier part, shift", shift(plus(1, 0), card(), "1s most two"), "16 0 + 0 0 + 1 0"),
        case("negatives off, negative", total(negatives_off(), "-most two"), "16 0 + 0 0"),
        case("negatives off, negative by ago", total(negatives_off(), "most two ago"), "16 0 + 0 0"),
        case("negatives off, in range", total(negatives_off(), "-most s"), "5 0 + 0 0"),
        case("negatives off, an earlier 5", total(negatives_off(), "-1s most two"), "5 0 + 0 0"),
        case("negatives off, an earlier spoken 5", total(negatives_off(), "-five s most two"), "5 0 + 0 0"),
        case("negatives off, a later 5", total(negatives_off(), "most two -1s"), "16 0 + 0 0"),
        case("long text", total(card(), format!("most{}two", " ".repeat(4090))), "8 4096 + 0 0"),
        case("place", part(9, card(), "most two"), "10 9 + 0 0"),
        case("record", shift(minus(0, 0), card(), "most two"), "11 0 + 0 0 - 0 0"),
    ]
}

// The worth of a spoken number: 1 times its power, cut at the eighteenth decimal, times its coefficient; MAX and MIN by the sign.
#[rustfmt::skip]
fn spoken_worth() -> Vec<Case> {
    let with_ten = || card().with_more_rows(&[times("ten", 1, 1)]);
    let x = |coefficient, power| with_ten().with_numerals(&[times("x", coefficient, power)]);
    let (max, min) = ("+ 18446744073709551615 999999999", "- 18446744073709551615 999999999");
    let ten_digits = 10_000_000_000;
    vec![
        case("power -18", total(x(ten_digits, -18), "x s"), "0 3 + 0 10"),
        case("power -18, minus", total(x(ten_digits, -18), "-x s"), "0 4 - 0 10"),
        case("power -19", total(x(ten_digits, -19), "x s"), "0 3 + 0 0"),
        case("power -19, most", total(x(i64::MAX, -19), "x s"), "0 3 + 0 0"),
        case("power -18, most", total(x(i64::MAX, -18), "x s"), "0 3 + 9 223372036"),
        case("power -19 and 1", total(x(ten_digits, -19), "x ten"), "0 5 + 0 10"),
        case("power -9 and -9", total(x(ten_digits, -9), "x ns"), "0 4 + 0 10"),
        case("power -10 and -9", total(x(ten_digits, -10), "x ns"), "0 4 + 0 0"),
        case("just below a nanosecond", total(x(999_999_999, -18), "x s"), "0 3 + 0 0"),
        case("just below a nanosecond, minus", total(x(999_999_999, -18), "-x s"), "0 4 + 0 0"),
        case("just a nanosecond", total(x(1_000_000_000, -18), "x s"), "0 3 + 0 1"),
        case("just below two", total(x(1_999_999_999, -18), "x s"), "0 3 + 0 1"),
        case("power -9", total(x(1_999_999_999, -9), "x s"), "0 3 + 1 999999999"),
        case("power -1", total(x(i64::MAX, -1), "x s"), "0 3 + 922337203685477580 700000000"),
        case("power 0", total(x(1, 0), "x s"), "0 3 + 1 0"),
        case("power 1", total(x(1_844_674_407_370_955_161, 1), "x s"), "0 3 + 18446744073709551610 0"),
        case("power 1, over", total(x(1_844_674_407_370_955_162, 1), "x s"), format!("0 3 {max}")),
        case("power 1, minus", total(x(1_844_674_407_370_955_161, 1), "-x s"), "0 4 - 18446744073709551610 0"),
        case("power 1, minus, over", total(x(1_844_674_407_370_955_162, 1), "-x s"), format!("0 4 {min}")),
        case("power 18", total(x(18, 18), "x s"), "0 3 + 18000000000000000000 0"),
        case("power 18, over", total(x(19, 18), "x s"), format!("0 3 {max}")),
        case("power 19", total(x(1, 19), "x s"), "0 3 + 10000000000000000000 0"),
        case("power 19, minus", total(x(1, 19), "-x s"), "0 4 - 10000000000000000000 0"),
        case("power 19, over", total(x(2, 19), "x s"), format!("0 3 {max}")),
        case("power 19, minus, over", total(x(2, 19), "-x s"), format!("0 4 {min}")),
        // Above the nineteenth power the sign counts as it does below.
        case("power 20", total(x(1, 20), "x s"), format!("0 3 {max}")),
        case("power 20, plus", total(x(1, 20), "+x s"), format!("0 4 {max}")),
        case("power 20, minus", total(x(1, 20), "-x s"), format!("0 4 {min}")),
        case("power 20, ago", total(x(1, 20), "x s ago"), format!("0 7 {min}")),
        case("power 20, minus, ago", total(x(1, 20), "-x s ago"), format!("0 8 {max}")),
        case("power 20, negative", total(x(-1, 20), "x s"), format!("0 3 {min}")),
        case("power 20, negative, minus", total(x(-1, 20), "-x s"), format!("0 4 {max}")),
        case("power 20, negative, ago", total(x(-1, 20), "x s ago"), format!("0 7 {max}")),
        case("power 20, negative, minus, ago", total(x(-1, 20), "-x s ago"), format!("0 8 {min}")),
        case("power 20, none", total(x(0, 20), "-x s"), "0 4 + 0 0"),
        case("power 20 by the row", total(x(1, 19), "-x ten"), format!("0 6 {min}")),
        case("power 20 and -3", total(x(1, 20), "-x ms"), "0 5 - 100000000000000000 0"),
        case("power 20, two parts", total(x(1, 20), "-x s x s"), "0 8 + 0 0"),
        case("power 20, shift", shift(plus(5, 0), x(1, 20), "-x s"),
            "0 4 - 18446744073709551610 999999999 - 18446744073709551610 999999999"),
    ]
}

// 5 of a spoken part: by its sign, its numeral, its unit or `ago`, unless it comes to zero.
#[rustfmt::skip]
fn spoken_negatives() -> Vec<Case> {
    let numerals = [times("big", 1, 20), times("low", -1, 20), times("small", 1, -18)];
    let big = || card().with_numerals(&numerals).without_negatives();
    let card = || spoken().without_negatives().with_more_rows(&[times("back", -1, 0)]);
    vec![
        case("plus", total(card(), "+five min"), "0 9 + 300 0"),
        case("minus", total(card(), "-five min"), "5 0 + 0 0"),
        case("by the numeral", total(card(), "off s"), "5 0 + 0 0"),
        case("by both", total(card(), "-off s"), "0 6 + 1 0"),
        case("by the unit", total(card(), "five back"), "5 0 + 0 0"),
        case("by numeral and unit", total(card(), "off back"), "0 8 + 1 0"),
        case("by ago", total(card(), "five min ago"), "5 0 + 0 0"),
        case("by numeral and ago", total(card(), "off s ago"), "0 9 + 1 0"),
        case("none, minus", total(card(), "-nil s"), "0 6 + 0 0"),
        case("none, ago", total(card(), "nil s ago"), "0 9 + 0 0"),
        case("cut to zero, minus", total(big(), "-small s"), "0 8 + 0 0"),
        case("power 20, minus", total(big(), "-big s"), "5 0 + 0 0"),
        case("power 20, negative", total(big(), "low s"), "5 0 + 0 0"),
        case("power 20, negative, minus", total(big(), "-low s"), "0 6 + 18446744073709551615 999999999"),
        case("second part", total(card(), "five min -five s"), "5 0 + 0 0"),
        case("part", part(9, card(), "five min -five s"), "5 0 + 0 0"),
        case("first part", part(0, card(), "five min -five s"), "0 9 + 300 0"),
        case("shift", shift(plus(7, 5), card(), "-five s"), "5 0 + 0 0 + 7 5"),
        case("a conjunction", total(card(), "-five min and"), "19 10 + 0 0"),
        case("a later 6", total(card(), "-five min and x"), "5 0 + 0 0"),
        case("a later 15", total(card(), "-five min five x"), "5 0 + 0 0"),
    ]
}

// A numeral that begins where a unit's lookup failed: with ago off the unit's stretch went on behind an inner delimiter, and
// the numeral's does not; read from its own place, the part is the same.
#[rustfmt::skip]
fn where_a_lookup_failed() -> Vec<Case> {
    let on = || spoken().with_inner(b",_").with_outer(b" _");
    let off = || on().without_ago();
    let mut cases = vec![
        case("ago off, stretch to a space", part(1, off(), "1five,min 1"), "0 10 + 300 0"),
        case("ago off, first part", part(0, off(), "1five,min"), "0 1 + 1 0"),
        case("ago off, second part", part(1, off(), "1five,min"), "0 9 + 300 0"),
        case("ago off, second part, to both", part(1, off(), "1five,min_1"), "0 10 + 300 0"),
        case("ago off, shift", shift(plus(1, 0), off(), "1five,min"), "0 9 + 302 0 + 302 0"),
        case("ago off, no units", total(off().with_size(0), "1five,min"), "15 6 + 0 0"),
        case("ago off, no numeral", total(off(), "1fives,min"), "6 1 + 0 0"),
        case("ago off, third part", total(off(), "1five,min 1five,s"), "0 17 + 307 0"),
    ];
    for (which, card) in [("ago on", on()), ("ago off", off())] {
        let with = |what: &str| format!("{which}, {what}");
        cases.extend([
            case(with("alone"), total(card.clone(), "five,min"), "0 8 + 300 0"),
            case(with("behind a space"), total(card.clone(), "1 five,min"), "0 10 + 301 0"),
            case(with("behind a comma"), total(card.clone(), "1,five,min"), "0 10 + 301 0"),
            case(with("behind a sign"), total(card.clone(), "1+five,min"), "0 10 + 301 0"),
            case(with("to the end"), total(card.clone(), "1five,min"), "0 9 + 301 0"),
            case(with("to a space"), total(card.clone(), "1five,min 1"), "0 11 + 302 0"),
            case(with("to a sign"), total(card.clone(), "1five,min+1"), "0 11 + 302 0"),
            case(with("to a digit"), total(card.clone(), "1five,min1"), "0 10 + 302 0"),
            case(with("to a low line"), total(card.clone(), "1five,min_1"), "0 11 + 302 0"),
            case(with("no unit"), total(card.clone(), "1five,x"), "15 6 + 0 0"),
            case(with("delimiters"), total(card.clone(), "1five,"), "18 5 + 0 0"),
            case(with("delimiters, behind a comma"), total(card, "1,five,"), "18 6 + 0 0"),
        ]);
    }
    cases
}

// 7 at 192: the size of the line's table, card A's being the hall's; `aa` is its row 0, `cl` its row 63.
#[rustfmt::skip]
fn line_size() -> Vec<Case> {
    let size = |size| card().with_line_size(size);
    vec![
        case("none", total(size(0), "1turn"), "0 5 + 0 12300000"),
        case("none, a name", total(size(0), "1aa"), "6 1 + 0 0"),
        case("1 byte", total(size(1), "1s"), "7 192 + 0 0"),
        case("47 bytes", total(size(47), "1s"), "7 192 + 0 0"),
        case("47 bytes, part", part(0, size(47), "1s"), "7 192 + 0 0"),
        case("47 bytes, shift", shift(plus(1, 0), size(47), "1s"), "7 192 + 0 0 + 1 0"),
        case("1 row", total(size(48), "1aa"), "0 3 + 1 0"),
        case("1 row, another", total(size(48), "1ab"), "6 1 + 0 0"),
        case("1 row, the hall's", total(size(48), "1turn"), "0 5 + 0 12300000"),
        case("49 bytes", total(size(49), "1s"), "7 192 + 0 0"),
        case("3071 bytes", total(size(3071), "1s"), "7 192 + 0 0"),
        case("64 rows", total(size(3072), "1cl"), "0 3 + 1 0"),
        case("64 rows, the hall's", total(size(3072), "1turn"), "0 5 + 0 12300000"),
        case("64 rows, part", part(0, size(3072), "1cl"), "0 3 + 1 0"),
        case("64 rows, shift", shift(plus(1, 0), size(3072), "1cl"), "0 3 + 2 0 + 2 0"),
        case("3073 bytes", total(size(3073), "1s"), "7 192 + 0 0"),
        case("65 rows", total(size(2080), "1s"), "7 192 + 0 0"),
        case("65 rows, part", part(0, size(2080), "1s"), "7 192 + 0 0"),
        case("65 rows, shift", shift(plus(1, 0), size(2080), "1s"), "7 192 + 0 0 + 1 0"),
        case("256 rows", total(size(12288), "1s"), "7 192 + 0 0"),
    ]
}

// 64 rows each: apart, with 24 names in both, and with all. Those of the hall's are worth a second, the line's five.
#[rustfmt::skip]
fn both_full() -> Vec<Case> {
    let both = |line| card().with_rows(&rows(64)).with_line(&rows_worth(line, 5));
    let (apart, some, all) = (both(64..128), both(40..104), both(0..64));
    let numerals = apart.clone().with_numerals(&rows_worth(0..32, 3));
    vec![
        case("apart, the hall's first", total(apart.clone(), "1aa"), "0 3 + 1 0"),
        case("apart, the hall's last", total(apart.clone(), "1cl"), "0 3 + 1 0"),
        case("apart, the line's first", total(apart.clone(), "1cm"), "0 3 + 5 0"),
        case("apart, the line's last", total(apart.clone(), "1 ex"), "0 4 + 5 0"),
        case("apart, of each", total(apart.clone(), "1cl1cm 1 ex"), "0 11 + 11 0"),
        case("apart, of neither", total(apart.clone(), "1 ey"), "6 2 + 0 0"),
        case("apart, part", part(3, apart.clone(), "1cl1cm"), "0 6 + 5 0"),
        case("apart, shift", shift(minus(1, 0), apart.clone(), "1cl1cm"), "0 6 + 5 0 + 5 0"),
        case("apart, one more", total(apart.with_line(&rows_worth(64..129, 5)), "1"), "7 192 + 0 0"),
        case("some, the hall's alone", total(some.clone(), "1bn"), "0 3 + 1 0"),
        case("some, the first of both", total(some.clone(), "1bo"), "0 3 + 5 0"),
        case("some, the last of both", total(some.clone(), "1cl"), "0 3 + 5 0"),
        case("some, the line's alone", total(some, "1dz"), "0 3 + 5 0"),
        case("all, the first and the last", total(all.clone(), "1aa1cl"), "0 6 + 10 0"),
        case("all, of neither", total(all, "1cm"), "6 1 + 0 0"),
        case("with 32 numerals", total(numerals.clone(), "bf ex"), "0 5 + 15 0"),
        case("with 32 numerals, the hall's", total(numerals, "bf cl"), "0 5 + 3 0"),
    ]
}

// 7 at 128 and the row of the line's: which row is named, and what the hall has does not matter.
#[rustfmt::skip]
fn bad_line_rows() -> Vec<Case> {
    let (a, b, c) = (named("a"), named("b"), named("c"));
    let (kind, name, power) = (unit(8, 1, 0), named("1"), unit(0, 1, -32768));
    let line = |rows: &[[u8; ROW_BYTES]]| card().with_line(rows);
    let last_of_64 = line(&[rows(63), vec![kind]].concat());
    let last_of_64_good = line(&[rows(63), vec![c]].concat());
    let first_and_last = line(&[rows(63), vec![named("aa")]].concat());
    vec![
        case("row 0", total(line(&[name]), "1"), "7 128 + 0 0"),
        case("row 0, part", part(0, line(&[name]), "1"), "7 128 + 0 0"),
        case("row 0, shift", shift(minus(7, 5), line(&[name]), "1"), "7 128 + 0 0 - 7 5"),
        case("row 1", total(line(&[a, kind, b]), "1"), "7 129 + 0 0"),
        case("row 2", total(line(&[a, b, power]), "1"), "7 130 + 0 0"),
        case("row 63", total(last_of_64.clone(), "1"), "7 191 + 0 0"),
        case("row 63, part", part(0, last_of_64, "1"), "7 191 + 0 0"),
        case("row 63, good", total(last_of_64_good, "1c"), "0 2 + 1 0"),
        case("rows 0 and 1", total(line(&[name, kind]), "1"), "7 128 + 0 0"),
        case("rows 1 and 3", total(line(&[a, power, b, name]), "1"), "7 129 + 0 0"),
        case("equal, neighbours", total(line(&[a, a]), "1"), "7 129 + 0 0"),
        case("equal, first of 64 and last", total(first_and_last, "1"), "7 191 + 0 0"),
        case("equal to the hall's", total(line(&[five("s")]), "1s"), "0 2 + 5 0"),
        case("equal to the hall's, twice", total(line(&[five("s"), five("s")]), "1s"), "7 129 + 0 0"),
        case("led by e", total(line(&[five("eon")]), "3e0eon"), "0 6 + 15 0"),
        case("led by e, neither", total(line(&[a, five("eon")]).without_both(), "1s"), "7 129 + 0 0"),
        case("led by E, neither, the hall's too", total(line(&[five("E")]).with_rows(&[five("E")]).without_both(), "1"),
            "7 0 + 0 0"),
        case("led by e, no exponents", total(line(&[five("eon")]).without_exponents(), "3 eon"), "0 5 + 15 0"),
        case("a comma, delimiter of neither", total(line(&[five("a,b")]), "1a,b"), "0 4 + 5 0"),
        case("a comma, inner", total(line(&[five("a,b")]).with_inner(b","), "1"), "7 128 + 0 0"),
        case("a comma, outer", total(line(&[five("a,b")]).with_outer(b","), "1"), "7 128 + 0 0"),
    ]
}

// The order of 7 (65, 66, 67, the hall's 64 and rows, the line's 192 and rows, the numerals' 100 and rows), then 11, 8, 10: each card has all
// that the one before has wrong, and more.
#[rustfmt::skip]
fn order_with_a_line() -> Vec<Case> {
    let bad = unit(8, 1, 0);
    let numeral = card().with_numerals(&[bad]);
    let numerals = card().with_numerals(&[vec![bad], rows(32)].concat());
    let last_of_line = numerals.clone().with_line(&[rows(63), vec![bad]].concat());
    let line_row = numerals.clone().with_line(&[bad]);
    let line = numerals.clone().with_line(&[vec![bad], rows(64)].concat());
    let ragged = numerals.clone().with_line_size(49);
    let last_of_hall = line.clone().with_rows(&[rows(63), vec![bad]].concat());
    let hall_row = line.clone().with_rows(&[bad]);
    let hall = line.clone().with_rows(&[vec![bad], rows(64)].concat());
    let kind = hall.clone().with_kind(8);
    let words = kind.clone().with_word(b"an1");
    let inner = words.clone().with_inner(b"0");
    let outer = words.clone().with_outer(b"0");
    let malformed = plus(0, 1_000_000_000);
    let long = text(4097);
    vec![
        case("numeral, long text", total(numeral.clone(), &long), "7 68 + 0 0"),
        case("numerals' size and the same", total(numerals.clone(), &long), "7 100 + 0 0"),
        case("line's last row and the same", total(last_of_line, &long), "7 191 + 0 0"),
        case("line's row and the same", total(line_row.clone(), &long), "7 128 + 0 0"),
        case("line's size and the same", total(line.clone(), &long), "7 192 + 0 0"),
        case("line's size within a row", total(ragged, &long), "7 192 + 0 0"),
        case("hall's last row and the same", total(last_of_hall, &long), "7 63 + 0 0"),
        case("hall's row and the same", total(hall_row.clone(), &long), "7 0 + 0 0"),
        case("hall's size and the same", total(hall.clone(), &long), "7 64 + 0 0"),
        case("kind and the same", total(kind, &long), "7 67 + 0 0"),
        case("words and the same", total(words, &long), "7 66 + 0 0"),
        case("inner and the same", total(inner.clone(), &long), "7 65 + 0 0"),
        case("outer and the same", total(outer, &long), "7 65 + 0 0"),
        case("line's row alone", total(card().with_line(&[bad]), "1"), "7 128 + 0 0"),
        case("line's row, hall's", total(card().with_line(&[bad]).with_rows(&[bad]), "1"), "7 0 + 0 0"),
        case("line's row, hall's last", total(card().with_line(&[bad]).with_more_rows(&[bad]), "1"), "7 6 + 0 0"),
        case("line's row, hall's size", total(card().with_line(&[bad]).with_size(47), "1"), "7 64 + 0 0"),
        case("line's size, hall's row", total(card().with_line_size(47).with_rows(&[bad]), "1"), "7 0 + 0 0"),
        case("line's row, numeral", total(numeral.clone().with_line(&[bad]), "1"), "7 128 + 0 0"),
        case("line's size, numeral", total(numeral.with_line_size(47), "1"), "7 192 + 0 0"),
        case("line's row, numerals' size, part", part(0, line_row.clone(), "1"), "7 128 + 0 0"),
        case("line's row, long text, place", part(4098, line_row.clone(), &long), "7 128 + 0 0"),
        case("line's size, long text, place", part(4098, line.clone(), &long), "7 192 + 0 0"),
        case("hall's row, long text, place", part(4098, hall_row, &long), "7 0 + 0 0"),
        case("inner, long text, place", part(4098, inner, &long), "7 65 + 0 0"),
        case("line's row, place", part(2, line_row.clone(), "1"), "7 128 + 0 0"),
        case("line's row, record, long text", shift(malformed, line_row.clone(), &long), "7 128 + 0 0 + 0 1000000000"),
        case("line's size, record, long text", shift(malformed, line.clone(), &long), "7 192 + 0 0 + 0 1000000000"),
        case("line's row, empty text", total(line_row.clone(), ""), "7 128 + 0 0"),
        case("line's size, empty text", total(line, ""), "7 192 + 0 0"),
        case("line's row, delimiters at the end", total(line_row, "1s "), "7 128 + 0 0"),
        case("record, a line's table", shift(malformed, line_7(), "1jaw"), "11 0 + 0 0 + 0 1000000000"),
        case("long text, a line's table", part(4098, line_7(), &long), "8 4096 + 0 0"),
        case("place, a line's table", part(5, line_7(), "1jaw"), "10 5 + 0 0"),
        case("end, a line's table", part(4, line_7(), "1jaw"), "1 4 + 0 0"),
    ]
}

// The line's rows win, and behind them stand the hall's.
#[rustfmt::skip]
fn lines_own_units() -> Vec<Case> {
    let line = |rows: &[[u8; ROW_BYTES]]| card().with_line(rows);
    let alone = line_7().with_rows(&[]);
    let neither = card().with_rows(&[]);
    let back = line(&[times("back", -1, 0)]).with_more_rows(&[times("back", 1, 0)]).without_negatives();
    let forth = line(&[times("forth", 1, 0)]).with_more_rows(&[times("forth", -1, 0)]).without_negatives();
    vec![
        case("of the line's alone", total(line_7(), "1jaw"), "0 4 + 0 40000000"),
        case("of both", total(line_7(), "1turn"), "0 5 + 0 15000000"),
        case("of the hall's alone", total(line_7(), "1min"), "0 4 + 60 0"),
        case("of each", total(line_7(), "1s1jaw and 1turn"), "0 16 + 1 55000000"),
        case("ago", total(line_7(), "1jaw ago"), "0 8 - 0 40000000"),
        case("ago, of both", total(line_7(), "-1turn ago"), "0 10 + 0 15000000"),
        case("behind a delimiter", total(line_7(), "1.5e1 jaw"), "0 9 + 0 600000000"),
        case("part", part(2, line_7(), "1s1jaw"), "0 6 + 0 40000000"),
        case("part, of both", part(5, line_7(), "1jaw 1turn"), "0 10 + 0 15000000"),
        case("shift", shift(plus(1, 0), line_7(), "1jaw1turn"), "0 9 + 1 55000000 + 1 55000000"),
        case("shift refused", shift(plus(1, 0), line_7(), "1jaw1x"), "6 5 + 0 0 + 1 0"),
        case("shorter", total(line_7(), "1ja"), "6 1 + 0 0"),
        case("longer", total(line_7(), "1jaws"), "6 1 + 0 0"),
        case("another case", total(line_7(), "1Jaw"), "6 1 + 0 0"),
        case("no unit", total(line_7(), "1"), "0 1 + 1 0"),
        case("no line's table, of the hall's", total(card(), "1turn"), "0 5 + 0 12300000"),
        case("no line's table, of the line's", total(card(), "1jaw"), "6 1 + 0 0"),
        case("no hall's table, of the line's", total(alone.clone(), "1jaw1turn"), "0 9 + 0 55000000"),
        case("no hall's table, of the hall's", total(alone, "1s"), "6 1 + 0 0"),
        case("neither table, no unit", total(neither.clone(), "1"), "0 1 + 1 0"),
        case("neither table, a name", total(neither, "1s"), "6 1 + 0 0"),
        case("nothing wins too", total(line(&[times("s", 0, 0)]), "1s1min"), "0 6 + 60 0"),
        case("a larger kind", total(line(&[row("s", 7, 1, 0).to_bytes()]), "1s"), "0 2 + 604800 0"),
        case("another power", total(line(&[times("s", 1, -32768)]), "1e32767s"), "0 8 + 0 100000000"),
        case("negative, the hall's not", total(back.clone(), "1back"), "5 0 + 0 0"),
        case("negative, the hall's not, with a minus", total(back, "-1back"), "0 6 + 1 0"),
        case("not negative, the hall's is", total(forth.clone(), "1forth"), "0 6 + 1 0"),
        case("not negative, the hall's is, with a minus", total(forth, "-1forth"), "5 0 + 0 0"),
        case("longer than the hall's", total(line(&[five("minu")]), "1minu1min"), "0 9 + 65 0"),
        case("shorter than the hall's", total(line(&[five("mi")]), "1mi1min"), "0 7 + 65 0"),
        case("longer by a byte 0", total(line(&[five("s\0")]), "1s\x001s"), "0 5 + 6 0"),
        case("the hall's in another case", total(line(&[five("S")]), "1S1s"), "0 4 + 6 0"),
        case("a conjunction's", total(line(&[five("and")]), "1and and 1and"), "0 13 + 10 0"),
        case("a conjunction's behind a delimiter", total(line(&[five("and")]), "1 and 2"), "0 7 + 7 0"),
        case("infinity's", total(line(&[five("inf")]), "1inf inf"), "0 8 + 18446744073709551615 999999999"),
        case("ago's", total(line(&[five("ago")]), "1ago ago"), "0 8 - 5 0"),
        case("led by e", total(line(&[five("e")]), "1e1e"), "0 4 + 50 0"),
        case("led by e, an exponent wanted", total(line(&[five("e")]), "1e"), "17 2 + 0 0"),
        case("in the first row of 64", total(line(&[vec![five("s")], rows(63)].concat()), "1s"), "0 2 + 5 0"),
        case("in the last row of 64", total(line(&[rows(63), vec![five("s")]].concat()), "1s"), "0 2 + 5 0"),
    ]
}

// A numeral is multiplied with the line's row where it wins, also where only the other product would be in range.
#[rustfmt::skip]
fn lines_own_units_spoken() -> Vec<Case> {
    let spoken_7 = Card { line: line_7().line, ..spoken() };
    let most = [times("most", i64::MAX, 0), times("up", 1, 32767)];
    let two = |line: [u8; ROW_BYTES], hall: [u8; ROW_BYTES]| {
        card().with_numerals(&most).with_rows(&[hall]).with_line(&[line])
    };
    vec![
        case("of the line's alone", total(spoken_7.clone(), "five jaw"), "0 8 + 0 200000000"),
        case("of both", total(spoken_7.clone(), "five turn"), "0 9 + 0 75000000"),
        case("of the hall's alone", total(spoken_7.clone(), "five min"), "0 8 + 300 0"),
        case("ago", total(spoken_7.clone(), "-five jaw ago"), "0 13 + 0 200000000"),
        case("part", part(9, spoken_7.clone(), "five min five jaw"), "0 17 + 0 200000000"),
        case("shift", shift(plus(1, 0), spoken_7.clone(), "five jaw"), "0 8 + 1 200000000 + 1 200000000"),
        case("of neither", total(spoken_7.clone(), "five jaws"), "15 5 + 0 0"),
        case("of neither, behind a unit", total(spoken_7, "1jaw five x"), "15 10 + 0 0"),
        case("no line's table", total(spoken(), "five jaw"), "15 5 + 0 0"),
        case("the line's name is a numeral's", total(card().with_numerals(&[five("jaw")]).with_line(&[named("jaw")]), "jaw jaw"),
            "0 7 + 5 0"),
        case("one, the hall's two", total(two(times("x", 1, 0), times("x", 2, 0)), "most x"),
            "0 6 + 9223372036854775807 0"),
        case("two, the hall's one", total(two(times("x", 2, 0), times("x", 1, 0)), "most x"), "16 0 + 0 0"),
        case("a power, the hall's none", total(two(times("x", 1, 1), times("x", 1, 0)), "up x"), "16 0 + 0 0"),
        case("no power, the hall's one", total(two(times("x", 1, 0), times("x", 1, 1)), "up x"),
            "0 4 + 18446744073709551615 999999999"),
        case("a minute, the hall's a second", total(two(unit(4, 1, 0), unit(3, 1, 0)), "most x"), "16 0 + 0 0"),
        case("a second, the hall's a minute", total(two(unit(3, 1, 0), unit(4, 1, 0)), "most x"),
            "0 6 + 9223372036854775807 0"),
    ]
}

// 17: the text ends straight after a sign, wherever a part may have one; one byte more reads, or is another number.
#[rustfmt::skip]
fn texts_that_end_after_a_sign() -> Vec<Case> {
    let on = || card().with_sign_delimiter();
    let zeros = |count: usize| "0".repeat(count);
    vec![
        case("plus", total(card(), "+"), "17 1 + 0 0"),
        case("minus", total(card(), "-"), "17 1 + 0 0"),
        case("plus, part", part(0, card(), "+"), "17 1 + 0 0"),
        case("minus, shift", shift(minus(7, 5), card(), "-"), "17 1 + 0 0 - 7 5"),
        case("plus, part at its end", part(1, card(), "+"), "1 1 + 0 0"),
        case("plus and a digit", total(card(), "+1"), "0 2 + 1 0"),
        case("minus and a digit", total(card(), "-1"), "0 2 - 1 0"),
        case("plus and a point", total(card(), "+."), "20 1 + 0 0"),
        case("plus and a letter", total(card(), "+x"), "6 1 + 0 0"),
        case("plus and a minus", total(card(), "+-"), "6 1 + 0 0"),
        case("plus and a delimiter", total(card(), "+ "), "6 1 + 0 0"),
        case("minus and the beginning of infinity", total(card(), "-in"), "6 1 + 0 0"),
        case("switch on", total(on(), "+"), "17 1 + 0 0"),
        case("switch on, a delimiter", total(on(), "+ "), "18 1 + 0 0"),
        case("switch on, a delimiter and a digit", total(on(), "+ 1"), "0 3 + 1 0"),
        case("switch on, a delimiter and a sign", total(on(), "+ -"), "6 2 + 0 0"),
        case("negatives off", total(card().without_negatives(), "-"), "17 1 + 0 0"),
        case("everything off", total(card().without_fractions().without_both().without_infinity().without_ago(), "-"),
            "17 1 + 0 0"),
        case("no delimiters", total(card().with_inner(b"").with_outer(b""), "1s+"), "17 3 + 0 0"),

        case("directly behind a number", total(card(), "1+"), "17 2 + 0 0"),
        case("directly behind a point", total(card(), "1.-"), "17 3 + 0 0"),
        case("directly behind an exponent", total(card(), "1e1-"), "17 4 + 0 0"),
        case("directly behind a unit", total(card(), "1s-"), "17 3 + 0 0"),
        case("behind a delimiter", total(card(), "1s +"), "17 4 + 0 0"),
        case("behind a delimiter, part", part(3, card(), "1s +"), "17 4 + 0 0"),
        case("behind a delimiter, first part", part(0, card(), "1s +"), "0 3 + 1 0"),
        case("behind a delimiter, shift", shift(plus(1, 0), card(), "1s +"), "17 4 + 0 0 + 1 0"),
        case("behind ago", total(card(), "1s ago+"), "17 7 + 0 0"),
        case("directly behind a conjunction", total(card(), "1s and-"), "17 7 + 0 0"),
        case("behind a conjunction", total(card(), "1s and -"), "17 8 + 0 0"),
        case("behind a conjunction, part", part(7, card(), "1s and -"), "17 8 + 0 0"),
        case("behind infinity", total(card(), "inf +"), "17 5 + 0 0"),
        case("behind a spoken number", total(spoken(), "five min-"), "17 9 + 0 0"),
        case("behind a spoken number, shift", shift(minus(7, 5), spoken(), "five min -"), "17 10 + 0 0 - 7 5"),
        case("third part", total(card(), "1 2 -"), "17 5 + 0 0"),
        case("behind bytes that are no part", part(2, card(), b"\xff\xfe+"), "17 3 + 0 0"),
        case("4096 bytes", total(card(), zeros(4095) + "+"), "17 4096 + 0 0"),
        case("4097 bytes", total(card(), zeros(4096) + "+"), "8 4096 + 0 0"),
    ]
}

// 17: the text ends straight after an exponent's letter or its sign; one byte more reads, or is 21.
#[rustfmt::skip]
fn texts_that_end_within_an_exponent() -> Vec<Case> {
    let off = || card().without_exponents();
    let zeros = |count: usize| "0".repeat(count);
    vec![
        case("e", total(card(), "1e"), "17 2 + 0 0"),
        case("E", total(card(), "1E"), "17 2 + 0 0"),
        case("e, plus", total(card(), "1e+"), "17 3 + 0 0"),
        case("e, minus", total(card(), "1e-"), "17 3 + 0 0"),
        case("E, plus", total(card(), "1E+"), "17 3 + 0 0"),
        case("E, minus", total(card(), "1E-"), "17 3 + 0 0"),
        case("e, part", part(0, card(), "1e"), "17 2 + 0 0"),
        case("E, minus, part", part(0, card(), "1E-"), "17 3 + 0 0"),
        case("e, shift", shift(minus(7, 5), card(), "1e"), "17 2 + 0 0 - 7 5"),
        case("e, plus, shift", shift(plus(7, 5), card(), "1e+"), "17 3 + 0 0 + 7 5"),
        case("no e", total(card(), "1"), "0 1 + 1 0"),
        case("e and a digit", total(card(), "1e0"), "0 3 + 1 0"),
        case("E, plus and a digit", total(card(), "1E+1"), "0 4 + 10 0"),
        case("e, minus and a digit", total(card(), "1e-1"), "0 4 + 0 100000000"),
        case("e and a letter", total(card(), "1ex"), "21 2 + 0 0"),
        case("e, minus and a letter", total(card(), "1e-x"), "21 3 + 0 0"),
        case("e and a delimiter", total(card(), "1e "), "21 2 + 0 0"),
        case("e, plus and a delimiter", total(card(), "1e+ "), "21 3 + 0 0"),
        case("e, exponents off", total(off(), "1e"), "21 1 + 0 0"),
        case("E, plus, exponents off", total(off(), "1E+"), "21 1 + 0 0"),
        case("e without a number", total(card(), "e"), "6 0 + 0 0"),
        case("e behind a sign", total(card(), "+e"), "6 1 + 0 0"),
        case("e behind a delimiter", total(card(), "1 e"), "6 2 + 0 0"),
        case("e, a unit's name", total(card().with_rows(&[five("e")]), "1e"), "17 2 + 0 0"),
        case("e, a unit's name behind a delimiter", total(card().with_rows(&[five("e")]), "1 e"), "0 3 + 5 0"),
        case("E, a numeral's name", total(card().with_numerals(&[five("E")]), "1E"), "17 2 + 0 0"),
        case("negatives off", total(card().without_negatives(), "-1e"), "17 3 + 0 0"),

        case("behind a sign", total(card(), "-1e"), "17 3 + 0 0"),
        case("behind a point", total(card(), "1.e"), "17 3 + 0 0"),
        case("behind a fraction", total(card(), "1.5e-"), "17 5 + 0 0"),
        case("behind a fraction alone", total(card(), ".5E+"), "17 4 + 0 0"),
        case("directly behind a number's exponent", total(card(), "1e1+1e"), "17 6 + 0 0"),
        case("second part", total(card(), "1s 1e-"), "17 6 + 0 0"),
        case("second part, from its place", part(3, card(), "1s 1e-"), "17 6 + 0 0"),
        case("second part, shift", shift(plus(1, 0), card(), "1s 1e-"), "17 6 + 0 0 + 1 0"),
        case("behind a conjunction", total(card(), "1s and 1e"), "17 9 + 0 0"),
        case("directly behind a conjunction", total(card(), "1s and1E+"), "17 9 + 0 0"),
        case("behind infinity", total(card(), "inf 1E"), "17 6 + 0 0"),
        case("behind a spoken number", total(spoken(), "five min 1e"), "17 11 + 0 0"),
        case("within a number, from its place", part(1, card(), "11e"), "17 3 + 0 0"),
        case("4096 bytes", total(card(), zeros(4095) + "e"), "17 4096 + 0 0"),
        case("4096 bytes, minus", total(card(), zeros(4094) + "E-"), "17 4096 + 0 0"),
        case("4097 bytes", total(card(), zeros(4096) + "e"), "8 4096 + 0 0"),
    ]
}

// 18 at the first of the delimiters that a step takes and that end the text: after a sign, before a unit, before `ago`, of a connection and
// behind a conjunction. Those behind a numeral are above.
#[rustfmt::skip]
fn delimiters_that_end_the_text() -> Vec<Case> {
    let on = || card().with_sign_delimiter();
    let off = || card().without_unit_delimiter();
    let inner_comma = || card().with_inner(b",");
    let outer_comma = || card().with_outer(b",");
    // The comma is an outer delimiter alone, the space is both.
    let comma_too = || card().with_outer(b" ,");
    let spaces = |count: usize| " ".repeat(count);
    let mut cases = vec![
        // After a sign, if switched on.
        case("sign", total(on(), "+ "), "18 1 + 0 0"),
        case("sign, two", total(on(), "-  "), "18 1 + 0 0"),
        case("sign, part", part(0, on(), "- "), "18 1 + 0 0"),
        case("sign, shift", shift(minus(7, 5), on(), "+ "), "18 1 + 0 0 - 7 5"),
        case("sign, inner comma", total(on().with_inner(b","), "+,"), "18 1 + 0 0"),
        case("sign, inner comma, outer space", total(on().with_inner(b","), "+ "), "6 1 + 0 0"),
        case("sign, inner comma, and outer space", total(on().with_inner(b","), "+, "), "6 2 + 0 0"),
        case("sign, switch off", total(card(), "+ "), "6 1 + 0 0"),
        case("sign, then a digit", total(on(), "+  1"), "0 4 + 1 0"),
        case("sign, then a letter", total(on(), "+ x"), "6 2 + 0 0"),
        case("sign, second part", total(on(), "1 - "), "18 3 + 0 0"),
        case("sign, second part, from its place", part(2, on(), "1 - "), "18 3 + 0 0"),
        case("sign, second part, shift", shift(plus(1, 0), on(), "1s+ "), "18 3 + 0 0 + 1 0"),
        case("sign, behind a conjunction", total(on(), "1s and- "), "18 7 + 0 0"),
        case("sign, negatives off", total(on().without_negatives(), "- "), "18 1 + 0 0"),

        // Before a unit, if switched on.
        case("unit", total(card(), "1 "), "18 1 + 0 0"),
        case("unit, two", total(card(), "1  "), "18 1 + 0 0"),
        case("unit, part", part(0, card(), "1 "), "18 1 + 0 0"),
        case("unit, shift", shift(minus(7, 5), card(), "1 "), "18 1 + 0 0 - 7 5"),
        case("unit, no delimiter", total(card(), "1"), "0 1 + 1 0"),
        case("unit, then a unit", total(card(), "1 s"), "0 3 + 1 0"),
        case("unit, then a letter", total(card(), "1 x"), "6 2 + 0 0"),
        case("unit, then a digit", total(card(), "1 1"), "0 3 + 2 0"),
        case("unit, behind a point", total(card(), "1. "), "18 2 + 0 0"),
        case("unit, behind a fraction", total(card(), "1.5 "), "18 3 + 0 0"),
        case("unit, behind a fraction alone", total(card(), ".5 "), "18 2 + 0 0"),
        case("unit, behind an exponent", total(card(), "1E1 "), "18 3 + 0 0"),
        case("unit, behind a sign", total(card(), "-1 "), "18 2 + 0 0"),
        case("unit, no units", total(card().with_size(0), "1 "), "18 1 + 0 0"),
        case("unit, inner comma", total(inner_comma(), "1,,"), "18 1 + 0 0"),
        case("unit, inner comma, outer space", total(inner_comma(), "1, "), "18 2 + 0 0"),
        case("unit, outer space, inner comma", total(inner_comma(), "1 ,"), "6 2 + 0 0"),
        case("unit, switch off, inner comma", total(inner_comma().without_unit_delimiter(), "1,"), "6 1 + 0 0"),
        case("unit, second part", total(card(), "1s 1 "), "18 4 + 0 0"),
        case("unit, second part, from its place", part(3, card(), "1s 1 "), "18 4 + 0 0"),
        case("unit, second part, shift", shift(plus(1, 0), card(), "1s 1 "), "18 4 + 0 0 + 1 0"),
        case("unit, behind a spoken number", total(spoken(), "five min 1 "), "18 10 + 0 0"),

        // Before `ago`, if switched on, and behind it.
        case("ago", total(card(), "1s "), "18 2 + 0 0"),
        case("ago, two", total(card(), "1s  "), "18 2 + 0 0"),
        case("ago, part", part(0, card(), "1s "), "18 2 + 0 0"),
        case("ago, then the word", total(card(), "1s ago"), "0 6 - 1 0"),
        case("ago, then two letters of it", total(card(), "1s ag"), "6 3 + 0 0"),
        case("ago, inner comma", total(inner_comma(), "1s,"), "18 2 + 0 0"),
        case("ago, inner comma, two", total(inner_comma(), "1s,,"), "18 2 + 0 0"),
        case("ago, inner comma, then a letter", total(inner_comma(), "1s,x"), "6 2 + 0 0"),
        case("ago, inner comma, outer space", total(inner_comma(), "1s, "), "6 2 + 0 0"),
        case("ago off, inner comma", total(inner_comma().without_ago(), "1s,"), "6 1 + 0 0"),
        case("ago, behind the word", total(card(), "1s ago "), "18 6 + 0 0"),
        case("ago, behind the word, AGO, two", total(card(), "1s AGO  "), "18 6 + 0 0"),
        case("ago, behind the word, inner comma", total(inner_comma(), "1s,ago,"), "6 2 + 0 0"),
        case("ago, behind the word, inner comma, outer space", total(inner_comma(), "1s,ago "), "18 6 + 0 0"),
        case("ago, second part", total(card(), "1s 2s "), "18 5 + 0 0"),
        case("ago, second part, from its place", part(3, card(), "1s 2s "), "18 5 + 0 0"),
        case("ago, of the line's unit", total(line_7(), "1jaw "), "18 4 + 0 0"),

        // Of a connection.
        case("connection, ago off", total(card().without_ago(), "1s "), "18 2 + 0 0"),
        case("connection, switch before units off", total(off(), "1 "), "18 1 + 0 0"),
        case("connection, switch before units off, part", part(2, off(), "1 1  "), "18 3 + 0 0"),
        case("connection, switch before units off, shift", shift(plus(7, 5), off(), "1 "), "18 1 + 0 0 + 7 5"),
        case("connection, infinity", total(card(), "inf "), "18 3 + 0 0"),
        case("connection, infinity, two", total(card(), "INF  "), "18 3 + 0 0"),
        case("connection, infinity, part", part(0, card(), "inf "), "18 3 + 0 0"),
        case("connection, infinity, shift", shift(minus(7, 5), card(), "-inf "), "18 4 + 0 0 - 7 5"),
        case("connection, infinity's long word", total(card(), "infinity "), "18 8 + 0 0"),
        case("connection, infinity, second part", total(card(), "1s inf "), "18 6 + 0 0"),
        case("connection, infinity, inner comma", total(inner_comma(), "inf "), "18 3 + 0 0"),
        case("connection, infinity, outer comma", total(outer_comma(), "inf,"), "18 3 + 0 0"),
        case("connection, infinity, then a part", total(card(), "inf 1"), "0 5 + 18446744073709551615 999999999"),
        case("connection, outer comma", total(outer_comma(), "1s,"), "18 2 + 0 0"),
        case("connection, outer comma, inner space", total(outer_comma(), "1s, "), "6 3 + 0 0"),
        case("connection, inner space, outer comma", total(outer_comma(), "1s ,"), "6 2 + 0 0"),
        case("connection, comma too", total(comma_too(), "1s,"), "18 2 + 0 0"),
        case("connection, comma too, comma and space", total(comma_too(), "1s, "), "18 2 + 0 0"),
        case("connection, comma too, space and comma", total(comma_too(), "1s ,"), "18 2 + 0 0"),
        case("connection, comma too, behind a number", total(comma_too(), "1, "), "18 1 + 0 0"),
        // The space is the step's before units, and the comma the connection's.
        case("connection, comma too, behind a number's space", total(comma_too(), "1 ,"), "18 2 + 0 0"),

        // Behind a conjunction.
        case("conjunction", total(card(), "1s and "), "18 6 + 0 0"),
        case("conjunction, two", total(card(), "1s AND  "), "18 6 + 0 0"),
        case("conjunction, part", part(0, card(), "1s and "), "18 6 + 0 0"),
        case("conjunction, shift", shift(minus(7, 5), card(), "1s and "), "18 6 + 0 0 - 7 5"),
        case("conjunction, then a digit", total(card(), "1s and 1"), "0 8 + 2 0"),
        case("conjunction, then a letter", total(card(), "1s and x"), "6 7 + 0 0"),
        case("conjunction, no delimiter", total(card(), "1s and"), "19 3 + 0 0"),
        case("conjunction, second part", total(card(), "1s 2s and "), "18 9 + 0 0"),
        case("conjunction, second part, from its place", part(3, card(), "1s 2s and "), "18 9 + 0 0"),
        case("conjunction, behind infinity", total(card(), "inf and "), "18 7 + 0 0"),
        case("conjunction, behind ago", total(card(), "1s ago and "), "18 10 + 0 0"),
        case("conjunction, inner comma", total(inner_comma(), "1s and,"), "19 6 + 0 0"),
        case("conjunction, comma too", total(comma_too(), "1s and, "), "18 6 + 0 0"),
        case("conjunction, switch before units off", total(off(), "1 and "), "18 5 + 0 0"),

        // Delimiters that no step takes are bytes like any other.
        case("alone", total(card(), " "), "6 0 + 0 0"),
        case("alone, part", part(2, card(), "1s "), "6 2 + 0 0"),
        case("behind a letter", total(card(), "1s x "), "6 3 + 0 0"),
        case("behind a numeral's letters alone", total(card(), "five "), "6 0 + 0 0"),
        case("4096 bytes", total(card(), "1s".to_string() + &spaces(4094)), "18 2 + 0 0"),
        case("4096 bytes, a conjunction", total(card(), "1s and".to_string() + &spaces(4090)), "18 6 + 0 0"),
        case("4097 bytes", total(card(), "1s".to_string() + &spaces(4095)), "8 4096 + 0 0"),
    ];
    // 0 and 127 are the ends; the others stand beside signs, point, digits and letters.
    for byte in [0, b'*', b',', b'/', b':', b'@', b'[', b'`', b'{', 127] {
        let (inner, outer) = (card().with_inner(&[byte]), card().with_outer(&[byte]));
        cases.push(case(format!("inner {byte}"), total(inner.clone(), [b'1', byte]), "18 1 + 0 0"));
        cases.push(case(format!("inner {byte}, behind infinity"), total(inner, [b'i', b'n', b'f', byte]), "22 3 + 0 0"));
        cases.push(case(format!("outer {byte}"), total(outer.clone(), [b'1', b's', byte]), "18 2 + 0 0"));
        cases.push(case(format!("outer {byte}, behind infinity"), total(outer, [b'i', b'n', b'f', byte]), "18 3 + 0 0"));
    }
    cases
}

// 19 at the start of a conjunction that ends the text, or at the byte behind one that is no outer delimiter, digit or sign.
#[rustfmt::skip]
fn conjunctions_that_slip() -> Vec<Case> {
    let off = || card().without_unit_delimiter();
    let outer_comma = || card().with_outer(b",");
    let words = |words: &[(u8, &[u8])]| card().with_words(words.len() as u8, words);
    let an_and = || words(&[(2, b"an"), (3, b"and")]);
    let and_an = || words(&[(3, b"and"), (2, b"an")]);
    let together = || words(&[(8, b"together")]);
    vec![
        case("end", total(card(), "1s and"), "19 3 + 0 0"),
        case("end, two delimiters before", total(card(), "1s  and"), "19 4 + 0 0"),
        case("end, AND", total(card(), "1s AND"), "19 3 + 0 0"),
        case("end, aNd", total(card(), "1s aNd"), "19 3 + 0 0"),
        case("end, part", part(0, card(), "1s and"), "19 3 + 0 0"),
        case("end, shift", shift(minus(7, 5), card(), "1s and"), "19 3 + 0 0 - 7 5"),
        case("end, a letter less", total(card(), "1s an"), "6 3 + 0 0"),
        case("end, from the word's place", part(3, card(), "1s and"), "6 3 + 0 0"),
        case("a delimiter", total(card(), "1s and "), "18 6 + 0 0"),
        case("a digit", total(card(), "1s and1"), "0 7 + 2 0"),
        case("a sign", total(card(), "1s and+"), "17 7 + 0 0"),
        case("a sign and a digit", total(card(), "1s and-1"), "0 8 + 0 0"),
        case("a letter", total(card(), "1s andx"), "19 6 + 0 0"),
        case("a letter, AND", total(card(), "1s ANDx"), "19 6 + 0 0"),
        case("a letter, part", part(0, card(), "1s andx"), "19 6 + 0 0"),
        case("a letter, shift", shift(plus(7, 5), card(), "1s andx"), "19 6 + 0 0 + 7 5"),
        case("more letters", total(card(), "1s android"), "19 6 + 0 0"),
        case("a point", total(card(), "1s and.5"), "19 6 + 0 0"),
        case("infinity", total(card(), "1s andinf"), "19 6 + 0 0"),
        case("the word again", total(card(), "1s andand 1"), "19 6 + 0 0"),
        case("the word again behind a delimiter", total(card(), "1s and and"), "6 7 + 0 0"),
        case("no words", total(card().with_words(0, &[]), "1s and"), "6 3 + 0 0"),

        case("second part, end", total(card(), "1s 2s and"), "19 6 + 0 0"),
        case("second part, a letter", total(card(), "1s and 2s andx"), "19 13 + 0 0"),
        case("second part, end, from its place", part(7, card(), "1s and 2s and"), "19 10 + 0 0"),
        case("second part, a letter, from its place", part(7, card(), "1s and 2s andx"), "19 13 + 0 0"),
        case("second part, first part", part(0, card(), "1s and 2s andx"), "0 7 + 1 0"),
        case("second part, end, shift", shift(plus(1, 0), card(), "1s and 2s and"), "19 10 + 0 0 + 1 0"),
        case("behind a sign", total(card(), "-1s and"), "19 4 + 0 0"),
        case("negatives off", total(card().without_negatives(), "-1s andx"), "19 7 + 0 0"),
        case("behind infinity, end", total(card(), "inf and"), "19 4 + 0 0"),
        case("behind infinity, a letter", total(card(), "-inf andx"), "19 8 + 0 0"),
        case("behind infinity's long word, end", total(card(), "Infinity And"), "19 9 + 0 0"),
        case("behind ago, end", total(card(), "1s ago and"), "19 7 + 0 0"),
        case("behind ago, a letter", total(card(), "1s ago andx"), "19 10 + 0 0"),
        case("behind a spoken number, end, part", part(3, spoken(), "1s five min and"), "19 12 + 0 0"),
        case("behind a spoken number, a letter, shift", shift(minus(7, 5), spoken(), "five min andx"), "19 12 + 0 0 - 7 5"),
        case("behind the line's unit, end", total(line_7(), "1jaw and"), "19 5 + 0 0"),
        case("behind a number", total(card(), "1 and"), "6 2 + 0 0"),
        case("behind a number, switch before units off, end", total(off(), "1 and"), "19 2 + 0 0"),
        case("behind a number, switch before units off, a letter", total(off(), "1.5 andx"), "19 7 + 0 0"),

        case("an before and, end", total(an_and(), "1s an"), "19 3 + 0 0"),
        case("an before and, the longer", total(an_and(), "1s and"), "19 5 + 0 0"),
        case("an before and, the longer and a part", total(an_and(), "1s and 1"), "19 5 + 0 0"),
        case("an before and, a part", total(an_and(), "1s an 1"), "0 7 + 2 0"),
        case("and before an, end", total(and_an(), "1s an"), "19 3 + 0 0"),
        case("and before an, the longer", total(and_an(), "1s and"), "19 3 + 0 0"),
        case("and before an, a letter", total(and_an(), "1s ant"), "19 5 + 0 0"),
        case("and before an, the longer and a letter", total(and_an(), "1s andt"), "19 6 + 0 0"),
        case("eight letters, end", total(together(), "1s together"), "19 3 + 0 0"),
        case("eight letters, a letter less", total(together(), "1s togethe"), "6 3 + 0 0"),
        case("eight letters, a letter more", total(together(), "1s togethers"), "19 11 + 0 0"),
        case("one letter, end", total(words(&[(1, b"a")]), "1s A"), "19 3 + 0 0"),
        case("one letter, a letter more", total(words(&[(1, b"a")]), "1s an"), "19 4 + 0 0"),
        case("i, infinity", total(words(&[(1, b"i")]), "1s inf"), "19 4 + 0 0"),
        case("i, then infinity", total(words(&[(1, b"i")]), "1s i inf"), "0 8 + 18446744073709551615 999999999"),
        case("outer comma, end", total(outer_comma(), "1s,and"), "19 3 + 0 0"),
        case("outer comma, a space", total(outer_comma(), "1s,and "), "19 6 + 0 0"),
        case("outer comma, a comma", total(outer_comma(), "1s,and,"), "18 6 + 0 0"),
        case("outer comma, a comma and a part", total(outer_comma(), "1s,and,1"), "0 8 + 2 0"),
        case("outer comma, behind a space", total(outer_comma(), "1s and"), "6 2 + 0 0"),
        case("inner comma, a comma", total(card().with_inner(b","), "1s and,1"), "19 6 + 0 0"),
        case("4096 bytes, end", total(card(), format!("1s{}and", " ".repeat(4091))), "19 4093 + 0 0"),
        case("4096 bytes, a letter", total(card(), format!("1s{}andx", " ".repeat(4090))), "19 4095 + 0 0"),
    ]
}

// 20 at a point: with fractions off, or with a digit on neither side.
#[rustfmt::skip]
fn fractions_that_slip() -> Vec<Case> {
    let off = || card().without_fractions();
    let on = || card().with_sign_delimiter();
    let zeros = |count: usize| "0".repeat(count);
    vec![
        case("alone", total(card(), "."), "20 0 + 0 0"),
        case("alone, part", part(0, card(), "."), "20 0 + 0 0"),
        case("alone, shift", shift(minus(7, 5), card(), "."), "20 0 + 0 0 - 7 5"),
        case("a digit behind it", total(card(), ".5"), "0 2 + 0 500000000"),
        case("a digit before it", total(card(), "5."), "0 2 + 5 0"),
        case("a digit before it, then a unit", total(card(), "5.s"), "0 3 + 5 0"),
        case("a digit before it, then an exponent", total(card(), "5.e1"), "0 4 + 50 0"),
        case("a unit behind it", total(card(), ".s"), "20 0 + 0 0"),
        case("an exponent behind it", total(card(), ".e1"), "20 0 + 0 0"),
        case("a delimiter behind it", total(card(), ". "), "20 0 + 0 0"),
        case("a delimiter and a digit behind it", total(card(), ". 5"), "20 0 + 0 0"),
        case("a sign behind it", total(card(), ".+5"), "20 0 + 0 0"),
        case("infinity behind it", total(card(), ".inf"), "20 0 + 0 0"),
        case("a point behind it", total(card(), "..5"), "20 0 + 0 0"),
        case("plus before it", total(card(), "+."), "20 1 + 0 0"),
        case("minus before it", total(card(), "-.s"), "20 1 + 0 0"),
        case("plus before it, a digit behind it", total(card(), "+.5"), "0 3 + 0 500000000"),
        case("plus and a delimiter before it", total(on(), "+ ."), "20 2 + 0 0"),
        case("a number before it", total(card(), "1.."), "20 2 + 0 0"),
        case("a fraction before it", total(card(), "1.5."), "20 3 + 0 0"),
        case("a fraction before it, a digit behind it", total(card(), "1.5.5"), "0 5 + 2 0"),
        case("a fraction before it, from its place", part(3, card(), "1.5.x"), "20 3 + 0 0"),
        case("an exponent before it", total(card(), "1e1."), "20 3 + 0 0"),
        case("a unit before it", total(card(), "1s."), "6 1 + 0 0"),
        case("second part", total(card(), "1s ."), "20 3 + 0 0"),
        case("second part, from its place", part(3, card(), "1s ."), "20 3 + 0 0"),
        case("second part, shift", shift(plus(7, 5), card(), "1s ."), "20 3 + 0 0 + 7 5"),
        case("behind a conjunction", total(card(), "1s and ."), "20 7 + 0 0"),
        case("behind infinity", total(card(), "inf ."), "20 4 + 0 0"),
        case("behind a spoken number", total(spoken(), "five min ."), "20 9 + 0 0"),
        case("behind a numeral", total(spoken(), "five ."), "15 5 + 0 0"),
        case("negatives off", total(card().without_negatives(), "-."), "20 1 + 0 0"),

        case("off, alone", total(off(), "."), "20 0 + 0 0"),
        case("off, a digit before it", total(off(), "1."), "20 1 + 0 0"),
        case("off, digits before it", total(off(), "123."), "20 3 + 0 0"),
        case("off, a digit behind it", total(off(), ".5"), "20 0 + 0 0"),
        case("off, on both sides", total(off(), "1.5"), "20 1 + 0 0"),
        case("off, on both sides, part", part(0, off(), "1.5"), "20 1 + 0 0"),
        case("off, on both sides, shift", shift(minus(7, 5), off(), "1.5"), "20 1 + 0 0 - 7 5"),
        case("off, no point", total(off(), "15"), "0 2 + 15 0"),
        case("off, an exponent behind it", total(off(), "1.e5"), "20 1 + 0 0"),
        case("off, an exponent before it", total(off(), "1e1.5"), "20 3 + 0 0"),
        case("off, a sign before it", total(off(), "-1.5"), "20 2 + 0 0"),
        case("off, a sign directly before it", total(off(), "+.5"), "20 1 + 0 0"),
        case("off, second part", total(off(), "1s 2.5"), "20 4 + 0 0"),
        case("off, second part, from its place", part(3, off(), "1s 2.5"), "20 4 + 0 0"),
        case("off, second part, shift", shift(plus(1, 0), off(), "1s 2.5"), "20 4 + 0 0 + 1 0"),
        case("off, behind a conjunction", total(off(), "1s and 0.5s"), "20 8 + 0 0"),
        case("off, behind infinity", total(off(), "inf .5"), "20 4 + 0 0"),
        case("off, behind a spoken number", total(spoken().without_fractions(), "five min 1.5"), "20 10 + 0 0"),
        case("off, a numeral's own", total(spoken().without_fractions(), "half s"), "0 6 + 0 500000000"),
        case("4096 bytes", total(card(), zeros(4095) + "."), "0 4096 + 0 0"),
        case("4096 bytes, off", total(off(), zeros(4095) + "."), "20 4095 + 0 0"),
        case("4096 points", total(card(), ".".repeat(4096)), "20 0 + 0 0"),
    ]
}

// 21 at an exponent's letter with exponents off, or at the byte that stands where its first digit is wanted.
#[rustfmt::skip]
fn exponents_that_slip() -> Vec<Case> {
    let off = || card().without_exponents();
    let eon = || card().with_rows(&[five("eon")]);
    let zeros = |count: usize| "0".repeat(count);
    vec![
        case("a letter", total(card(), "1ex"), "21 2 + 0 0"),
        case("a letter, E", total(card(), "1Ex"), "21 2 + 0 0"),
        case("a letter, part", part(0, card(), "1ex"), "21 2 + 0 0"),
        case("a letter, shift", shift(minus(7, 5), card(), "1ex"), "21 2 + 0 0 - 7 5"),
        case("a letter behind plus", total(card(), "1e+x"), "21 3 + 0 0"),
        case("a letter behind minus, E", total(card(), "1E-x"), "21 3 + 0 0"),
        case("a letter behind minus, part", part(0, card(), "1e-x"), "21 3 + 0 0"),
        case("a letter behind plus, shift", shift(plus(7, 5), card(), "1e+x"), "21 3 + 0 0 + 7 5"),
        case("a digit", total(card(), "1e1"), "0 3 + 10 0"),
        case("a digit behind plus", total(card(), "1e+1"), "0 4 + 10 0"),
        case("a digit and a letter", total(card(), "1e1x"), "6 3 + 0 0"),
        case("a digit and another exponent", total(card(), "1e1e1"), "6 3 + 0 0"),
        case("no more", total(card(), "1e"), "17 2 + 0 0"),
        case("no more behind minus", total(card(), "1e-"), "17 3 + 0 0"),
        case("a delimiter", total(card(), "1e 1"), "21 2 + 0 0"),
        case("a delimiter behind plus", total(card(), "1e+ 1"), "21 3 + 0 0"),
        case("a point", total(card(), "1e.5"), "21 2 + 0 0"),
        case("a point behind minus", total(card(), "1e-.5"), "21 3 + 0 0"),
        case("another e", total(card(), "1ee1"), "21 2 + 0 0"),
        case("another sign", total(card(), "1e++1"), "21 3 + 0 0"),
        case("another sign, no more", total(card(), "1e+-"), "21 3 + 0 0"),
        case("infinity", total(card(), "1einf"), "21 2 + 0 0"),
        case("a unit", total(card(), "1es"), "21 2 + 0 0"),
        case("a unit led by e", total(eon(), "1eon"), "21 2 + 0 0"),
        case("a unit led by e, behind a delimiter", total(eon(), "1 eon"), "0 5 + 5 0"),
        case("behind a sign", total(card(), "-2ex"), "21 3 + 0 0"),
        case("behind a point", total(card(), "1.ex"), "21 3 + 0 0"),
        case("behind a fraction", total(card(), "1.5e+x"), "21 5 + 0 0"),
        case("behind a fraction alone", total(card(), ".5ex"), "21 3 + 0 0"),
        case("second part", total(card(), "1s 2ex"), "21 5 + 0 0"),
        case("second part, from its place", part(3, card(), "1s 2ex"), "21 5 + 0 0"),
        case("second part, shift", shift(plus(1, 0), card(), "1s 2e-x"), "21 6 + 0 0 + 1 0"),
        case("behind a conjunction", total(card(), "1s and 2e+x"), "21 10 + 0 0"),
        case("behind infinity", total(card(), "inf 2ex"), "21 6 + 0 0"),
        case("behind a spoken number", total(spoken(), "five min 2ex"), "21 11 + 0 0"),
        case("behind bytes that are no part", part(2, card(), b"\xff\xfe1ex"), "21 4 + 0 0"),
        case("negatives off", total(card().without_negatives(), "-1ex"), "21 3 + 0 0"),
        case("4096 bytes", total(card(), zeros(4094) + "ex"), "21 4095 + 0 0"),
        case("4096 bytes, minus", total(card(), zeros(4093) + "e-x"), "21 4095 + 0 0"),

        case("off", total(off(), "1e5"), "21 1 + 0 0"),
        case("off, E", total(off(), "1E5"), "21 1 + 0 0"),
        case("off, part", part(0, off(), "1e5"), "21 1 + 0 0"),
        case("off, shift", shift(minus(7, 5), off(), "1E5"), "21 1 + 0 0 - 7 5"),
        case("off, no more", total(off(), "1e"), "21 1 + 0 0"),
        case("off, a letter", total(off(), "1ex"), "21 1 + 0 0"),
        case("off, a sign", total(off(), "1e+"), "21 1 + 0 0"),
        case("off, a delimiter", total(off(), "1e "), "21 1 + 0 0"),
        case("off, no e", total(off(), "15"), "0 2 + 15 0"),
        case("off, behind a delimiter", total(off(), "1 e5"), "6 2 + 0 0"),
        case("off, another letter", total(off(), "1f5"), "6 1 + 0 0"),
        case("off, behind a sign", total(off(), "-1e5"), "21 2 + 0 0"),
        case("off, behind a point", total(off(), "1.e5"), "21 2 + 0 0"),
        case("off, behind a fraction", total(off(), "1.5e5"), "21 3 + 0 0"),
        case("off, behind a fraction alone", total(off(), ".5E5"), "21 2 + 0 0"),
        case("off, second part", total(off(), "1s 1e5"), "21 4 + 0 0"),
        case("off, second part, from its place", part(3, off(), "1s 1e5"), "21 4 + 0 0"),
        case("off, second part, shift", shift(plus(1, 0), off(), "1s 1e5"), "21 4 + 0 0 + 1 0"),
        case("off, behind a conjunction", total(off(), "1s and 1E5"), "21 8 + 0 0"),
        case("off, behind infinity", total(off(), "inf 1e5"), "21 5 + 0 0"),
        case("off, behind a spoken number", total(spoken().without_exponents(), "five min 1e5"), "21 10 + 0 0"),
        case("off, a numeral led by e", total(spoken().without_exponents(), "1eight s"), "21 1 + 0 0"),
        case("off, a numeral led by e, behind a delimiter", total(spoken().without_exponents(), "1 eight s"), "0 9 + 9 0"),
        case("off, 4096 bytes", total(off(), zeros(4095) + "e"), "21 4095 + 0 0"),
    ]
}

// 22: a wrong letter within `inity`, at it; the text's end within it, at the `i` of `inf`; and at a byte that goes on behind the whole word.
#[rustfmt::skip]
fn infinities_that_slip() -> Vec<Case> {
    let on = || card().with_sign_delimiter();
    let off = || card().without_infinity();
    let inner_comma = || card().with_inner(b",");
    let outer_comma = || card().with_outer(b",");
    let zeros = |count: usize| "0".repeat(count);
    let max = |size: usize| format!("0 {size} + 18446744073709551615 999999999");
    vec![
        case("two letters", total(card(), "in"), "6 0 + 0 0"),
        case("three letters", total(card(), "inf"), max(3)),
        case("four letters", total(card(), "infi"), "22 0 + 0 0"),
        case("five letters", total(card(), "infin"), "22 0 + 0 0"),
        case("six letters", total(card(), "infini"), "22 0 + 0 0"),
        case("seven letters", total(card(), "infinit"), "22 0 + 0 0"),
        case("eight letters", total(card(), "infinity"), max(8)),
        case("four letters, capitals", total(card(), "INFI"), "22 0 + 0 0"),
        case("seven letters, both cases", total(card(), "iNfInIt"), "22 0 + 0 0"),
        case("eight letters, both cases", total(card(), "InFiNiTy"), max(8)),
        case("four letters, part", part(0, card(), "infi"), "22 0 + 0 0"),
        case("seven letters, shift", shift(minus(7, 5), card(), "infinit"), "22 0 + 0 0 - 7 5"),

        case("wrong fourth", total(card(), "infx"), "22 3 + 0 0"),
        case("wrong fifth", total(card(), "infix"), "22 4 + 0 0"),
        case("wrong sixth", total(card(), "infinx"), "22 5 + 0 0"),
        case("wrong seventh", total(card(), "infinix"), "22 6 + 0 0"),
        case("wrong eighth", total(card(), "infinitx"), "22 7 + 0 0"),
        case("wrong fourth, capitals", total(card(), "INFX"), "22 3 + 0 0"),
        case("wrong eighth, both cases", total(card(), "iNfInItI"), "22 7 + 0 0"),
        case("wrong fourth, part", part(0, card(), "infx"), "22 3 + 0 0"),
        case("wrong fifth, shift", shift(plus(7, 5), card(), "infix"), "22 4 + 0 0 + 7 5"),
        case("wrong seventh, more behind it", total(card(), "infinite"), "22 7 + 0 0"),
        case("a delimiter within", total(card(), "infi nity"), "22 4 + 0 0"),
        case("a sign behind inf", total(card(), "inf+1"), "22 3 + 0 0"),
        case("a sign alone behind inf", total(card(), "inf-"), "22 3 + 0 0"),
        case("a digit behind inf", total(card(), "inf1"), "22 3 + 0 0"),
        case("a point behind inf", total(card(), "inf.5"), "22 3 + 0 0"),
        case("a unit behind inf", total(card(), "infs"), "22 3 + 0 0"),
        case("inf behind inf", total(card(), "infinf"), "22 5 + 0 0"),

        case("a letter behind it", total(card(), "infinityx"), "22 8 + 0 0"),
        case("a letter behind it, capitals", total(card(), "INFINITYX"), "22 8 + 0 0"),
        case("a letter behind it, part", part(0, card(), "infinityx"), "22 8 + 0 0"),
        case("a letter behind it, shift", shift(minus(7, 5), card(), "infinityx"), "22 8 + 0 0 - 7 5"),
        case("a sign behind it", total(card(), "infinity+1"), "22 8 + 0 0"),
        case("a digit behind it", total(card(), "infinity1"), "22 8 + 0 0"),
        case("a point behind it", total(card(), "infinity."), "22 8 + 0 0"),
        case("a unit behind it", total(card(), "infinitys"), "22 8 + 0 0"),
        case("itself behind it", total(card(), "infinityinfinity"), "22 8 + 0 0"),
        case("a delimiter behind it", total(card(), "infinity "), "18 8 + 0 0"),
        case("a delimiter behind inf", total(card(), "inf "), "18 3 + 0 0"),
        case("a delimiter and a part behind it", total(card(), "infinity 1"), max(10)),
        case("a delimiter and ago behind it", total(card(), "inf ago"), "6 4 + 0 0"),

        // The outer set counts, and the inner does not.
        case("inner comma behind inf", total(inner_comma(), "inf,"), "22 3 + 0 0"),
        case("inner comma behind it", total(inner_comma(), "infinity,1"), "22 8 + 0 0"),
        case("outer comma behind inf", total(outer_comma(), "inf,"), "18 3 + 0 0"),
        case("outer comma, a space behind inf", total(outer_comma(), "inf "), "22 3 + 0 0"),
        case("outer comma, a space behind it", total(outer_comma(), "infinity 1"), "22 8 + 0 0"),
        case("outer comma and a part behind it", total(outer_comma(), "infinity,1"), max(10)),
        case("no outer, a space behind inf", total(card().with_outer(b""), "inf 1"), "22 3 + 0 0"),
        case("no outer", total(card().with_outer(b""), "infinity"), max(8)),

        case("plus", total(card(), "+infx"), "22 4 + 0 0"),
        case("minus", total(card(), "-infi"), "22 1 + 0 0"),
        case("minus, its end", total(card(), "-infinityx"), "22 9 + 0 0"),
        case("minus and a delimiter", total(on(), "- infi"), "22 2 + 0 0"),
        case("minus and a delimiter, its end", total(on(), "- infinityx"), "22 10 + 0 0"),
        case("second part", total(card(), "1s infi"), "22 3 + 0 0"),
        case("second part, a wrong letter", total(card(), "1s infx"), "22 6 + 0 0"),
        case("second part, its end", total(card(), "1s infinityx"), "22 11 + 0 0"),
        case("second part, from its place", part(3, card(), "1s infi"), "22 3 + 0 0"),
        case("second part, a wrong letter, from its place", part(3, card(), "1s infx"), "22 6 + 0 0"),
        case("second part, its end, from its place", part(3, card(), "1s infinityx"), "22 11 + 0 0"),
        case("second part, shift", shift(plus(1, 0), card(), "1s infi"), "22 3 + 0 0 + 1 0"),
        case("second part, a wrong letter, shift", shift(plus(1, 0), card(), "1s infx"), "22 6 + 0 0 + 1 0"),
        case("directly behind a number", total(card(), "1infi"), "22 1 + 0 0"),
        case("directly behind a number, a wrong letter", total(card(), "1infx"), "22 4 + 0 0"),
        case("behind a conjunction", total(card(), "1s and infi"), "22 7 + 0 0"),
        case("behind a conjunction, a wrong letter", total(card(), "1s and infx"), "22 10 + 0 0"),
        case("behind infinity", total(card(), "inf infi"), "22 4 + 0 0"),
        case("behind infinity, its end", total(card(), "inf infinity-"), "22 12 + 0 0"),
        case("behind a spoken number", total(spoken(), "five min infi"), "22 9 + 0 0"),
        case("behind a numeral", total(spoken(), "five infi"), "15 5 + 0 0"),
        case("a numeral's name", total(card().with_numerals(&[five("infi")]), "infi s"), "22 4 + 0 0"),
        case("a numeral's name, off", total(card().with_numerals(&[five("infi")]).without_infinity(), "infi s"), "0 6 + 5 0"),
        case("behind bytes that are no part", part(2, card(), b"\xff\xfeinfx"), "22 5 + 0 0"),
        case("negatives off", total(card().without_negatives(), "-infi"), "22 1 + 0 0"),
        case("off", total(off(), "infi"), "6 0 + 0 0"),
        case("off, a sign behind inf", total(off(), "inf+1"), "6 0 + 0 0"),
        case("off, a letter behind it", total(off(), "infinityx"), "6 0 + 0 0"),
        case("4096 bytes", total(card(), zeros(4092) + "infi"), "22 4092 + 0 0"),
        case("4096 bytes, a wrong letter", total(card(), zeros(4092) + "infx"), "22 4095 + 0 0"),
        case("4096 bytes of it", total(card(), "infinity".repeat(512)), "22 8 + 0 0"),
    ]
}

// The slips among the other refusals: the first from the left is given, 16 and 5 come last in their part, and 7, 11, 8 and 10 before all.
#[rustfmt::skip]
fn order_with_slips() -> Vec<Case> {
    let numerals = [times("most", i64::MAX, 0), times("five", 5, 0)];
    let card = || card().with_numerals(&numerals).with_more_rows(&[times("two", 2, 0)]);
    let no_negatives = || card().without_negatives();
    let no_fractions = || card().without_fractions();
    let bad = card().with_kind(8);
    let malformed = plus(0, 1_000_000_000);
    vec![
        // Of an earlier part, before each of a later one; 17 and 18 end the text.
        case("3, then 17", total(card(), "1e99999 +"), "3 6 + 0 0"),
        case("3, then 18", total(card(), "1e99999 "), "3 6 + 0 0"),
        case("3, then 19", total(card(), "1e99999s and"), "3 6 + 0 0"),
        case("3, then 20", total(card(), "1e99999 ."), "3 6 + 0 0"),
        case("3, then 21", total(card(), "1e99999 1ex"), "3 6 + 0 0"),
        case("3, then 22", total(card(), "1e99999 infi"), "3 6 + 0 0"),
        case("4, then 17", total(card(), "1e-99999+"), "4 7 + 0 0"),
        case("4, then 18", total(card(), "1e-99999 1s "), "4 7 + 0 0"),
        case("4, then 19", total(card(), "1e-99999s andx"), "4 7 + 0 0"),
        case("4, then 20", total(card(), "1e-99999."), "4 7 + 0 0"),
        case("4, then 21", total(card(), "1e-99999 1ex"), "4 7 + 0 0"),
        case("4, then 22", total(card(), "1e-99999 infx"), "4 7 + 0 0"),
        case("6, then 17", total(card(), "x +"), "6 0 + 0 0"),
        case("6, then 18", total(card(), "x "), "6 0 + 0 0"),
        case("6, then 19", total(card(), "1s x and"), "6 3 + 0 0"),
        case("6, then 20", total(card(), "x ."), "6 0 + 0 0"),
        case("6, then 21", total(card(), "1x 1ex"), "6 1 + 0 0"),
        case("6, then 22", total(card(), "x infi"), "6 0 + 0 0"),
        case("15, then 17", total(card(), "five x +"), "15 5 + 0 0"),
        case("15, then 18", total(card(), "five x "), "15 5 + 0 0"),
        case("15, then 19", total(card(), "five x and"), "15 5 + 0 0"),
        case("15, then 20", total(card(), "five x ."), "15 5 + 0 0"),
        case("15, then 21", total(card(), "five 1ex"), "15 5 + 0 0"),
        case("15, then 22", total(card(), "five infi"), "15 5 + 0 0"),
        case("16, then 17", total(card(), "most two+"), "16 0 + 0 0"),
        case("16, then 17 within an exponent", total(card(), "most two 1e"), "16 0 + 0 0"),
        case("16, then 18", total(card(), "most two 1 "), "16 0 + 0 0"),
        case("16, then 19", total(card(), "most two 1s and"), "16 0 + 0 0"),
        case("16, then 20", total(card(), "most two ."), "16 0 + 0 0"),
        case("16, then 21", total(card(), "most two 1ex"), "16 0 + 0 0"),
        case("16, then 22", total(card(), "most two infi"), "16 0 + 0 0"),
        case("16, then 22, shift", shift(minus(7, 5), card(), "most two infi"), "16 0 + 0 0 - 7 5"),
        case("16, then 22, from its place", part(9, card(), "most two infi"), "22 9 + 0 0"),
        case("5, then 17", total(no_negatives(), "-1s +"), "5 0 + 0 0"),
        case("5, then 17 within an exponent", total(no_negatives(), "-1s 1e-"), "5 0 + 0 0"),
        case("5, then 18", total(no_negatives(), "-1s 1s "), "5 0 + 0 0"),
        case("5, then 19", total(no_negatives(), "-1s 1s and"), "5 0 + 0 0"),
        case("5, then 20", total(no_negatives(), "-1s ."), "5 0 + 0 0"),
        case("5, then 21", total(no_negatives(), "-1s 1ex"), "5 0 + 0 0"),
        case("5, then 22", total(no_negatives(), "-1s infx"), "5 0 + 0 0"),
        case("5, then 22, shift", shift(plus(7, 5), no_negatives(), "-1s infx"), "5 0 + 0 0 + 7 5"),
        case("5, then 22, from its place", part(4, no_negatives(), "-1s infx"), "22 7 + 0 0"),
        case("zero with a minus, then 17", total(no_negatives(), "-0s +"), "17 5 + 0 0"),
        case("zero with a minus, then 21", total(no_negatives(), "-0s 1ex"), "21 6 + 0 0"),
        case("19, then 17", total(card(), "1s andx +"), "19 6 + 0 0"),
        case("19, then 18", total(card(), "1s andx "), "19 6 + 0 0"),
        case("19, then 20", total(card(), "1s and."), "19 6 + 0 0"),
        case("19, then 21", total(card(), "1s andx 1ex"), "19 6 + 0 0"),
        case("19, then 22", total(card(), "1s andinfi"), "19 6 + 0 0"),
        case("20, then 17", total(card(), ". +"), "20 0 + 0 0"),
        case("20, then 18", total(card(), ". "), "20 0 + 0 0"),
        case("20, then 19", total(card(), ". 1s and"), "20 0 + 0 0"),
        case("20, then 21", total(card(), ".ex"), "20 0 + 0 0"),
        case("20, then 22", total(card(), ".infi"), "20 0 + 0 0"),
        case("21, then 17", total(card(), "1ex +"), "21 2 + 0 0"),
        case("21, then 18", total(card(), "1e "), "21 2 + 0 0"),
        case("21, then 19", total(card(), "1es and"), "21 2 + 0 0"),
        case("21, then 20", total(card(), "1e."), "21 2 + 0 0"),
        case("21, then 22", total(card(), "1einfi"), "21 2 + 0 0"),
        case("22, then 17", total(card(), "inf+"), "22 3 + 0 0"),
        case("22, then 18", total(card(), "infx "), "22 3 + 0 0"),
        case("22, then 19", total(card(), "infx and"), "22 3 + 0 0"),
        case("22, then 20", total(card(), "inf."), "22 3 + 0 0"),
        case("22, then 21", total(card(), "infx 1ex"), "22 3 + 0 0"),

        // Before what a later part has of the others.
        case("19, then 3", total(card(), "1s andx 1e99999"), "19 6 + 0 0"),
        case("20, then 3", total(card(), ". 1e99999"), "20 0 + 0 0"),
        case("21, then 3", total(card(), "1ex 1e99999"), "21 2 + 0 0"),
        case("22, then 4", total(card(), "infx 1e-99999"), "22 3 + 0 0"),
        case("19, then 6", total(card(), "1s andx x"), "19 6 + 0 0"),
        case("20, then 6", total(card(), ".x"), "20 0 + 0 0"),
        case("21, then 6", total(card(), "1ex x"), "21 2 + 0 0"),
        case("22, then 6", total(card(), "infx x"), "22 3 + 0 0"),
        case("19, then 15", total(card(), "1s andfive x"), "19 6 + 0 0"),
        case("20, then 15", total(card(), ". five x"), "20 0 + 0 0"),
        case("21, then 15", total(card(), "1ex five x"), "21 2 + 0 0"),
        case("22, then 15", total(card(), "infx five x"), "22 3 + 0 0"),
        case("19, then 16", total(card(), "1s andmost two"), "19 6 + 0 0"),
        case("20, then 16", total(card(), ". most two"), "20 0 + 0 0"),
        case("21, then 16", total(card(), "1ex most two"), "21 2 + 0 0"),
        case("22, then 16", total(card(), "infx most two"), "22 3 + 0 0"),
        case("19, then 5", total(no_negatives(), "1s andx -1s"), "19 6 + 0 0"),
        case("20, then 5", total(no_negatives(), ".-1s"), "20 0 + 0 0"),
        case("21, then 5", total(no_negatives(), "1ex -1s"), "21 2 + 0 0"),
        case("22, then 5", total(no_negatives(), "inf-1s"), "22 3 + 0 0"),

        // In the same part before 16 and before 5, and in a number from the left.
        case("18 behind ago, before 16", total(card(), "most two ago "), "18 12 + 0 0"),
        case("18 behind a conjunction, before 16", total(card(), "most two and "), "18 12 + 0 0"),
        case("19, before 16", total(card(), "-most two and"), "19 10 + 0 0"),
        case("18, before 16 and 5", total(no_negatives(), "-most two "), "18 9 + 0 0"),
        case("17, before 5", total(no_negatives(), "-1E"), "17 3 + 0 0"),
        case("18, before 5", total(no_negatives(), "-1s "), "18 3 + 0 0"),
        case("18 behind ago, before 5", total(no_negatives(), "1s ago "), "18 6 + 0 0"),
        case("19, before 5", total(no_negatives(), "-1s and"), "19 4 + 0 0"),
        case("19 behind infinity, before 5", total(no_negatives(), "-inf andx"), "19 8 + 0 0"),
        case("20, before 5", total(no_negatives(), "-.s"), "20 1 + 0 0"),
        case("21, before 5", total(no_negatives(), "-1e-x"), "21 4 + 0 0"),
        case("22, before 5", total(no_negatives(), "-infinit"), "22 1 + 0 0"),
        case("20, before 3", total(no_fractions(), "1.5e99999"), "20 1 + 0 0"),
        case("20, before 17", total(no_fractions(), "1.e"), "20 1 + 0 0"),
        case("20, before 21", total(no_fractions().without_exponents(), "1.5e5"), "20 1 + 0 0"),
        case("21, before 20", total(no_fractions().without_exponents(), "1e5.5"), "21 1 + 0 0"),
        case("21, before 3", total(card().without_exponents(), "1e99999"), "21 1 + 0 0"),
        case("21, before 4", total(card().without_exponents(), "1.5E-99999"), "21 3 + 0 0"),

        // After 7, 11, 8, 10 and 1.
        case("7, then 17", total(bad.clone(), "+"), "7 67 + 0 0"),
        case("7, then 19", total(bad.clone(), "1s and"), "7 67 + 0 0"),
        case("7, then 20, part", part(0, bad.clone(), "."), "7 67 + 0 0"),
        case("7, then 21, shift", shift(plus(1, 0), bad.clone(), "1ex"), "7 67 + 0 0 + 1 0"),
        case("7, then 22", total(bad, "infi"), "7 67 + 0 0"),
        case("11, then 17", shift(malformed, card(), "1e"), "11 0 + 0 0 + 0 1000000000"),
        case("11, then 19", shift(minus(0, 0), card(), "1s and"), "11 0 + 0 0 - 0 0"),
        case("11, then 20", shift(malformed, card(), "."), "11 0 + 0 0 + 0 1000000000"),
        case("11, then 21", shift(minus(0, 0), card(), "1ex"), "11 0 + 0 0 - 0 0"),
        case("11, then 22", shift(malformed, card(), "infx"), "11 0 + 0 0 + 0 1000000000"),
        case("8, then 20", total(card(), ".".repeat(4097)), "8 4096 + 0 0"),
        case("8, then 22", part(0, card(), format!("infx{}", " ".repeat(4093))), "8 4096 + 0 0"),
        case("10, then 17", part(2, card(), "+"), "10 2 + 0 0"),
        case("10, then 22", part(5, card(), "infi"), "10 5 + 0 0"),
        case("1, then 20", part(1, card(), "."), "1 1 + 0 0"),

        // Of a part from a place only what stands from there on counts.
        case("behind 22, from its place", part(5, card(), "infx 1e"), "17 7 + 0 0"),
        case("behind 20, from its place", part(1, card(), ".1 "), "18 2 + 0 0"),
        case("behind 21, from its place", part(4, card(), "1ex 1s and"), "19 7 + 0 0"),
        case("before 21, from its place", part(0, card(), "1s 1ex"), "0 3 + 1 0"),
    ]
}

/// A case for each byte behind a beginning, with what is written for it.
fn every_byte_behind(card: Card, start: &[u8], answer: impl Fn(u8) -> String) -> Vec<Case> {
    let with = |byte: u8| total(card.clone(), [start, &[byte]].concat());
    (0..=u8::MAX)
        .map(|byte| case(format!("byte {byte}"), with(byte), answer(byte)))
        .collect()
}

// Every byte behind a part's sign, with the switch for delimiters there, of which a comma is one.
#[rustfmt::skip]
fn bytes_behind_a_sign() -> Vec<Case> {
    every_byte_behind(card().with_sign_delimiter().with_inner(b" ,"), b"+", |byte| match byte {
        b'0'..=b'9' => format!("0 2 + {} 0", byte - b'0'),
        b' ' | b',' => "18 1 + 0 0".to_string(),
        b'.' => "20 1 + 0 0".to_string(),
        _ => "6 1 + 0 0".to_string(),
    })
}

// Every byte behind an exponent's letter, and behind its sign: a digit is read, behind another sign the text ends.
#[rustfmt::skip]
fn bytes_behind_e() -> Vec<Case> {
    every_byte_behind(card(), b"1e", |byte| match byte {
        b'0'..=b'9' => format!("0 3 + 1{} 0", "0".repeat(usize::from(byte - b'0'))),
        b'+' | b'-' => "17 3 + 0 0".to_string(),
        _ => "21 2 + 0 0".to_string(),
    })
}

#[rustfmt::skip]
fn bytes_behind_an_exponents_sign() -> Vec<Case> {
    every_byte_behind(card(), b"1E+", |byte| match byte {
        b'0'..=b'9' => format!("0 4 + 1{} 0", "0".repeat(usize::from(byte - b'0'))),
        _ => "21 3 + 0 0".to_string(),
    })
}

// Every byte behind a conjunction, and behind infinity's two words: a space and a semicolon are outer delimiters, a comma is an inner one.
fn inner_and_outer() -> Card {
    card().with_inner(b",").with_outer(b" ;")
}

#[rustfmt::skip]
fn bytes_behind_a_conjunction() -> Vec<Case> {
    every_byte_behind(inner_and_outer(), b"1s and", |byte| match byte {
        b'0'..=b'9' => format!("0 7 + {} 0", 1 + byte - b'0'),
        b'+' | b'-' => "17 7 + 0 0".to_string(),
        b' ' | b';' => "18 6 + 0 0".to_string(),
        _ => "19 6 + 0 0".to_string(),
    })
}

#[rustfmt::skip]
fn bytes_behind_inf() -> Vec<Case> {
    every_byte_behind(inner_and_outer(), b"inf", |byte| match byte {
        b' ' | b';' => "18 3 + 0 0".to_string(),
        b'i' | b'I' => "22 0 + 0 0".to_string(),
        _ => "22 3 + 0 0".to_string(),
    })
}

#[rustfmt::skip]
fn bytes_behind_infinity() -> Vec<Case> {
    every_byte_behind(inner_and_outer(), b"INFINITY", |byte| match byte {
        b' ' | b';' => "18 8 + 0 0".to_string(),
        _ => "22 8 + 0 0".to_string(),
    })
}
