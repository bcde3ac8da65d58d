//! A plain reading of document 01, written from its words: the acceptance of
//! settings and tables, the steps of a part, the evaluation, the total, the
//! writer and the shift total. The words of requests two to six are among them:
//! a unit that nobody could type is not accepted, an exponent out of range is
//! refused at the digit with which it is, a numeral may stand for a number, a
//! line's own units win over the hall's, and what was one number for syntax is
//! six, each for a slip of its own. Request seven is in [`crate::plain_index`].

use crate::natural::Natural;
use crate::request::{Answer, ByteSet, Card, Length, Request, bytes_field};
use crate::table::{KINDS, MOST_NUMERALS, MOST_ROWS, NUMERAL_KIND, ROW_BYTES, Row, is_led_by_e};

pub const MOST_TEXT_BYTES: usize = 4_096;
const MOST_CONJUNCTIONS: usize = 4;
const LARGEST_EXPONENT: u64 = 32_767;
const LOWEST_EXPONENT_SIZE: u64 = 32_768;
const NANOS_OF_A_SECOND: u64 = 1_000_000_000;

/// What is added to the position of what is wrong with the line's table.
pub const OF_THE_LINE: usize = 128;

/// The six slips of request six.
mod slip {
    /// The text ends straight after a sign, or within an exponent.
    pub const TEXT_ENDS: u8 = 17;
    /// A run of delimiters ends the text.
    pub const DELIMITERS_END: u8 = 18;
    pub const CONJUNCTION: u8 = 19;
    pub const FRACTION: u8 = 20;
    /// Exponents are off, or a byte stands where an exponent's digit is wanted.
    pub const EXPONENT: u8 = 21;
    pub const INFINITY: u8 = 22;
}

struct Refusal {
    number: u8,
    position: usize,
}

fn refuse<T>(number: u8, position: usize) -> Result<T, Refusal> {
    Err(Refusal { number, position })
}

/// The answer line to any request; a write is followed by the buffer as it is
/// afterwards, a shift by the record.
pub fn answer_line(request: &Request) -> String {
    match request {
        Request::Total { card, text } => total(card, text).to_string(),
        Request::Part { place, card, text } => part(card, text, *place).to_string(),
        Request::Shift { record, card, text } => {
            let (answer, record) = shift(*record, card, text);
            format!("{answer} {record}")
        }
        Request::Write {
            record,
            place,
            buffer,
        } => {
            let (answer, buffer) = write(*record, *place, buffer);
            format!("{answer} {}", bytes_field(&buffer))
        }
    }
}

pub fn total(card: &Card, text: &[u8]) -> Answer {
    as_answer(read_total(card, text, None))
}

pub fn part(card: &Card, text: &[u8], place: u64) -> Answer {
    let read = accepted(card).and_then(|tables| {
        check_text_size(text)?;
        let place = match usize::try_from(place) {
            Ok(inside) if inside <= text.len() => inside,
            // The place is handed back as it came, however large.
            _ => return Ok(Answer::refusal(10, place)),
        };
        let reader = Reader { card, tables, text };
        let (length, next) = reader.length_at(place)?;
        Ok(Answer::success(next as u64, length))
    });
    as_answer(read)
}

/// The answer and the lent record afterwards.
pub fn shift(record: Length, card: &Card, text: &[u8]) -> (Answer, Length) {
    let answer = as_answer(
        read_total(card, text, Some(record))
            .map(|answer| Answer::success(text.len() as u64, sum(record, answer.length))),
    );
    let record = if answer.number == 0 {
        answer.length
    } else {
        record
    };
    (answer, record)
}

/// The answer and the lent buffer afterwards.
pub fn write(record: Length, place: u64, buffer: &[u8]) -> (Answer, Vec<u8>) {
    let mut after = buffer.to_vec();
    if is_malformed(record) {
        return (Answer::refusal(11, 0), after);
    }
    let start = match usize::try_from(place) {
        Ok(start) if start <= buffer.len() => start,
        _ => return (Answer::refusal(10, place), after),
    };
    let written = spelled(record);
    if buffer.len() - start < written.len() {
        return (Answer::refusal(9, place), after);
    }
    let next = start + written.len();
    after[start..next].copy_from_slice(written.as_bytes());
    (Answer::success(next as u64, record), after)
}

fn as_answer(outcome: Result<Answer, Refusal>) -> Answer {
    outcome.unwrap_or_else(|refusal| Answer::refusal(refusal.number, refusal.position as u64))
}

/// The total of a text, checks in the document's order: 7, 11 if a record is
/// lent, 8, then left to right.
fn read_total(card: &Card, text: &[u8], record: Option<Length>) -> Result<Answer, Refusal> {
    let tables = accepted(card)?;
    if record.is_some_and(is_malformed) {
        return refuse(11, 0);
    }
    check_text_size(text)?;
    let reader = Reader { card, tables, text };
    let mut total = Length::ZERO;
    let mut place = 0;
    loop {
        let (length, next) = reader.length_at(place)?;
        total = sum(total, length);
        place = next;
        if place == text.len() {
            return Ok(Answer::success(place as u64, total));
        }
    }
}

fn check_text_size(text: &[u8]) -> Result<(), Refusal> {
    if text.len() > MOST_TEXT_BYTES {
        return refuse(8, MOST_TEXT_BYTES);
    }
    Ok(())
}

// Settings and tables.

/// The rows of the tables of an accepted card.
struct Tables {
    hall: Vec<Row>,
    line: Vec<Row>,
    numerals: Vec<Row>,
}

/// Whether document 01 accepts the settings and the tables.
pub fn accepts(card: &Card) -> bool {
    accepted(card).is_ok()
}

/// The number and the position that the check of a card gives: 0 at 0, or 7.
pub fn check(card: &Card) -> (u8, usize) {
    match accepted(card) {
        Ok(_) => (0, 0),
        Err(refusal) => (refusal.number, refusal.position),
    }
}

/// The rows of an accepted card, or refusal 7.
fn accepted(card: &Card) -> Result<Tables, Refusal> {
    if !delimiters_are_right(&card.inner) || !delimiters_are_right(&card.outer) {
        return refuse(7, 65);
    }
    if !conjunctions_are_right(card) {
        return refuse(7, 66);
    }
    if usize::from(card.kind) >= KINDS.len() {
        return refuse(7, 67);
    }
    let hall = accepted_units(card, &card.hall, 0)?;
    let line = accepted_units(card, &card.line, OF_THE_LINE)?;
    if card.numerals.len() % ROW_BYTES != 0 || card.numerals.len() / ROW_BYTES > MOST_NUMERALS {
        return refuse(7, 100);
    }
    let mut numerals: Vec<Row> = Vec::new();
    for bytes in card.numerals.chunks(ROW_BYTES) {
        match Row::from_bytes(bytes) {
            Some(row) if numeral_is_right(&row, &numerals) => numerals.push(row),
            _ => return refuse(7, 68 + numerals.len()),
        }
    }
    Ok(Tables {
        hall,
        line,
        numerals,
    })
}

/// The rows of one of the two unit tables, or refusal 7 with so much added to
/// the position. What the other table has does not matter.
fn accepted_units(card: &Card, table: &[u8], added: usize) -> Result<Vec<Row>, Refusal> {
    if table.len() % ROW_BYTES != 0 || table.len() / ROW_BYTES > MOST_ROWS {
        return refuse(7, added + 64);
    }
    let mut units: Vec<Row> = Vec::new();
    for bytes in table.chunks(ROW_BYTES) {
        match Row::from_bytes(bytes) {
            Some(row) if row_is_right(&row, card, &units) => units.push(row),
            _ => return refuse(7, added + units.len()),
        }
    }
    Ok(units)
}

fn delimiters_are_right(set: &ByteSet) -> bool {
    set.bytes().iter().all(|byte| {
        *byte < 128 && !byte.is_ascii_alphabetic() && !is_digit_or_sign(*byte) && *byte != b'.'
    })
}

/// Only the counted words and only their counted letters are looked at.
fn conjunctions_are_right(card: &Card) -> bool {
    let count = usize::from(card.conjunctions.count);
    if count > MOST_CONJUNCTIONS {
        return false;
    }
    card.conjunctions.slots[..count]
        .iter()
        .all(|(length, letters)| {
            let length = usize::from(*length);
            (1..=letters.len()).contains(&length)
                && letters[..length].iter().all(u8::is_ascii_alphabetic)
        })
}

fn row_is_right(row: &Row, card: &Card, earlier: &[Row]) -> bool {
    if usize::from(row.kind) >= KINDS.len() {
        return false;
    }
    let name_can_be_read = row.name.iter().all(|byte| {
        !card.inner.holds(*byte)
            && !card.outer.holds(*byte)
            && !is_digit_or_sign(*byte)
            && *byte != b'.'
    });
    name_can_be_read
        && earlier.iter().all(|other| other.name != row.name)
        && of_kind(row.kind).times(&of_row(row)).is_in_range()
        && name_can_be_typed(&row.name, card)
}

/// A numeral may have the name of a unit, of a conjunction or of infinity.
fn numeral_is_right(row: &Row, earlier: &[Row]) -> bool {
    row.kind == NUMERAL_KIND
        && row.name.iter().all(u8::is_ascii_alphabetic)
        && earlier.iter().all(|other| other.name != row.name)
        && of_kind(row.kind).times(&of_row(row)).is_in_range()
}

/// Directly after a number `e` and `E` begin an exponent, so a name led by one
/// of them has to stand behind an exponent or behind inner delimiters. Where a
/// card has neither, no text comes to the row (request two).
fn name_can_be_typed(name: &[u8], card: &Card) -> bool {
    let behind_an_exponent = card.switches.exponents;
    let behind_delimiters = card.switches.unit_delimiter && card.inner != ByteSet::EMPTY;
    !is_led_by_e(name) || behind_an_exponent || behind_delimiters
}

fn is_digit_or_sign(byte: u8) -> bool {
    byte.is_ascii_digit() || byte == b'+' || byte == b'-'
}

/// The first of the typed digits with which they stand for more than `most`,
/// counted from 0 (request three).
fn digit_that_passes(digits: &[u8], most: u64) -> Option<usize> {
    let most = Natural::of(most);
    // Leading zeros pass nothing. Without them a beginning that has more digits
    // than `most` is larger, so only a few are tried, however many digits follow.
    let zeros = digits.iter().take_while(|digit| **digit == b'0').count();
    (zeros..digits.len()).find(|last| Natural::typed(&digits[zeros..=*last]) > most)
}

// Reading one part.

/// A part as typed, before it is evaluated.
struct Part<'a> {
    minus: bool,
    body: Body<'a>,
}

enum Body<'a> {
    Infinity,
    Number {
        number: Number<'a>,
        unit: Option<Unit<'a>>,
    },
    Spoken {
        numeral: &'a Row,
        unit: Unit<'a>,
    },
}

struct Number<'a> {
    whole: &'a [u8],
    fraction: &'a [u8],
    exponent: i64,
}

/// A found row, and whether `ago` negates it.
struct Unit<'a> {
    row: &'a Row,
    ago: bool,
}

struct Reader<'a> {
    card: &'a Card,
    tables: Tables,
    text: &'a [u8],
}

impl<'a> Reader<'a> {
    /// Reads the part at a place to its end, evaluates it, which may refuse a
    /// spoken number, and only then tests whether it may be negative. Gives its
    /// length and the next place.
    fn length_at(&self, place: usize) -> Result<(Length, usize), Refusal> {
        if place == self.text.len() {
            return refuse(1, place);
        }
        let (part, next) = self.part_at(place)?;
        let length = self.evaluated(&part)?;
        if length.negative && !self.card.switches.negatives {
            return refuse(5, 0);
        }
        Ok((length, next))
    }

    fn part_at(&self, place: usize) -> Result<(Part<'_>, usize), Refusal> {
        let (minus, place) = self.sign_step(place)?;
        if self.card.switches.infinity && self.word_stands_at(b"inf", place) {
            let next = self.infinity_step(place)?;
            let body = Body::Infinity;
            return Ok((Part { minus, body }, next));
        }
        let (body, place) = match self.byte(place) {
            Some(b'0'..=b'9' | b'.') => self.number_and_unit(place)?,
            _ => self.numeral_and_unit(place)?,
        };
        let next = self.connection_step(place)?;
        Ok((Part { minus, body }, next))
    }

    /// Steps 2 to 6 for a part that begins with a number.
    fn number_and_unit(&self, place: usize) -> Result<(Body<'_>, usize), Refusal> {
        let (number, place) = self.number_steps(place)?;
        let place = if self.card.switches.unit_delimiter {
            self.delimiters(place, &self.card.inner)?
        } else {
            place
        };
        let (unit, place) = self.unit_step(place)?;
        Ok((Body::Number { number, unit }, place))
    }

    /// The same for a part that begins with anything else: the stretch up to an
    /// inner delimiter has to be a numeral, the delimiters behind it may not end
    /// the text, and step 6 has to find a unit (request four).
    fn numeral_and_unit(&self, place: usize) -> Result<(Body<'_>, usize), Refusal> {
        let is_inner = |byte: &u8| self.card.inner.holds(*byte);
        let Some(length) = self.text[place..].iter().position(is_inner) else {
            return refuse(6, place);
        };
        let stretch = &self.text[place..place + length];
        let mut numerals = self.tables.numerals.iter();
        let Some(numeral) = numerals.find(|numeral| numeral.name == stretch) else {
            return refuse(6, place);
        };
        let behind = self.delimiters(place + length, &self.card.inner)?;
        match self.unit_step(behind)? {
            (Some(unit), place) => Ok((Body::Spoken { numeral, unit }, place)),
            (None, _) => refuse(15, behind),
        }
    }

    /// Step 1.
    fn sign_step(&self, place: usize) -> Result<(bool, usize), Refusal> {
        let minus = match self.byte(place) {
            Some(b'-') => true,
            Some(b'+') => false,
            _ => return Ok((false, place)),
        };
        let after = place + 1;
        if after == self.text.len() {
            return refuse(slip::TEXT_ENDS, after);
        }
        if self.card.switches.sign_delimiter {
            return Ok((minus, self.delimiters(after, &self.card.inner)?));
        }
        Ok((minus, after))
    }

    /// Steps 2 to 4 for a part that begins with a digit or a point.
    fn number_steps(&self, place: usize) -> Result<(Number<'a>, usize), Refusal> {
        let (whole, place) = self.digits(place);
        let (fraction, place) = self.fraction_step(place, !whole.is_empty())?;
        let (exponent, place) = self.exponent_step(place)?;
        let number = Number {
            whole,
            fraction,
            exponent,
        };
        Ok((number, place))
    }

    /// Step 3.
    fn fraction_step(&self, place: usize, has_whole: bool) -> Result<(&'a [u8], usize), Refusal> {
        if self.byte(place) != Some(b'.') {
            return Ok((&[], place));
        }
        if !self.card.switches.fractions {
            return refuse(slip::FRACTION, place);
        }
        let (fraction, after) = self.digits(place + 1);
        if fraction.is_empty() && !has_whole {
            return refuse(slip::FRACTION, place);
        }
        Ok((fraction, after))
    }

    /// Step 4.
    fn exponent_step(&self, place: usize) -> Result<(i64, usize), Refusal> {
        if !matches!(self.byte(place), Some(b'e' | b'E')) {
            return Ok((0, place));
        }
        if !self.card.switches.exponents {
            return refuse(slip::EXPONENT, place);
        }
        let (minus, wanted) = match self.byte(place + 1) {
            Some(b'-') => (true, place + 2),
            Some(b'+') => (false, place + 2),
            _ => (false, place + 1),
        };
        let (digits, after) = self.digits(wanted);
        if digits.is_empty() {
            // Nothing more was typed, or something that is no digit.
            let number = match self.byte(wanted) {
                None => slip::TEXT_ENDS,
                Some(_) => slip::EXPONENT,
            };
            return refuse(number, wanted);
        }
        let (number, most) = if minus {
            (4, LOWEST_EXPONENT_SIZE)
        } else {
            (3, LARGEST_EXPONENT)
        };
        if let Some(passing) = digit_that_passes(digits, most) {
            return refuse(number, wanted + passing);
        }
        // A size of at most 32768 fits, so nothing is lost here.
        let size = Natural::typed(digits).to_u64().unwrap_or_default() as i64;
        Ok((if minus { -size } else { size }, after))
    }

    /// Step 6. The line's rows are asked before the hall's.
    fn unit_step(&self, place: usize) -> Result<(Option<Unit<'_>>, usize), Refusal> {
        let end = self.end_of_stretch(place);
        let stretch = &self.text[place..end];
        let mut units = self.tables.line.iter().chain(&self.tables.hall);
        let Some(row) = units.find(|row| row.name == stretch) else {
            return Ok((None, place));
        };
        let after_ago = self.after_ago(end)?;
        let unit = Unit {
            row,
            ago: after_ago.is_some(),
        };
        Ok((Some(unit), after_ago.unwrap_or(end)))
    }

    /// Where the stretch that may be a unit's name ends.
    fn end_of_stretch(&self, place: usize) -> usize {
        let ends = |byte: &u8| {
            self.card.outer.holds(*byte)
                || is_digit_or_sign(*byte)
                || (self.card.switches.ago && self.card.inner.holds(*byte))
        };
        let length = self.text[place..].iter().position(ends);
        length.map_or(self.text.len(), |length| place + length)
    }

    /// The place after inner delimiters and `ago`, if they stand after a found
    /// name and are followed by what lets `ago` count.
    fn after_ago(&self, place: usize) -> Result<Option<usize>, Refusal> {
        if !self.card.switches.ago {
            return Ok(None);
        }
        let word = self.delimiters(place, &self.card.inner)?;
        if word == place || !self.word_stands_at(b"ago", word) {
            return Ok(None);
        }
        let after = word + 3;
        let counts = match self.byte(after) {
            None => true,
            Some(byte) => self.card.outer.holds(byte) || is_digit_or_sign(byte),
        };
        Ok(counts.then_some(after))
    }

    /// Step 7: the next place.
    fn connection_step(&self, place: usize) -> Result<usize, Refusal> {
        if !self
            .byte(place)
            .is_some_and(|byte| self.card.outer.holds(byte))
        {
            return Ok(place);
        }
        let start = self.delimiters(place, &self.card.outer)?;
        let words = self.card.conjunctions.words();
        let first = words.iter().find(|word| self.word_stands_at(word, start));
        let Some(word) = first else {
            return Ok(start);
        };
        let after = start + word.len();
        match self.byte(after) {
            None => refuse(slip::CONJUNCTION, start),
            Some(byte) if self.card.outer.holds(byte) => self.delimiters(after, &self.card.outer),
            Some(byte) if is_digit_or_sign(byte) => Ok(after),
            Some(_) => refuse(slip::CONJUNCTION, after),
        }
    }

    /// What follows `inf`, which stands at `place`: the next place.
    fn infinity_step(&self, place: usize) -> Result<usize, Refusal> {
        let after_inf = place + 3;
        if self.is_end_or_outer(after_inf) {
            return self.connection_step(after_inf);
        }
        let mut at = after_inf;
        for letter in b"inity" {
            match self.byte(at) {
                None => return refuse(slip::INFINITY, place),
                Some(byte) if byte.to_ascii_lowercase() == *letter => at += 1,
                Some(_) => return refuse(slip::INFINITY, at),
            }
        }
        if self.is_end_or_outer(at) {
            return self.connection_step(at);
        }
        refuse(slip::INFINITY, at)
    }

    fn is_end_or_outer(&self, place: usize) -> bool {
        self.byte(place)
            .is_none_or(|byte| self.card.outer.holds(byte))
    }

    /// The place after a run of delimiters that a step takes, which may be
    /// empty; a run that reaches the end of the text is refused.
    fn delimiters(&self, place: usize, set: &ByteSet) -> Result<usize, Refusal> {
        let length = self.text[place..]
            .iter()
            .take_while(|byte| set.holds(**byte))
            .count();
        if length > 0 && place + length == self.text.len() {
            return refuse(slip::DELIMITERS_END, place);
        }
        Ok(place + length)
    }

    /// The run of digits at a place, possibly empty, and the place after it.
    fn digits(&self, place: usize) -> (&'a [u8], usize) {
        let length = self.text[place..]
            .iter()
            .take_while(|byte| byte.is_ascii_digit())
            .count();
        (&self.text[place..place + length], place + length)
    }

    fn byte(&self, place: usize) -> Option<u8> {
        self.text.get(place).copied()
    }

    /// Whether a word stands at a place, in any case.
    fn word_stands_at(&self, word: &[u8], place: usize) -> bool {
        self.text[place..]
            .get(..word.len())
            .is_some_and(|bytes| bytes.eq_ignore_ascii_case(word))
    }

    // Evaluation.

    fn evaluated(&self, part: &Part) -> Result<Length, Refusal> {
        let (number, product) = match &part.body {
            Body::Infinity => return Ok(limit(part.minus)),
            Body::Number { number, unit } => match unit {
                Some(unit) => (number, of_kind(unit.row.kind).times(&of_unit(unit))),
                None => (number, of_kind(self.card.kind)),
            },
            Body::Spoken { numeral, unit } => (&ONE, spoken_product(numeral, unit)?),
        };
        if product.size.is_zero() {
            return Ok(Length::ZERO);
        }
        let minus = part.minus != product.minus;

        // A = floor(V x 10^18), V being the typed digits with the point moved
        // to the left over the fraction and then by the power.
        let digits = Natural::typed(&[number.whole, number.fraction].concat());
        let power = product.power + number.exponent;
        let attos = digits.shifted(power + 18 - number.fraction.len() as i64);
        let nanos = product.size.times(&attos).shifted(-9);
        Ok(length_of_nanos(minus, &nanos))
    }
}

/// What a spoken number is worth is its product alone, as if the number 1 had
/// been typed.
const ONE: Number = Number {
    whole: b"1",
    fraction: b"",
    exponent: 0,
};

/// Numeral, kind and row multiplied from left to right. Each of the two products
/// has to be in range, also where the row is zero or would bring a power back.
fn spoken_product(numeral: &Row, unit: &Unit) -> Result<Product, Refusal> {
    let by_kind = of_row(numeral).times(&of_kind(unit.row.kind));
    let by_row = by_kind.times(&of_unit(unit));
    if !by_kind.is_in_range() || !by_row.is_in_range() {
        return refuse(16, 0);
    }
    Ok(by_row)
}

/// A coefficient, by sign and size, and a power, of any size.
struct Product {
    minus: bool,
    size: Natural,
    power: i64,
}

impl Product {
    fn of(coefficient: i64, power: i16) -> Self {
        Self {
            minus: coefficient < 0,
            size: Natural::of(coefficient.unsigned_abs()),
            power: i64::from(power),
        }
    }

    fn times(&self, other: &Product) -> Product {
        Product {
            minus: self.minus != other.minus,
            size: self.size.times(&other.size),
            power: self.power + other.power,
        }
    }

    fn is_in_range(&self) -> bool {
        self.size <= Natural::of(9_223_372_036_854_775_807)
            && (-32_768..=32_767).contains(&self.power)
    }
}

fn of_kind(kind: u8) -> Product {
    let (coefficient, power) = KINDS[usize::from(kind)];
    Product::of(coefficient, power)
}

fn of_row(row: &Row) -> Product {
    Product::of(row.coefficient, row.power)
}

/// A unit's row, negated by `ago`.
fn of_unit(unit: &Unit) -> Product {
    let row = of_row(unit.row);
    Product {
        minus: row.minus != unit.ago,
        ..row
    }
}

// Lengths.

/// MAX, or MIN with a minus.
fn limit(negative: bool) -> Length {
    Length {
        negative,
        seconds: u64::MAX,
        nanos: NANOS_OF_A_SECOND - 1,
    }
}

/// A length of so many nanoseconds, clamped; zero has a plus.
fn length_of_nanos(negative: bool, nanos: &Natural) -> Length {
    match (nanos.shifted(-9).to_u64(), nanos.lowest(9).to_u64()) {
        (Some(seconds), Some(rest)) => Length {
            negative: negative && !nanos.is_zero(),
            seconds,
            nanos: rest,
        },
        // The seconds do not fit into 64 bits: 2^64 x 10^9 nanoseconds or more.
        _ => limit(negative),
    }
}

fn nanos_of_length(length: Length) -> Natural {
    Natural::of(length.seconds)
        .shifted(9)
        .plus(&Natural::of(length.nanos))
}

/// The sum, clamped between MIN and MAX.
fn sum(one: Length, other: Length) -> Length {
    let (one_nanos, other_nanos) = (nanos_of_length(one), nanos_of_length(other));
    if one.negative == other.negative {
        length_of_nanos(one.negative, &one_nanos.plus(&other_nanos))
    } else if one_nanos >= other_nanos {
        length_of_nanos(one.negative, &one_nanos.minus(&other_nanos))
    } else {
        length_of_nanos(other.negative, &other_nanos.minus(&one_nanos))
    }
}

/// Too many nanoseconds, or a zero with a minus.
fn is_malformed(record: Length) -> bool {
    let minus_zero = record.negative && record.seconds == 0 && record.nanos == 0;
    record.nanos >= NANOS_OF_A_SECOND || minus_zero
}

/// A length as the writer puts it.
fn spelled(length: Length) -> String {
    let sign = if length.negative { '-' } else { '+' };
    let mut spelled = format!("{sign}{}", length.seconds);
    if length.nanos != 0 {
        let digits = format!("{:09}", length.nanos);
        spelled.push('.');
        spelled.push_str(digits.trim_end_matches('0'));
    }
    spelled
}
