//! Asking fundu-core.
//!
//! The crate has one table of units, so of a hall's and a line's it is given the
//! merged one. It reads text that is UTF-8, under settings that it cannot refuse, so
//! only accepted cards with UTF-8 names and texts of at most 4,096 bytes may be
//! asked about. Everything else, and whatever the crate should never do, is
//! said aloud by a line that begins with `crate`.

use std::any::Any;
use std::cell::RefCell;
use std::fmt;
use std::panic::{self, AssertUnwindSafe, catch_unwind};
use std::sync::Once;

use fundu_core::config::{Config, NumbersLike};
use fundu_core::error::ParseError;
use fundu_core::parse::{DurationRepr, Parser, ReprParserMultiple, ReprParserTemplate};
use fundu_core::time::{Duration, Multiplier, TimeUnit, TimeUnitsLike};

use crate::left_out::Reason;
use crate::plain;
use crate::request::{Answer, ByteSet, Card, Length, Request};
use crate::slips::SYNTAX;
use crate::table::{Row, merged, rows_of};

const KINDS: [TimeUnit; 8] = [
    TimeUnit::NanoSecond,
    TimeUnit::MicroSecond,
    TimeUnit::MilliSecond,
    TimeUnit::Second,
    TimeUnit::Minute,
    TimeUnit::Hour,
    TimeUnit::Day,
    TimeUnit::Week,
];

pub enum CrateAnswer {
    Says(Answer),
    /// The request is left out of the comparison, and why.
    LeftOut(Reason),
    /// The crate cannot be asked, and why.
    Unasked(String),
    /// The crate did what it should never do.
    Loud(String),
}

impl fmt::Display for CrateAnswer {
    fn fmt(&self, out: &mut fmt::Formatter<'_>) -> fmt::Result {
        match self {
            CrateAnswer::Says(answer) => answer.fmt(out),
            CrateAnswer::LeftOut(reason) => write!(out, "- {reason}"),
            CrateAnswer::Unasked(why) => write!(out, "crate cannot be asked: {why}"),
            CrateAnswer::Loud(what) => write!(out, "crate {what}"),
        }
    }
}

pub fn ask(request: &Request) -> CrateAnswer {
    let asked = match request {
        Request::Total { card, text } => {
            as_utf8(text, "text").and_then(|text| under(card, |set_up| set_up.total(text)))
        }
        Request::Part { place, card, text } => {
            as_utf8(text, "text").and_then(|text| under(card, |set_up| set_up.part(text, *place)))
        }
        Request::Shift { .. } => Err("it has no shift total".to_string()),
        Request::Write { .. } => Err("it has no writer".to_string()),
    };
    asked.unwrap_or_else(CrateAnswer::Unasked)
}

/// The crate set up for one card, to be asked about any number of texts.
pub struct SetUp<'a> {
    parser: Parser<'a>,
    units: Units,
    numerals: Option<Numerals>,
}

/// The stretch of bytes that the crate scanned last: its place, its bytes, and
/// the byte behind it. Where it comes to that place again it may take the stretch
/// as it is.
type Buffered<'a> = (usize, &'a [u8], Option<&'a u8>);

/// What a part that the crate has read means for the comparison.
enum Judged {
    /// The crate goes on to the next part.
    GoesOn,
    /// The crate refuses the part or panics.
    Ends,
    LeftOut(Reason),
}

impl SetUp<'_> {
    pub fn total(&self, text: &str) -> CrateAnswer {
        let said = self.said_of_total(text);
        match self.why_left_out(text, &said) {
            Some(reason) => CrateAnswer::LeftOut(reason),
            None => said,
        }
    }

    pub fn part(&self, text: &str, place: u64) -> CrateAnswer {
        self.asked(text, || self.ask_part(text, place))
    }

    /// The crate's total, also where it is left out of the comparison.
    pub fn said_of_total(&self, text: &str) -> CrateAnswer {
        self.asked(text, || self.ask_total(text))
    }

    fn ask_total(&self, text: &str) -> CrateAnswer {
        let total = self
            .parser
            .parse_multiple(text, &self.units, None, self.numerals());
        match total {
            Ok(total) => said(Answer::success(text.len() as u64, length_of(total))),
            Err(error) => refusal(error, 0),
        }
    }

    fn numerals(&self) -> Option<&dyn NumbersLike> {
        self.numerals.as_ref().map(|numerals| numerals as _)
    }

    /// Steps through the parts as `parse_multiple` does, up to the part that
    /// made it refuse, and tells why the crate's total is left out of the
    /// comparison, if it is. Only a spoken number or a refused minus can be the
    /// reason.
    fn why_left_out(&self, text: &str, said: &CrateAnswer) -> Option<Reason> {
        let CrateAnswer::Says(answer) = said else {
            return None;
        };
        if self.numerals.is_none() && answer.number != 5 {
            return None;
        }
        let mut sign_is_forgotten = None;
        let mut parser = &mut ReprParserMultiple::new(text);
        loop {
            let (place, buffered) = (parser.bytes.current_pos, parser.bytes.buffer);
            let config = &self.parser.config;
            let (mut read, rest) = match parser.parse(config, &self.units, None, self.numerals()) {
                Ok(parsed) => parsed,
                Err(ParseError::InvalidInput(_)) if self.takes_old_stretch(place, buffered) => {
                    return Some(Reason::OldStretch);
                }
                Err(_) => return None,
            };
            match self.judged(&mut read) {
                Judged::GoesOn => {}
                Judged::Ends => return None,
                // With negatives allowed the sign is of no matter to what is
                // refused later.
                Judged::LeftOut(Reason::ForgottenSign) if config.allow_negative => {
                    sign_is_forgotten = Some(Reason::ForgottenSign);
                }
                Judged::LeftOut(reason) => return Some(reason),
            }
            match rest {
                Some(next) => parser = next,
                None => return sign_is_forgotten,
            }
        }
    }

    /// Whether the part at a place, where no number begins, has a numeral that
    /// the crate does not look up: it takes the stretch that it buffered when it
    /// looked for a unit there, and that one goes on behind an inner delimiter.
    fn takes_old_stretch(&self, place: usize, buffered: Option<Buffered>) -> bool {
        let (Some(numerals), Some((start, stretch, next))) = (&self.numerals, buffered) else {
            return false;
        };
        let is_taken = start == place && next.is_none_or(|byte| is_inner(*byte));
        let length = stretch.iter().position(|byte| is_inner(*byte));
        is_taken && length.is_some_and(|length| numerals.has(&stretch[..length]))
    }

    fn judged(&self, read: &mut DurationRepr) -> Judged {
        if let (Some(numeral), Some(unit)) = (read.numeral, read.unit) {
            let product = numeral
                .checked_mul(unit.multiplier())
                .and_then(|product| product.checked_mul(read.multiplier));
            let Some(Multiplier(coefficient, power)) = product else {
                return Judged::Ends;
            };
            if coefficient == i64::MIN {
                return Judged::LeftOut(Reason::LeastCoefficient);
            }
            if coefficient != 0 && power > 19 && read.is_negative == Some(true) {
                return Judged::LeftOut(Reason::ForgottenSign);
            }
        }
        let negatives = self.parser.config.allow_negative;
        match read.parse() {
            // The crate keeps a minus on such a part and refuses it; the port
            // accepts it as zero.
            Ok(part) if !negatives && part.is_negative() && part.is_zero() => {
                Judged::LeftOut(Reason::MinusZero)
            }
            Ok(part) if negatives || !part.is_negative() => Judged::GoesOn,
            Ok(_) | Err(_) => Judged::Ends,
        }
    }

    fn ask_part(&self, text: &str, place: u64) -> CrateAnswer {
        let rest = usize::try_from(place)
            .ok()
            .and_then(|place| text.get(place..));
        let Some(rest) = rest else {
            let why = "the place is beyond the text or within a letter";
            return CrateAnswer::Unasked(why.to_string());
        };
        let config = &self.parser.config;
        let mut parser = ReprParserMultiple::new(rest);
        let (mut read, next) = match parser.parse(config, &self.units, None, self.numerals()) {
            Ok((read, Some(parser))) => (read, parser.bytes.current_pos),
            Ok((read, None)) => (read, rest.len()),
            Err(error) => return refusal(error, place),
        };
        if let Judged::LeftOut(reason) = self.judged(&mut read) {
            return CrateAnswer::LeftOut(reason);
        }
        match read.parse() {
            Ok(part) if part.is_negative() && !config.allow_negative => {
                refusal(ParseError::NegativeNumber, place)
            }
            Ok(part) => said(Answer::success(place + next as u64, length_of(part))),
            Err(error) => refusal(error, place),
        }
    }

    /// The answer to a question about a text that the crate may be asked about.
    /// Where the product of a spoken number overflows the crate panics; that is
    /// 16.
    fn asked(&self, text: &str, question: impl FnOnce() -> CrateAnswer) -> CrateAnswer {
        if text.len() > plain::MOST_TEXT_BYTES {
            return CrateAnswer::Unasked("the text is too long".to_string());
        }
        match catch_unwind(AssertUnwindSafe(question)) {
            Ok(answer) => answer,
            Err(panic) if self.numerals.is_some() && is_overflow(&*panic) => {
                said(Answer::refusal(16, 0))
            }
            Err(_) => CrateAnswer::Loud("panicked".to_string()),
        }
    }
}

/// Whether the crate panicked because a product of multipliers overflowed.
fn is_overflow(panic: &(dyn Any + Send)) -> bool {
    let said = match panic.downcast_ref::<String>() {
        Some(said) => Some(said.as_str()),
        None => panic.downcast_ref::<&str>().copied(),
    };
    said == Some("Multiplier: Overflow when multiplying")
}

/// Has nothing printed of such a panic, of which a run may have many.
fn be_quiet_about_overflows() {
    static ONCE: Once = Once::new();
    ONCE.call_once(|| {
        let tell = panic::take_hook();
        panic::set_hook(Box::new(move |info| {
            if !is_overflow(info.payload()) {
                tell(info);
            }
        }));
    });
}

fn said(answer: Answer) -> CrateAnswer {
    CrateAnswer::Says(answer)
}

/// The crate's error under document 01's number, places counted from `base`.
/// For 1, 3, 4 and 6 the crate gives no place.
fn refusal(error: ParseError, base: u64) -> CrateAnswer {
    let (number, position) = match error {
        ParseError::Empty => (1, None),
        ParseError::Syntax(place, _) => (SYNTAX, Some(base + place as u64)),
        ParseError::PositiveExponentOverflow => (3, None),
        ParseError::NegativeExponentOverflow => (4, None),
        ParseError::NegativeNumber => (5, Some(0)),
        ParseError::InvalidInput(_) => (6, None),
        ParseError::TimeUnit(place, _) => (15, Some(base + place as u64)),
        unexpected => return CrateAnswer::Loud(format!("said {unexpected:?}")),
    };
    said(Answer {
        number,
        position,
        length: Length::ZERO,
    })
}

/// A length with zero always plus, as the signs of zeros are not compared.
pub fn length_of(duration: Duration) -> Length {
    let size = std::time::Duration::try_from(duration.abs())
        .expect("a length without sign is a duration of the standard library");
    Length {
        negative: duration.is_negative() && !duration.is_zero(),
        seconds: size.as_secs(),
        nanos: u64::from(size.subsec_nanos()),
    }
}

thread_local! {
    // The crate's delimiters are plain functions without anything to carry a
    // set in, so the sets of the card in use stand here.
    static INNER: RefCell<ByteSet> = const { RefCell::new(ByteSet::EMPTY) };
    static OUTER: RefCell<ByteSet> = const { RefCell::new(ByteSet::EMPTY) };
}

fn is_inner(byte: u8) -> bool {
    INNER.with_borrow(|set| set.holds(byte))
}

fn is_outer(byte: u8) -> bool {
    OUTER.with_borrow(|set| set.holds(byte))
}

/// Asks under the crate's form of a card, if the crate may be asked about it at
/// all: it has no refusals of its own for a wrong one, and a delimiter that
/// splits a letter would even be unsound.
pub fn under<Answered>(
    card: &Card,
    questions: impl FnOnce(&SetUp) -> Answered,
) -> Result<Answered, String> {
    if !plain::accepts(card) {
        return Err("the settings or a table are not accepted".to_string());
    }
    set_up(card, questions)
}

/// The same under a card that may also have units that nobody could type, which
/// the crate takes. Exponents let every name be typed and change nothing else
/// of what is accepted.
pub fn under_untypable<Answered>(
    card: &Card,
    questions: impl FnOnce(&SetUp) -> Answered,
) -> Result<Answered, String> {
    let mut with_exponents = card.clone();
    with_exponents.switches.exponents = true;
    if !plain::accepts(&with_exponents) {
        return Err("more is wrong with the card than names".to_string());
    }
    set_up(card, questions)
}

fn set_up<Answered>(
    card: &Card,
    questions: impl FnOnce(&SetUp) -> Answered,
) -> Result<Answered, String> {
    INNER.set(card.inner.clone());
    OUTER.set(card.outer.clone());
    let units = merged(&card.hall, &card.line).ok_or("a row is malformed")?;
    let units = Units::of(units)?;
    let numerals = rows_of(&card.numerals).ok_or("a numeral's row is malformed")?;
    let numerals = (!numerals.is_empty()).then(|| Numerals::of(numerals));
    be_quiet_about_overflows();
    let mut words = Vec::new();
    for word in card.conjunctions.words() {
        words.push(as_utf8(word, "conjunction")?);
    }

    let mut config = Config::new();
    config.default_unit = *KINDS
        .get(usize::from(card.kind))
        .ok_or("no such default kind")?;
    config.allow_multiple = true;
    config.conjunctions = Some(&words);
    config.inner_delimiter = is_inner;
    config.outer_delimiter = is_outer;
    config.number_is_optional = false;
    // The fields are set one by one because the builder's `allow_ago` would
    // switch negatives on as well.
    config.allow_negative = card.switches.negatives;
    config.disable_fraction = !card.switches.fractions;
    config.disable_exponent = !card.switches.exponents;
    config.disable_infinity = !card.switches.infinity;
    config.allow_ago = card.switches.ago;
    config.allow_sign_delimiter = card.switches.sign_delimiter;
    config.allow_time_unit_delimiter = card.switches.unit_delimiter;
    let parser = Parser::with_config(config);
    Ok(questions(&SetUp {
        parser,
        units,
        numerals,
    }))
}

/// The merged table's rows as the crate looks units up.
struct Units {
    rows: Vec<(String, TimeUnit, Multiplier)>,
}

impl Units {
    fn of(table: Vec<Row>) -> Result<Self, String> {
        let mut rows = Vec::new();
        for row in table {
            let kind = *KINDS
                .get(usize::from(row.kind))
                .ok_or("a row has no such kind")?;
            let name = as_utf8(&row.name, "unit name")?.to_string();
            rows.push((name, kind, Multiplier(row.coefficient, row.power)));
        }
        Ok(Self { rows })
    }
}

impl TimeUnitsLike for Units {
    fn is_empty(&self) -> bool {
        self.rows.is_empty()
    }

    fn get(&self, identifier: &str) -> Option<(TimeUnit, Multiplier)> {
        self.rows
            .iter()
            .find(|(name, _, _)| name == identifier)
            .map(|(_, kind, multiplier)| (*kind, *multiplier))
    }
}

/// The numeral table's rows as the crate looks numerals up.
struct Numerals {
    rows: Vec<(Vec<u8>, Multiplier)>,
}

impl Numerals {
    fn of(table: Vec<Row>) -> Self {
        let row_of = |row: Row| (row.name, Multiplier(row.coefficient, row.power));
        Self {
            rows: table.into_iter().map(row_of).collect(),
        }
    }

    fn has(&self, name: &[u8]) -> bool {
        self.rows.iter().any(|(other, _)| other == name)
    }
}

impl NumbersLike for Numerals {
    fn get(&self, input: &str) -> Option<Multiplier> {
        self.rows
            .iter()
            .find(|(name, _)| name == input.as_bytes())
            .map(|(_, multiplier)| *multiplier)
    }
}

fn as_utf8<'a>(bytes: &'a [u8], what: &str) -> Result<&'a str, String> {
    std::str::from_utf8(bytes).map_err(|_| format!("a {what} is not UTF-8"))
}
