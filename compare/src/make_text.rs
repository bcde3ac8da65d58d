//! Making texts from a card by its grammar.
//!
//! A careful text keeps to what its card allows, so that most of them are
//! accepted; a reckless one does not.

use crate::request::Card;
use crate::rng::Random;
use crate::table::{KINDS, Row, is_led_by_e, merged, rows_of};

/// Longer texts are not made; the long end is for hand-written requests.
pub const MOST_TEXT_BYTES: usize = 200;

const EXPONENT_TOP: i64 = i16::MAX as i64;
const EXPONENT_BOTTOM: i64 = i16::MIN as i64;

/// What may stand where a unit should and is mostly none.
const STRANGERS: &[&[u8]] = &[b"q", b"sx", b"ago", b"e", b"in"];

/// Bytes and letters that a damaged text may suddenly hold.
const DAMAGE: &[char] = &[
    '0', '1', '9', '+', '-', '.', 'e', 'E', 'i', 'n', 'f', 'a', 'g', 'o', 's', ' ', '\0', '\t',
    ',', '/', ':', 'µ', 'é', '秒', 'x', '\u{7f}',
];

pub struct MadeText {
    pub bytes: Vec<u8>,
    /// Where parts begin, as far as the maker knows.
    pub starts: Vec<usize>,
}

/// What a card offers to its texts, taken apart once for a run of requests.
pub struct Offer {
    card: Card,
    /// The units that its two tables have between them.
    rows: Vec<Row>,
    numerals: Vec<Row>,
    words: Vec<Vec<u8>>,
    inner: Vec<u8>,
    outer: Vec<u8>,
}

impl Offer {
    pub fn new(card: Card) -> Self {
        let rows = merged(&card.hall, &card.line).unwrap_or_default();
        let numerals = rows_of(&card.numerals).unwrap_or_default();
        let words = card
            .conjunctions
            .words()
            .iter()
            .map(|word| word.to_vec())
            .collect();
        let (inner, outer) = (card.inner.bytes(), card.outer.bytes());
        Self {
            card,
            rows,
            numerals,
            words,
            inner,
            outer,
        }
    }

    pub fn card(&self) -> &Card {
        &self.card
    }

    /// An alphabet for all short texts: a digit, a sign, the point, the
    /// exponent's letter, a delimiter, first letters of a name, of a numeral and
    /// of a word.
    pub fn alphabet(&self, random: &mut Random, size: usize) -> Vec<char> {
        let mut letters = vec![*random.pick(&['1', '0', '5'])];
        let mut others = vec![*random.pick(&['+', '-']), '.', 'e'];
        others.extend(self.inner.first().map(|byte| char::from(*byte)));
        others.extend(self.outer.first().map(|byte| char::from(*byte)));
        let rows = self.rows.iter().chain(&self.numerals);
        let names = rows.map(|row| row.name.as_slice());
        for name in names.chain(self.words.iter().map(Vec::as_slice)) {
            let first = std::str::from_utf8(name)
                .ok()
                .and_then(|name| name.chars().next());
            others.extend(first);
        }
        while letters.len() < size && !others.is_empty() {
            let chosen = others.swap_remove(random.below(others.len() as u64) as usize);
            if !letters.contains(&chosen) {
                letters.push(chosen);
            }
        }
        letters
    }
}

pub fn make_text(random: &mut Random, offer: &Offer) -> MadeText {
    if random.chance(1) {
        return MadeText {
            bytes: Vec::new(),
            starts: vec![0],
        };
    }
    loop {
        let careful = random.chance(75);
        let mut maker = TextMaker {
            random,
            offer,
            careful,
            bytes: Vec::new(),
            starts: Vec::new(),
        };
        maker.parts();
        let mut made = MadeText {
            bytes: maker.bytes,
            starts: maker.starts,
        };
        if random.chance(15) {
            made.bytes = damaged(random, offer, made.bytes);
        }
        if made.bytes.len() <= MOST_TEXT_BYTES {
            return made;
        }
    }
}

/// A number as it is about to be typed.
struct Number {
    whole: Vec<u8>,
    fraction: Option<Vec<u8>>,
    exponent: Option<i64>,
}

/// What a part ended with, which decides what may follow it directly.
#[derive(Clone, Copy, PartialEq)]
enum Ending {
    Number,
    Unit,
    Infinity,
}

/// How the next part has to begin.
#[derive(Clone, Copy, PartialEq)]
enum Beginning {
    Free,
    SignOrDigit,
    Sign,
    Numeral,
}

struct TextMaker<'a> {
    random: &'a mut Random,
    offer: &'a Offer,
    careful: bool,
    bytes: Vec<u8>,
    starts: Vec<usize>,
}

impl TextMaker<'_> {
    fn parts(&mut self) {
        let count = match self.random.below(20) {
            0..=10 => 1,
            11..=15 => 2,
            16..=17 => 3,
            18 => 4,
            _ => 2 + self.random.below(6),
        };
        let mut beginning = Beginning::Free;
        for index in 0..count {
            self.starts.push(self.bytes.len());
            let ending = self.part(beginning);
            if index + 1 < count {
                beginning = self.connection(ending);
            }
        }
        if !self.careful && self.random.chance(25) {
            self.loose_end();
        }
    }

    /// Something that may not end a text.
    fn loose_end(&mut self) {
        match self.random.below(4) {
            0 => self.outer_run(),
            1 => self.inner_run(),
            2 => {
                self.outer_run();
                self.word();
            }
            _ => {
                self.outer_run();
                self.word();
                self.outer_run();
            }
        }
    }

    fn part(&mut self, beginning: Beginning) -> Ending {
        let allowed = self.offer.card.switches.infinity || !self.careful;
        let is_free = !matches!(beginning, Beginning::SignOrDigit | Beginning::Numeral);
        if allowed && self.random.chance(8) && is_free {
            self.sign(beginning, false);
            self.infinity();
            return Ending::Infinity;
        }
        if beginning == Beginning::Numeral || self.can_speak() && self.random.chance(50) {
            return self.spoken(beginning);
        }
        let unit = self.choose_unit();
        let ago = unit.is_some() && self.wants_ago();
        let (coefficient, power) = self.product(unit.as_ref());
        self.sign(beginning, (coefficient < 0) != ago);
        let led_by_e = unit.as_ref().is_some_and(|unit| is_led_by_e(&unit.name));
        self.number(coefficient, power, beginning, led_by_e);
        let Some(unit) = unit else {
            if !self.careful && self.random.chance(10) {
                self.stranger();
            }
            return Ending::Number;
        };
        // Without exponents a name led by `e` can only follow a delimiter.
        let needs_delimiter = led_by_e && !self.offer.card.switches.exponents;
        let percent = if needs_delimiter { 80 } else { 40 };
        if self.may_do(self.offer.card.switches.unit_delimiter) && self.random.chance(percent) {
            self.inner_run();
        }
        self.bytes.extend_from_slice(&unit.name);
        if ago {
            self.ago();
        }
        Ending::Unit
    }

    /// Whether a numeral is to be considered, which can be read only with an
    /// inner delimiter and a unit behind it.
    fn can_speak(&self) -> bool {
        let possible = !self.offer.inner.is_empty() && !self.offer.rows.is_empty();
        !self.offer.numerals.is_empty() && (possible || !self.careful)
    }

    /// A part with a numeral. Directly behind a unit or a word it needs a sign;
    /// directly behind a number it does not.
    fn spoken(&mut self, beginning: Beginning) -> Ending {
        let numeral = self.random.pick(&self.offer.numerals).clone();
        let unit = match self.offer.rows.as_slice() {
            [] => None,
            rows => Some(self.random.pick(rows).clone()),
        };
        let ago = unit.is_some() && self.wants_ago();
        let (coefficient, _) = self.product(unit.as_ref());
        let beginning = match beginning {
            Beginning::SignOrDigit => Beginning::Sign,
            other => other,
        };
        let turned = (coefficient < 0) != (numeral.coefficient < 0);
        self.sign(beginning, turned != ago);
        self.numeral_name(&numeral.name);
        if self.careful || self.random.chance(85) {
            self.inner_run();
        } else {
            self.odd_run();
        }
        match unit {
            Some(unit) if self.careful || self.random.chance(75) => {
                self.bytes.extend_from_slice(&unit.name);
            }
            _ => self.no_unit(),
        }
        if ago {
            self.ago();
        }
        Ending::Unit
    }

    /// The name of a numeral; a reckless one may be in another case, shorter or
    /// longer, or have something behind it that is no inner delimiter.
    fn numeral_name(&mut self, name: &[u8]) {
        if self.careful || self.random.chance(70) {
            self.bytes.extend_from_slice(name);
            return;
        }
        match self.random.below(5) {
            0 => self.bytes.extend(name.iter().map(|letter| letter ^ 32)),
            1 => self.bytes.extend_from_slice(&name[..name.len() - 1]),
            2 => {
                self.bytes.extend_from_slice(name);
                self.bytes.push(*self.random.pick(b"xs5+-.e"));
            }
            3 => {
                self.bytes.extend_from_slice(name);
                self.outer_run();
            }
            _ => self.in_mixed_case(name),
        }
    }

    /// Something else where inner delimiters should stand: nothing, outer ones,
    /// or both.
    fn odd_run(&mut self) {
        match self.random.below(4) {
            0 => {}
            1 => self.outer_run(),
            2 => {
                self.outer_run();
                self.inner_run();
            }
            _ => {
                self.inner_run();
                self.outer_run();
            }
        }
    }

    /// Something else where the unit of a numeral should stand: nothing, a
    /// number, a sign, another numeral or any letters.
    fn no_unit(&mut self) {
        match self.random.below(6) {
            0 => {}
            1 => self.bytes.push(*self.random.pick(b"0159.")),
            2 => self.bytes.push(*self.random.pick(b"+-")),
            3 => {
                let numeral = self.random.pick(&self.offer.numerals);
                self.bytes.extend_from_slice(&numeral.name);
            }
            4 => self.word(),
            _ => self.stranger(),
        }
    }

    fn stranger(&mut self) {
        let letters = *self.random.pick(STRANGERS);
        self.bytes.extend_from_slice(letters);
    }

    /// Whether something behind a switch is to be considered.
    fn may_do(&mut self, switch: bool) -> bool {
        switch || (!self.careful && self.random.chance(20))
    }

    fn choose_unit(&mut self) -> Option<Row> {
        if self.offer.rows.is_empty() || self.random.chance(35) {
            None
        } else {
            Some(self.random.pick(&self.offer.rows).clone())
        }
    }

    fn wants_ago(&mut self) -> bool {
        let possible = self.offer.card.switches.ago && !self.offer.inner.is_empty();
        self.may_do(possible) && self.random.chance(25)
    }

    fn product(&self, unit: Option<&Row>) -> (i64, i64) {
        let kind = unit.map_or(self.offer.card.kind, |unit| unit.kind);
        let (coefficient, power) = KINDS[usize::from(kind)];
        match unit {
            None => (coefficient, i64::from(power)),
            Some(unit) => (
                coefficient.saturating_mul(unit.coefficient),
                i64::from(power) + i64::from(unit.power),
            ),
        }
    }

    /// The sign and its delimiters. `turned` says that the rest of the part
    /// turns the sign; with negatives forbidden a careful text types the minus
    /// that makes the part positive again.
    fn sign(&mut self, beginning: Beginning, turned: bool) {
        let must_be_positive = self.careful && !self.offer.card.switches.negatives;
        let typed = if must_be_positive && turned {
            Some(b'-')
        } else if must_be_positive {
            (beginning == Beginning::Sign || self.random.chance(30)).then_some(b'+')
        } else if beginning == Beginning::Sign || self.random.chance(40) {
            Some(*self.random.pick(b"+-"))
        } else {
            None
        };
        let Some(sign) = typed else { return };
        self.bytes.push(sign);
        if self.may_do(self.offer.card.switches.sign_delimiter) && self.random.chance(30) {
            self.inner_run();
        }
    }

    fn infinity(&mut self) {
        let whole = *self.random.pick(&["inf", "infinity"]);
        let damaged = [
            "i",
            "in",
            "infi",
            "infinit",
            "infx",
            "infinix",
            "infinityx",
            "inf+",
            "infinity1",
            "infµ",
        ];
        let typed = if !self.careful && self.random.chance(60) {
            *self.random.pick(&damaged)
        } else {
            whole
        };
        self.in_mixed_case(typed.as_bytes());
    }

    fn ago(&mut self) {
        self.inner_run();
        self.in_mixed_case(b"ago");
        if !self.careful && self.random.chance(40) {
            // Followed by what does not keep it, as far as the card goes.
            let tail = *self
                .random
                .pick(&[b"s".as_slice(), b".5", b"\0", b"ago", b","]);
            self.bytes.extend_from_slice(tail);
        }
    }

    fn in_mixed_case(&mut self, word: &[u8]) {
        for letter in word {
            let letter = if self.random.chance(25) {
                letter.to_ascii_uppercase()
            } else if self.random.chance(10) {
                letter.to_ascii_lowercase()
            } else {
                *letter
            };
            self.bytes.push(letter);
        }
    }

    fn inner_run(&mut self) {
        self.run_of(&self.offer.inner);
    }

    fn outer_run(&mut self) {
        self.run_of(&self.offer.outer);
    }

    fn run_of(&mut self, delimiters: &[u8]) {
        if delimiters.is_empty() {
            if !self.careful {
                self.bytes.push(b' ');
            }
            return;
        }
        for _ in 0..=self.random.below(8) / 5 {
            self.bytes.push(*self.random.pick(delimiters));
        }
    }

    fn word(&mut self) {
        if self.offer.words.is_empty() {
            return;
        }
        let word = self.random.pick(&self.offer.words);
        self.in_mixed_case(word);
    }

    /// What stands between two parts.
    fn connection(&mut self, ending: Ending) -> Beginning {
        if !self.careful && self.random.chance(40) {
            return self.reckless_connection();
        }
        let no_delimiters = self.offer.outer.is_empty();
        if ending != Ending::Infinity && (no_delimiters || self.random.chance(30)) {
            return match ending {
                Ending::Unit => Beginning::SignOrDigit,
                // A numeral may follow a number directly.
                _ if self.can_speak() && self.random.chance(30) => Beginning::Numeral,
                _ => Beginning::Sign,
            };
        }
        self.outer_run();
        if ending == Ending::Number && self.careful && self.offer.card.switches.unit_delimiter {
            // Inner delimiters that are outer ones too would be taken by the
            // step before the unit, and the word would then begin a part.
            let shared = |byte: &u8| self.offer.card.inner.holds(*byte);
            if self.bytes.last().is_some_and(shared) {
                return Beginning::Free;
            }
        }
        if self.offer.words.is_empty() || self.random.chance(45) {
            return Beginning::Free;
        }
        self.word();
        if self.random.chance(70) {
            self.outer_run();
            Beginning::Free
        } else {
            Beginning::SignOrDigit
        }
    }

    fn reckless_connection(&mut self) -> Beginning {
        match self.random.below(7) {
            0 => self.word(),
            1 | 6 => self.inner_run(),
            2 => {
                self.outer_run();
                self.word();
                self.bytes.push(*self.random.pick(b"xsi."));
            }
            3 => {
                self.outer_run();
                self.word();
                self.outer_run();
                self.word();
                self.outer_run();
            }
            4 => {
                self.outer_run();
                self.word();
                self.inner_run();
            }
            _ => {}
        }
        Beginning::Free
    }

    fn number(&mut self, coefficient: i64, power: i64, beginning: Beginning, led_by_e: bool) {
        let mut number = match self.random.below(100) {
            0..=44 => self.small_number(),
            45..=59 => self.long_number(17, 22),
            60..=79 => self.limit_number(coefficient),
            80..=88 => self.zero_number(),
            89..=90 => self.long_number(30, 80),
            _ => self.small_number(),
        };
        if self.random.chance(15) {
            let leading = self.random.below(12) as usize;
            number.whole.splice(0..0, vec![b'0'; leading]);
        }
        if self.may_do(self.offer.card.switches.exponents) {
            self.add_exponent(&mut number, power);
            // A name led by `e` can only follow an exponent directly.
            if led_by_e && number.exponent.is_none() && self.random.chance(80) {
                number.exponent = Some(self.random.between(-3, 3));
            }
        }
        // A part that follows a unit or a word directly must begin with a sign
        // or a digit, and never with the point.
        if number.whole.is_empty() && beginning == Beginning::SignOrDigit {
            number.whole.push(b'0');
        }
        self.type_number(&number);
    }

    fn digits(&mut self, fewest: u64, most: u64) -> Vec<u8> {
        let count = fewest + self.random.below(most - fewest + 1);
        let flavour = self.random.below(6);
        (0..count)
            .map(|_| match flavour {
                0 => b'9',
                1 => *self.random.pick(b"01"),
                _ => b'0' + self.random.below(10) as u8,
            })
            .collect()
    }

    fn small_number(&mut self) -> Number {
        let whole = self.digits(1, 3);
        let fraction = self.random.chance(40).then(|| self.digits(1, 4));
        Number {
            whole,
            fraction,
            exponent: None,
        }
    }

    fn long_number(&mut self, fewest: u64, most: u64) -> Number {
        let whole = if self.random.chance(70) {
            self.digits(fewest, most)
        } else {
            self.digits(0, 3)
        };
        let fraction = if whole.is_empty() || self.random.chance(50) {
            Some(self.digits(fewest, most))
        } else {
            None
        };
        Number {
            whole,
            fraction,
            exponent: None,
        }
    }

    /// A number at the largest length, or at the place where the product with
    /// this coefficient passes it.
    fn limit_number(&mut self, coefficient: i64) -> Number {
        let size = coefficient.unsigned_abs().max(1);
        let landmark = match self.random.below(6) {
            0 => u64::MAX,
            1 => i64::MAX as u64,
            2 => 10_u64.pow(18 + self.random.below(2) as u32),
            3 => u64::MAX / 10,
            _ => u64::MAX / size,
        };
        let whole = if landmark == u64::MAX && self.random.chance(40) {
            // The first numbers that no longer fit into 64 bits.
            let beyond = ["18446744073709551616", "18446744073709551617"];
            self.random.pick(&beyond).as_bytes().to_vec()
        } else {
            let step = self.random.below(5).wrapping_sub(2);
            landmark.wrapping_add(step).to_string().into_bytes()
        };
        let fraction = match self.random.below(6) {
            0 => Some(b"999999999".to_vec()),
            1 => Some(vec![b'9'; 15 + self.random.below(6) as usize]),
            2 => Some(self.digits(1, 20)),
            _ => None,
        };
        Number {
            whole,
            fraction,
            exponent: None,
        }
    }

    /// Zeros and near zeros, with and without digits on either side.
    fn zero_number(&mut self) -> Number {
        let zeros = self.random.below(20) as usize;
        let (whole, fraction) = match self.random.below(6) {
            0 => (b"0".to_vec(), None),
            1 => (vec![b'0'; 1 + zeros], Some(vec![b'0'; zeros])),
            2 => (self.digits(1, 2), Some(Vec::new())),
            3 => (Vec::new(), Some(self.digits(1, 3))),
            4 => {
                let fraction = [vec![b'0'; zeros], self.digits(1, 3)].concat();
                (Vec::new(), Some(fraction))
            }
            _ => {
                let fraction = [vec![b'0'; zeros], self.digits(1, 3)].concat();
                (b"0".to_vec(), Some(fraction))
            }
        };
        Number {
            whole,
            fraction,
            exponent: None,
        }
    }

    fn add_exponent(&mut self, number: &mut Number, power: i64) {
        if power.abs() > 12 && self.random.chance(75) {
            // Takes back most of the unit's power, so that the part is neither
            // zero nor beyond the limit.
            let near = self.random.between(-22, 22);
            number.exponent = Some((near - power).clamp(EXPONENT_BOTTOM, EXPONENT_TOP));
            return;
        }
        match self.random.below(100) {
            0..=9 => number.exponent = Some(self.random.between(-3, 3)),
            10..=19 => number.exponent = Some(self.random.between(-22, 22)),
            20..=25 => {
                let near = *self.random.pick(&[18, 19, 20, -18, -19, -20, 9, -9]);
                number.exponent = Some(near);
            }
            26..=33 => self.extreme_exponent(number),
            34..=42 => self.move_point(number),
            _ => {}
        }
    }

    fn extreme_exponent(&mut self, number: &mut Number) {
        let inside = [32_767, 32_766, -32_768, -32_767, 30_000, -30_000];
        let outside = [32_768, -32_769, 32_769, -32_770, 99_999, -1_000_000_000_000];
        let chosen = if self.careful && self.random.chance(70) {
            self.random.pick(&inside)
        } else {
            self.random.pick(&outside)
        };
        number.exponent = Some(*chosen);
    }

    /// The same value typed with the point elsewhere and an exponent that says
    /// so.
    fn move_point(&mut self, number: &mut Number) {
        let mut fraction = number.fraction.take().unwrap_or_default();
        let steps = 1 + self.random.below(22) as usize;
        if self.random.chance(50) {
            for _ in 0..steps {
                fraction.insert(0, number.whole.pop().unwrap_or(b'0'));
            }
            number.exponent = Some(steps as i64);
        } else {
            for _ in 0..steps {
                let digit = if fraction.is_empty() {
                    b'0'
                } else {
                    fraction.remove(0)
                };
                number.whole.push(digit);
            }
            number.exponent = Some(-(steps as i64));
        }
        number.fraction = (!fraction.is_empty()).then_some(fraction);
    }

    fn type_number(&mut self, number: &Number) {
        let may_point = self.offer.card.switches.fractions || !self.careful;
        self.bytes.extend_from_slice(&number.whole);
        match &number.fraction {
            Some(fraction) if may_point => {
                self.bytes.push(b'.');
                self.bytes.extend_from_slice(fraction);
            }
            Some(fraction) if number.whole.is_empty() => self.bytes.extend_from_slice(fraction),
            None if number.whole.is_empty() => self.bytes.push(b'0'),
            _ => {}
        }
        if let Some(exponent) = number.exponent {
            self.type_exponent(exponent);
        }
    }

    fn type_exponent(&mut self, exponent: i64) {
        self.bytes.push(*self.random.pick(b"eE"));
        if exponent < 0 {
            self.bytes.push(b'-');
        } else if self.random.chance(25) {
            self.bytes.push(b'+');
        }
        if !self.careful && self.random.chance(8) {
            return;
        }
        if self.random.chance(15) {
            let zeros = 1 + self.random.below(6) as usize;
            self.bytes.extend(vec![b'0'; zeros]);
        }
        let digits = exponent.unsigned_abs().to_string();
        self.bytes.extend_from_slice(digits.as_bytes());
    }
}

/// The text with one letter changed, dropped, doubled or put in, cut short, or
/// with a delimiter at its end. Works on letters, so that UTF-8 stays UTF-8.
fn damaged(random: &mut Random, offer: &Offer, bytes: Vec<u8>) -> Vec<u8> {
    let Ok(text) = String::from_utf8(bytes) else {
        return Vec::new();
    };
    let mut letters: Vec<char> = text.chars().collect();
    let at = random.below(letters.len() as u64 + 1) as usize;
    let within = at < letters.len();
    match random.below(7) {
        0 | 1 if within => letters[at] = *random.pick(DAMAGE),
        2 if within => {
            letters.remove(at);
        }
        3 if within => letters.insert(at, letters[at]),
        4 => letters.truncate(at),
        5 => {
            let every = [offer.inner.as_slice(), &offer.outer, b" "].concat();
            letters.push(char::from(*random.pick(&every)));
        }
        _ => letters.insert(at, *random.pick(DAMAGE)),
    }
    letters.into_iter().collect::<String>().into_bytes()
}
