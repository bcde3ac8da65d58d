//! Cards: the settings, the hall's units, the line's and the numerals, under which
//! texts are read.

use crate::length::Length;
use crate::lookup::LookedUp;
use crate::parts::{Part, Parts};
use crate::raw::{self, Answer, Settings};
use crate::refusal::Refusal;

/// How many conjunctions the settings have room for.
const CONJUNCTION_ROOM: usize = 4;

/// The fields of a row: the size of its name, the name, the kind, coefficient
/// and power, and zeros.
const ROW_SIZE: usize = 48;
const NAME_AT: usize = 1;
const NAME_ROOM: usize = 32;
const KIND_AT: usize = 33;
const COEFFICIENT_AT: usize = 34;
const POWER_AT: usize = 42;
const ZEROS_AT: usize = 44;

/// The eight kinds of units.
#[allow(missing_docs)] // the names say it
#[derive(Clone, Copy, PartialEq, Eq, Hash, Debug)]
pub enum Kind {
    Nanosecond = 0,
    Microsecond = 1,
    Millisecond = 2,
    Second = 3,
    Minute = 4,
    Hour = 5,
    Day = 6,
    Week = 7,
}

/// Settings, the hall's unit table, the line's and a numeral table that the port
/// accepts. A card is checked when it is made. Afterwards only its units can be
/// changed, one at a time, and into a card that is accepted too.
///
/// A unit is looked up in the line's table first and then in the hall's, so
/// where both have a name the line's unit is read. Beside each of the two the card
/// keeps an index, the numbers of its rows in the order of their names, through
/// which no more than 7 names of a table are compared.
#[derive(Clone, PartialEq, Eq, Hash, Debug)]
pub struct Card {
    settings: Settings,
    hall: Vec<u8>,
    hall_index: Vec<u8>,
    line: Vec<u8>,
    line_index: Vec<u8>,
    numerals: Vec<u8>,
}

impl Card {
    /// A card to be made step by step. It begins with all switches off, no
    /// delimiters, no conjunctions, seconds for numbers without a unit, no units
    /// and no numerals.
    pub fn builder() -> CardBuilder {
        CardBuilder::default()
    }

    /// Card A of document 01: all switches on but the one after a sign, spaces
    /// as delimiters, the conjunction `and`, and the units `ns`, `ms`, `s`,
    /// `min`, `turn` (12.3 ms) and `block` (10,000,000,000 s).
    pub fn a() -> Self {
        Self::builder()
            .negatives(true)
            .fractions(true)
            .exponents(true)
            .infinity(true)
            .ago(true)
            .before_unit(true)
            .inner(" ")
            .outer(" ")
            .conjunction("and")
            .unit("ns", Kind::Nanosecond, 1, 0)
            .unit("ms", Kind::Millisecond, 1, 0)
            .unit("s", Kind::Second, 1, 0)
            .unit("min", Kind::Minute, 1, 0)
            .unit("turn", Kind::Millisecond, 123, -1)
            .unit("block", Kind::Second, 10_000_000_000, 0)
            .build()
            .expect("card A is accepted")
    }

    /// A card from the words of its settings and the bytes of the hall's unit
    /// table, of the line's and of its numerals, or what is wrong with them (7).
    pub fn from_words(
        settings: Settings,
        hall: Vec<u8>,
        line: Vec<u8>,
        numerals: Vec<u8>,
    ) -> Result<Self, Refusal> {
        // The card is checked before anything else, so an empty text, of which
        // nothing can be read, tells whether it is accepted.
        let answer = raw::read_total(&settings, &hall, &line, &numerals, b"");
        if answer.number == 7 {
            return Err(Refusal::of(&answer));
        }
        Ok(Self {
            hall_index: index_of(&settings, &hall)?,
            line_index: index_of(&settings, &line)?,
            settings,
            hall,
            line,
            numerals,
        })
    }

    /// The words of the settings, as [`raw`] takes them.
    pub fn settings(&self) -> &Settings {
        &self.settings
    }

    /// The bytes of the hall's unit table, as [`raw`] takes them.
    pub fn hall(&self) -> &[u8] {
        &self.hall
    }

    /// The index of the hall's unit table, as [`raw`] takes it.
    pub fn hall_index(&self) -> &[u8] {
        &self.hall_index
    }

    /// The bytes of the line's unit table, as [`raw`] takes them.
    pub fn line(&self) -> &[u8] {
        &self.line
    }

    /// The index of the line's unit table, as [`raw`] takes it.
    pub fn line_index(&self) -> &[u8] {
        &self.line_index
    }

    /// The bytes of the numeral table, as [`raw`] takes them.
    pub fn numerals(&self) -> &[u8] {
        &self.numerals
    }

    /// The sum of a text's parts, clamped at each part between [`Length::MIN`]
    /// and [`Length::MAX`].
    pub fn read_total(&self, text: impl AsRef<[u8]>) -> Result<Length, Refusal> {
        let answer = raw::read_total_indexed(
            &self.settings,
            &self.hall,
            &self.hall_index,
            &self.line,
            &self.line_index,
            &self.numerals,
            text.as_ref(),
        );
        Length::of_answer(&answer)
    }

    /// The part of a text at a place, and the place at which the next begins.
    pub fn read_part(&self, text: impl AsRef<[u8]>, place: usize) -> Result<Part, Refusal> {
        let answer = raw::read_part_indexed(
            &self.settings,
            &self.hall,
            &self.hall_index,
            &self.line,
            &self.line_index,
            &self.numerals,
            text.as_ref(),
            place,
        );
        Ok(Part {
            length: Length::of_answer(&answer)?,
            next: answer.position as usize,
        })
    }

    /// The parts of a text one after the other, up to its end or to the first
    /// that is refused. A text without any gives its refusal (1).
    pub fn parts<'a>(&'a self, text: &'a (impl AsRef<[u8]> + ?Sized)) -> Parts<'a> {
        Parts::new(self, text.as_ref())
    }

    /// Adds a text's total to a shift total, clamped, and gives the new one. If
    /// the text is refused the shift total stays as it was.
    pub fn add_total(&self, total: &mut Length, text: impl AsRef<[u8]>) -> Result<Length, Refusal> {
        let mut record = total.record();
        let added = raw::add_total_indexed(
            &mut record,
            &self.settings,
            &self.hall,
            &self.hall_index,
            &self.line,
            &self.line_index,
            &self.numerals,
            text.as_ref(),
        );
        // After a refusal the record is as it was.
        *total = Length::of(record);
        Length::of_answer(&added)
    }

    /// Where a name stands in the unit tables, looked up through their indexes as
    /// the units of a text are. Any bytes may be looked up, none at all too.
    ///
    /// ```
    /// use herovinga::{Card, LookedUp, Table};
    ///
    /// let card = Card::a();
    /// let seconds = LookedUp { at: Some((Table::Hall, 2)), compared: 3 };
    /// assert_eq!(card.look_up("s"), seconds);
    /// assert_eq!(card.look_up("hour").at, None);
    /// ```
    pub fn look_up(&self, name: impl AsRef<[u8]>) -> LookedUp {
        LookedUp::of(&raw::look_up_indexed(
            &self.settings,
            &self.hall,
            &self.hall_index,
            &self.line,
            &self.line_index,
            name.as_ref(),
        ))
    }

    /// The same without the indexes: each table row by row, up to the one that has
    /// the name. What is found is what [`Card::look_up`] finds; what differs is
    /// how many names are compared.
    pub fn look_up_row_by_row(&self, name: impl AsRef<[u8]>) -> LookedUp {
        LookedUp::of(&raw::look_up(
            &self.settings,
            &self.hall,
            &self.line,
            name.as_ref(),
        ))
    }

    /// Puts another unit in the place of one of the hall's, by the number of its
    /// row, the first being 0. Name, kind, coefficient and power are as in
    /// [`CardBuilder::unit`].
    ///
    /// Refused (10) at a row past the last, and (7) at the row if the table with
    /// the new unit in it is not accepted, as when another row has its name. The
    /// card is then as it was.
    ///
    /// ```
    /// use herovinga::{Card, Kind, Refusal};
    ///
    /// let mut card = Card::a();
    /// card.replace_unit(4, "stroke", Kind::Millisecond, 40, 0)?;
    /// assert_eq!(card.read_total("2stroke")?.to_string(), "+0.08");
    /// assert_eq!(card.read_total("1turn"), Err(Refusal { number: 6, position: 1 }));
    /// assert_eq!(card.replace_unit(4, "min", Kind::Minute, 1, 0), Err(Refusal { number: 7, position: 4 }));
    /// # Ok::<(), Refusal>(())
    /// ```
    pub fn replace_unit(
        &mut self,
        number: usize,
        name: impl AsRef<[u8]>,
        kind: Kind,
        coefficient: i64,
        power: i16,
    ) -> Result<(), Refusal> {
        done(&raw::replace_row(
            &self.settings,
            &mut self.hall,
            &mut self.hall_index,
            number,
            &row(name.as_ref(), kind, coefficient, power),
        ))
    }

    /// The same of the line's units; 7 has 128 more than the number of the row.
    pub fn replace_line_unit(
        &mut self,
        number: usize,
        name: impl AsRef<[u8]>,
        kind: Kind,
        coefficient: i64,
        power: i16,
    ) -> Result<(), Refusal> {
        let replaced = done(&raw::replace_row(
            &self.settings,
            &mut self.line,
            &mut self.line_index,
            number,
            &row(name.as_ref(), kind, coefficient, power),
        ));
        // The entry is not told whose table it is.
        replaced.map_err(Refusal::of_the_line)
    }
}

/// The index of a unit table, or what is wrong with settings or table (7).
fn index_of(settings: &Settings, table: &[u8]) -> Result<Vec<u8>, Refusal> {
    let mut index = vec![0; table.len() / ROW_SIZE];
    done(&raw::make_index(settings, table, &mut index))?;
    Ok(index)
}

/// Nothing, or the answer's refusal.
fn done(answer: &Answer) -> Result<(), Refusal> {
    match answer.number {
        0 => Ok(()),
        _ => Err(Refusal::of(answer)),
    }
}

/// A card in the making; [`CardBuilder::build`] has it checked.
///
/// ```
/// use herovinga::{Card, Kind};
///
/// let card = Card::builder().fractions(true).outer(" ").conjunction("and").unit("ms", Kind::Millisecond, 1, 0).build()?;
/// assert_eq!(card.read_total("1 and 61.7ms")?.to_string(), "+1.0617");
/// # Ok::<(), herovinga::Refusal>(())
/// ```
#[derive(Clone, Debug)]
pub struct CardBuilder {
    settings: Settings,
    hall: Vec<u8>,
    line: Vec<u8>,
    numerals: Vec<u8>,
}

impl Default for CardBuilder {
    fn default() -> Self {
        let builder = Self {
            settings: [0; 25],
            hall: Vec::new(),
            line: Vec::new(),
            numerals: Vec::new(),
        };
        builder.default_kind(Kind::Second)
    }
}

impl CardBuilder {
    /// Whether a part may be below zero.
    pub fn negatives(self, on: bool) -> Self {
        self.switch(0, on)
    }

    /// Whether a number may have a point, as in `1.5`.
    pub fn fractions(self, on: bool) -> Self {
        self.switch(1, on)
    }

    /// Whether a number may have an exponent, as in `1e3`.
    pub fn exponents(self, on: bool) -> Self {
        self.switch(2, on)
    }

    /// Whether `inf` and `infinity` are numbers.
    pub fn infinity(self, on: bool) -> Self {
        self.switch(3, on)
    }

    /// Whether `ago` after a unit negates it.
    pub fn ago(self, on: bool) -> Self {
        self.switch(4, on)
    }

    /// Whether inner delimiters may stand after a sign.
    pub fn after_sign(self, on: bool) -> Self {
        self.switch(5, on)
    }

    /// Whether inner delimiters may stand between a number and its unit.
    pub fn before_unit(self, on: bool) -> Self {
        self.switch(6, on)
    }

    fn switch(mut self, switch: usize, on: bool) -> Self {
        self.settings[raw::SWITCHES + switch] = on.into();
        self
    }

    /// These bytes delimit within a part.
    pub fn inner(self, delimiters: impl AsRef<[u8]>) -> Self {
        self.delimiters(raw::INNER, delimiters.as_ref())
    }

    /// These bytes delimit parts.
    pub fn outer(self, delimiters: impl AsRef<[u8]>) -> Self {
        self.delimiters(raw::OUTER, delimiters.as_ref())
    }

    fn delimiters(mut self, set: usize, delimiters: &[u8]) -> Self {
        for byte in delimiters {
            self.settings[set + usize::from(byte / 64)] |= 1 << (byte % 64);
        }
        self
    }

    /// One more word that may stand between parts. A text has the first that
    /// fits, not the longest.
    pub fn conjunction(mut self, word: impl AsRef<[u8]>) -> Self {
        let word = word.as_ref();
        let count = self.settings[raw::CONJUNCTIONS] as usize;
        self.settings[raw::CONJUNCTIONS] += 1;
        // A conjunction too many, or one too long, has no room, and its count
        // or size says that the card is to be refused.
        if count < CONJUNCTION_ROOM {
            let slot = raw::CONJUNCTIONS + 1 + 2 * count;
            let mut letters = [0; 8];
            copy_what_fits(word, &mut letters);
            self.settings[slot] = word.len() as u64;
            self.settings[slot + 1] = u64::from_le_bytes(letters);
        }
        self
    }

    /// What a number without a unit counts.
    pub fn default_kind(mut self, kind: Kind) -> Self {
        self.settings[raw::DEFAULT_KIND] = kind as u64;
        self
    }

    /// One more unit of the hall's: so many of its kind, coefficient times ten to
    /// the power. Its name has 1 to 32 bytes.
    ///
    /// A name led by `e` or `E` needs exponents on (`3e0eon`), or the delimiters
    /// of the inner set before units (`3 eon`), or else the card is refused:
    /// straight after a number such a letter begins an exponent.
    pub fn unit(
        mut self,
        name: impl AsRef<[u8]>,
        kind: Kind,
        coefficient: i64,
        power: i16,
    ) -> Self {
        self.hall
            .extend(row(name.as_ref(), kind, coefficient, power));
        self
    }

    /// Rows of the hall's unit table as they are stored, 48 bytes each.
    pub fn rows(mut self, rows: &[u8]) -> Self {
        self.hall.extend_from_slice(rows);
        self
    }

    /// One more unit of the line's own, which wins over one of the hall's with the
    /// same name. It is in all else as one of the hall's, and there may be as many
    /// of them, 64, beside the hall's.
    ///
    /// ```
    /// use herovinga::{Card, Kind};
    ///
    /// let hall = || Card::builder().unit("s", Kind::Second, 1, 0).unit("turn", Kind::Millisecond, 123, -1);
    /// let line_7 = hall().line_unit("jaw", Kind::Millisecond, 40, 0).line_unit("turn", Kind::Millisecond, 15, 0).build()?;
    /// assert_eq!(line_7.read_total("1jaw")?.to_string(), "+0.04");
    /// assert_eq!(line_7.read_total("1turn")?.to_string(), "+0.015");
    /// assert_eq!(line_7.read_total("1s")?.to_string(), "+1");
    /// assert_eq!(hall().build()?.read_total("1turn")?.to_string(), "+0.0123");
    /// # Ok::<(), herovinga::Refusal>(())
    /// ```
    pub fn line_unit(
        mut self,
        name: impl AsRef<[u8]>,
        kind: Kind,
        coefficient: i64,
        power: i16,
    ) -> Self {
        self.line
            .extend(row(name.as_ref(), kind, coefficient, power));
        self
    }

    /// Rows of the line's unit table as they are stored, 48 bytes each.
    pub fn line_rows(mut self, rows: &[u8]) -> Self {
        self.line.extend_from_slice(rows);
        self
    }

    /// One more word for a number, coefficient times ten to the power. It stands
    /// where a number would, and inner delimiters and a unit follow it.
    ///
    /// A card is refused if the word is not 1 to 32 ASCII letters, if it was
    /// there before, if the coefficient is [`i64::MIN`], or if there are more than
    /// 32. A unit may have the same name.
    ///
    /// ```
    /// use herovinga::{Card, Kind, Refusal};
    ///
    /// let card = Card::builder().inner(" ").unit("min", Kind::Minute, 1, 0).numeral("five", 5, 0).numeral("half", 5, -1).build()?;
    /// assert_eq!(card.read_total("five min")?.to_string(), "+300");
    /// assert_eq!(card.read_total("half min")?.to_string(), "+30");
    /// assert_eq!(card.read_total("five x"), Err(Refusal { number: 15, position: 5 }));
    /// # Ok::<(), Refusal>(())
    /// ```
    pub fn numeral(mut self, name: impl AsRef<[u8]>, coefficient: i64, power: i16) -> Self {
        // A row has a kind; a numeral's is the second, which multiplies by 1.
        let row = row(name.as_ref(), Kind::Second, coefficient, power);
        self.numerals.extend(row);
        self
    }

    /// The card, or what is wrong with it (7).
    pub fn build(self) -> Result<Card, Refusal> {
        Card::from_words(self.settings, self.hall, self.line, self.numerals)
    }
}

/// A row of any table. A name that has no room is refused by its size,
/// whatever is left out.
fn row(name: &[u8], kind: Kind, coefficient: i64, power: i16) -> [u8; ROW_SIZE] {
    let mut row = [0; ROW_SIZE];
    row[0] = u8::try_from(name.len()).unwrap_or(u8::MAX);
    copy_what_fits(name, &mut row[NAME_AT..NAME_AT + NAME_ROOM]);
    row[KIND_AT] = kind as u8;
    row[COEFFICIENT_AT..POWER_AT].copy_from_slice(&coefficient.to_le_bytes());
    row[POWER_AT..ZEROS_AT].copy_from_slice(&power.to_le_bytes());
    row
}

fn copy_what_fits(bytes: &[u8], room: &mut [u8]) {
    for (place, byte) in room.iter_mut().zip(bytes) {
        *place = *byte;
    }
}
