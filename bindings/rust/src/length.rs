//! Lengths: a sign, seconds and nanoseconds.

use std::cmp::Ordering;
use std::error::Error;
use std::fmt;
use std::ops::Neg;
use std::time::Duration;

use crate::raw::{self, Answer, Record};
use crate::refusal::{Refusal, place_after};

/// The largest size of a written length: a sign, twenty digits of seconds, a
/// point and nine decimals.
pub const MOST_WRITTEN: usize = 31;

/// The largest size of a length written as an ISO 8601 text: sixteen digits of
/// hours, two of minutes, two of seconds and nine decimals, a point, and the
/// letters `P`, `T`, `H`, `M` and `S`.
pub const MOST_WRITTEN_ISO: usize = 35;

const NANOSECONDS_OF_A_SECOND: u32 = 1_000_000_000;

/// A length from [`Length::MIN`] to [`Length::MAX`]. Zero has a plus sign, and
/// there are never as many nanoseconds as a second has, so that lengths of one
/// value are equal.
///
/// They are ordered by value, shown as the writer writes them, and made from
/// and into [`Duration`], of which the negative ones cannot be.
#[derive(Clone, Copy, PartialEq, Eq, Hash, Debug, Default)]
pub struct Length {
    negative: bool,
    seconds: u64,
    nanoseconds: u32,
}

impl Length {
    /// No time at all, with a plus sign.
    pub const ZERO: Self = Self {
        negative: false,
        seconds: 0,
        nanoseconds: 0,
    };

    /// 18446744073709551615.999999999 seconds; infinity is read as this.
    pub const MAX: Self = Self {
        negative: false,
        seconds: u64::MAX,
        nanoseconds: NANOSECONDS_OF_A_SECOND - 1,
    };

    /// The same with a minus.
    pub const MIN: Self = Self {
        negative: true,
        ..Self::MAX
    };

    /// A length of so many seconds and nanoseconds; refused (11) if the
    /// nanoseconds are a second or more, or if it is a minus zero.
    pub const fn new(negative: bool, seconds: u64, nanoseconds: u32) -> Result<Self, Refusal> {
        let minus_zero = negative && seconds == 0 && nanoseconds == 0;
        if nanoseconds >= NANOSECONDS_OF_A_SECOND || minus_zero {
            return Err(Refusal {
                number: 11,
                position: 0,
            });
        }
        Ok(Self {
            negative,
            seconds,
            nanoseconds,
        })
    }

    /// Whether it is below zero.
    pub const fn is_negative(self) -> bool {
        self.negative
    }

    /// The whole seconds, without sign.
    pub const fn seconds(self) -> u64 {
        self.seconds
    }

    /// The nanoseconds beside the whole seconds, without sign.
    pub const fn nanoseconds(self) -> u32 {
        self.nanoseconds
    }

    /// Writes the length at a place of a buffer and gives the place after it.
    /// Refused (10) if the place is beyond the buffer, and (9) if too few bytes
    /// are left there; the buffer is then as it was.
    pub fn write_at(self, buffer: &mut [u8], place: usize) -> Result<usize, Refusal> {
        place_after(&raw::write(&self.record(), buffer, place))
    }

    /// Writes the length at the end of a text. Texts of lengths so written, one
    /// after the other, read back to the same lengths under every card that has
    /// negatives and fractions on and seconds as its default kind, as long as
    /// they have no more than the 4,096 bytes that are read of any text.
    pub fn append_to(self, text: &mut Vec<u8>) {
        let place = text.len();
        text.resize(place + MOST_WRITTEN, 0);
        let next = self
            .write_at(text, place)
            .expect("a length is written where there is room for the largest");
        text.truncate(next);
    }

    /// The length of an ISO 8601 text, as `P2W`, `P1DT12H` or `PT1H30M0,5S`:
    /// weeks alone, or days, hours, minutes and seconds, the last number with
    /// decimals or not. It is exact, rounded down to nanoseconds once.
    ///
    /// Refused (12) where it is no such text, (13) at the letter of years or
    /// months, which have no length, (14) if it is more than [`Length::MAX`], and
    /// (8) if it has more than 4,096 bytes.
    ///
    /// ```
    /// use herovinga::{Length, Refusal};
    ///
    /// assert_eq!(Length::from_iso("PT1H30M0,5S")?, Length::new(false, 5_400, 500_000_000)?);
    /// assert_eq!(Length::from_iso("P1Y"), Err(Refusal { number: 13, position: 2 }));
    /// # Ok::<(), Refusal>(())
    /// ```
    pub fn from_iso(text: impl AsRef<[u8]>) -> Result<Self, Refusal> {
        Self::of_answer(&raw::read_iso(text.as_ref()))
    }

    /// The length as an ISO 8601 text: hours, minutes and seconds, those of zero
    /// left out, and `PT0S` for zero. [`Length::from_iso`] reads it back. Refused
    /// (5) if it is negative, for which there is no such text.
    ///
    /// ```
    /// use herovinga::Length;
    ///
    /// assert_eq!(Length::new(false, 5_400, 500_000_000)?.to_iso()?, "PT1H30M0.5S");
    /// # Ok::<(), herovinga::Refusal>(())
    /// ```
    pub fn to_iso(self) -> Result<String, Refusal> {
        let mut buffer = [0; MOST_WRITTEN_ISO];
        let end = self.write_iso_at(&mut buffer, 0)?;
        Ok(buffer[..end].iter().copied().map(char::from).collect())
    }

    /// Writes the length as an ISO 8601 text at a place of a buffer and gives the
    /// place after it. Refused (5) if it is negative, (10) if the place is beyond
    /// the buffer, and (9) if too few bytes are left there; the buffer is then as
    /// it was.
    pub fn write_iso_at(self, buffer: &mut [u8], place: usize) -> Result<usize, Refusal> {
        place_after(&raw::write_iso(&self.record(), buffer, place))
    }

    /// The length as a record of words.
    pub fn record(self) -> Record {
        [self.negative.into(), self.seconds, self.nanoseconds.into()]
    }

    /// The length of a record that an entry handed back, so of a well-formed
    /// one.
    pub(crate) fn of([negative, seconds, nanoseconds]: Record) -> Self {
        debug_assert!(nanoseconds < NANOSECONDS_OF_A_SECOND.into());
        Self {
            negative: negative != 0,
            seconds,
            nanoseconds: nanoseconds as u32,
        }
    }

    /// The length of an answer, or its refusal.
    pub(crate) fn of_answer(answer: &Answer) -> Result<Self, Refusal> {
        match answer.number {
            0 => Ok(Self::of(answer.length)),
            _ => Err(Refusal::of(answer)),
        }
    }
}

impl Ord for Length {
    fn cmp(&self, other: &Self) -> Ordering {
        let size = |length: &Self| (length.seconds, length.nanoseconds);
        match (self.negative, other.negative) {
            (false, false) => size(self).cmp(&size(other)),
            (true, true) => size(other).cmp(&size(self)),
            (true, false) => Ordering::Less,
            (false, true) => Ordering::Greater,
        }
    }
}

impl PartialOrd for Length {
    fn partial_cmp(&self, other: &Self) -> Option<Ordering> {
        Some(self.cmp(other))
    }
}

/// The same size with the other sign; zero stays as it is.
impl Neg for Length {
    type Output = Self;

    fn neg(self) -> Self {
        Self {
            negative: !self.negative && self != Self::ZERO,
            ..self
        }
    }
}

/// What the writer writes.
impl fmt::Display for Length {
    fn fmt(&self, out: &mut fmt::Formatter<'_>) -> fmt::Result {
        let mut written = Vec::with_capacity(MOST_WRITTEN);
        self.append_to(&mut written);
        out.pad(std::str::from_utf8(&written).map_err(|_| fmt::Error)?)
    }
}

impl From<Duration> for Length {
    fn from(duration: Duration) -> Self {
        Self {
            negative: false,
            seconds: duration.as_secs(),
            nanoseconds: duration.subsec_nanos(),
        }
    }
}

impl TryFrom<Length> for Duration {
    type Error = NegativeLength;

    fn try_from(length: Length) -> Result<Self, NegativeLength> {
        if length.negative {
            return Err(NegativeLength(length));
        }
        Ok(Duration::new(length.seconds, length.nanoseconds))
    }
}

/// A length below zero, which is no [`Duration`].
#[derive(Clone, Copy, PartialEq, Eq, Hash, Debug)]
pub struct NegativeLength(pub Length);

impl fmt::Display for NegativeLength {
    fn fmt(&self, out: &mut fmt::Formatter<'_>) -> fmt::Result {
        write!(out, "{} seconds are below zero", self.0)
    }
}

impl Error for NegativeLength {}
