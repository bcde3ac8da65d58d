//! What is handed back instead of a length.

use std::error::Error;
use std::fmt;

use crate::raw::Answer;

/// A refusal, by its number in document 01 or, above 11, in the requests that
/// followed it, and where it was met. What the position means depends on the
/// number; `Display` says it in a sentence.
#[derive(Clone, Copy, PartialEq, Eq, Hash, Debug)]
pub struct Refusal {
    /// 1 to 25. 2 is no longer given: 17 to 22 tell apart what it was for.
    pub number: u8,
    /// A place of the text or buffer, the number of a row that is not there, 0, or
    /// for 7 what is wrong: 65 the delimiters, 66 the conjunctions, 67 the default
    /// kind; 64 the size of the hall's unit table, any lower number its first bad
    /// row; 192 the size of the line's, 128 to 191 its first bad row, counted from
    /// 128; 100 the size of the numeral table, 68 to 99 its first bad row, counted
    /// from 68. It is the first of them in this order. For 23 it is the first wrong
    /// entry of an index, or the number of rows if it has another length; for the
    /// line's index counted from 128. For 24 and 25 it is the number of a line.
    pub position: usize,
}

/// What the position of a bad numeral counts from, and that of a bad row or a wrong
/// index of the line's.
const FIRST_NUMERAL: usize = 68;
const FIRST_OF_THE_LINE: usize = 128;

impl Refusal {
    pub(crate) fn of(answer: &Answer) -> Self {
        Self {
            number: answer.number,
            position: answer.position as usize,
        }
    }

    /// The refusal of the line's table where it was handed over by itself, so that
    /// a bad row of it was counted as one of the hall's.
    pub(crate) fn of_the_line(self) -> Self {
        match self.number {
            7 => Self {
                position: FIRST_OF_THE_LINE + self.position,
                ..self
            },
            _ => self,
        }
    }

    /// What is wrong with settings, units or numerals.
    fn describe_card(self, out: &mut fmt::Formatter<'_>) -> fmt::Result {
        match self.position {
            65 => {
                out.write_str("a delimiter is a letter, a digit, `+`, `-`, `.` or a byte above 127")
            }
            66 => out.write_str(
                "there are more than four conjunctions, or one is not 1 to 8 ASCII letters",
            ),
            67 => out.write_str("the default kind is not one of 0 to 7"),
            64 => out.write_str("the hall's unit table is not 0 to 64 rows of 48 bytes"),
            192 => out.write_str("the line's unit table is not 0 to 64 rows of 48 bytes"),
            100 => out.write_str("the numeral table is not 0 to 32 rows of 48 bytes"),
            position => {
                let (row, table) = match position {
                    FIRST_OF_THE_LINE.. => (position - FIRST_OF_THE_LINE, "line's unit"),
                    FIRST_NUMERAL.. => (position - FIRST_NUMERAL, "numeral"),
                    _ => (position, "hall's unit"),
                };
                write!(
                    out,
                    "row {row} of the {table} table has a name, kind or multiplier that is not accepted"
                )
            }
        }
    }

    /// What is wrong with an index. Whether the position is an entry or the number
    /// of rows, the table alone could tell.
    fn describe_index(self, out: &mut fmt::Formatter<'_>) -> fmt::Result {
        let (entry, table) = match self.position {
            FIRST_OF_THE_LINE.. => (self.position - FIRST_OF_THE_LINE, "line's"),
            position => (position, "hall's"),
        };
        write!(
            out,
            "the index of the {table} unit table is wrong at entry {entry}, or in its length if the table has {entry} rows: make it anew"
        )
    }

    /// What is wrong with how a text is typed, and what to mend.
    fn describe_slip(self, out: &mut fmt::Formatter<'_>) -> fmt::Result {
        let position = self.position;
        match self.number {
            17 => write!(
                out,
                "the text ends at place {position}, after a sign or within an exponent: type the digits, or take it away"
            ),
            18 => write!(
                out,
                "delimiters end the text from place {position} on: take them away, or type what they lead to"
            ),
            19 => write!(
                out,
                "a conjunction leads to no part at place {position}: type a delimiter and a part behind it, or take it away"
            ),
            20 => write!(
                out,
                "the point at place {position} has no digit beside it, or the card allows no fraction: type a digit, or take the point away"
            ),
            21 => write!(
                out,
                "an exponent has no digit at place {position}, or the card allows no exponent: type a digit there, or take the exponent away"
            ),
            _ => write!(
                out,
                "infinity is not whole or not alone at place {position}: type `inf` or `infinity`, and a delimiter before what follows"
            ),
        }
    }
}

/// The place behind what was written, or the answer's refusal.
pub(crate) fn place_after(answer: &Answer) -> Result<usize, Refusal> {
    match answer.number {
        0 => Ok(answer.position as usize),
        _ => Err(Refusal::of(answer)),
    }
}

impl fmt::Display for Refusal {
    fn fmt(&self, out: &mut fmt::Formatter<'_>) -> fmt::Result {
        let position = self.position;
        match self.number {
            1 => write!(out, "there is nothing to read at place {position}"),
            3 => write!(out, "an exponent goes above 32767 at place {position}"),
            4 => write!(out, "an exponent goes below -32768 at place {position}"),
            5 => out.write_str(
                "a length is negative, which the card forbids or an ISO text cannot say",
            ),
            6 => write!(out, "the part begins with no number at place {position}"),
            7 => self.describe_card(out),
            8 => write!(out, "the text has more than {position} bytes"),
            9 => write!(out, "the buffer has too few bytes left at place {position}"),
            10 => write!(
                out,
                "place {position} is beyond the text or buffer, or row {position} past the table's last"
            ),
            11 => out.write_str(
                "the length record is malformed: a second or more of nanoseconds, or minus zero",
            ),
            12 => write!(
                out,
                "the text is no ISO timing: at place {position} it is wrong, or ends too soon"
            ),
            13 => write!(
                out,
                "years and months have no length, and place {position} has the letter of one"
            ),
            14 => out.write_str("the ISO timing is beyond the largest length"),
            15 => write!(
                out,
                "a numeral needs a unit, and none begins at place {position}"
            ),
            16 => out.write_str(
                "a numeral times its unit has a coefficient or a power of ten that is out of range",
            ),
            17..=22 => self.describe_slip(out),
            23 => self.describe_index(out),
            24 => write!(
                out,
                "line {position} is no stored row: its length, a digit, the size of its name, or a byte that must be zero is wrong"
            ),
            25 => write!(
                out,
                "the name in line {position} has more than 16 bytes, and the old form has no room for it"
            ),
            number => write!(out, "refusal {number} at {position}"),
        }
    }
}

impl Error for Refusal {}
