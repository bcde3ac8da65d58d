//! What is asked about indexes and lookups, a request a line, and what is
//! answered. The fields are those of the other requests.
//!
//! ```text
//! make-index CARD INDEX
//! check-index CARD INDEX
//! replace-row ROW NEW CARD INDEX
//! part-indexed PLACE CARD INDEX INDEX TEXT
//! total-indexed CARD INDEX INDEX TEXT
//! shift-indexed SIGN SECONDS NANOS CARD INDEX INDEX TEXT
//! look-up CARD NAME
//! look-up-indexed CARD INDEX INDEX NAME
//! ```
//!
//! CARD stands for the eight fields from SWITCHES to NUMERALS. The first three
//! are about one table by itself, which stands as the hall's; what stands as the
//! line's and as numerals is no part of them. Of two indexes the first is the
//! hall's.

use std::fmt;

use crate::request::{Answer, Card, Fields, Length, bytes_field};

/// The indexes beside a card's two unit tables. Any bytes can be lent as one.
#[derive(Clone, PartialEq, Eq)]
pub struct Indexes {
    pub hall: Vec<u8>,
    pub line: Vec<u8>,
}

#[derive(Clone, PartialEq, Eq)]
pub enum IndexRequest {
    Make {
        card: Card,
        index: Vec<u8>,
    },
    Check {
        card: Card,
        index: Vec<u8>,
    },
    Replace {
        row: u64,
        new_row: Vec<u8>,
        card: Card,
        index: Vec<u8>,
    },
    Part {
        place: u64,
        card: Card,
        indexes: Indexes,
        text: Vec<u8>,
    },
    Total {
        card: Card,
        indexes: Indexes,
        text: Vec<u8>,
    },
    Shift {
        record: Length,
        card: Card,
        indexes: Indexes,
        text: Vec<u8>,
    },
    LookUp {
        card: Card,
        name: Vec<u8>,
    },
    LookUpIndexed {
        card: Card,
        indexes: Indexes,
        name: Vec<u8>,
    },
}

impl IndexRequest {
    /// The first word of its line.
    pub fn called(&self) -> &'static str {
        match self {
            IndexRequest::Make { .. } => "make-index",
            IndexRequest::Check { .. } => "check-index",
            IndexRequest::Replace { .. } => "replace-row",
            IndexRequest::Part { .. } => "part-indexed",
            IndexRequest::Total { .. } => "total-indexed",
            IndexRequest::Shift { .. } => "shift-indexed",
            IndexRequest::LookUp { .. } => "look-up",
            IndexRequest::LookUpIndexed { .. } => "look-up-indexed",
        }
    }

    /// The request of a line, or nothing if its first word is another's.
    pub fn parse(line: &str) -> Result<Option<IndexRequest>, String> {
        let mut fields = Fields::of(line);
        let request = match fields.next("the kind of request")? {
            "make-index" => IndexRequest::Make {
                card: fields.card()?,
                index: fields.bytes("INDEX")?,
            },
            "check-index" => IndexRequest::Check {
                card: fields.card()?,
                index: fields.bytes("INDEX")?,
            },
            "replace-row" => IndexRequest::Replace {
                row: fields.number("ROW")?,
                new_row: fields.bytes("NEW")?,
                card: fields.card()?,
                index: fields.bytes("INDEX")?,
            },
            "part-indexed" => IndexRequest::Part {
                place: fields.number("PLACE")?,
                card: fields.card()?,
                indexes: indexes(&mut fields)?,
                text: fields.bytes("TEXT")?,
            },
            "total-indexed" => IndexRequest::Total {
                card: fields.card()?,
                indexes: indexes(&mut fields)?,
                text: fields.bytes("TEXT")?,
            },
            "shift-indexed" => IndexRequest::Shift {
                record: fields.length()?,
                card: fields.card()?,
                indexes: indexes(&mut fields)?,
                text: fields.bytes("TEXT")?,
            },
            "look-up" => IndexRequest::LookUp {
                card: fields.card()?,
                name: fields.bytes("NAME")?,
            },
            "look-up-indexed" => IndexRequest::LookUpIndexed {
                card: fields.card()?,
                indexes: indexes(&mut fields)?,
                name: fields.bytes("NAME")?,
            },
            _ => return Ok(None),
        };
        fields.end()?;
        Ok(Some(request))
    }
}

fn indexes(fields: &mut Fields) -> Result<Indexes, String> {
    Ok(Indexes {
        hall: fields.bytes("INDEX")?,
        line: fields.bytes("INDEX")?,
    })
}

impl fmt::Display for IndexRequest {
    fn fmt(&self, out: &mut fmt::Formatter<'_>) -> fmt::Result {
        out.write_str(self.called())?;
        match self {
            IndexRequest::Make { card, index } | IndexRequest::Check { card, index } => {
                write!(out, " {card} {}", bytes_field(index))
            }
            IndexRequest::Replace {
                row,
                new_row,
                card,
                index,
            } => {
                let new_row = bytes_field(new_row);
                write!(out, " {row} {new_row} {card} {}", bytes_field(index))
            }
            IndexRequest::Part {
                place,
                card,
                indexes,
                text,
            } => write!(out, " {place} {card} {indexes} {}", bytes_field(text)),
            IndexRequest::Total {
                card,
                indexes,
                text,
            } => write!(out, " {card} {indexes} {}", bytes_field(text)),
            IndexRequest::Shift {
                record,
                card,
                indexes,
                text,
            } => write!(out, " {record} {card} {indexes} {}", bytes_field(text)),
            IndexRequest::LookUp { card, name } => write!(out, " {card} {}", bytes_field(name)),
            IndexRequest::LookUpIndexed {
                card,
                indexes,
                name,
            } => write!(out, " {card} {indexes} {}", bytes_field(name)),
        }
    }
}

impl fmt::Display for Indexes {
    fn fmt(&self, out: &mut fmt::Formatter<'_>) -> fmt::Result {
        let (hall, line) = (bytes_field(&self.hall), bytes_field(&self.line));
        write!(out, "{hall} {line}")
    }
}

/// What is handed back, and what was lent to be changed, as it is afterwards.
#[derive(Clone, PartialEq, Eq)]
pub enum Outcome {
    Answered(Answer),
    Made {
        answer: Answer,
        index: Vec<u8>,
    },
    Replaced {
        answer: Answer,
        table: Vec<u8>,
        index: Vec<u8>,
    },
    Shifted {
        answer: Answer,
        record: Length,
    },
    LookedUp(Found),
}

/// What a lookup hands back: the table is 1 for the hall's, 2 for the line's and
/// 0 for neither.
#[derive(Clone, Copy, PartialEq, Eq)]
pub struct Found {
    pub number: u8,
    pub position: u64,
    pub table: u64,
    pub row: u64,
    pub compared: u64,
}

impl fmt::Display for Outcome {
    fn fmt(&self, out: &mut fmt::Formatter<'_>) -> fmt::Result {
        match self {
            Outcome::Answered(answer) => write!(out, "{answer}"),
            Outcome::Made { answer, index } => write!(out, "{answer} {}", bytes_field(index)),
            Outcome::Replaced {
                answer,
                table,
                index,
            } => write!(
                out,
                "{answer} {} {}",
                bytes_field(table),
                bytes_field(index)
            ),
            Outcome::Shifted { answer, record } => write!(out, "{answer} {record}"),
            Outcome::LookedUp(found) => write!(
                out,
                "{} {} {} {} {}",
                found.number, found.position, found.table, found.row, found.compared
            ),
        }
    }
}
