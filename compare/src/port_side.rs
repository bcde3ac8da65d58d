//! Asking the port, through the C calling convention by the Rust binding.

use herovinga::raw;

use crate::index_request::{Found, IndexRequest, Indexes, Outcome};
use crate::moves::{Form, Moved, OLD};
use crate::plain_index::indexes_of;
use crate::request::{Answer, ByteSet, Card, Length};

/// How the port looks units up: row by row, or through an index beside each
/// table.
#[derive(Clone, Copy, PartialEq, Eq)]
pub enum Way {
    RowByRow,
    Indexed,
}

impl Way {
    pub fn other(self) -> Self {
        match self {
            Way::RowByRow => Way::Indexed,
            Way::Indexed => Way::RowByRow,
        }
    }
}

/// The port's form of a card that is accepted, with the plain reading's indexes.
pub struct Port {
    settings: raw::Settings,
    hall: Vec<u8>,
    line: Vec<u8>,
    numerals: Vec<u8>,
    indexes: Indexes,
}

impl Port {
    pub fn of(card: &Card) -> Self {
        Self {
            settings: settings_of(card),
            hall: card.hall.clone(),
            line: card.line.clone(),
            numerals: card.numerals.clone(),
            indexes: indexes_of(card),
        }
    }

    pub fn total(&self, way: Way, text: &[u8]) -> Answer {
        answer(match way {
            Way::RowByRow => {
                raw::read_total(&self.settings, &self.hall, &self.line, &self.numerals, text)
            }
            Way::Indexed => raw::read_total_indexed(
                &self.settings,
                &self.hall,
                &self.indexes.hall,
                &self.line,
                &self.indexes.line,
                &self.numerals,
                text,
            ),
        })
    }

    pub fn part(&self, way: Way, text: &[u8], place: u64) -> Answer {
        let place = place as usize;
        answer(match way {
            Way::RowByRow => raw::read_part(
                &self.settings,
                &self.hall,
                &self.line,
                &self.numerals,
                text,
                place,
            ),
            Way::Indexed => raw::read_part_indexed(
                &self.settings,
                &self.hall,
                &self.indexes.hall,
                &self.line,
                &self.indexes.line,
                &self.numerals,
                text,
                place,
            ),
        })
    }

    /// Adds a text's total to a record.
    pub fn add_total(&self, way: Way, total: &mut Length, text: &[u8]) -> Answer {
        let mut record = record_of(*total);
        let added = match way {
            Way::RowByRow => raw::add_total(
                &mut record,
                &self.settings,
                &self.hall,
                &self.line,
                &self.numerals,
                text,
            ),
            Way::Indexed => raw::add_total_indexed(
                &mut record,
                &self.settings,
                &self.hall,
                &self.indexes.hall,
                &self.line,
                &self.indexes.line,
                &self.numerals,
                text,
            ),
        };
        *total = length_of(record);
        answer(added)
    }
}

/// The words of a card's settings.
fn settings_of(card: &Card) -> raw::Settings {
    let mut settings = [0; 25];
    for (word, on) in settings[raw::SWITCHES..]
        .iter_mut()
        .zip(card.switches.in_order())
    {
        *word = on.into();
    }
    settings[raw::INNER..raw::OUTER].copy_from_slice(&set_words(&card.inner));
    settings[raw::OUTER..raw::CONJUNCTIONS].copy_from_slice(&set_words(&card.outer));
    settings[raw::CONJUNCTIONS] = card.conjunctions.count.into();
    for (index, (size, letters)) in card.conjunctions.slots.iter().enumerate() {
        let slot = raw::CONJUNCTIONS + 1 + 2 * index;
        settings[slot] = (*size).into();
        settings[slot + 1] = u64::from_le_bytes(*letters);
    }
    settings[raw::DEFAULT_KIND] = card.kind.into();
    settings
}

/// Asks about indexes and lookups, with what is lent as it is afterwards.
pub fn ask(request: &IndexRequest) -> Outcome {
    match request {
        IndexRequest::Make { card, index } => {
            let mut index = index.clone();
            let made = raw::make_index(&settings_of(card), &card.hall, &mut index);
            let answer = answer(made);
            Outcome::Made { answer, index }
        }
        IndexRequest::Check { card, index } => {
            let checked = raw::check_index(&settings_of(card), &card.hall, index);
            Outcome::Answered(answer(checked))
        }
        IndexRequest::Replace {
            row,
            new_row,
            card,
            index,
        } => {
            let (mut table, mut index) = (card.hall.clone(), index.clone());
            let (settings, row) = (settings_of(card), *row as usize);
            let replaced = raw::replace_row(&settings, &mut table, &mut index, row, new_row);
            Outcome::Replaced {
                answer: answer(replaced),
                table,
                index,
            }
        }
        IndexRequest::Part {
            place,
            card,
            indexes,
            text,
        } => Outcome::Answered(answer(raw::read_part_indexed(
            &settings_of(card),
            &card.hall,
            &indexes.hall,
            &card.line,
            &indexes.line,
            &card.numerals,
            text,
            *place as usize,
        ))),
        IndexRequest::Total {
            card,
            indexes,
            text,
        } => Outcome::Answered(answer(raw::read_total_indexed(
            &settings_of(card),
            &card.hall,
            &indexes.hall,
            &card.line,
            &indexes.line,
            &card.numerals,
            text,
        ))),
        IndexRequest::Shift {
            record,
            card,
            indexes,
            text,
        } => {
            let mut total = record_of(*record);
            let added = raw::add_total_indexed(
                &mut total,
                &settings_of(card),
                &card.hall,
                &indexes.hall,
                &card.line,
                &indexes.line,
                &card.numerals,
                text,
            );
            Outcome::Shifted {
                answer: answer(added),
                record: length_of(total),
            }
        }
        IndexRequest::LookUp { card, name } => {
            let settings = settings_of(card);
            looked_up(raw::look_up(&settings, &card.hall, &card.line, name))
        }
        IndexRequest::LookUpIndexed {
            card,
            indexes,
            name,
        } => looked_up(raw::look_up_indexed(
            &settings_of(card),
            &card.hall,
            &indexes.hall,
            &card.line,
            &indexes.line,
            name,
        )),
    }
}

fn looked_up(found: raw::Found) -> Outcome {
    Outcome::LookedUp(Found {
        number: found.number,
        position: found.position,
        table: found.table,
        row: found.row,
        compared: found.compared,
    })
}

pub fn write(length: Length, buffer: &mut [u8], place: usize) -> Answer {
    answer(raw::write(&record_of(length), buffer, place))
}

/// Lines of a form moved to the other, into a target that is lent.
pub fn moved(from: Form, source: &[u8], target: &[u8]) -> Moved {
    let mut target = target.to_vec();
    let moved = if from == OLD {
        raw::move_to_new(source, &mut target)
    } else {
        raw::move_to_old(source, &mut target)
    };
    Moved {
        answer: answer(moved),
        target,
    }
}

fn record_of(length: Length) -> raw::Record {
    [length.negative.into(), length.seconds, length.nanos]
}

fn length_of([negative, seconds, nanos]: raw::Record) -> Length {
    assert!(negative <= 1, "a sign is handed back as {negative}");
    Length {
        negative: negative == 1,
        seconds,
        nanos,
    }
}

fn answer(answer: raw::Answer) -> Answer {
    Answer {
        number: answer.number,
        position: Some(answer.position),
        length: length_of(answer.length),
    }
}

/// Byte b is bit b % 64 of word b / 64.
fn set_words(set: &ByteSet) -> [u64; 4] {
    let mut words = [0; 4];
    for byte in set.bytes() {
        words[usize::from(byte / 64)] |= 1 << (byte % 64);
    }
    words
}
