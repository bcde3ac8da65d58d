//! A plain reading of request seven, written from its words: the order of names,
//! the index of a table, which indexes are refused and where, what each of the
//! two searches compares, and a row replaced. What it says of tables and texts is
//! the plain reading's of document 01.

use crate::index_request::{Found, IndexRequest, Indexes, Outcome};
use crate::plain::{self, OF_THE_LINE};
use crate::request::{Answer, Card, Length};
use crate::table::{ROW_BYTES, rows_of};

const WRONG_INDEX: u8 = 23;

/// What is handed back in the place of what was asked for.
type Checked = Result<(), Answer>;

/// The answer to any request, with what was lent as it is afterwards.
pub fn answer(request: &IndexRequest) -> Outcome {
    match request {
        IndexRequest::Make { card, index } => make(card, index),
        IndexRequest::Check { card, index } => Outcome::Answered(ends(card, check(card, index))),
        IndexRequest::Replace {
            row,
            new_row,
            card,
            index,
        } => replace(*row, new_row, card, index),
        IndexRequest::Part {
            place,
            card,
            indexes,
            text,
        } => Outcome::Answered(match indexed(card, indexes) {
            Ok(()) => plain::part(card, text, *place),
            Err(refused) => refused,
        }),
        IndexRequest::Total {
            card,
            indexes,
            text,
        } => Outcome::Answered(match indexed(card, indexes) {
            Ok(()) => plain::total(card, text),
            Err(refused) => refused,
        }),
        IndexRequest::Shift {
            record,
            card,
            indexes,
            text,
        } => {
            let (answer, record) = match indexed(card, indexes) {
                Ok(()) => plain::shift(*record, card, text),
                Err(refused) => (refused, *record),
            };
            Outcome::Shifted { answer, record }
        }
        IndexRequest::LookUp { card, name } => {
            let checked = accepted(&without_numerals(card));
            looked_up(checked, card, |table| row_by_row(table, name))
        }
        IndexRequest::LookUpIndexed {
            card,
            indexes,
            name,
        } => {
            let checked = indexed(&without_numerals(card), indexes);
            looked_up(checked, card, |table| by_halving(table, name))
        }
    }
}

// The order of names, and the index of a table.

/// The lower byte decides where two names differ first, and where they do not, but
/// one goes on, the other stands before it.
fn stands_before(name: &[u8], other: &[u8]) -> bool {
    match name.iter().zip(other).find(|(one, two)| one != two) {
        Some((one, two)) => one < two,
        None => name.len() < other.len(),
    }
}

/// How many of the names stand before one.
fn names_before(names: &[Vec<u8>], name: &[u8]) -> usize {
    let before = names.iter().filter(|other| stands_before(other, name));
    before.count()
}

/// The names of a table that is accepted.
fn names(table: &[u8]) -> Vec<Vec<u8>> {
    let rows = rows_of(table).expect("an accepted table has rows alone");
    rows.into_iter().map(|row| row.name).collect()
}

/// The index of a table that is accepted: each row stands where so many names
/// before its own say.
pub fn index_of(table: &[u8]) -> Vec<u8> {
    let names = names(table);
    let mut index = vec![0; names.len()];
    for (row, name) in names.iter().enumerate() {
        index[names_before(&names, name)] = row as u8;
    }
    index
}

/// The indexes of the two tables of a card that is accepted.
pub fn indexes_of(card: &Card) -> Indexes {
    Indexes {
        hall: index_of(&card.hall),
        line: index_of(&card.line),
    }
}

// What is refused.

/// 7, if the card is not accepted.
fn accepted(card: &Card) -> Checked {
    match plain::check(card) {
        (0, _) => Ok(()),
        (number, position) => Err(Answer::refusal(number, position as u64)),
    }
}

/// The settings and the hall's table alone.
fn one_table(card: &Card) -> Card {
    Card {
        line: Vec::new(),
        ..without_numerals(card)
    }
}

fn without_numerals(card: &Card) -> Card {
    Card {
        numerals: Vec::new(),
        ..card.clone()
    }
}

/// 23, if the index of a table that is accepted has another length, or else at the
/// first entry that is not the right one; so much is added to its position.
fn right_index(table: &[u8], index: &[u8], added: usize) -> Checked {
    let right = index_of(table);
    let wrong = if index.len() == right.len() {
        (0..right.len()).find(|entry| index[*entry] != right[*entry])
    } else {
        Some(right.len())
    };
    match wrong {
        Some(at) => Err(Answer::refusal(WRONG_INDEX, (added + at) as u64)),
        None => Ok(()),
    }
}

/// A card and its indexes: all of 7, then the hall's index, then the line's.
fn indexed(card: &Card, indexes: &Indexes) -> Checked {
    accepted(card)?;
    right_index(&card.hall, &indexes.hall, 0)?;
    right_index(&card.line, &indexes.line, OF_THE_LINE)
}

/// One table and its index.
fn check(card: &Card, index: &[u8]) -> Checked {
    accepted(&one_table(card))?;
    right_index(&card.hall, index, 0)
}

// One table and its index: each request ends at the number of rows.

fn ends(card: &Card, checked: Checked) -> Answer {
    let rows = card.hall.len() / ROW_BYTES;
    match checked {
        Ok(()) => Answer::success(rows as u64, Length::ZERO),
        Err(refused) => refused,
    }
}

fn make(card: &Card, index: &[u8]) -> Outcome {
    let rows = card.hall.len() / ROW_BYTES;
    let checked = accepted(&one_table(card)).and_then(|()| {
        if index.len() == rows {
            Ok(())
        } else {
            Err(Answer::refusal(WRONG_INDEX, rows as u64))
        }
    });
    let index = match checked {
        Ok(()) => index_of(&card.hall),
        Err(_) => index.to_vec(),
    };
    let answer = ends(card, checked);
    Outcome::Made { answer, index }
}

fn replace(row: u64, new_row: &[u8], card: &Card, index: &[u8]) -> Outcome {
    let replaced = check(card, index).and_then(|()| with_row(row, new_row, card));
    match replaced {
        Ok(table) => Outcome::Replaced {
            answer: ends(card, Ok(())),
            index: index_of(&table),
            table,
        },
        Err(answer) => Outcome::Replaced {
            answer,
            table: card.hall.clone(),
            index: index.to_vec(),
        },
    }
}

/// The table with the new row, if there is such a row and the table is accepted.
fn with_row(row: u64, new_row: &[u8], card: &Card) -> Result<Vec<u8>, Answer> {
    let rows: Vec<&[u8]> = card.hall.chunks(ROW_BYTES).collect();
    if row >= rows.len() as u64 {
        return Err(Answer::refusal(10, row));
    }
    let mut replaced = rows;
    replaced[row as usize] = new_row;
    let with_it = Card {
        hall: replaced.concat(),
        ..one_table(card)
    };
    if new_row.len() != ROW_BYTES || !plain::accepts(&with_it) {
        return Err(Answer::refusal(7, row));
    }
    Ok(with_it.hall)
}

// The two searches.

/// What the search of one table finds, and how many names it compares.
struct Searched {
    row: Option<usize>,
    compared: usize,
}

/// One row after the other, up to the one that has the name.
fn row_by_row(table: &[u8], name: &[u8]) -> Searched {
    let names = names(table);
    let row = names.iter().position(|other| other == name);
    let compared = match row {
        Some(row) => row + 1,
        None => names.len(),
    };
    Searched { row, compared }
}

/// Through a right index, by halving. How many names stand before the one that is
/// looked for is counted beforehand, so that a probe is told from its place alone
/// and no name is compared here.
fn by_halving(table: &[u8], name: &[u8]) -> Searched {
    let names = names(table);
    let row = names.iter().position(|other| other == name);
    let before = names_before(&names, name);
    let (mut low, mut high) = (0, names.len());
    let mut compared = 0;
    while low < high {
        let middle = (low + high) / 2;
        compared += 1;
        if middle < before {
            low = middle + 1;
        } else if middle == before && row.is_some() {
            break;
        } else {
            high = middle;
        }
    }
    Searched { row, compared }
}

/// The line's table is searched, and where it has not got the name the hall's
/// too.
fn looked_up(checked: Checked, card: &Card, search: impl Fn(&[u8]) -> Searched) -> Outcome {
    if let Err(refused) = checked {
        return Outcome::LookedUp(Found {
            number: refused.number,
            position: refused.position.unwrap_or_default(),
            table: 0,
            row: 0,
            compared: 0,
        });
    }
    let in_line = search(&card.line);
    if in_line.row.is_some() {
        return found(2, in_line.row, in_line.compared);
    }
    let in_hall = search(&card.hall);
    found(1, in_hall.row, in_line.compared + in_hall.compared)
}

fn found(table: u64, row: Option<usize>, compared: usize) -> Outcome {
    let (table, row) = match row {
        Some(row) => (table, row as u64),
        None => (0, 0),
    };
    Outcome::LookedUp(Found {
        number: 0,
        position: 0,
        table,
        row,
        compared: compared as u64,
    })
}
