//! Making requests about the indexes and lookups of a card: indexes made and
//! checked, right ones and wrong ones, rows replaced one after the other, readings
//! under wrong indexes, and names looked up both ways. Each stands with the plain
//! reading's answer.

use crate::index_request::{IndexRequest, Indexes, Outcome};
use crate::plain_index::{self, index_of, indexes_of};
use crate::request::{Card, Length};
use crate::rng::Random;
use crate::table::{NAME_BYTES, ROW_BYTES, Row, ZEROS_PLACE, rows_of};

/// So many names of each table are looked up, with others beside each.
const NAMES: usize = 6;

/// So many rows are replaced one after the other.
const REPLACEMENTS: usize = 8;

/// What a byte of an index holds before it is made: no row has this number.
const BEFORE: u8 = 255;

/// All that is asked under a card that is accepted.
pub fn requests(random: &mut Random, card: &Card) -> Vec<(IndexRequest, Outcome)> {
    let mut made = Made::default();
    let line_as_hall = Card {
        hall: card.line.clone(),
        ..card.clone()
    };
    for one_table in [card, &line_as_hall] {
        made.make(one_table);
        made.check(random, one_table);
        made.replace(random, one_table);
    }
    made.read_under_wrong(random, card);
    made.look_up(random, card);
    made.requests
}

#[derive(Default)]
struct Made {
    requests: Vec<(IndexRequest, Outcome)>,
}

impl Made {
    fn add(&mut self, request: IndexRequest) {
        let outcome = plain_index::answer(&request);
        self.requests.push((request, outcome));
    }

    /// An index of the right length, and of lengths beside it.
    fn make(&mut self, card: &Card) {
        let rows = card.hall.len() / ROW_BYTES;
        for size in [rows, rows + 1, rows.saturating_sub(1), 0] {
            self.add(IndexRequest::Make {
                card: card.clone(),
                index: vec![BEFORE; size],
            });
        }
    }

    /// The right index, and wrong ones.
    fn check(&mut self, random: &mut Random, card: &Card) {
        let right = index_of(&card.hall);
        let mut indexes = wrong_indexes(random, &right);
        indexes.push(right);
        for index in indexes {
            self.add(IndexRequest::Check {
                card: card.clone(),
                index,
            });
        }
    }

    /// One row after the other, each in what the one before left.
    fn replace(&mut self, random: &mut Random, card: &Card) {
        let mut card = card.clone();
        let mut index = index_of(&card.hall);
        for _ in 0..REPLACEMENTS {
            let row = row_to_replace(random, index.len());
            let new_row = make_new_row(random, &card);
            let lent = if random.chance(10) {
                let wrong = wrong_indexes(random, &index);
                random.pick(&wrong).clone()
            } else {
                index.clone()
            };
            self.add(IndexRequest::Replace {
                row,
                new_row,
                card: card.clone(),
                index: lent,
            });
            if let Some((
                _,
                Outcome::Replaced {
                    answer,
                    table,
                    index: then,
                },
            )) = self.requests.last()
                && answer.number == 0
            {
                (card.hall, index) = (table.clone(), then.clone());
            }
        }
    }

    /// Each reader and the lookup with a wrong index of the hall's, of the line's and
    /// of both, and something else wrong too.
    fn read_under_wrong(&mut self, random: &mut Random, card: &Card) {
        let right = indexes_of(card);
        let of_the_hall = wrong_indexes(random, &right.hall);
        let of_the_line = wrong_indexes(random, &right.line);
        for (hall_wrong, line_wrong) in [(true, false), (false, true), (true, true)] {
            let mut indexes = right.clone();
            if hall_wrong {
                indexes.hall = random.pick(&of_the_hall).clone();
            }
            if line_wrong {
                indexes.line = random.pick(&of_the_line).clone();
            }
            self.read(random, card, indexes);
        }
    }

    fn read(&mut self, random: &mut Random, card: &Card, indexes: Indexes) {
        let text = random.pick(&["1", "", "1s ", "1x"]).as_bytes().to_vec();
        let record = Length {
            negative: random.chance(50),
            ..Length::ZERO
        };
        self.add(IndexRequest::Part {
            place: random.below(4),
            card: card.clone(),
            indexes: indexes.clone(),
            text: text.clone(),
        });
        self.add(IndexRequest::Total {
            card: card.clone(),
            indexes: indexes.clone(),
            text: text.clone(),
        });
        self.add(IndexRequest::Shift {
            record,
            card: card.clone(),
            indexes: indexes.clone(),
            text: text.clone(),
        });
        self.add(IndexRequest::LookUpIndexed {
            card: card.clone(),
            indexes,
            name: text,
        });
    }

    /// Names that stand in a table and others, both ways.
    fn look_up(&mut self, random: &mut Random, card: &Card) {
        let indexes = indexes_of(card);
        for name in names_to_look_up(random, card) {
            self.add(IndexRequest::LookUp {
                card: card.clone(),
                name: name.clone(),
            });
            self.add(IndexRequest::LookUpIndexed {
                card: card.clone(),
                indexes: indexes.clone(),
                name,
            });
        }
    }
}

/// Indexes of another length, turned, with two entries exchanged, with a row that
/// is not there and with one twice.
fn wrong_indexes(random: &mut Random, right: &[u8]) -> Vec<Vec<u8>> {
    let rows = right.len();
    let mut wrong = vec![
        [right, &[rows as u8]].concat(),
        [right, &[0]].concat(),
        [right, &[BEFORE; 3]].concat(),
    ];
    if rows == 0 {
        return wrong;
    }
    wrong.push(Vec::new());
    wrong.push(right[..rows - 1].to_vec());
    wrong.push(right.iter().rev().copied().collect());
    let place = |random: &mut Random| random.below(rows as u64) as usize;
    let mut turned = right.to_vec();
    turned.rotate_left(place(random));
    wrong.push(turned);
    for _ in 0..3 {
        let mut swapped = right.to_vec();
        swapped.swap(place(random), place(random));
        wrong.push(swapped);
    }
    let mut neighbours = right.to_vec();
    let first = place(random);
    neighbours.swap(first, (first + 1) % rows);
    wrong.push(neighbours);
    for row in [rows as u8, 64, 128, 255, right[place(random)]] {
        let mut changed = right.to_vec();
        changed[place(random)] = row;
        wrong.push(changed);
    }
    // Where the places were the same nothing has changed.
    wrong.retain(|index| index != right);
    wrong
}

/// Mostly a row that is there.
fn row_to_replace(random: &mut Random, rows: usize) -> u64 {
    let rows = rows as u64;
    match random.below(12) {
        0 => rows,
        1 => *random.pick(&[rows + 1, 64, 255, 256, 1 << 60, u64::MAX]),
        _ => random.below(rows.max(1)),
    }
}

/// A row with a name beside one of the table's or quite another, with the name of
/// a row, with something else wrong, or of another size.
fn make_new_row(random: &mut Random, card: &Card) -> Vec<u8> {
    let rows = rows_of(&card.hall).unwrap_or_default();
    let mut row = if rows.is_empty() {
        Row {
            name: b"s".to_vec(),
            kind: 3,
            coefficient: 1,
            power: 0,
        }
    } else {
        random.pick(&rows).clone()
    };
    match random.below(10) {
        0..=4 => row.name = beside(random, &row.name),
        5..=6 => row.name = any_name(random),
        7 => row.coefficient /= 2,
        8 => row.kind += 4,
        _ => {}
    }
    // A row has room for no other names.
    row.name.truncate(NAME_BYTES);
    if row.name.is_empty() {
        row.name.push(b'm');
    }
    let mut bytes = row.to_bytes().to_vec();
    match random.below(20) {
        0 => bytes.truncate(ROW_BYTES - 1),
        1 => bytes.push(0),
        2 => bytes.clear(),
        3 => bytes[ZEROS_PLACE] = 1,
        _ => {}
    }
    bytes
}

/// A name that begins another, goes on behind it, or differs from it in one byte:
/// by one, by its highest bit, or by case.
fn beside(random: &mut Random, name: &[u8]) -> Vec<u8> {
    let mut name = name.to_vec();
    if name.is_empty() {
        return any_name(random);
    }
    let place = random.below(name.len() as u64) as usize;
    match random.below(7) {
        0 => {
            name.pop();
        }
        1 => name.push(0),
        2 => name.push(random.below(256) as u8),
        3 => name[place] = name[place].wrapping_add(1),
        4 => name[place] = name[place].wrapping_sub(1),
        5 => name[place] ^= 128,
        _ => name[place] ^= 32,
    }
    name
}

/// A few bytes of any value, or as many as a row has room for.
fn any_name(random: &mut Random) -> Vec<u8> {
    let size = match random.below(4) {
        0 => random.below(NAME_BYTES as u64 + 1),
        _ => random.below(5),
    };
    (0..size).map(|_| random.below(256) as u8).collect()
}

/// Some names of both tables and of the numerals, with others beside each; none at
/// all, the lowest and the highest, and names that are longer than a row's.
fn names_to_look_up(random: &mut Random, card: &Card) -> Vec<Vec<u8>> {
    let mut names = vec![
        Vec::new(),
        vec![0],
        vec![255],
        vec![255; NAME_BYTES],
        vec![b'm'; NAME_BYTES + 1],
        any_name(random),
    ];
    for table in [&card.hall, &card.line, &card.numerals] {
        let rows = rows_of(table).unwrap_or_default();
        let some = if rows.len() <= NAMES {
            rows
        } else {
            (0..NAMES).map(|_| random.pick(&rows).clone()).collect()
        };
        for row in some {
            for _ in 0..3 {
                names.push(beside(random, &row.name));
            }
            // No byte holds the size of this one; its lowest would be right.
            names.push([&row.name[..], &[0; 256]].concat());
            names.push(row.name.repeat(17));
            names.push(row.name);
        }
    }
    names
}
