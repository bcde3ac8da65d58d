//! The list of cards that the program `index_list` tries, and what it prints of
//! them: check sums, by the program's rule, of what the plain reading hands back.
//!
//! Each card stands in its stored form, and behind it a text. The tables have 0 to
//! 64 rows; their names are of four kinds. What is done with a card follows from
//! its rows alone, so that nothing else is stored.

use std::fmt::Write as _;

use crate::card_a::card_a;
use crate::index_request::{Found, IndexRequest, Indexes, Outcome};
use crate::plain_index::{self, indexes_of};
use crate::request::{Answer, Card};
use crate::rng::Random;
use crate::stored::{self, card_lines};
use crate::sums::Sum;
use crate::table::{MOST_ROWS, NAME_BYTES, ROW_BYTES, Row, rows_of, table_bytes};

const SEED: u64 = 2_027;

/// What the program has room for.
const ROOM: usize = 16_384;

/// What keeps the program from dividing by no rows; no table has so many.
const MORE_THAN_ROWS: usize = 128;

/// Writes the cards into one file and what is printed of them into another.
pub fn write_files(cards_path: &str, found_path: &str) -> Result<bool, String> {
    let mut random = Random::new(SEED);
    let (mut lines, mut found) = (String::new(), String::new());
    let mut tried = Tried::default();
    for rows in 0..=MOST_ROWS {
        for names in KINDS_OF_NAMES {
            let card = make_card(&mut random, rows, names);
            let text = make_text(&mut random, &card);
            let (sizes, bytes) = stored::text(&text, ROOM)?;
            let _ = writeln!(lines, "{}{sizes}\n{bytes}", card_lines(&card));
            found += &tried.card(&card, &text)?;
        }
    }
    let _ = writeln!(found, "{} cards", tried.cards);
    stored::write_files([(cards_path, lines), (found_path, found)])?;
    eprintln!("{}", tried.told());
    Ok(true)
}

// Making cards.

#[derive(Clone, Copy)]
enum Names {
    /// Letters, few or many.
    Letters,
    /// One begins the other, or they differ behind the same beginning.
    SameBeginnings,
    /// A byte of any value.
    OneByte,
    /// Bytes above 127, and some below; or letters of two bytes.
    HighBytes,
}

const KINDS_OF_NAMES: [Names; 4] = [
    Names::Letters,
    Names::SameBeginnings,
    Names::OneByte,
    Names::HighBytes,
];

/// Card A with so many rows of the hall's, and a table of the line's of any size,
/// in which some names are the hall's too.
fn make_card(random: &mut Random, rows: usize, names: Names) -> Card {
    let hall = make_rows(random, rows, names, &[]);
    let line_rows = match random.below(16) {
        0 => 0,
        1 => MOST_ROWS,
        _ => random.below(30) as usize,
    };
    let line = make_rows(random, line_rows, names, &hall);
    Card {
        hall: table_bytes(&hall),
        line: table_bytes(&line),
        ..card_a()
    }
}

/// Rows of different names, one in five with the name of one of the others.
fn make_rows(random: &mut Random, count: usize, names: Names, others: &[Row]) -> Vec<Row> {
    let mut rows: Vec<Row> = Vec::new();
    while rows.len() < count {
        let name = if !others.is_empty() && random.chance(20) {
            random.pick(others).name.clone()
        } else {
            make_name(random, names)
        };
        if rows.iter().all(|row| row.name != name) {
            rows.push(Row {
                name,
                kind: random.below(8) as u8,
                coefficient: random.between(1, 999),
                power: 0,
            });
        }
    }
    rows
}

fn make_name(random: &mut Random, names: Names) -> Vec<u8> {
    match names {
        Names::Letters => {
            let size = match random.below(4) {
                0 => 1 + random.below(NAME_BYTES as u64),
                _ => 1 + random.below(4),
            };
            (0..size).map(|_| letter(random)).collect()
        }
        Names::SameBeginnings => {
            let beginning = b"abcdefghijklmnopqrstuvwxyzABCDE";
            let same = match random.below(3) {
                0 => *random.pick(&[7, 8, 15, 16, 23, 24, 31]),
                _ => random.below(NAME_BYTES as u64),
            };
            let mut name = beginning[..same as usize].to_vec();
            if name.is_empty() || random.chance(80) {
                name.push(letter(random));
            }
            name
        }
        Names::OneByte => vec![any_byte(random)],
        Names::HighBytes if random.chance(40) => {
            let letters = *random.pick(&["абвгдежзийклмноп", "αβγδεζηθικλμνξοπ"]);
            let most = letters.chars().count() as u64;
            let same = random.below(most) as usize;
            let mut name: String = letters.chars().take(same).collect();
            name.extend(letters.chars().nth(random.below(most) as usize));
            name.into_bytes()
        }
        Names::HighBytes => {
            let size = 1 + random.below(4);
            let byte = |random: &mut Random| match random.chance(80) {
                true => 128 + random.below(128) as u8,
                false => any_byte(random),
            };
            (0..size).map(|_| byte(random)).collect()
        }
    }
}

fn letter(random: &mut Random) -> u8 {
    *random.pick(b"abcdefghijklmnopqrstuvwxyzABCDEFGHIJKLMNOPQRSTUVWXYZ")
}

/// Any byte that a name may hold under card A.
fn any_byte(random: &mut Random) -> u8 {
    loop {
        let byte = random.below(256) as u8;
        if !b" +-.0123456789".contains(&byte) {
            return byte;
        }
    }
}

/// A few parts with names of either table, one in ten with another.
fn make_text(random: &mut Random, card: &Card) -> Vec<u8> {
    let mut parts: Vec<Vec<u8>> = Vec::new();
    for number in 1..=1 + random.below(4) {
        let table = random.pick(&[&card.hall, &card.line]).as_slice();
        let rows = rows_of(table).unwrap_or_default();
        let name = if rows.is_empty() || random.chance(10) {
            make_name(random, Names::Letters)
        } else {
            random.pick(&rows).name.clone()
        };
        parts.push([number.to_string().as_bytes(), &name].concat());
    }
    parts.join(&b' ')
}

// What the program does.

/// What was done with all cards.
#[derive(Default)]
struct Tried {
    cards: u64,
    rows: u64,
    turned: u64,
    exchanged: u64,
    looked_up: u64,
    found: u64,
    replaced: u64,
    not_replaced: u64,
}

impl Tried {
    /// What is printed of a card and its text.
    fn card(&mut self, card: &Card, text: &[u8]) -> Result<String, String> {
        let rows = card.hall.len() / ROW_BYTES;
        let line_rows = card.line.len() / ROW_BYTES;
        let line_as_hall = Card {
            hall: card.line.clone(),
            ..card.clone()
        };
        self.cards += 1;
        self.rows += (rows + line_rows) as u64;
        let mut printed = format!(
            "{rows} {line_rows} {} {} {} {} {}\n",
            make(card)?.0,
            make(&line_as_hall)?.0,
            self.turn(card)?.0,
            self.exchange(card)?.0,
            self.look_up(card)?.0
        );
        let both = indexes_of(card);
        let one = Indexes {
            line: Vec::new(),
            ..both.clone()
        };
        for indexes in [both, one] {
            let request = IndexRequest::Total {
                card: card.clone(),
                indexes,
                text: text.to_vec(),
            };
            let _ = writeln!(printed, "{}", answered(&request)?);
        }
        let _ = writeln!(printed, "{}", self.replace(card)?.0);
        Ok(printed)
    }

    /// The right index, and turned by one entry, by two and so on.
    fn turn(&mut self, card: &Card) -> Result<Sum, String> {
        let right = plain_index::index_of(&card.hall);
        let mut sum = Sum::begin();
        for by in 0..right.len() {
            let mut index = right.clone();
            index.rotate_left(by);
            let wanted = if by == 0 {
                (0, right.len())
            } else {
                self.turned += 1;
                (23, 0)
            };
            sum.answer(&checked(card, index, wanted)?);
        }
        Ok(sum)
    }

    /// With two entries exchanged, every two of them.
    fn exchange(&mut self, card: &Card) -> Result<Sum, String> {
        let right = plain_index::index_of(&card.hall);
        let mut sum = Sum::begin();
        for second in 0..right.len() {
            for first in 0..second {
                let mut index = right.clone();
                index.swap(first, second);
                self.exchanged += 1;
                sum.answer(&checked(card, index, (23, first))?);
            }
        }
        Ok(sum)
    }

    /// Each name of both tables, without its last byte, and with the byte behind it,
    /// both ways.
    fn look_up(&mut self, card: &Card) -> Result<Sum, String> {
        let indexes = indexes_of(card);
        let mut sum = Sum::begin();
        for row in [&card.hall, &card.line]
            .into_iter()
            .flat_map(|table| table.chunks(ROW_BYTES))
        {
            let size = usize::from(row[0]);
            for end in [size, size - 1, size + 1] {
                let name = row[1..1 + end].to_vec();
                let by_row = looked_up(IndexRequest::LookUp {
                    card: card.clone(),
                    name: name.clone(),
                })?;
                let indexed = looked_up(IndexRequest::LookUpIndexed {
                    card: card.clone(),
                    indexes: indexes.clone(),
                    name,
                })?;
                if (by_row.table, by_row.row) != (indexed.table, indexed.row) {
                    return Err(format!("the two lookups differ under {card}"));
                }
                self.looked_up += 1;
                self.found += u64::from(by_row.table != 0);
                sum.found(by_row);
                sum.found(indexed);
            }
        }
        Ok(sum)
    }

    /// Each row of the hall's table and two past the last, by the rows of the line's
    /// over and over, behind the last of which comes none.
    fn replace(&mut self, card: &Card) -> Result<Sum, String> {
        let line: Vec<&[u8]> = card.line.chunks(ROW_BYTES).collect();
        let span = line.len() % MORE_THAN_ROWS + 1;
        let mut card = card.clone();
        let mut index = plain_index::index_of(&card.hall);
        let mut sum = Sum::begin();
        for row in 0..index.len() + 2 {
            let new_row = line.get(row % span).copied().unwrap_or_default();
            let outcome = plain_index::answer(&IndexRequest::Replace {
                row: row as u64,
                new_row: new_row.to_vec(),
                card: card.clone(),
                index,
            });
            let Outcome::Replaced {
                answer,
                table,
                index: then,
            } = outcome
            else {
                return Err("a row replaced gives no table".to_string());
            };
            match answer.number {
                0 => self.replaced += 1,
                _ => self.not_replaced += 1,
            }
            (card.hall, index) = (table, then);
            sum.answer(&answer);
            sum.bytes(&index);
            sum.number(make(&card)?.0);
        }
        sum.bytes(&card.hall);
        Ok(sum)
    }

    fn told(&self) -> String {
        format!(
            "{} cards with {} rows: {} indexes turned and {} with entries exchanged, each refused at its entry; {} names looked up both ways, {} of them found; {} rows replaced, {} not",
            self.cards,
            self.rows,
            self.turned,
            self.exchanged,
            self.looked_up,
            self.found,
            self.replaced,
            self.not_replaced
        )
    }
}

/// The index of the hall's table made.
fn make(card: &Card) -> Result<Sum, String> {
    let rows = card.hall.len() / ROW_BYTES;
    let request = IndexRequest::Make {
        card: card.clone(),
        index: vec![0; rows],
    };
    let Outcome::Made { answer, index } = plain_index::answer(&request) else {
        return Err("an index made gives none".to_string());
    };
    let mut sum = Sum::begin();
    sum.answer(&answer);
    sum.bytes(&index);
    Ok(sum)
}

/// An index checked, with number and position as the request says.
fn checked(card: &Card, index: Vec<u8>, wanted: (u8, usize)) -> Result<Answer, String> {
    let request = IndexRequest::Check {
        card: card.clone(),
        index,
    };
    let answer = answered(&request)?;
    if (answer.number, answer.position) != (wanted.0, Some(wanted.1 as u64)) {
        return Err(format!("{request}: {answer}, and not {wanted:?}"));
    }
    Ok(answer)
}

fn answered(request: &IndexRequest) -> Result<Answer, String> {
    match plain_index::answer(request) {
        Outcome::Answered(answer) => Ok(answer),
        other => Err(format!("{request}: {other}")),
    }
}

fn looked_up(request: IndexRequest) -> Result<Found, String> {
    match plain_index::answer(&request) {
        Outcome::LookedUp(found) => Ok(found),
        other => Err(format!("{request}: {other}")),
    }
}
