//! The list of requests that the program `replay` makes again of the two
//! entries, each with its answer.
//!
//! Requests under one card stand together: the card in its stored form, a line
//! that says how many they are, and two lines for each of them. The first is
//!
//! ```text
//! ENTRY PLACE RUN SIZE NUMBER POSITION SIGN SECONDS NANOS
//! ```
//!
//! as hexadecimal digits with nothing between them, ENTRY being 1 for a part;
//! the second has the SIZE bytes of the text.

use std::collections::HashMap;
use std::fmt::Write as _;
use std::fs;
use std::io::{self, BufWriter, Write};

use crate::card_a;
use crate::chosen::{Chosen, reading};
use crate::limits;
use crate::long_texts;
use crate::make::Maker;
use crate::make_odd::OddMaker;
use crate::request::{Answer, Card, NUMBERS, Request, hex};
use crate::stored;

/// The seed of the stored list, and how many of its requests are made by it.
const SEED: u64 = 2_026;
const MADE: usize = 4_600;

/// On the fly, so many cards are tried with long texts.
const CARDS_FOR_LONG_TEXTS: usize = 10;

/// What the program has room for: a run, and the line behind it.
const ROOM: usize = 81_920;

/// So many requests stand under a card at most; more begin it anew.
const MOST_UNDER_A_CARD: usize = 1_000;

struct Listed {
    card: Card,
    lines: String,
    number: u8,
}

/// Writes the stored list into one file, and what `replay` must print of it
/// into another. A card stands in it once.
pub fn write_files(list_path: &str, found_path: &str) -> Result<bool, String> {
    let mut chosen = Chosen::default();
    let mut requests = Vec::new();
    for (request, written) in card_a::requests().into_iter().chain(limits::requests()?) {
        requests.extend(listed(&mut chosen, request, Some(written))?);
    }
    for request in long_texts::requests(&card_a::card_a()) {
        requests.extend(listed(&mut chosen, request, None)?);
    }
    for request in OddMaker::new(SEED).take(MADE) {
        requests.extend(listed(&mut chosen, request, None)?);
    }
    let mut file = fs::File::create(list_path).map_err(|error| format!("{list_path}: {error}"))?;
    let mut list = List::new(&mut file);
    for listed in by_card(requests) {
        list.add(listed).map_err(|error| error.to_string())?;
    }
    end(list, &chosen, found_path)
}

/// Makes so many requests with a seed, after long texts under card A and under
/// cards of the same seed, and prints the list as it is made; what `replay`
/// must print of it goes into a file.
pub fn print(seed: u64, count: u64, found_path: &str) -> Result<bool, String> {
    let mut chosen = Chosen::default();
    let mut list = List::new(BufWriter::new(io::stdout().lock()));
    let mut long = long_texts::requests(&card_a::card_a());
    for card in cards_of(seed) {
        long.extend(long_texts::requests(&card));
    }
    let made = OddMaker::new(seed).take(count as usize);
    for request in long.into_iter().chain(made) {
        if let Some(listed) = listed(&mut chosen, request, None)? {
            list.add(listed).map_err(|error| error.to_string())?;
        }
    }
    end(list, &chosen, found_path)
}

/// What `replay` must print goes into the file, and how the answers were come
/// by is told.
fn end(list: List<impl Write>, chosen: &Chosen, found_path: &str) -> Result<bool, String> {
    let found = list.end().map_err(|error| error.to_string())?;
    fs::write(found_path, found).map_err(|error| format!("{found_path}: {error}"))?;
    eprintln!("{}", chosen.told());
    Ok(true)
}

/// The first cards that a seed makes.
fn cards_of(seed: u64) -> Vec<Card> {
    let mut cards: Vec<Card> = Vec::new();
    for request in Maker::new(seed) {
        if cards.len() == CARDS_FOR_LONG_TEXTS {
            break;
        }
        if let Some(card) = request.card() {
            if !cards.contains(card) {
                cards.push(card.clone());
            }
        }
    }
    cards
}

/// The requests under each card together, cards in the order in which they
/// come first.
fn by_card(requests: Vec<Listed>) -> Vec<Listed> {
    let mut places = HashMap::new();
    let mut cards: Vec<Vec<Listed>> = Vec::new();
    for listed in requests {
        let place = *places.entry(listed.card.to_string()).or_insert(cards.len());
        if place == cards.len() {
            cards.push(Vec::new());
        }
        cards[place].push(listed);
    }
    cards.into_iter().flatten().collect()
}

/// The card of a request, its two lines and its answer's number, or nothing if
/// it is left out of the comparison.
fn listed(
    chosen: &mut Chosen,
    request: Request,
    written: Option<Answer>,
) -> Result<Option<Listed>, String> {
    let (place, card, text) = reading(&request)?;
    let Some(answer) = chosen.answer(&request, written)? else {
        return Ok(None);
    };
    let (sizes, bytes) = stored::text(text, ROOM)?;
    let position = answer.position.ok_or("an answer has no position")?;
    let fields = [
        stored::flag(place.is_some()),
        hex(&place.unwrap_or(0).to_le_bytes()),
        sizes,
        hex(&[answer.number]),
        hex(&position.to_le_bytes()),
        stored::length(answer.length),
    ];
    Ok(Some(Listed {
        card: card.clone(),
        lines: format!("{}\n{bytes}\n", fields.concat()),
        number: answer.number,
    }))
}

/// A list that is being written, and what `replay` finds in it.
struct List<Out: Write> {
    out: Out,
    /// Requests under one card, not written yet since their number stands
    /// before them.
    held: Vec<Listed>,
    cards: u64,
    requests: u64,
    numbers: [u64; NUMBERS],
}

impl<Out: Write> List<Out> {
    fn new(out: Out) -> Self {
        Self {
            out,
            held: Vec::new(),
            cards: 0,
            requests: 0,
            numbers: [0; NUMBERS],
        }
    }

    fn add(&mut self, listed: Listed) -> io::Result<()> {
        let same_card = self
            .held
            .last()
            .is_some_and(|last| last.card == listed.card);
        if !same_card || self.held.len() == MOST_UNDER_A_CARD {
            self.write_held()?;
        }
        self.requests += 1;
        self.numbers[usize::from(listed.number)] += 1;
        self.held.push(listed);
        Ok(())
    }

    fn write_held(&mut self) -> io::Result<()> {
        let Some(first) = self.held.first() else {
            return Ok(());
        };
        self.cards += 1;
        let count = hex(&(self.held.len() as u32).to_le_bytes());
        write!(self.out, "{}{count}\n", stored::card_lines(&first.card))?;
        for listed in self.held.drain(..) {
            self.out.write_all(listed.lines.as_bytes())?;
        }
        Ok(())
    }

    /// What `replay` prints when no answer differs.
    fn end(mut self) -> io::Result<String> {
        self.write_held()?;
        self.out.flush()?;
        let mut found = format!(
            "{} requests under {} cards, 0 differ\n",
            self.requests, self.cards
        );
        for (number, count) in self.numbers.iter().enumerate() {
            let _ = writeln!(found, "{number}: {count}");
        }
        Ok(found)
    }
}
