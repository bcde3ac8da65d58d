//! What a run of the port beside the crate has asked and found.

use std::collections::BTreeMap;
use std::fmt;

use crate::card_a::same_answer;
use crate::crate_side::CrateAnswer;
use crate::index_request::{IndexRequest, Outcome};
use crate::left_out::LeftOut;
use crate::moves::Moved;
use crate::progress::Progress;
use crate::request::{Answer, Card, NUMBERS, bytes_field};
use crate::slips::SLIPS;
use crate::spoil::Spoiler;
use crate::table::{MOST_ROWS, ROW_BYTES, merged};

/// The numbers that moves alone hand back, behind all others.
const OF_MOVES: usize = 2;

/// So many differing requests are shown in full.
const MOST_SHOWN: u64 = 50;

pub struct Found {
    /// What is asked, as the figures name it.
    name: String,
    /// How many readings there are to be.
    wanted: u64,
    progress: Progress,
    spoiler: Option<Spoiler>,
    pub cards: u64,
    pub readings: u64,
    /// Of the readings those of a part from a place.
    parts: u64,
    /// Of the readings those for which the port looks units up through indexes.
    pub through_indexes: u64,
    left_out: LeftOut,
    /// The port's answers by number.
    numbers: Numbers,
    /// Of cards, answers and differing readings those under cards of a kind.
    kinds: [OfAKind; 4],
    /// The readings, counted from 0, in which port and crate differ.
    differing: Vec<u64>,
    /// The port's 3 and 4, of which the crate does not give the place.
    places: HeldAgainstPlain,
    /// The port's slips, which are one number of the crate's.
    slips: HeldAgainstPlain,
    /// What was asked about indexes and lookups, which the crate does not have, by
    /// the name of the request; and what of it had been written by hand.
    indexes: BTreeMap<&'static str, HeldAgainstPlain>,
    index_limits: HeldAgainstPlain,
    /// Moves of stored rows, which the crate does not have either.
    moves: HeldAgainstPlain,
    move_limits: HeldAgainstPlain,
    /// What the port was asked about itself: texts, their parts, and lengths
    /// written and read back.
    pub texts: u64,
    pub parts_of_texts: u64,
    pub written: u64,
    /// How often it differed from itself.
    differing_itself: u64,
}

/// How many answers there are of each number.
#[derive(Default)]
struct Numbers([u64; NUMBERS + OF_MOVES]);

impl Numbers {
    fn count(&mut self, number: u8) {
        if let Some(count) = self.0.get_mut(usize::from(number)) {
            *count += 1;
        }
    }

    fn all(&self) -> u64 {
        self.0.iter().sum()
    }

    /// How many there are of each slip, also where there are none.
    fn slips(&self) -> String {
        let counted: Vec<String> = SLIPS
            .map(|number| format!("{number}: {}", self.0[usize::from(number)]))
            .collect();
        counted.join("; ")
    }
}

impl fmt::Display for Numbers {
    fn fmt(&self, out: &mut fmt::Formatter<'_>) -> fmt::Result {
        let numbers = self.0.iter().enumerate();
        let counted: Vec<String> = numbers
            .filter(|(_, count)| **count > 0)
            .map(|(number, count)| format!("{number}: {count}"))
            .collect();
        out.write_str(&counted.join("; "))
    }
}

/// Answers of the port that the crate does not confirm whole, so that the plain
/// reading is asked too, for number and position.
#[derive(Default)]
struct HeldAgainstPlain {
    numbers: Numbers,
    differing: u64,
}

impl HeldAgainstPlain {
    /// Counts an answer of the port's; true if it is the same.
    fn count(&mut self, number: u8, same: bool) -> bool {
        self.numbers.count(number);
        self.differing += u64::from(!same);
        same
    }
}

/// The number of what the port answers about indexes.
fn number_of(outcome: &Outcome) -> u8 {
    match outcome {
        Outcome::Answered(answer)
        | Outcome::Made { answer, .. }
        | Outcome::Replaced { answer, .. }
        | Outcome::Shifted { answer, .. } => answer.number,
        Outcome::LookedUp(found) => found.number,
    }
}

/// The answer of a move, and the target then.
fn told(moved: &Moved) -> String {
    format!("{} {}", moved.answer, bytes_field(&moved.target))
}

/// What is counted again of the cards that have something.
struct OfAKind {
    name: &'static str,
    is_of_it: fn(&Card) -> bool,
    /// Whether the card that is asked about is.
    now: bool,
    cards: u64,
    numbers: Numbers,
    differing: u64,
}

impl OfAKind {
    fn new(name: &'static str, is_of_it: fn(&Card) -> bool) -> Self {
        Self {
            name,
            is_of_it,
            now: false,
            cards: 0,
            numbers: Numbers::default(),
            differing: 0,
        }
    }

    fn begin_card(&mut self, card: &Card) {
        self.now = (self.is_of_it)(card);
        self.cards += u64::from(self.now);
    }
}

impl fmt::Display for OfAKind {
    fn fmt(&self, out: &mut fmt::Formatter<'_>) -> fmt::Result {
        write!(
            out,
            "under cards with {}: {} readings under {} cards, {} differ; by number: {}",
            self.name,
            self.numbers.all(),
            self.cards,
            self.differing,
            self.numbers
        )
    }
}

fn has_numerals(card: &Card) -> bool {
    !card.numerals.is_empty()
}

fn has_a_line(card: &Card) -> bool {
    !card.line.is_empty()
}

/// How many rows the merged table has, and how many the two have.
fn merged_and_both(card: &Card) -> (usize, usize) {
    let rows = merged(&card.hall, &card.line).unwrap_or_default();
    let both = card.hall.len() + card.line.len();
    (rows.len(), both / ROW_BYTES)
}

fn shares_a_name(card: &Card) -> bool {
    let (rows, both) = merged_and_both(card);
    rows < both
}

fn merges_to_more(card: &Card) -> bool {
    let (rows, _) = merged_and_both(card);
    rows > MOST_ROWS
}

impl Found {
    pub fn new(name: String, wanted: u64, spoiler: Option<Spoiler>) -> Self {
        Self {
            name,
            wanted,
            progress: Progress::begin(),
            spoiler,
            cards: 0,
            readings: 0,
            parts: 0,
            through_indexes: 0,
            left_out: LeftOut::default(),
            numbers: Numbers::default(),
            kinds: [
                OfAKind::new("numerals", has_numerals),
                OfAKind::new("a line's table", has_a_line),
                OfAKind::new("a name in both unit tables", shares_a_name),
                OfAKind::new("more than 64 units in both", merges_to_more),
            ],
            differing: Vec::new(),
            places: HeldAgainstPlain::default(),
            slips: HeldAgainstPlain::default(),
            indexes: BTreeMap::new(),
            index_limits: HeldAgainstPlain::default(),
            moves: HeldAgainstPlain::default(),
            move_limits: HeldAgainstPlain::default(),
            texts: 0,
            parts_of_texts: 0,
            written: 0,
            differing_itself: 0,
        }
    }

    /// Counts a card, under which readings follow.
    pub fn begin_card(&mut self, card: &Card) {
        self.cards += 1;
        for kind in &mut self.kinds {
            kind.begin_card(card);
        }
    }

    /// Counts a reading and compares its answers; true if the port's is the
    /// crate's, which may be spoiled on the way, or is not to be compared.
    pub fn compare(&mut self, is_part: bool, said: &mut CrateAnswer, port: &Answer) -> bool {
        let reading = self.readings;
        self.readings += 1;
        self.parts += u64::from(is_part);
        self.numbers.count(port.number);
        let same = match said {
            CrateAnswer::Says(answer) => {
                if let Some(spoiler) = &mut self.spoiler {
                    spoiler.spoil(reading, answer);
                }
                same_answer(answer, port)
            }
            CrateAnswer::LeftOut(reason) => {
                self.left_out.count(*reason);
                true
            }
            CrateAnswer::Unasked(_) | CrateAnswer::Loud(_) => false,
        };
        if !same {
            self.differing.push(reading);
        }
        for kind in self.kinds.iter_mut().filter(|kind| kind.now) {
            kind.numbers.count(port.number);
            kind.differing += u64::from(!same);
        }
        same
    }

    /// Counts an answer of the port that the crate does not confirm whole, and
    /// compares it with the plain reading's; true if they are the same.
    pub fn compare_with_plain(&mut self, plain: &Answer, port: &Answer) -> bool {
        let held = match port.number {
            3 | 4 => &mut self.places,
            _ => &mut self.slips,
        };
        held.count(port.number, plain == port)
    }

    /// Counts what the port answers about indexes, compares it with what is wanted
    /// and shows it if it differs.
    pub fn hold_index(&mut self, request: &IndexRequest, plain: &Outcome, port: &Outcome) {
        let held = self.indexes.entry(request.called()).or_default();
        if !held.count(number_of(port), plain == port) {
            self.show(
                request,
                [("port", port.to_string()), ("plain", plain.to_string())],
            );
        }
    }

    /// The same with what was written by hand.
    pub fn hold_index_limit(&mut self, request: &IndexRequest, hand: &Outcome, port: &Outcome) {
        if !self.index_limits.count(number_of(port), hand == port) {
            self.show(
                request,
                [("port", port.to_string()), ("limit", hand.to_string())],
            );
        }
    }

    /// Counts a move of the port's, compares answer and target with what is wanted and
    /// shows it if they differ.
    pub fn hold_move(&mut self, request: &impl fmt::Display, plain: &Moved, port: &Moved) {
        if !self.moves.count(port.answer.number, plain == port) {
            self.show(request, [("port", told(port)), ("plain", told(plain))]);
        }
    }

    /// The same with what was written by hand.
    pub fn hold_move_limit(&mut self, request: &impl fmt::Display, hand: &Moved, port: &Moved) {
        if !self.move_limits.count(port.answer.number, hand == port) {
            self.show(request, [("port", told(port)), ("limit", told(hand))]);
        }
    }

    /// Counts something in which the port differs from itself.
    pub fn differs_from_itself(&mut self) {
        self.differing_itself += 1;
    }

    fn differing(&self) -> u64 {
        self.differing.len() as u64 + self.differing_from_plain() + self.differing_itself
    }

    fn differing_from_plain(&self) -> u64 {
        let moves = self.moves.differing + self.move_limits.differing;
        self.places.differing + self.slips.differing + self.differing_indexes() + moves
    }

    fn differing_indexes(&self) -> u64 {
        let held = self.indexes.values().map(|held| held.differing);
        held.sum::<u64>() + self.index_limits.differing
    }

    /// Shows a request that was just counted as differing, with the answers.
    pub fn show(&self, request: &impl fmt::Display, answers: [(&str, String); 2]) {
        if self.differing() <= MOST_SHOWN {
            println!("{request}");
            for (whose, answer) in answers {
                println!("    {whose}: {answer}");
            }
        }
    }

    pub fn tell_progress(&mut self) {
        let (readings, differing) = (self.readings, self.differing());
        let a_second = self.a_second();
        let (name, wanted, cards) = (&self.name, self.wanted, self.cards);
        self.progress.tell(|| {
            format!(
                "{name}: {readings} of {wanted} readings, {cards} cards, {a_second} a second, {differing} differ"
            )
        });
    }

    fn a_second(&self) -> u64 {
        (self.readings as f64 / self.progress.seconds()) as u64
    }

    /// Prints the figures; true if nothing differs but what was spoiled.
    pub fn end(&self) -> bool {
        self.progress.end();
        println!(
            "{}: {} readings under {} cards, {} of them of a part from a place and {} through indexes; {}, {} differ",
            self.name,
            self.readings,
            self.cards,
            self.parts,
            self.through_indexes,
            self.left_out,
            self.differing.len()
        );
        println!("by number: {}", self.numbers);
        for kind in &self.kinds {
            println!("{kind}");
        }
        println!(
            "places of 3 and 4: {} held against the plain reading, {} differ",
            self.places.numbers.all(),
            self.places.differing
        );
        println!(
            "slips, which are one number in the crate: {} held against the plain reading, {} differ; by number: {}",
            self.slips.numbers.all(),
            self.slips.differing,
            self.slips.numbers.slips()
        );
        println!(
            "indexes at their limits: {} held against what was written by hand, {} differ; by number: {}",
            self.index_limits.numbers.all(),
            self.index_limits.differing,
            self.index_limits.numbers
        );
        for (called, held) in &self.indexes {
            println!(
                "{called}: {} held against the plain reading, {} differ; by number: {}",
                held.numbers.all(),
                held.differing,
                held.numbers
            );
        }
        println!(
            "moves at their limits: {} held against what was written by hand, {} differ; by number: {}",
            self.move_limits.numbers.all(),
            self.move_limits.differing,
            self.move_limits.numbers
        );
        println!(
            "moves: {} held against the plain way, {} differ; by number: {}",
            self.moves.numbers.all(),
            self.moves.differing,
            self.moves.numbers
        );
        println!(
            "by the port alone: {} texts read in parts and added to a total, {} parts, {} lengths written and read back; {} differ",
            self.texts, self.parts_of_texts, self.written, self.differing_itself
        );
        println!(
            "{} readings a second, {:.0} seconds",
            self.a_second(),
            self.progress.seconds()
        );
        self.only_what_was_spoiled()
            && self.differing_from_plain() == 0
            && self.differing_itself == 0
    }

    /// Whether exactly the spoiled answers differ; a run that is to spoil some
    /// has to come to one.
    fn only_what_was_spoiled(&self) -> bool {
        let Some(spoiler) = &self.spoiler else {
            return self.differing.is_empty();
        };
        let exactly = spoiler.spoiled == self.differing;
        println!(
            "{} of the crate's answers were spoiled, {} readings are reported: {}",
            spoiler.spoiled.len(),
            self.differing.len(),
            if exactly { "the same" } else { "others" }
        );
        exactly && !spoiler.spoiled.is_empty()
    }
}
