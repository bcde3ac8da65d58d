//! Indexes and lookups with their answers as antt modules: a declaration for each
//! request, which antt admits exactly if the definitions compute to that answer
//! and to what is lent, as it is afterwards.

use std::path::Path;

use crate::antt::{bytes, length, settings, write_declarations};
use crate::index_limits;
use crate::index_request::{Found, IndexRequest, Indexes, Outcome};
use crate::make_card::make_card;
use crate::make_indexes;
use crate::request::{Answer, Card};
use crate::rng::Random;
use crate::table::ROW_BYTES;

/// The cards of made requests, and the most rows that one of them has in both
/// tables, since antt takes its time for many.
const CARDS: usize = 12;
const MOST_ROWS: usize = 12;
const SEED: u64 = 7;

const HEAD: &str = "\
use Rattle.std.specs.Prelude.{Bool, true, false, ◌&&◌, List, [], ◌∷◌, ◌++◌, ℕ, T, eqb, replicate}
use Rattle.rules.specs.declared.Settings.{Settings}
use Rattle.rules.specs.declared.Length.{Length}
use Rattle.rules.specs.declared.Answer.{Answer}
use Rattle.rules.specs.SettingsAndUnitTable.{Card}
use Rattle.rules.specs.Common.{same}
use Rattle.rules.specs.CardAAndItsReadings.{same_length}
use Rattle.index.specs.declared.LookedUp.{LookedUp}
use Rattle.index.specs.TheSortedIndex.{Indexed, make_answer, made_index, check_answer, replace_answer, replaced_table, replaced_index, indexed_part_answer, indexed_total_answer, indexed_shift_answer, indexed_shifted_record, lookup_answer, indexed_lookup_answer}
use Rattle.index.specs.Computing.{computing_index}

agrees : Answer → ℕ → ℕ → Length → Bool
agrees a n p l = eqb a.number n && eqb a.position p && same_length a.length l

finds : LookedUp → ℕ → ℕ → ℕ → ℕ → ℕ → Bool
finds l n p table row compared =
    eqb l.number n && eqb l.position p && eqb l.table table && eqb l.row row && eqb l.compared compared

";

/// Writes the modules of the cases at the limits into the folder `specs`, and says
/// how many they hold.
pub fn write_limits(specs: &Path) -> Result<usize, String> {
    let cases = index_limits::cases();
    let cases = cases.into_iter().map(|case| (case.request, case.outcome));
    write(cases.collect(), specs)
}

/// The same of what is asked under made cards.
pub fn write_made(specs: &Path) -> Result<usize, String> {
    let mut random = Random::new(SEED);
    let mut requests = Vec::new();
    let mut cards = 0;
    while cards < CARDS {
        let card = make_card(&mut random);
        if card.hall.len() + card.line.len() <= MOST_ROWS * ROW_BYTES {
            requests.extend(make_indexes::requests(&mut random, &card));
            cards += 1;
        }
    }
    write(requests, specs)
}

fn write(requests: Vec<(IndexRequest, Outcome)>, specs: &Path) -> Result<usize, String> {
    let declarations: Result<Vec<String>, String> = requests
        .iter()
        .enumerate()
        .map(|(number, (request, outcome))| declaration(number, request, outcome))
        .collect();
    write_declarations(&declarations?, HEAD, specs)
}

/// A request's card, and that it is answered so.
fn declaration(number: usize, request: &IndexRequest, outcome: &Outcome) -> Result<String, String> {
    let (card, statement) = statement(number, request, outcome)
        .ok_or_else(|| format!("`{outcome}` is no answer to {request}"))?;
    let record = format!(
        "record {{ settings = s{number}; hall = {}; line = {}; numerals = {} }}",
        bytes(&card.hall),
        bytes(&card.line),
        bytes(&card.numerals)
    );
    Ok(format!(
        "s{number} : Settings\ns{number} = {}\n\nc{number} : Card\nc{number} = {record}\n\nr{number} : T ({statement})\nunfolding computing_index same_length agrees finds s{number} c{number}\nr{number} = tt\n\n",
        settings(&card)
    ))
}

/// The card as the definitions take it, and what they come to.
fn statement(number: usize, request: &IndexRequest, outcome: &Outcome) -> Option<(Card, String)> {
    let without_numerals = |card: &Card| Card {
        numerals: Vec::new(),
        ..card.clone()
    };
    let one_table = |card: &Card, index: &[u8]| {
        let arguments = format!("s{number} ({}) ({})", bytes(&card.hall), bytes(index));
        (without_numerals(card), arguments)
    };
    let indexed = |indexes: &Indexes| {
        format!(
            "(record {{ card = c{number}; hall_index = {}; line_index = {} }})",
            bytes(&indexes.hall),
            bytes(&indexes.line)
        )
    };
    Some(match (request, outcome) {
        (
            IndexRequest::Make { card, index },
            Outcome::Made {
                answer,
                index: then,
            },
        ) => {
            let (card, lent) = one_table(card, index);
            let made = format!("same (made_index {lent}) ({})", bytes(then));
            let answer = agrees(&format!("make_answer {lent}"), answer);
            (card, format!("{answer} && {made}"))
        }
        (IndexRequest::Check { card, index }, Outcome::Answered(answer)) => {
            let (card, lent) = one_table(card, index);
            (card, agrees(&format!("check_answer {lent}"), answer))
        }
        (
            IndexRequest::Replace {
                row,
                new_row,
                card,
                index,
            },
            Outcome::Replaced {
                answer,
                table,
                index: then,
            },
        ) => {
            let (card, lent) = one_table(card, index);
            let lent = format!("{lent} {row} ({})", bytes(new_row));
            let table = format!("same (replaced_table {lent}) ({})", bytes(table));
            let index = format!("same (replaced_index {lent}) ({})", bytes(then));
            let answer = agrees(&format!("replace_answer {lent}"), answer);
            (card, format!("{answer} && {table} && {index}"))
        }
        (
            IndexRequest::Part {
                place,
                card,
                indexes,
                text,
            },
            Outcome::Answered(answer),
        ) => {
            let lent = format!("{} ({}) {place}", indexed(indexes), bytes(text));
            let answer = agrees(&format!("indexed_part_answer {lent}"), answer);
            (card.clone(), answer)
        }
        (
            IndexRequest::Total {
                card,
                indexes,
                text,
            },
            Outcome::Answered(answer),
        ) => {
            let lent = format!("{} ({})", indexed(indexes), bytes(text));
            let answer = agrees(&format!("indexed_total_answer {lent}"), answer);
            (card.clone(), answer)
        }
        (
            IndexRequest::Shift {
                record,
                card,
                indexes,
                text,
            },
            Outcome::Shifted {
                answer,
                record: then,
            },
        ) => {
            let (so_far, then) = (length(record), length(then));
            let lent = format!("({so_far}) {} ({})", indexed(indexes), bytes(text));
            let kept = format!("same_length (indexed_shifted_record {lent}) ({then})");
            let answer = agrees(&format!("indexed_shift_answer {lent}"), answer);
            (card.clone(), format!("{answer} && {kept}"))
        }
        (IndexRequest::LookUp { card, name }, Outcome::LookedUp(found)) => {
            let entry = format!("lookup_answer c{number} ({})", bytes(name));
            (without_numerals(card), finds(&entry, found))
        }
        (
            IndexRequest::LookUpIndexed {
                card,
                indexes,
                name,
            },
            Outcome::LookedUp(found),
        ) => {
            let lent = format!("{} ({})", indexed(indexes), bytes(name));
            let entry = format!("indexed_lookup_answer {lent}");
            (without_numerals(card), finds(&entry, found))
        }
        _ => return None,
    })
}

fn agrees(entry: &str, answer: &Answer) -> String {
    let position = answer.position.expect("each answer says where");
    let expected = length(&answer.length);
    format!("agrees ({entry}) {} {position} ({expected})", answer.number)
}

fn finds(entry: &str, found: &Found) -> String {
    format!(
        "finds ({entry}) {} {} {} {} {}",
        found.number, found.position, found.table, found.row, found.compared
    )
}
