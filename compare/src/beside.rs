//! The port beside the crate in one process: both are linked, asked about the
//! same texts and compared.

mod all_texts;
mod found;
mod indexes_beside;
mod made_texts;
mod moves_beside;
mod port_side;
mod progress;
mod side_by_side;
mod spoil;
mod there_and_back;

// Of these the program `compare` uses what is not used here.
#[allow(dead_code)]
mod card_a;
#[allow(dead_code)]
mod crate_side;
#[allow(dead_code)]
mod index_limits;
#[allow(dead_code)]
mod index_request;
#[allow(dead_code)]
mod left_out;
#[allow(dead_code)]
mod make;
#[allow(dead_code)]
mod make_card;
#[allow(dead_code)]
mod make_indexes;
#[allow(dead_code)]
mod make_text;
#[allow(dead_code)]
mod move_limits;
#[allow(dead_code)]
mod moves;
#[allow(dead_code)]
mod nanoseconds;
#[allow(dead_code)]
mod natural;
#[allow(dead_code)]
mod plain;
#[allow(dead_code)]
mod plain_index;
#[allow(dead_code)]
mod request;
#[allow(dead_code)]
mod rng;
#[allow(dead_code)]
mod slips;
#[allow(dead_code)]
mod table;

use std::process::ExitCode;

use found::Found;
use spoil::Spoiler;

const USAGE: &str = "\
usage: beside [SEED [COUNT]]           so many readings of made texts under made cards
       beside --spoil [SEED [COUNT]]   the same, with one of a million of the crate's answers spoiled
       beside --all                    all texts of up to five bytes under six cards
";

const MADE: u64 = 10_000_000;
const MADE_TO_SPOIL: u64 = 5_000_000;

fn main() -> ExitCode {
    let arguments: Vec<String> = std::env::args().skip(1).collect();
    let arguments: Vec<&str> = arguments.iter().map(String::as_str).collect();
    let done = match arguments.as_slice() {
        ["--all"] => all(),
        ["--spoil", words @ ..] => seed_and_count(words, MADE_TO_SPOIL)
            .and_then(|(seed, count)| made(seed, count, Some(Spoiler::new(seed)))),
        words => seed_and_count(words, MADE).and_then(|(seed, count)| made(seed, count, None)),
    };
    match done {
        Ok(true) => ExitCode::SUCCESS,
        Ok(false) => ExitCode::FAILURE,
        Err(why) => {
            eprintln!("{}", why.trim_end());
            ExitCode::from(2)
        }
    }
}

/// The seed, 1 unless given, and the count.
fn seed_and_count(words: &[&str], count: u64) -> Result<(u64, u64), String> {
    let number = |word: &str| word.parse().map_err(|_| USAGE.to_string());
    match words {
        [] => Ok((1, count)),
        [seed] => Ok((number(seed)?, count)),
        [seed, count] => Ok((number(seed)?, number(count)?)),
        _ => Err(USAGE.to_string()),
    }
}

fn made(seed: u64, count: u64, spoiler: Option<Spoiler>) -> Result<bool, String> {
    let mut found = Found::new(format!("seed {seed}"), count, spoiler);
    indexes_beside::hold_limits(&mut found);
    moves_beside::hold_limits(&mut found);
    made_texts::ask(&mut found, seed, count)?;
    Ok(found.end())
}

fn all() -> Result<bool, String> {
    let name = "all texts of up to five bytes".to_string();
    let mut found = Found::new(name, all_texts::count(), None);
    indexes_beside::hold_limits(&mut found);
    moves_beside::hold_limits(&mut found);
    all_texts::ask(&mut found)?;
    Ok(found.end())
}
