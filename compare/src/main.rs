//! The Rust side of the comparison: fundu-core as it stands answers requests,
//! requests are made with a fixed seed, and a plain reading of document 01
//! answers the same requests independently.

mod agree;
mod antt;
mod card_a;
mod cards;
mod chosen;
mod crate_side;
mod day;
mod evaluations;
mod index_antt;
mod index_limits;
mod index_list;
mod index_request;
mod iso;
mod iso_antt;
mod iso_lengths;
mod iso_list;
mod iso_texts;
mod left_out;
mod limits;
mod lines;
mod long_texts;
mod make;
mod make_card;
mod make_indexes;
mod make_odd;
mod make_text;
mod move_antt;
mod move_limits;
mod move_list;
mod moves;
mod nanoseconds;
mod natural;
mod plain;
mod plain_index;
mod points;
mod readings;
mod replay;
mod request;
mod rng;
mod round;
mod slips;
mod spoken;
mod stored;
mod sums;
mod table;
mod tally;
mod untypable;

use std::io::{self, BufRead, BufWriter, Write};
use std::path::Path;
use std::process::ExitCode;

use index_request::IndexRequest;
use make::Maker;
use request::Request;

const USAGE: &str = "\
usage: compare make SEED COUNT          make requests
       compare answer                   the crate's answers to requests on standard input
       compare split                    the same, which slip its 2 is by the plain reading
       compare plain                    the plain reading's answers to the same
       compare agree SEED COUNT         make requests and compare the two
       compare check                    document 01's readings of card A, asked of the crate
       compare points                   the points on which the papers are silent, crate against plain
       compare untypable                all short texts with a unit that nobody could type, of the crate alone
       compare evaluations              numbers and multipliers with the crate's lengths
       compare tally REQUESTS ANSWERS   count the lines of two files
       compare limits                   the hand-written cases at the limits, those of indexes and moves too, against plain
       compare limits REQUESTS ANSWERS  the same cases but those of indexes and moves, written into two files
       compare cards CARDS FOUND        cards, and what the plain reading finds of each
       compare day TEXTS FOUND          a day's texts on line 7, and the shift total after each
       compare readings TEXTS FOUND     texts under card A, and what is read of each
       compare lines SHEET FOUND        a sheet for the line program, and what it prints
       compare lines SEED COUNT SHEET FOUND  the same with so many made lines
       compare round FOUND              what round prints of its lists of lengths
       compare replay LIST FOUND        requests with answers, and what replay prints of them
       compare scale SEED COUNT FOUND   the same made on the fly, the list on standard output
       compare iso TEXTS FOUND          texts for the reader of ISO timings, and what iso_list prints
       compare index CARDS FOUND        cards for indexes and lookups, and what index_list prints
       compare moves ROWS FOUND         stored rows to be moved, and what moves_list prints of them
       compare antt REQUESTS ANSWERS DIR  both as antt modules in the folder DIR
       compare antt iso-texts DIR       ISO timings with the plain way's answers, the same
       compare antt iso-lengths DIR     lengths written as ISO timings, the same
       compare antt index-limits DIR    indexes and lookups at their limits, the same
       compare antt index-made DIR      made ones with the plain reading's answers, the same
       compare antt move-limits DIR     moves of stored rows at their limits, the same
";

fn main() -> ExitCode {
    let arguments: Vec<String> = std::env::args().skip(1).collect();
    let arguments: Vec<&str> = arguments.iter().map(String::as_str).collect();
    let done = match arguments.as_slice() {
        ["make", seed, count] => make_lines(seed, count),
        ["answer"] => answer_lines(|line| Ok(crate_side::ask(&Request::parse(line)?).to_string())),
        ["split"] => answer_lines(|line| chosen::split_line(&Request::parse(line)?)),
        ["plain"] => answer_lines(plain_line),
        ["agree", seed, count] => agree_on(seed, count),
        ["check"] => Ok(card_a::check()),
        ["points"] => points::ask_points(),
        ["untypable"] => untypable::search(),
        ["tally", requests, answers] => tally::tally(requests, answers),
        ["limits"] => check_limits(),
        ["limits", requests, answers] => limits::write_files(requests, answers),
        ["evaluations"] => {
            evaluations::print();
            Ok(true)
        }
        ["cards", cards, found] => cards::write_files(cards, found),
        ["day", texts, found] => day::write_files(texts, found),
        ["readings", texts, found] => readings::write_files(texts, found),
        ["lines", sheet, found] => lines::write_files(sheet, found),
        ["lines", seed, count, sheet, found] => made_sheet(seed, count, sheet, found),
        ["replay", list, found] => replay::write_files(list, found),
        ["round", found] => round::write_file(found),
        ["scale", seed, count, found] => print_requests(seed, count, found),
        ["iso", texts, found] => iso_list::write_files(texts, found),
        ["index", cards, found] => index_list::write_files(cards, found),
        ["moves", rows, found] => move_list::write_files(rows, found),
        ["antt", "iso-texts", folder] => told(iso_antt::write_texts(Path::new(folder))),
        ["antt", "iso-lengths", folder] => told(iso_antt::write_lengths(Path::new(folder))),
        ["antt", "index-limits", folder] => told(index_antt::write_limits(Path::new(folder))),
        ["antt", "index-made", folder] => told(index_antt::write_made(Path::new(folder))),
        ["antt", "move-limits", folder] => told(move_antt::write_limits(Path::new(folder))),
        ["antt", requests, answers, folder] => write_antt(requests, answers, folder),
        _ => Err(USAGE.to_string()),
    };
    match done {
        Ok(true) => ExitCode::SUCCESS,
        Ok(false) => ExitCode::FAILURE,
        Err(why) => {
            eprintln!("{}", why.trim_end());
            ExitCode::from(2)
        }
    }
}

fn number(argument: &str) -> Result<u64, String> {
    argument
        .parse()
        .map_err(|_| format!("`{argument}` is no number"))
}

fn make_lines(seed: &str, count: &str) -> Result<bool, String> {
    let (seed, count) = (number(seed)?, number(count)?);
    let mut out = BufWriter::new(io::stdout().lock());
    for request in Maker::new(seed).take(count as usize) {
        writeln!(out, "{request}").map_err(|error| error.to_string())?;
    }
    out.flush().map_err(|error| error.to_string())?;
    Ok(true)
}

fn write_antt(requests: &str, answers: &str, folder: &str) -> Result<bool, String> {
    let read =
        |path: &str| std::fs::read_to_string(path).map_err(|error| format!("{path}: {error}"));
    told(antt::write_modules(
        &read(requests)?,
        &read(answers)?,
        Path::new(folder),
    ))
}

/// Prints how many declarations modules hold.
fn told(held: Result<usize, String>) -> Result<bool, String> {
    println!("{}", held?);
    Ok(true)
}

fn print_requests(seed: &str, count: &str, found: &str) -> Result<bool, String> {
    replay::print(number(seed)?, number(count)?, found)
}

fn made_sheet(seed: &str, count: &str, sheet: &str, found: &str) -> Result<bool, String> {
    lines::write_made(number(seed)?, number(count)?, sheet, found)
}

fn agree_on(seed: &str, count: &str) -> Result<bool, String> {
    Ok(agree::agree(number(seed)?, number(count)?))
}

/// The plain reading's answer to any request, those about indexes too.
fn plain_line(line: &str) -> Result<String, String> {
    Ok(match IndexRequest::parse(line)? {
        Some(request) => plain_index::answer(&request).to_string(),
        None => plain::answer_line(&Request::parse(line)?),
    })
}

/// All three lists are told, also where something of the first differs.
fn check_limits() -> Result<bool, String> {
    Ok(limits::check()? & index_limits::check()? & move_limits::check())
}

/// Answers each request on standard input by one line, in order.
fn answer_lines(answer: impl Fn(&str) -> Result<String, String>) -> Result<bool, String> {
    let mut out = BufWriter::new(io::stdout().lock());
    for (index, line) in io::stdin().lock().lines().enumerate() {
        let line = line.map_err(|error| error.to_string())?;
        let answer = answer(&line).map_err(|why| format!("line {}: {why}", index + 1))?;
        writeln!(out, "{answer}").map_err(|error| error.to_string())?;
    }
    out.flush().map_err(|error| error.to_string())?;
    Ok(true)
}
