//! Requests with their answers as antt modules: a declaration for each request,
//! which antt admits exactly if the definitions compute to that answer.

use std::fmt::Write as _;
use std::fs;
use std::path::Path;

use crate::request::{ByteSet, Card, Length, Request, Segment, parse_bytes, segments};

/// Requests in one module; antt checks a module in one go.
const REQUESTS_IN_A_MODULE: usize = 100;

const IMPORTS: &str = "\
use Rattle.std.specs.Prelude.{Bool, true, false, ◌&&◌, List, [], ◌∷◌, ◌++◌, ℕ, T, eqb, replicate}
use Rattle.rules.specs.declared.Length.{Length}
use Rattle.rules.specs.declared.Answer.{Answer}
use Rattle.rules.specs.SettingsAndUnitTable.{Card}
use Rattle.rules.specs.Common.{same}
use Rattle.rules.specs.Computing.{computing}
use Rattle.rules.specs.CardAAndItsReadings.{same_length}
use Rattle.rules.specs.WhatEveryEntryOwes.{part_answer, total_answer, write_answer, written_buffer, shift_answer, shifted_record}

";

/// Every module says once what it means that an answer is the expected one;
/// the position is a list of one place, or of none where any will do.
const AGREES: &str = "\
at_place : List ℕ → ℕ → Bool
at_place [] p = true
at_place (q ∷ qs) p = eqb q p

agrees : Answer → ℕ → List ℕ → Length → Bool
agrees a n ps l = eqb a.number n && at_place ps a.position && same_length a.length l

";

/// Writes the modules and their list into the folder `specs`, and says how many
/// requests they hold; those whose answer begins with `-` are left out.
pub fn write_modules(requests: &str, answers: &str, specs: &Path) -> Result<usize, String> {
    let mut held = Vec::new();
    for (index, (line, answer)) in requests.lines().zip(answers.lines()).enumerate() {
        if !answer.starts_with('-') {
            held.push((index + 1, Request::parse(line)?, answer));
        }
    }
    let modules: Result<Vec<String>, String> =
        held.chunks(REQUESTS_IN_A_MODULE).map(module).collect();
    write_all(specs, &modules?)?;
    Ok(held.len())
}

/// The same with declarations that stand for themselves behind what every
/// module says.
pub fn write_declarations(
    declarations: &[String],
    head: &str,
    specs: &Path,
) -> Result<usize, String> {
    let modules: Vec<String> = declarations
        .chunks(REQUESTS_IN_A_MODULE)
        .map(|chunk| head.to_string() + &chunk.concat())
        .collect();
    write_all(specs, &modules)?;
    Ok(declarations.len())
}

fn write_all(specs: &Path, modules: &[String]) -> Result<(), String> {
    let mut root = String::new();
    for (number, module) in modules.iter().enumerate() {
        let name = format!("M{number}");
        let _ = writeln!(root, "pub mod {name}");
        write(&specs.join(format!("{name}.antt")), module)?;
    }
    write(&specs.join("Lib.antt"), &root)
}

fn write(path: &Path, text: &str) -> Result<(), String> {
    fs::write(path, text).map_err(|error| format!("{}: {error}", path.display()))
}

fn module(chunk: &[(usize, Request, &str)]) -> Result<String, String> {
    let mut out = String::from(IMPORTS);
    out.push_str(AGREES);
    let mut last_card: Option<&Card> = None;
    let mut card_number = 0;
    for (line, request, answer) in chunk {
        if let Some(card) = request.card() {
            if last_card != Some(card) {
                card_number += 1;
                last_card = Some(card);
                declare_card(&mut out, card_number, card);
            }
        }
        declare_request(&mut out, *line, card_number, request, answer)?;
    }
    Ok(out)
}

fn declare_card(out: &mut String, number: usize, card: &Card) {
    let _ = writeln!(
        out,
        "c{number} : Card\nc{number} = record {{ settings = {}; hall = {}; line = {}; numerals = {} }}\n",
        settings(card),
        bytes(&card.hall),
        bytes(&card.line),
        bytes(&card.numerals)
    );
}

fn declare_request(
    out: &mut String,
    line: usize,
    card: usize,
    request: &Request,
    answer: &str,
) -> Result<(), String> {
    let fields: Vec<&str> = answer.split(' ').collect();
    let [number, position, sign, seconds, nanos, after @ ..] = fields.as_slice() else {
        return Err(format!("line {line}: `{answer}` is no answer"));
    };
    let position = match *position {
        "*" => "[]".to_string(),
        place => format!("({place} ∷ [])"),
    };
    let expected = format!("{number} {position} ({})", record(sign, seconds, nanos));
    let (entry, also) = match request {
        Request::Total { text, .. } => (format!("total_answer c{card} ({})", bytes(text)), None),
        Request::Part { place, text, .. } => (
            format!("part_answer c{card} ({}) {place}", bytes(text)),
            None,
        ),
        Request::Shift {
            record: so_far,
            text,
            ..
        } => {
            let arguments = format!("({}) c{card} ({})", length(so_far), bytes(text));
            let [sign, seconds, nanos] = after else {
                return Err(format!("line {line}: no record after a shift"));
            };
            let kept = format!(
                "same_length (shifted_record {arguments}) ({})",
                record(sign, seconds, nanos)
            );
            (format!("shift_answer {arguments}"), Some(kept))
        }
        Request::Write {
            record: written,
            place,
            buffer,
        } => {
            let arguments = format!("({}) ({}) {place}", length(written), bytes(buffer));
            let [left] = after else {
                return Err(format!("line {line}: no buffer after a write"));
            };
            let left = parse_bytes(left)?;
            let kept = format!("same (written_buffer {arguments}) ({})", bytes(&left));
            (format!("write_answer {arguments}"), Some(kept))
        }
    };
    let both = also.map_or(String::new(), |kept| format!(" && {kept}"));
    let cards = if request.card().is_some() {
        format!(" c{card}")
    } else {
        String::new()
    };
    let _ = writeln!(
        out,
        "r{line} : T (agrees ({entry}) {expected}{both})\nunfolding computing same_length at_place agrees{cards}\nr{line} = tt\n"
    );
    Ok(())
}

fn record(sign: &str, seconds: &str, nanos: &str) -> String {
    let negative = sign == "-";
    format!("record {{ negative = {negative}; seconds = {seconds}; nanoseconds = {nanos} }}")
}

pub fn length(length: &Length) -> String {
    let sign = if length.negative { "-" } else { "+" };
    record(sign, &length.seconds.to_string(), &length.nanos.to_string())
}

pub fn settings(card: &Card) -> String {
    let switches = &card.switches;
    let mut out = format!(
        "record {{ negatives = {}; fractions = {}; exponents = {}; infinity = {}; ago = {}; after_sign = {}; before_unit = {}; inner = {}; outer = {}; conjunctions = {}; ",
        switches.negatives,
        switches.fractions,
        switches.exponents,
        switches.infinity,
        switches.ago,
        switches.sign_delimiter,
        switches.unit_delimiter,
        byte_set(&card.inner),
        byte_set(&card.outer),
        card.conjunctions.count
    );
    let names = ["first", "second", "third", "fourth"];
    for (name, (size, letters)) in names.iter().zip(card.conjunctions.slots) {
        let letters = u64::from_le_bytes(letters);
        let _ = write!(
            out,
            "{name} = record {{ size = {size}; letters = {letters} }}; "
        );
    }
    let _ = write!(out, "default_kind = {} }}", card.kind);
    out
}

fn byte_set(set: &ByteSet) -> String {
    let mut words = [0_u64; 4];
    for byte in set.bytes() {
        words[usize::from(byte / 64)] |= 1 << (byte % 64);
    }
    format!(
        "record {{ word0 = {}; word1 = {}; word2 = {}; word3 = {} }}",
        words[0], words[1], words[2], words[3]
    )
}

/// A list of bytes.
pub fn bytes(bytes: &[u8]) -> String {
    let mut terms = Vec::new();
    for segment in segments(bytes) {
        terms.push(match segment {
            Segment::Plain(plain) => format!(
                "({} [])",
                plain
                    .iter()
                    .map(|byte| format!("{byte} ∷"))
                    .collect::<Vec<_>>()
                    .join(" ")
            ),
            Segment::Run(byte, times) => format!("replicate {times} {byte}"),
        });
    }
    if terms.is_empty() {
        terms.push("[]".to_string());
    }
    terms.join(" ++ ")
}
