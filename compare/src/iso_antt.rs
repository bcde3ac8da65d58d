//! ISO timings with the plain way's answers as antt modules: a declaration for
//! each text and each length, which antt admits exactly if the definitions
//! compute to that answer.

use std::path::Path;

use crate::antt::{bytes, length, write_declarations};
use crate::iso;
use crate::iso_lengths;
use crate::iso_texts;
use crate::request::{Answer, Length};

/// Lengths that are written, spread over the list.
const LENGTHS: usize = 240;

/// What the buffer holds before.
const BEFORE: u8 = 7;

const HEAD: &str = "\
use Rattle.std.specs.Prelude.{Bool, true, false, ◌&&◌, List, [], ◌∷◌, ◌++◌, ℕ, T, eqb, replicate}
use Rattle.rules.specs.declared.Length.{Length}
use Rattle.rules.specs.declared.Answer.{Answer}
use Rattle.rules.specs.Common.{same}
use Rattle.rules.specs.CardAAndItsReadings.{same_length}
use Rattle.iso.specs.IsoTimings.{iso_answer, iso_written, iso_write_answer, iso_written_buffer}
use Rattle.iso.specs.Computing.{computing_iso}

agrees : Answer → ℕ → ℕ → Length → Bool
agrees a n p l = eqb a.number n && eqb a.position p && same_length a.length l

";

/// Writes the modules of the texts into the folder `specs`, and says how many
/// texts they hold.
pub fn write_texts(specs: &Path) -> Result<usize, String> {
    let statement = |text: &Vec<u8>| {
        let entry = format!("iso_answer ({})", bytes(text));
        agreement(&entry, &iso::read(text))
    };
    write_statements(iso_texts::texts().iter().map(statement), specs)
}

/// The same for lengths: what is written of each; and what is handed back and
/// what the buffer holds then, with the room that it needs and a byte less, at
/// its end and beyond it, below zero and malformed.
pub fn write_lengths(specs: &Path) -> Result<usize, String> {
    let lengths = iso_lengths::some(LENGTHS);
    let mut statements = Vec::new();
    for length in lengths {
        statements.push(text_statement(length));
        for (length, room, place) in iso_lengths::tries(length) {
            statements.push(write_statement(length, room, place));
        }
    }
    write_statements(statements.into_iter(), specs)
}

fn write_statements(
    statements: impl Iterator<Item = String>,
    specs: &Path,
) -> Result<usize, String> {
    let declaration = |(number, statement): (usize, String)| {
        format!(
            "r{number} : T ({statement})\nunfolding computing_iso same_length agrees\nr{number} = tt\n\n"
        )
    };
    let declarations: Vec<String> = statements.enumerate().map(declaration).collect();
    write_declarations(&declarations, HEAD, specs)
}

fn agreement(entry: &str, answer: &Answer) -> String {
    let position = answer.position.expect("each answer says where");
    let expected = length(&answer.length);
    format!("agrees ({entry}) {} {position} ({expected})", answer.number)
}

fn text_statement(record: Length) -> String {
    let written = iso::written(record);
    format!(
        "same (iso_written ({})) ({})",
        length(&record),
        bytes(written.as_bytes())
    )
}

fn write_statement(record: Length, room: usize, place: u64) -> String {
    let answer = iso::write(record, room, place);
    let mut after = vec![BEFORE; room];
    if answer.number == 0 {
        let written = iso::written(record).into_bytes();
        let place = place as usize;
        after[place..place + written.len()].copy_from_slice(&written);
    }
    let arguments = format!(
        "({}) ({}) {place}",
        length(&record),
        bytes(&vec![BEFORE; room])
    );
    let kept = format!("same (iso_written_buffer {arguments}) ({})", bytes(&after));
    agreement(&format!("iso_write_answer {arguments}"), &answer) + " && " + &kept
}
