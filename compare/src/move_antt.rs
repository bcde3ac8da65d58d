//! Moves of stored rows with their answers as antt modules: a declaration for each,
//! which antt admits exactly if the definitions compute to that answer and to that
//! target.

use std::path::Path;

use crate::antt::{bytes, length, write_declarations};
use crate::move_limits::{self, Case};
use crate::moves::OLD;

const HEAD: &str = "\
use Rattle.std.specs.Prelude.{Bool, true, false, ◌&&◌, List, [], ◌∷◌, ◌++◌, ℕ, T, eqb, replicate}
use Rattle.rules.specs.declared.Length.{Length}
use Rattle.rules.specs.declared.Answer.{Answer}
use Rattle.rules.specs.Common.{same}
use Rattle.rules.specs.CardAAndItsReadings.{same_length}
use Rattle.moves.specs.NamesLongerThanSixteenBytes.{to_new_answer, new_target, to_old_answer, old_target}
use Rattle.moves.specs.Computing.{computing_moves}

agrees : Answer → ℕ → ℕ → Length → Bool
agrees a n p l = eqb a.number n && eqb a.position p && same_length a.length l

";

/// Writes the modules of the cases at the limits into the folder `specs`, and says
/// how many they hold.
pub fn write_limits(specs: &Path) -> Result<usize, String> {
    let cases = move_limits::cases();
    let declarations: Vec<String> = cases
        .iter()
        .enumerate()
        .map(|(number, case)| declaration(number, case))
        .collect();
    write_declarations(&declarations, HEAD, specs)
}

/// Source and target of a case, what is handed back, and the target then.
fn declaration(number: usize, case: &Case) -> String {
    let (answer, target) = if case.from == OLD {
        ("to_new_answer", "new_target")
    } else {
        ("to_old_answer", "old_target")
    };
    let wanted = &case.wanted.answer;
    let statement = format!(
        "agrees ({answer} source{number} target{number}) {} {} ({}) && same ({target} source{number} target{number}) ({})",
        wanted.number,
        wanted.position.unwrap_or_default(),
        length(&wanted.length),
        bytes(&case.wanted.target)
    );
    format!(
        "source{number} : List ℕ\nsource{number} = {}\n\ntarget{number} : List ℕ\ntarget{number} = {}\n\nr{number} : T ({statement})\nunfolding computing_moves same_length agrees source{number} target{number}\nr{number} = tt\n\n",
        bytes(&case.source),
        bytes(&case.target)
    )
}
