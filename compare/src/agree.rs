//! Comparing the plain reading with the crate on made requests.

use crate::card_a::same_answer;
use crate::crate_side::{CrateAnswer, ask};
use crate::left_out::LeftOut;
use crate::make::Maker;
use crate::plain;
use crate::request::Request;

/// So many differing requests are shown in full.
const MOST_SHOWN: u64 = 10;

/// True if plain and crate agree wherever they are compared.
pub fn agree(seed: u64, count: u64) -> bool {
    let (mut compared, mut differing) = (0_u64, 0_u64);
    let (mut with_numerals, mut with_a_line) = (0_u64, 0_u64);
    let mut left_out = LeftOut::default();
    for made in Maker::new(seed).take(count as usize) {
        let Some(request) = through_a_line(&made) else {
            compared += 1;
            differing += 1;
            println!("differs from itself when printed and read: {made}");
            continue;
        };
        let plain_answer = match &request {
            Request::Total { card, text } => plain::total(card, text),
            Request::Part { place, card, text } => plain::part(card, text, *place),
            Request::Shift { .. } | Request::Write { .. } => continue,
        };
        let crate_answer = ask(&request);
        let same = match &crate_answer {
            CrateAnswer::LeftOut(reason) => {
                left_out.count(*reason);
                continue;
            }
            CrateAnswer::Says(answer) => same_answer(answer, &plain_answer),
            CrateAnswer::Unasked(_) | CrateAnswer::Loud(_) => false,
        };
        compared += 1;
        if let Some(card) = request.card() {
            with_numerals += u64::from(!card.numerals.is_empty());
            with_a_line += u64::from(!card.line.is_empty());
        }
        if same {
            continue;
        }
        differing += 1;
        if differing <= MOST_SHOWN {
            println!("differs: {request}");
            println!("    plain {plain_answer}");
            println!("    crate {crate_answer}");
        }
    }
    println!(
        "seed {seed}: {compared} compared, {with_numerals} of them under cards with numerals, {with_a_line} under cards with a line's table, {left_out}, {differing} differing"
    );
    differing == 0
}

/// The request as printed on a line and read from it, if it is still the same;
/// so the line format is under test as well.
fn through_a_line(made: &Request) -> Option<Request> {
    Request::parse(&made.to_string())
        .ok()
        .filter(|read| read == made)
}
