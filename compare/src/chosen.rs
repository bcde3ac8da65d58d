//! Answers for the lists that programs of the test make again.
//!
//! An answer is the crate's where it has one, and it must be the plain
//! reading's as well; where it has none, for the places of 1, 3, 4 and 6, and for
//! which of the six slips the crate's 2 is, it is the plain reading's.

use crate::card_a::same_answer;
use crate::crate_side::{CrateAnswer, ask};
use crate::left_out::LeftOut;
use crate::plain;
use crate::request::{Answer, Card, Request};
use crate::slips::SYNTAX;

/// How the answers of a list were come by.
#[derive(Default)]
pub struct Chosen {
    by_the_crate: u64,
    by_document: u64,
    /// Written by hand where the crate is not compared.
    by_hand: u64,
    left_out: LeftOut,
}

impl Chosen {
    /// The answer of a request, or nothing if it is left out of the comparison
    /// and was not written by hand. An answer that was must be the same.
    pub fn answer(
        &mut self,
        request: &Request,
        written: Option<Answer>,
    ) -> Result<Option<Answer>, String> {
        let answer = by_the_document(request)?;
        if let Some(written) = written.as_ref().filter(|written| **written != answer) {
            return Err(differ(request, &answer, "by hand", &written.to_string()));
        }
        match ask(request) {
            CrateAnswer::Says(said) if same_answer(&said, &answer) => self.by_the_crate += 1,
            CrateAnswer::Unasked(_) => self.by_document += 1,
            CrateAnswer::LeftOut(_) if written.is_some() => self.by_hand += 1,
            CrateAnswer::LeftOut(reason) => {
                self.left_out.count(reason);
                return Ok(None);
            }
            said => return Err(differ(request, &answer, "crate", &said.to_string())),
        }
        Ok(Some(answer))
    }

    pub fn told(&self) -> String {
        format!(
            "{} answers by the crate and the plain reading alike, {} by the plain reading alone, {} written by hand where the crate is not compared, {}",
            self.by_the_crate, self.by_document, self.by_hand, self.left_out
        )
    }
}

/// The crate's answer line to a request. Its 2 has the number that the plain
/// reading gives, which must be a slip at the crate's place.
pub fn split_line(request: &Request) -> Result<String, String> {
    let said = ask(request);
    let CrateAnswer::Says(syntax @ Answer { number: SYNTAX, .. }) = &said else {
        return Ok(said.to_string());
    };
    let slip = by_the_document(request)?;
    if !same_answer(syntax, &slip) {
        return Err(differ(request, &slip, "crate", &syntax.to_string()));
    }
    Ok(slip.to_string())
}

fn by_the_document(request: &Request) -> Result<Answer, String> {
    Ok(match reading(request)? {
        (None, card, text) => plain::total(card, text),
        (Some(place), card, text) => plain::part(card, text, place),
    })
}

/// Place, card and text of a request; one that does more than read is in no
/// list.
pub fn reading(request: &Request) -> Result<(Option<u64>, &Card, &[u8]), String> {
    request
        .as_reading()
        .ok_or_else(|| format!("no request of a list: {request}"))
}

fn differ(request: &Request, plain: &Answer, other: &str, said: &str) -> String {
    format!("differs: {request}\n    plain {plain}\n    {other} {said}")
}
