//! The port beside the crate under one card: both are asked about texts, the
//! plain reading too where the crate gives no place or has one number for six,
//! and then the port about itself. Before the texts the card's indexes are held
//! against the plain reading's, and moves of its rows against the plain way's.

use crate::crate_side::{self, CrateAnswer, SetUp};
use crate::found::Found;
use crate::indexes_beside;
use crate::moves_beside;
use crate::nanoseconds::{clamped_sum, nanoseconds};
use crate::plain;
use crate::port_side::{Port, Way};
use crate::request::{Answer, Card, Length, Request};
use crate::slips::{SYNTAX, is_slip};
use crate::there_and_back::{Line, Wrong};

/// Both set up for one card.
pub struct SideBySide<'a> {
    card: &'a Card,
    set_up: &'a SetUp<'a>,
    port: Port,
    /// How the port looks up the units of the next reading.
    way: Way,
    line: Line,
    shift_total: Length,
    found: &'a mut Found,
}

/// Sets both up for a card and lets texts be asked about.
pub fn under_card(
    found: &mut Found,
    card: &Card,
    ask_texts: impl FnOnce(&mut SideBySide),
) -> Result<(), String> {
    found.begin_card(card);
    indexes_beside::hold(found, card);
    moves_beside::hold(found, card);
    crate_side::under(card, |set_up| {
        let mut both = SideBySide {
            card,
            set_up,
            port: Port::of(card),
            way: Way::Indexed,
            line: Line::under(card),
            shift_total: Length::ZERO,
            found,
        };
        ask_texts(&mut both);
        both.end();
    })
    .map_err(|why| format!("the crate cannot be asked under the card {card}: {why}"))
}

impl SideBySide<'_> {
    /// A text's total, of both; and by the port alone the text part by part and
    /// added to a shift total, with units looked up the other way.
    pub fn total(&mut self, text: &[u8]) {
        let said = match std::str::from_utf8(text) {
            Ok(text) => self.set_up.total(text),
            Err(_) => not_utf8(),
        };
        let way = self.next_way();
        let total = self.port.total(way, text);
        self.compare(None, text, said, &total);
        self.found.texts += 1;
        self.by_parts(way.other(), text, &total);
        self.shift(way.other(), text, &total);
    }

    /// A part of a text from a place, of both.
    pub fn part(&mut self, text: &[u8], place: u64) {
        let said = match std::str::from_utf8(text) {
            Ok(text) => self.set_up.part(text, place),
            Err(_) => not_utf8(),
        };
        let way = self.next_way();
        let part = self.port.part(way, text, place);
        self.compare(Some(place), text, said, &part);
    }

    /// Every other reading goes through the indexes.
    fn next_way(&mut self) -> Way {
        let way = self.way;
        self.way = way.other();
        self.found.through_indexes += u64::from(way == Way::Indexed);
        way
    }

    pub fn tell_progress(&mut self) {
        self.found.tell_progress();
    }

    fn compare(&mut self, place: Option<u64>, text: &[u8], mut said: CrateAnswer, port: &Answer) {
        if !self.found.compare(place.is_some(), &mut said, port) {
            let request = Request::reading(place, self.card.clone(), text.to_vec());
            let answers = [("port", port.to_string()), ("crate", said.to_string())];
            self.found.show(&request, answers);
        }
        if matches!(port.number, SYNTAX | 3 | 4) || is_slip(port.number) {
            self.compare_with_plain(place, text, port);
        }
    }

    /// Of 3 and 4 the crate confirms the number alone, and of a slip the place, so
    /// the plain reading is asked for both. A 2 is never right, also where the crate
    /// is not compared. What is spoiled of the crate's answers is no matter here.
    fn compare_with_plain(&mut self, place: Option<u64>, text: &[u8], port: &Answer) {
        let plain = match place {
            None => plain::total(self.card, text),
            Some(place) => plain::part(self.card, text, place),
        };
        if !self.found.compare_with_plain(&plain, port) {
            let request = Request::reading(place, self.card.clone(), text.to_vec());
            let answers = [("port", port.to_string()), ("plain", plain.to_string())];
            self.found.show(&request, answers);
        }
    }

    /// Reads a text part by part: the first refusal is the total's, or the
    /// clamped sum of the parts is its length. What is read is written, to be
    /// read back.
    fn by_parts(&mut self, way: Way, text: &[u8], total: &Answer) {
        let (mut place, mut sum) = (0, 0);
        while place < text.len() as u64 || place == 0 {
            let part = self.port.part(way, text, place);
            if part.number != 0 {
                if part != *total {
                    self.differs(text, total, "part by part", part.to_string());
                }
                return;
            }
            self.found.parts_of_texts += 1;
            let next = part.position.unwrap_or_default();
            if next <= place {
                let stands = format!("stands still at {place}");
                return self.differs(text, total, "part by part", stands);
            }
            place = next;
            sum = clamped_sum(sum, nanoseconds(part.length));
            let written = self.line.add(part.length);
            self.judge_line(written);
        }
        let ends = total.number == 0 && total.position == Some(place);
        if !ends || sum != nanoseconds(total.length) {
            let end = format!("ends at {place} with another sum");
            self.differs(text, total, "part by part", end);
        }
    }

    /// Adds a text to the shift total, to which its total is added clamped, or
    /// which a refusal leaves as it is.
    fn shift(&mut self, way: Way, text: &[u8], total: &Answer) {
        let before = self.shift_total;
        let added = self.port.add_total(way, &mut self.shift_total, text);
        let after = self.shift_total;
        let right = if total.number == 0 {
            let sum = clamped_sum(nanoseconds(before), nanoseconds(total.length));
            sum == nanoseconds(after) && added == Answer::success(text.len() as u64, after)
        } else {
            after == before && added == *total
        };
        if !right {
            let changed = format!("{added}, the total from {before} to {after}");
            self.differs(text, total, "added to a total", changed);
        }
    }

    fn differs(&mut self, text: &[u8], total: &Answer, how: &str, answer: String) {
        self.found.differs_from_itself();
        let request = Request::reading(None, self.card.clone(), text.to_vec());
        let answers = [("port", total.to_string()), (how, answer)];
        self.found.show(&request, answers);
    }

    fn judge_line(&mut self, outcome: Result<(), Wrong>) {
        if let Err(wrong) = outcome {
            self.line.begin_anew();
            self.found.differs_from_itself();
            let answers = [("port", wrong.port.to_string()), ("wanted", wrong.wanted)];
            self.found.show(&wrong.request, answers);
        }
    }

    fn end(mut self) {
        let read = self.line.read_back();
        self.judge_line(read);
        self.found.written += self.line.done;
        self.found.tell_progress();
    }
}

fn not_utf8() -> CrateAnswer {
    CrateAnswer::Unasked("the text is not UTF-8".to_string())
}
