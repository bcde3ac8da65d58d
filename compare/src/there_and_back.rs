//! Lengths written one after the other by the port, and read back by it.

use crate::nanoseconds::{clamped_sum, nanoseconds};
use crate::plain::MOST_TEXT_BYTES;
use crate::port_side::{Port, Way, write};
use crate::request::{Answer, Card, Length, Request};

/// What the buffer holds where nothing is written; the writer writes no such
/// byte.
const BLANK: u8 = b'?';

/// The parts of a line are read through indexes, and its total without.
const PARTS: Way = Way::Indexed;
const TOTAL: Way = Way::RowByRow;

/// A line of written lengths, as long as a text may be, under a card that reads
/// them back: seconds without a unit, negatives and fractions allowed.
pub struct Line {
    card: Card,
    port: Port,
    buffer: Vec<u8>,
    lengths: Vec<Length>,
    place: usize,
    /// How many lengths were written and read back.
    pub done: u64,
}

/// A request that was answered otherwise than it should be.
pub struct Wrong {
    pub request: Request,
    pub port: Answer,
    pub wanted: String,
}

impl Line {
    pub fn under(card: &Card) -> Self {
        let mut card = card.clone();
        card.kind = 3;
        card.switches.negatives = true;
        card.switches.fractions = true;
        Self {
            port: Port::of(&card),
            card,
            buffer: vec![BLANK; MOST_TEXT_BYTES],
            lengths: Vec::new(),
            place: 0,
            done: 0,
        }
    }

    /// Writes one more length; if it has no room, the line is read back and
    /// begun anew with it.
    pub fn add(&mut self, length: Length) -> Result<(), Wrong> {
        let written = write(length, &mut self.buffer, self.place);
        if written.number == 9 {
            let (room, place) = (self.buffer.len() - self.place, self.place);
            self.read_back()?;
            let again = write(length, &mut self.buffer, 0);
            // What takes no more than the room had to be written there. That is
            // so whatever stood in the buffer, so it is shown blank.
            if again.number != 0 || again.position <= Some(room as u64) {
                self.begin_anew();
                return Err(self.wrong_write(length, place, written, "to be written"));
            }
            return self.take(length, again);
        }
        self.take(length, written)
    }

    fn take(&mut self, length: Length, written: Answer) -> Result<(), Wrong> {
        let next = written.position.unwrap_or_default() as usize;
        if written.number != 0 || written.length != length || next <= self.place {
            return Err(self.wrong_write(length, self.place, written, "to be written"));
        }
        self.place = next;
        self.lengths.push(length);
        Ok(())
    }

    /// Reads what is written part by part and in total, and begins anew.
    pub fn read_back(&mut self) -> Result<(), Wrong> {
        let (text, rest) = self.buffer.split_at(self.place);
        if text.contains(&BLANK) || rest.iter().any(|byte| *byte != BLANK) {
            let request = Request::reading(None, self.card.clone(), self.buffer.clone());
            return Err(Wrong {
                request,
                port: self.port.total(TOTAL, text),
                wanted: "every byte written, and no other".to_string(),
            });
        }
        let (mut place, mut sum) = (0, 0);
        for length in &self.lengths {
            let part = self.port.part(PARTS, text, place);
            sum = clamped_sum(sum, nanoseconds(part.length));
            if part.number != 0 || part.length != *length {
                return Err(self.wrong_reading(Some(place), part, length.to_string()));
            }
            place = part.position.unwrap_or_default();
        }
        if place != text.len() as u64 {
            let wanted = "the text to end with the last length".to_string();
            let part = self.port.part(PARTS, text, place);
            return Err(self.wrong_reading(Some(place), part, wanted));
        }
        if !self.lengths.is_empty() {
            let total = self.port.total(TOTAL, text);
            if total.number != 0
                || total.position != Some(place)
                || sum != nanoseconds(total.length)
            {
                return Err(self.wrong_reading(None, total, "the sum of the lengths".to_string()));
            }
        }
        self.done += self.lengths.len() as u64;
        self.begin_anew();
        Ok(())
    }

    /// Forgets what is written, so that one error is reported once.
    pub fn begin_anew(&mut self) {
        self.buffer.fill(BLANK);
        self.lengths.clear();
        self.place = 0;
    }

    fn wrong_write(&self, record: Length, place: usize, port: Answer, wanted: &str) -> Wrong {
        Wrong {
            request: Request::Write {
                record,
                place: place as u64,
                buffer: self.buffer.clone(),
            },
            port,
            wanted: wanted.to_string(),
        }
    }

    fn wrong_reading(&self, place: Option<u64>, port: Answer, wanted: String) -> Wrong {
        let text = self.buffer[..self.place].to_vec();
        Wrong {
            request: Request::reading(place, self.card.clone(), text),
            port,
            wanted,
        }
    }
}
