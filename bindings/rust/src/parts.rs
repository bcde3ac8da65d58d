//! The parts of a text, one after the other.

use std::iter::FusedIterator;

use crate::card::Card;
use crate::length::Length;
use crate::refusal::Refusal;

/// A part that was read.
#[derive(Clone, Copy, PartialEq, Eq, Hash, Debug)]
pub struct Part {
    /// What it comes to.
    pub length: Length,
    /// Where the next part begins, or the text's size.
    pub next: usize,
}

/// What [`Card::parts`] gives.
#[derive(Clone, Debug)]
pub struct Parts<'a> {
    card: &'a Card,
    text: &'a [u8],
    /// Where the next part begins, if there is to be one.
    place: Option<usize>,
}

impl<'a> Parts<'a> {
    pub(crate) fn new(card: &'a Card, text: &'a [u8]) -> Self {
        Self {
            card,
            text,
            place: Some(0),
        }
    }
}

impl Iterator for Parts<'_> {
    type Item = Result<Part, Refusal>;

    fn next(&mut self) -> Option<Self::Item> {
        let read = self.card.read_part(self.text, self.place.take()?);
        if let Ok(part) = read
            && part.next < self.text.len()
        {
            self.place = Some(part.next);
        }
        Some(read)
    }
}

impl FusedIterator for Parts<'_> {}
