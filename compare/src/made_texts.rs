//! Texts under made cards: by the card's grammar, all short ones over a small
//! alphabet, and some as long as a text may be.

use crate::found::Found;
use crate::make::{Walk, make_place};
use crate::make_card::make_card;
use crate::make_text::{Offer, make_text};
use crate::plain::MOST_TEXT_BYTES;
use crate::rng::Random;
use crate::side_by_side::{SideBySide, under_card};

/// So many readings stand under one card.
const READINGS_UNDER_A_CARD: u64 = 900;

/// One card in so many has all short texts first.
const CARDS_TO_A_WALK: u64 = 8;

/// Makes cards and texts until there are so many readings.
pub fn ask(found: &mut Found, seed: u64, count: u64) -> Result<(), String> {
    let mut random = Random::new(seed);
    while found.readings < count {
        let left = READINGS_UNDER_A_CARD.min(count - found.readings);
        if random.below(CARDS_TO_A_WALK) == 0 {
            let mut walk = Walk::new(&mut random);
            let card = walk.offer().card().clone();
            under_card(found, &card, |both| {
                let mut asking = Asking::new(&mut random, both, left);
                for text in &mut walk {
                    asking.ask(text.as_bytes(), &[]);
                }
                asking.ask_made(walk.offer());
            })?;
        } else {
            let offer = Offer::new(make_card(&mut random));
            under_card(found, offer.card(), |both| {
                Asking::new(&mut random, both, left).ask_made(&offer);
            })?;
        }
    }
    Ok(())
}

/// The readings that are still to be made under a card.
struct Asking<'a, 'b> {
    random: &'a mut Random,
    both: &'a mut SideBySide<'b>,
    left: u64,
}

impl<'a, 'b> Asking<'a, 'b> {
    fn new(random: &'a mut Random, both: &'a mut SideBySide<'b>, left: u64) -> Self {
        Self { random, both, left }
    }

    /// Texts by the card's grammar, the first of them over and over up to the
    /// largest size.
    fn ask_made(&mut self, offer: &Offer) {
        let first = make_text(self.random, offer).bytes;
        let often = MOST_TEXT_BYTES / first.len().max(1);
        self.ask(&first.repeat(often), &[]);
        while self.left > 0 {
            let made = make_text(self.random, offer);
            self.ask(&made.bytes, &made.starts);
        }
    }

    /// The total of a text, and half of the time a part of it from a place.
    fn ask(&mut self, text: &[u8], starts: &[usize]) {
        if self.left == 0 {
            return;
        }
        self.left -= 1;
        self.both.total(text);
        if self.left > 0 && self.random.chance(50) {
            self.left -= 1;
            let place = make_place(self.random, text, starts);
            self.both.part(text, place);
        }
    }
}
