//! Making requests with a fixed seed: runs of requests that share one card,
//! most of them from the card's grammar, some runs walking through all short
//! texts over a small alphabet.

use crate::make_card::{make_card, make_small_card};
use crate::make_text::{Offer, make_text};
use crate::request::Request;
use crate::rng::Random;

/// One run in this many walks through all short texts.
const RUNS_TO_A_WALK: u64 = 8;

pub struct Maker {
    random: Random,
    offer: Offer,
    left_in_run: u64,
    run_walks: bool,
    walk: Walk,
}

impl Maker {
    pub fn new(seed: u64) -> Self {
        let mut random = Random::new(seed);
        let offer = Offer::new(make_card(&mut random));
        let walk = Walk::new(&mut random);
        Self {
            random,
            offer,
            left_in_run: 0,
            run_walks: false,
            walk,
        }
    }

    fn begin_run(&mut self) {
        self.left_in_run = 10 + self.random.below(6);
        self.run_walks = self.random.below(RUNS_TO_A_WALK) == 0;
        if !self.run_walks {
            self.offer = Offer::new(make_card(&mut self.random));
        }
    }

    /// The walk goes on where the last walking run left it, and begins anew
    /// with another card when all its texts are done.
    fn walking_request(&mut self) -> Request {
        let text = match self.walk.next() {
            Some(text) => text,
            None => {
                self.walk = Walk::new(&mut self.random);
                self.walk.next().unwrap_or_default()
            }
        };
        Request::Total {
            card: self.walk.offer().card().clone(),
            text: text.into_bytes(),
        }
    }

    fn grammar_request(&mut self) -> Request {
        let made = make_text(&mut self.random, &self.offer);
        let card = self.offer.card().clone();
        if self.random.chance(23) {
            Request::Part {
                place: make_place(&mut self.random, &made.bytes, &made.starts),
                card,
                text: made.bytes,
            }
        } else {
            Request::Total {
                card,
                text: made.bytes,
            }
        }
    }
}

impl Iterator for Maker {
    type Item = Request;

    fn next(&mut self) -> Option<Request> {
        if self.left_in_run == 0 {
            self.begin_run();
        }
        self.left_in_run -= 1;
        Some(if self.run_walks {
            self.walking_request()
        } else {
            self.grammar_request()
        })
    }
}

/// A place of the text: its start, a part's start, its end, or any place
/// between two letters.
pub fn make_place(random: &mut Random, text: &[u8], starts: &[usize]) -> u64 {
    let place = match random.below(20) {
        0..=5 => 0,
        6..=13 if !starts.is_empty() => *random.pick(starts),
        14 => text.len(),
        _ => random.below(text.len() as u64 + 1) as usize,
    };
    let place = place.min(text.len());
    let between_letters = (0..=place).rev().find(|place| {
        // A byte that continues a letter has the bits 10 in front.
        text.get(*place).is_none_or(|byte| byte & 0xc0 != 0x80)
    });
    between_letters.unwrap_or(0) as u64
}

/// All texts over a small alphabet up to some length, the shorter ones first.
pub struct Walk {
    offer: Offer,
    alphabet: Vec<char>,
    longest: usize,
    /// The next text, as places in the alphabet.
    places: Vec<usize>,
    done: bool,
}

impl Walk {
    pub fn new(random: &mut Random) -> Self {
        let offer = Offer::new(make_small_card(random));
        let (size, longest) = *random.pick(&[(6, 3), (5, 3), (4, 4), (3, 5)]);
        let alphabet = offer.alphabet(random, size);
        Self {
            offer,
            alphabet,
            longest,
            places: Vec::new(),
            done: false,
        }
    }

    pub fn offer(&self) -> &Offer {
        &self.offer
    }

    /// Counts the places up like digits, the first one fastest.
    fn step(&mut self) {
        for place in &mut self.places {
            *place += 1;
            if *place < self.alphabet.len() {
                return;
            }
            *place = 0;
        }
        self.places.push(0);
        self.done = self.places.len() > self.longest;
    }
}

impl Iterator for Walk {
    type Item = String;

    fn next(&mut self) -> Option<String> {
        if self.done {
            return None;
        }
        let text = self
            .places
            .iter()
            .map(|place| self.alphabet[*place])
            .collect();
        self.step();
        Some(text)
    }
}
