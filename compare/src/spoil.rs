//! Spoiling some of the crate's answers on purpose, to see that each of them is
//! noticed.

use crate::request::{Answer, Length};
use crate::rng::Random;

/// One of about so many answers is spoiled.
const ANSWERS_TO_A_SPOILED_ONE: u64 = 1_000_000;

pub struct Spoiler {
    random: Random,
    /// No reading before this one is spoiled.
    next: u64,
    /// The spoiled readings, counted from 0.
    pub spoiled: Vec<u64>,
}

impl Spoiler {
    pub fn new(seed: u64) -> Self {
        let mut random = Random::new(!seed);
        Self {
            next: random.below(ANSWERS_TO_A_SPOILED_ONE),
            random,
            spoiled: Vec::new(),
        }
    }

    /// Spoils the answer to a reading if its time has come. A reading that is
    /// not compared has none, and the next one is taken.
    pub fn spoil(&mut self, reading: u64, answer: &mut Answer) {
        if reading < self.next {
            return;
        }
        self.spoiled.push(reading);
        // One in each million, at any place of it.
        self.next = (reading / ANSWERS_TO_A_SPOILED_ONE + 1) * ANSWERS_TO_A_SPOILED_ONE
            + self.random.below(ANSWERS_TO_A_SPOILED_ONE);
        match self.random.below(4) {
            0 => answer.number = (answer.number + 1) % 7,
            1 if answer.position.is_some() => {
                answer.position = answer.position.map(|position| position ^ 1);
            }
            2 if answer.length != Length::ZERO => answer.length.negative ^= true,
            _ => answer.length.nanos ^= 1,
        }
    }
}
