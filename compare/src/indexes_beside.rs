//! The port's indexes and lookups under one card, and at their limits, held
//! against the plain reading's and against what was written by hand.

use crate::found::Found;
use crate::index_limits;
use crate::make_indexes;
use crate::port_side;
use crate::request::Card;
use crate::rng::Random;

/// The cases that are written by hand, asked of the port.
pub fn hold_limits(found: &mut Found) {
    for case in index_limits::cases() {
        let port = port_side::ask(&case.request);
        found.hold_index_limit(&case.request, &case.outcome, &port);
    }
}

/// All that is asked under a card that is accepted.
pub fn hold(found: &mut Found, card: &Card) {
    // So that no two cards of a run are asked alike.
    let mut random = Random::new(found.cards);
    for (request, plain) in make_indexes::requests(&mut random, card) {
        let port = port_side::ask(&request);
        found.hold_index(&request, &plain, &port);
    }
}
