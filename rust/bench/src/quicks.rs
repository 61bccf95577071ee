//! The cards to be timed with the quick test: all of eight servers and two faults, and
//! two-way but for those that are refused.

use crate::cards::{longest_card, refused_halfway, F, N};
use compare::converted;
use generate::{all_links, all_pairs, card_of, complete_card, two_way_card_of};
use reference::{Quick, Refusal};

/// A card with a name for the table and the quick test's answer on it.
pub struct Case {
    pub name: &'static str,
    pub card: Vec<u8>,
    answer: Result<Quick, Refusal>,
}

impl Case {
    pub fn is_answered(&self) -> bool {
        self.answer.is_ok()
    }

    /// Times of wrong answers would be worth nothing.
    pub fn assert_answers(&self) {
        let library = converted::quick(agreement::quick_test(&self.card));
        assert_eq!(library, self.answer, "library on {}", self.name);
        let reference = reference::quick_test(&self.card);
        assert_eq!(reference, self.answer, "reference on {}", self.name);
    }
}

pub fn cases() -> Vec<Case> {
    vec![
        Case {
            name: "complete network, 56 links",
            card: complete_card(N, F),
            answer: answered(true, 7),
        },
        Case {
            name: "sparse good network, 40 links",
            card: in_a_ring(&[1, 2, 4]),
            answer: answered(true, 5),
        },
        Case {
            name: "one pair not linked, 54 links",
            card: one_pair_not_linked(),
            answer: answered(true, 6),
        },
        Case {
            name: "ring, 16 links",
            card: in_a_ring(&[1]),
            answer: answered(false, 2),
        },
        Case {
            name: "no links",
            card: card_of(N, F, &[]),
            answer: answered(false, 0),
        },
        Case {
            name: "twin cables, 340 commands for 56 links",
            card: longest_card(),
            answer: answered(true, 7),
        },
        Case {
            name: "refused 15, link 55 of 55 without return",
            card: one_way(),
            answer: Err(Refusal::Call { number: 15 }),
        },
        Case {
            name: "refused halfway, link 29 of 56 to itself",
            card: refused_halfway(),
            answer: Err(Refusal::Card {
                number: 5,
                place: 87,
            }),
        },
    ]
}

fn answered(holds: bool, least: u8) -> Result<Quick, Refusal> {
    Ok(Quick { holds, n: N, least })
}

/// The servers in a ring, each linked both ways with those at these distances from it, on
/// either side.
///
/// With distances 1, 2 and 4 each has five neighbours, and no network on which the rule
/// holds has fewer links: a server with at most four is cut off when those are taken away.
fn in_a_ring(distances: &[u8]) -> Vec<u8> {
    let mut pairs = all_pairs(N);
    pairs.retain(|(u, v)| distances.contains(&(v - u).min(N + u - v)));
    two_way_card_of(N, F, &pairs)
}

/// The complete network, but without links between servers 3 and 5.
fn one_pair_not_linked() -> Vec<u8> {
    let mut pairs = all_pairs(N);
    pairs.retain(|&pair| pair != (3, 5));
    two_way_card_of(N, F, &pairs)
}

/// The complete network, but without the link from 6 to 7: the last one of the card, from 7
/// to 6, has no return.
fn one_way() -> Vec<u8> {
    let mut links = all_links(N);
    links.retain(|&link| link != (6, 7));
    card_of(N, F, &links)
}
