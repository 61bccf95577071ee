//! The cards to be timed: all of eight servers and two faults, the largest networks
//! there are.

use agreement::CLEAN_CARD_LIMIT;
use compare::converted;
use generate::{all_links, card_of, complete_card, MOST_LINKS};
use reference::{Refusal, Split};

pub const N: u8 = 8;
pub const F: u8 = 2;

/// A card with a name for the table and the split test's answer on it.
pub struct Case {
    pub name: &'static str,
    pub card: Vec<u8>,
    split: Result<Option<Split>, Refusal>,
}

impl Case {
    /// Times of wrong answers would be worth nothing.
    pub fn assert_answers(&self) {
        let library = agreement::split_test(&self.card)
            .map(|split| split.map(converted::split))
            .map_err(converted::refusal);
        assert_eq!(library, self.split, "library on {}", self.name);
        let reference = reference::split_test(&self.card);
        assert_eq!(reference, self.split, "reference on {}", self.name);
        let [mut ours, mut theirs] = [[0; CLEAN_CARD_LIMIT]; 2];
        let library = agreement::print_card(&self.card, &mut ours).map_err(converted::refusal);
        let reference = reference::print_card(&self.card, &mut theirs);
        assert_eq!(
            (library, ours),
            (reference, theirs),
            "printing {}",
            self.name
        );
    }
}

pub fn cases() -> Vec<Case> {
    vec![
        Case {
            name: "complete network, 56 links",
            card: complete_card(N, F),
            split: Ok(None),
        },
        Case {
            name: "sparse good network, 40 links",
            card: sparse_good_network(),
            split: Ok(None),
        },
        Case {
            name: "latest first bad split, 50 links",
            card: late_bad_split(),
            split: bad(192, 28, 0, 35),
        },
        Case {
            name: "early bad split, no links",
            card: card_of(N, F, &[]),
            split: bad(0, 1, 252, 2),
        },
        Case {
            name: "twin cables, 340 commands for 56 links",
            card: longest_card(),
            split: Ok(None),
        },
        Case {
            name: "refused halfway, link 29 of 56 to itself",
            card: refused_halfway(),
            split: Err(Refusal::Card {
                number: 5,
                place: 87,
            }),
        },
    ]
}

fn bad(f: u8, l: u8, c: u8, r: u8) -> Result<Option<Split>, Refusal> {
    Ok(Some(Split { f, l, c, r }))
}

/// The servers in a ring, each with a link to the five after it.
///
/// No good network of eight servers and two faults has fewer links, since each server
/// needs five incoming neighbours: had one at most four, then with that server as R,
/// two of its neighbours as F and everyone else as L, at most two servers of L would
/// have a link into R and only one is in R, so that the split would be bad.
fn sparse_good_network() -> Vec<u8> {
    let links = all_links(N).into_iter();
    let kept: Vec<(u8, u8)> = links.filter(|&(u, v)| (v + N - u) % N <= 5).collect();
    card_of(N, F, &kept)
}

/// A network whose first bad split comes as late as one can, F 192 and L 28: all
/// links except those from 2 to R and from 0 to L, L being {2, 3, 4} and R {0, 1, 5}.
///
/// F 192 is {6, 7}, the last fault set. L and R have three servers each then. For if
/// R had at most two, take R's incoming neighbours outside {6, 7}, which are at most
/// two, as another fault set: only 6 and 7 are left to link into R, and the rest of V
/// as L has at most the two of R against it, so this split is bad too and comes
/// earlier. The same goes for L. Since L and R may change places, the first bad split
/// has L below R, hence 5 in R, and the last three servers below 5 are {2, 3, 4}.
/// A search over 20,000 random orders of taking links away until a split is bad found
/// this split as the latest as well.
fn late_bad_split() -> Vec<u8> {
    let removed = [(2, 0), (2, 1), (2, 5), (0, 2), (0, 3), (0, 4)];
    let links = all_links(N).into_iter();
    let kept: Vec<(u8, u8)> = links.filter(|link| !removed.contains(link)).collect();
    card_of(N, F, &kept)
}

/// The complete network with as many link commands as a card has room for.
pub fn longest_card() -> Vec<u8> {
    let links: Vec<(u8, u8)> = all_links(N).into_iter().cycle().take(MOST_LINKS).collect();
    card_of(N, F, &links)
}

/// The complete network's card, but with a link from server 4 to itself where the first
/// of the second half should stand.
pub fn refused_halfway() -> Vec<u8> {
    let mut links = all_links(N);
    links[28] = (4, 4);
    card_of(N, F, &links)
}
