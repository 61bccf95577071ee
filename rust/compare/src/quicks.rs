//! The quick test for two-way sites.
//!
//! Each card goes to library and reference, and the answers are compared: the older rule's
//! word, n and the least number, or the refusal. Then, whatever the two agree on, the
//! library alone must say the same by other ways: a card that its reader refuses is
//! refused alike, one with a link that has no return is refused 15, and any other is
//! answered, with yes exactly if the split test finds no bad split.
//!
//! - Given cards: every case of `data/quicks.tsv`, and the cards of the other data files
//!   ([`other_given_cards`]).
//! - Two-way networks of every size: with every number of links
//!   ([`networks_of_every_density`]), around a cut of every size
//!   ([`networks_around_a_cut`]), and all of the small ones ([`every_small_network`]).
//! - Networks that are two-way but for one link ([`networks_without_one_return`]), and any
//!   networks ([`any_networks`]).
//! - Cards with a fault of their own and a link without a return
//!   ([`faulty_one_way_cards`]).
//! - Random cards, sound or damaged ([`random_cards`]), every beginning of some sound cards
//!   ([`truncations`]), cards of every length ([`any_lengths`]).

mod given;
mod loops;
mod rule;
mod tally;

pub use given::{given_quicks, other_given_cards};
pub use loops::{
    any_lengths, any_networks, every_small_network, faulty_one_way_cards, networks_around_a_cut,
    networks_of_every_density, networks_without_one_return, random_cards, truncations,
};
pub use tally::Tally;

pub(crate) use given::QUICKS;
