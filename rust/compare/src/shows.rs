//! That an accepted plan shows a good network, seen from the networks that are not good.
//!
//! Wherever a plan is accepted, the split test says none: every comparison of plans looks at
//! that ([`crate::plans`]). Here the networks come first. For those with a bad split, by the
//! library's split test, there are near plans: whole, and sound in every block that can be had.
//! Library and reference are asked about each as it is and damaged, and have to refuse it; as
//! it is, in the first block that cannot be had. One rule read wrong, and some of them would be
//! accepted. A network without a bad split has all blocks, and its near plan has to be accepted.
//!
//! - Random networks of every n and f ([`random_networks`]), and with every number of links
//!   ([`networks_of_every_density`]).
//! - Good networks that lost links until a split was bad ([`spoilt_networks`]), and networks of
//!   hardly more links than they need with one link less or a higher f ([`sparse_networks`]).
//! - Two-way networks ([`two_way_networks`]).
//! - Networks of fewer than 3f+1 servers ([`too_few_servers`]).
//! - Every network of two to four servers ([`every_small_network`]).
//! - Random cards, some of which give links again ([`random_cards`]), and the cards of the data
//!   files ([`given_cards`]).

mod loops;
mod tally;

pub use loops::{
    every_small_network, given_cards, networks_of_every_density, random_cards, random_networks,
    sparse_networks, spoilt_networks, too_few_servers, two_way_networks,
};
pub use tally::Tally;
