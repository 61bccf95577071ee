//! The card reader and the split test.

mod answers;
mod given;
mod loops;
mod tally;

pub use given::given_cards;
pub use loops::{
    any_lengths, every_small_network, extensions, networks_of_every_density, random_cards,
    truncations, twin_cables, CARDS_OF_A_LENGTH,
};
pub use tally::Tally;

pub(crate) use given::CARDS;
pub(crate) use loops::{each_of_any_length, each_truncation, every_choice, sizes, small_networks};
