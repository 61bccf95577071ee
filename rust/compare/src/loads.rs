//! The load on each relay.
//!
//! Each card and plan goes to library and reference, and the answers are compared: the eight
//! counts, or the refusal. Then, whatever the two agree on, the refusal must be the one that
//! the library's plan check gives, and the counts must add up to the relaying places of the
//! plan's bytes, with none for a server that is not there.
//!
//! - Given plans: every case of `data/loads.tsv`, and the plans of the other data files
//!   ([`other_given_plans`]).
//! - Accepted plans for random networks ([`accepted_plans`]), and for networks with few links,
//!   where most routes have relays ([`sparse_networks`]).
//! - The loops of the plan check ([`crate::plans`]), which take any question about a card and
//!   a plan: damaged plans, the card of another network, any cards and bytes.

mod given;
mod loops;
mod tally;

pub use given::{given_loads, other_given_plans};
pub use loops::{accepted_plans, sparse_networks};
pub use tally::Tally;
