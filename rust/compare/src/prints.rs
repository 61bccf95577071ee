//! The card printed back.
//!
//! Each card goes to library and reference with lent buffers of many lengths: about the
//! length of its clean card, and far from it. A buffer lies between bytes lent to nobody.
//! Compared are the number of bytes or the refusal, and all of that memory. Then, whatever
//! the two agree on, a refused call must have left every byte as it was, and an answered
//! one must have written as many bytes as it says and no others.
//!
//! Of every card that is read, besides, the library alone must take the round trip: the
//! printed card is the network that was read with its links ascending, it is read as the
//! same network, and printed again it stays as it is.
//!
//! - Given cards: every case of `data/prints.tsv`, and for the round trip the cards of the
//!   other data files ([`given_round_trips`]).
//! - Random cards, sound or damaged ([`random_cards`]).
//! - Networks of every size, with their links in several orders and with links given again
//!   ([`alike`]): all cards of one network are printed alike.
//! - Every small network ([`every_small_network`]), every beginning of some sound cards
//!   ([`truncations`]), cards of every length ([`any_lengths`]).

mod given;
mod loops;
mod round_trip;
mod tally;

pub use given::{given_prints, given_round_trips};
pub use loops::{alike, any_lengths, every_small_network, random_cards, truncations, CARDS_ALIKE};
pub use round_trip::Trips;
pub use tally::{Tally, FOR_REFUSED, TOO_SHORT, WITH_ROOM};
