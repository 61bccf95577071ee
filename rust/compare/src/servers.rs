//! A server's own part.
//!
//! Each start, ask and commit goes to library and reference, each with a lent buffer of its
//! own that lies between bytes lent to nobody. Compared are the state and the number of
//! values or the refusal, and all of that memory. Then, whatever the two agree on, a refused
//! call must have left every byte as it was, and an answered one must have moved on as it
//! should: a start to the first kind, an ask nowhere, with v or t for each value, a commit to
//! the kind that follows, with no other word changed than those that this kind changes.
//!
//! - Given calls: every case of `data/starts.tsv`, `data/asks.tsv` and `data/commits.tsv`.
//! - Random calls ([`any_calls`]): server, state, buffer and arrivals each right or wrong on
//!   its own.
//! - Systematic calls on accepted plans: every word that is near a right one, at every kind of
//!   every block ([`every_state`]), and all that can arrive there ([`every_arrival`]).
//! - Refused cards and plans with calls that are right or wrong ([`refused_sites`]).
//! - Servers stepped side by side ([`side_by_side`]), each by the library alone, with the
//!   carriages brought from one to the other: after every block each of them holds what it
//!   holds in the run, and at the end it shows what the run decides.

mod beside;
mod given;
mod loops;
mod tally;

pub use beside::{side_by_side, side_by_side_with, Beside};
pub use given::{given_asks, given_commits, given_starts};
pub use loops::{any_calls, every_arrival, every_state, refused_sites};
pub use tally::Tally;
