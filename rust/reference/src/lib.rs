//! Reference implementation of the agreement library for office servers.
//!
//! A *network card* describes up to eight servers and the one-way links between
//! them. A card patched by hand can be *printed back* as a clean one, with each link
//! once and in order. The *split test* says whether Byzantine agreement is possible
//! at all on the network (Theorem 1 of Tseng and Vaidya). Where every link has a
//! return, the *quick test* says the same by an older rule, from the number of servers
//! and how many of them must be taken away before the rest falls apart. A *route plan*
//! fixes every route that their Algorithm BC uses, block by block. The *run* plays all
//! blocks of an accepted plan and answers with the bit each sound server decides.
//! *A server's own part* is the same for a server that knows only itself: it asks what
//! to send, commits what arrived, and ends with the bit that the run gives it. The
//! *load* of an accepted plan is how many of its routes each server relays. The *plan
//! writer* makes a plan, a shortest one, for every network without a bad split; the
//! *separate routes* that a plan is made of can be asked for by themselves.
//!
//! A set of servers is one byte throughout, server `i` standing for `1 << i`.
//!
//! Everything here is written for reading: each function follows the words of the
//! specification, and none of them panics, whatever bytes it is handed.

#![forbid(unsafe_code)]

mod card;
mod load;
mod plan;
mod print;
mod quick;
mod refusal;
mod rehearse;
mod routes;
mod run;
mod server;
mod sets;
mod split;
mod write;

#[cfg(test)]
mod sample;

pub use card::{read_card, Network};
pub use load::{load, relaying_places};
pub use plan::{check_plan, Totals};
pub use print::print_card;
pub use quick::{quick_test, Quick};
pub use refusal::Refusal;
pub use rehearse::rehearse;
pub use routes::{separate_routes, smallest_cut};
pub use run::{run, values_by_block};
pub use server::{ask, commit, side_by_side, start, State};
pub use split::{split_test, Split};
pub use write::{shortest_plan, write_plan, Unwritten};
