//! The run.
//!
//! Each call goes to library and reference, each with a lent buffer of its own that lies
//! between bytes lent to nobody. Compared are the numbers of blocks and carriages or
//! the refusal, and all of that memory. Then, whatever the two agree on, a refused call
//! must have left every byte as it was, and an answered one must have written the n
//! bytes alone: 2 for each faulty server, and for the sound ones one bit that was the
//! input of one of them.
//!
//! - Given runs: every case of `data/runs.tsv`.
//! - Random calls ([`random_calls`]): random accepted plans for every n and f that has
//!   any, inputs, faulty set, table and buffer each right or wrong on its own.
//! - Systematic calls on accepted plans: every byte as faulty set ([`every_faulty_set`]),
//!   all inputs against all faulty sets of at most f servers and all kinds of tables
//!   ([`every_input`]), tables of every length and byte ([`every_table`]), bytes past
//!   the first 65,536 of a table ([`late_tables`]), wrong inputs, faulty sets and
//!   buffers of many lengths in all combinations ([`wrong_calls`]).
//! - Tables that end anywhere, beside those with zeros, and with bytes that are no bits, after
//!   that ([`silent_servers`]).
//! - Cards that give links again, beside those that give each once ([`twin_cables`]).
//! - Refused cards and plans with calls that are right or wrong ([`refused_plans`]).
//! - A search for a table that splits the sound servers ([`search`]).

mod adversary;
mod given;
mod loops;
mod silent;
mod tally;

pub use adversary::{search, Effort, Search};
pub use given::given_runs;
pub use loops::{
    every_faulty_set, every_input, every_table, late_tables, random_calls, refused_plans,
    twin_cables, wrong_calls,
};
pub use silent::{silent_servers, Silent};
pub use tally::Tally;

pub(crate) use given::RUNS;
pub(crate) use tally::Call;
