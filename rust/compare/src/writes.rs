//! The plan writer.
//!
//! Library and reference write a plan for each card. Routes are left open to both, and everything
//! else is not: the answers are compared, and where there is a plan, its length and the A and S of
//! each of its blocks. Then, whoever wrote it, the library's plan check has to accept the plan; a
//! bad split has to be the one that its split test finds, and a refused card that of its reader.
//! Buffers are lent that are too short, of the right length and longer, and every byte of them is
//! looked at.
//!
//! That no accepted plan is shorter is held to `reference::shortest_plan`, which tries every A and
//! S and looks for no route ([`shortest`]), and to the lengths of the data file ([`given_plans`]).

mod given;
mod loops;
mod tally;

pub use given::{given_plans, other_given_cards};
pub use loops::{
    any_lengths, bare_networks, good_networks, networks, random_cards, shortest, truncations,
    twin_cables,
};
pub use tally::{Tally, BUFFERS, FOR_REFUSED};
