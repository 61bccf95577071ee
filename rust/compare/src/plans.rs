//! The plan check, and the plans on which whatever takes a card and a plan is compared.
//!
//! Each card and plan goes to library and reference, and the answers are compared. Then,
//! whatever the two agree on, an accepted plan has to show a good network: the library's
//! split test of its card says none, and there are at least 3f+1 servers. Loads, runs and
//! the calls of a server hold the plans that they answer for to the same.

mod compared;
mod given;
pub(crate) mod good;
mod loops;
mod tally;

pub use compared::Compared;
pub use given::given_plans;
pub use loops::{
    any_cards, around_the_limit, broken_off_plans, damaged_plans, every_byte, every_neighbours,
    every_opening, every_short_route, other_cards, plan_like_bytes, truncations, twin_cables,
    PLAN_LIMIT,
};
pub use tally::{Damages, Tally};

pub(crate) use compared::held;
pub(crate) use given::PLANS;
