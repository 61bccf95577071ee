//! The cases of `data/plans.tsv`, whose answers neither implementation made.

use super::compared::held;
use super::tally::Tally;

pub(crate) const PLANS: &str = include_str!("../../data/plans.tsv");

/// Asks both implementations about every given plan and counts the answers.
///
/// Panics at the first answer that is not the one stated.
pub fn given_plans() -> Tally {
    held(PLANS, "data/plans.tsv")
}
