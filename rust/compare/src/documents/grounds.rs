//! The refusals that there are, by the wrapper's grounds.

use agreement::{CallGround, CardGround, PlanGround};
use std::fmt::{self, Display, Formatter};

/// What a refusal is of.
#[derive(Debug, Clone, Copy, PartialEq, Eq, PartialOrd, Ord)]
pub enum File {
    Card,
    Plan,
    Call,
}

impl File {
    pub const ALL: [File; 3] = [File::Card, File::Plan, File::Call];

    pub fn named(name: &str) -> Option<File> {
        File::ALL.into_iter().find(|file| file.to_string() == name)
    }

    /// The numbers of its refusals, ascending.
    pub fn numbers(self) -> Vec<u8> {
        match self {
            File::Card => CardGround::ALL
                .iter()
                .map(|ground| ground.number())
                .collect(),
            File::Plan => PlanGround::ALL
                .iter()
                .map(|ground| ground.number())
                .collect(),
            File::Call => CallGround::ALL
                .iter()
                .map(|ground| ground.number())
                .collect(),
        }
    }
}

impl Display for File {
    fn fmt(&self, out: &mut Formatter) -> fmt::Result {
        out.write_str(match self {
            File::Card => "card",
            File::Plan => "plan",
            File::Call => "call",
        })
    }
}

/// Every number of a refusal, once, ascending.
pub fn numbers() -> Vec<u8> {
    let mut all: Vec<u8> = File::ALL.into_iter().flat_map(File::numbers).collect();
    all.sort_unstable();
    all.dedup();
    all
}

/// The numbers below the highest one that no file has: what they stood for is accepted.
pub fn no_longer_given() -> Vec<u8> {
    let numbers = numbers();
    let last = numbers.last().copied().unwrap_or_default();
    (1..last)
        .filter(|number| !numbers.contains(number))
        .collect()
}

/// The files that have a refusal of this number.
pub fn files(number: u8) -> Vec<File> {
    let has = |file: &File| file.numbers().contains(&number);
    File::ALL.into_iter().filter(has).collect()
}
