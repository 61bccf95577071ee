//! The links of a network as they are drawn: one stroke for each pair of offices.

use super::Mark;
use agreement::{Network, ServerSet, Split};

/// Whether a pair of offices is linked one way or both ways.
#[derive(Debug, Clone, Copy, PartialEq, Eq)]
pub enum Ways {
    One,
    Both,
}

/// What a link has to do with what is marked.
#[derive(Debug, Clone, Copy, PartialEq, Eq)]
pub enum Weight {
    /// Nothing, or nothing is marked.
    Plain,
    /// By it L or R hears an office outside.
    Heard,
    /// An office of F is at one of its ends.
    LeftOut,
    /// An office of K is at one of its ends.
    Taken,
}

/// A link between two offices; the order of a two-way link's ends says nothing.
#[derive(Debug, Clone, Copy, PartialEq, Eq)]
pub struct Link {
    pub from: u8,
    pub to: u8,
    pub ways: Ways,
    pub weight: Weight,
}

/// All links of `network`, by the lower and then by the higher of their offices.
pub fn of(network: &Network, mark: Option<Mark>) -> Vec<Link> {
    let pairs = (0..network.n).flat_map(|u| (u + 1..network.n).map(move |v| (u, v)));
    pairs
        .filter_map(|(u, v)| {
            let (from, to, ways) = match (network.linked(u, v), network.linked(v, u)) {
                (true, true) => (u, v, Ways::Both),
                (true, false) => (u, v, Ways::One),
                (false, true) => (v, u, Ways::One),
                (false, false) => return None,
            };
            let weight = mark.map_or(Weight::Plain, |mark| weight(from, to, ways, &mark));
            Some(Link {
                from,
                to,
                ways,
                weight,
            })
        })
        .collect()
}

fn weight(from: u8, to: u8, ways: Ways, mark: &Mark) -> Weight {
    let ends = |set: ServerSet| set.contains(from) || set.contains(to);
    match mark {
        Mark::Split(split) if ends(split.f) => Weight::LeftOut,
        Mark::Split(split) if is_heard(from, to, ways, split) => Weight::Heard,
        Mark::Apart(apart) if ends(apart.taken) => Weight::Taken,
        _ => Weight::Plain,
    }
}

/// Whether L or R hears an office outside by this link.
fn is_heard(from: u8, to: u8, ways: Ways, split: &Split) -> bool {
    let enters = |set: ServerSet, from, to| set.contains(to) && !set.contains(from);
    let heard = |from, to| enters(split.l, from, to) || enters(split.r, from, to);
    heard(from, to) || ways == Ways::Both && heard(to, from)
}
