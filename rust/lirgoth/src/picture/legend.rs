//! The rows of the legend, before they have a place.

use super::links::{Link, Ways, Weight};
use super::words;
use super::{Mark, Part};
use crate::names::Names;
use agreement::{Load, Network};
use std::iter;

/// A row of the legend.
pub struct Entry {
    pub symbol: Option<Symbol>,
    pub text: String,
}

/// What a row explains.
#[derive(Debug, Clone, Copy, PartialEq, Eq)]
pub enum Symbol {
    Link(Ways, Weight),
    /// Circles that grow.
    Sizes,
    Part(Part),
}

/// Rows for the kinds of link that occur.
pub fn of_links(links: &[Link]) -> Vec<Entry> {
    if links.is_empty() {
        return vec![sentence(words::NO_LINKS.to_string())];
    }
    let row = |ways, weight, text: &str| Entry {
        symbol: Some(Symbol::Link(ways, weight)),
        text: text.to_string(),
    };
    let goes = |ways| links.iter().any(|link| link.ways == ways);
    let of_weight = |weight, text| {
        let link = links.iter().find(|link| link.weight == weight)?;
        Some(row(link.ways, weight, text))
    };
    let rows = [
        goes(Ways::Both).then(|| row(Ways::Both, Weight::Plain, words::TWO_WAY)),
        goes(Ways::One).then(|| row(Ways::One, Weight::Plain, words::ONE_WAY)),
        of_weight(Weight::Heard, words::THICK),
        of_weight(Weight::LeftOut, words::DASHED),
        of_weight(Weight::Taken, words::TAKEN),
    ];
    rows.into_iter().flatten().collect()
}

/// The row that says how the load on the relays is drawn.
pub fn of_load(load: &Load) -> Entry {
    let symbol = (load.total() > 0).then_some(Symbol::Sizes);
    let text = match symbol {
        Some(_) => words::SIZES,
        None => words::NO_RELAYS,
    };
    Entry {
        symbol,
        text: text.to_string(),
    }
}

/// Rows that say what is marked and why, with a row for each of its sets that has an office.
pub fn of_mark(network: &Network, names: &Names, mark: &Mark) -> Vec<Entry> {
    let parts = Part::ALL
        .into_iter()
        .filter(|part| !part.members(mark).is_empty())
        .map(|part| Entry {
            symbol: Some(Symbol::Part(part)),
            text: words::of_part(part, network, names, mark),
        });
    let (before, after) = match mark {
        Mark::Split(split) => (words::of_split(names, split), Some(words::so())),
        Mark::Apart(apart) => (words::of_rule(network, apart), None),
    };
    iter::once(before)
        .map(sentence)
        .chain(parts)
        .chain(after.map(sentence))
        .collect()
}

fn sentence(text: String) -> Entry {
    Entry { symbol: None, text }
}
