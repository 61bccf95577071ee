//! What a picture says in words.

use super::legend::{Entry, Symbol};
use super::links::{Link, Ways};
use super::{Mark, Part};
use crate::apart::Apart;
use crate::load::widest_first;
use crate::names::Names;
use crate::words::{
    at_most, can_agree, capital, counted, grouped, hearing, sentence, taking_away, wanted, SO,
};
use agreement::{Load, Network, Split};

pub const NO_LINKS: &str = "There are no links between the offices.";
pub const TWO_WAY: &str = "Two-way link: each of the two offices hears the other.";
pub const ONE_WAY: &str = "One-way link: the office at the arrow head hears the other.";
pub const THICK: &str = "Thick link: by it L or R hears an office outside.";
pub const DASHED: &str = "Dashed link: left out with F.";
pub const TAKEN: &str = "Dashed link: taken away with K.";
pub const SIZES: &str = "The larger the circle, the more routes the office relays.";
pub const NO_RELAYS: &str = "No office relays: every route goes straight from source to receiver.";

pub fn title(network: &Network) -> String {
    format!("{} offices, {}", network.n, at_most(network.f))
}

/// Whether the offices can agree.
pub fn verdict(network: &Network, has_bad_split: bool) -> String {
    sentence(match has_bad_split {
        true => "the offices cannot be sure to agree: L and R could be split",
        false => can_agree(network),
    })
}

/// Which offices a bad split parts.
pub fn of_split(names: &Names, split: &Split) -> String {
    let [l, r] = [split.l, split.r].map(|side| names.offices(side));
    capital(&format!("{l} and {r} could be split, for this reason:"))
}

/// What follows from a bad split.
pub fn so() -> String {
    sentence(SO)
}

/// How many offices of a two-way site leave the rest apart, and how many the older rule wants.
pub fn of_rule(network: &Network, apart: &Apart) -> String {
    let (_, to_take) = wanted(network.f);
    let least = counted(apart.taken.len(), "office");
    format!(
        "Two-way site: {least} must be taken away before the rest falls apart, and the older rule \
         wants at least {to_take}."
    )
}

/// How many routes an office relays, beside it.
pub fn relayed(routes: usize) -> String {
    format!("relays {}", grouped(routes))
}

/// How many routes each office relays, in a sentence.
pub fn of_load(network: &Network, names: &Names, load: &Load) -> String {
    if load.total() == 0 {
        return NO_RELAYS.to_string();
    }
    let offices = widest_first(network, load).into_iter();
    let offices: Vec<String> = offices
        .map(|(office, routes)| {
            let office = names.office(office);
            format!("{office} relays {}", counted(routes, "route"))
        })
        .collect();
    sentence(&offices.join(", "))
}

/// What a set has to do with what is marked.
pub fn of_part(part: Part, network: &Network, names: &Names, mark: &Mark) -> String {
    let members = part.members(mark);
    let offices = capital(&names.offices(members));
    let are = if members.len() == 1 { "is" } else { "are" };
    match (part, mark) {
        (Part::F, _) => format!("{offices} may fail, and {are} left out."),
        (Part::C, _) => format!("{offices} {are} on neither side."),
        (_, Mark::Split(split)) => sentence(&hearing(members, network, names, split)),
        (_, Mark::Apart(apart)) => sentence(&taking_away(apart, names)),
    }
}

/// The whole picture in sentences; `why` are the legend's rows on what is marked.
pub fn description(
    network: &Network,
    names: &Names,
    verdict: &str,
    links: &[Link],
    why: &[Entry],
) -> Vec<String> {
    let offices = capital(&names.offices(network.servers()));
    let mut sentences = vec![format!("{offices} in a ring.")];
    sentences.extend(links_in_words(links));
    sentences.push(verdict.to_string());
    sentences.extend(why.iter().map(|row| match row.symbol {
        Some(Symbol::Part(part)) => format!("{}: {}", part.letter(), row.text),
        _ => row.text.clone(),
    }));
    sentences
}

fn links_in_words(links: &[Link]) -> Vec<String> {
    if links.is_empty() {
        return vec![NO_LINKS.to_string()];
    }
    let kinds = [
        (Ways::Both, "Two-way links", "and"),
        (Ways::One, "One-way links", "to"),
    ];
    kinds
        .into_iter()
        .filter_map(|(ways, what, between)| {
            let those: Vec<String> = links
                .iter()
                .filter(|link| link.ways == ways)
                .map(|link| format!("{} {between} {}", link.from, link.to))
                .collect();
            (!those.is_empty()).then(|| format!("{what}: {}.", those.join(", ")))
        })
        .collect()
}
