//! A site's network as an SVG picture, for an installer who has never seen the site and knows no
//! theory.
//!
//! It is made in three steps. What there is to show is gathered in [`Content`]: offices, `links`,
//! `words` and the rows of the `legend`. Then everything gets its place: the offices by `ring`, the
//! page by `layout`, each thing as one of `shapes`. Last, `draw` chooses colours and strokes and
//! writes the elements. `text` knows how wide a text is, where it breaks and how XML writes it.
//!
//! A picture of something else starts from other content: the radius of each circle, which `relays`
//! takes from the load, and the set that colours it are part of it, and all places follow from them.

mod draw;
mod layout;
mod legend;
mod links;
mod relays;
mod ring;
mod shapes;
#[cfg(test)]
mod tests;
mod text;
mod words;

use crate::apart::Apart;
use crate::names::Names;
use agreement::{Load, Network, ServerSet, Split};
use legend::Entry;
use links::Link;

/// An SVG file that shows `network`: its offices in a ring, its links, in words whether the offices
/// can agree, what there is to be marked, and the load that an accepted plan puts on each relay.
///
/// The text is the same for the same arguments on every machine. A name with characters that XML
/// cannot hold is drawn with replacement characters.
pub fn svg(network: &Network, names: &Names, mark: Option<Mark>, load: Option<Load>) -> String {
    let content = content(network, names, mark, load);
    draw::document(&content, &layout::page(&content))
}

/// What is marked in a picture.
#[derive(Debug, Clone, Copy, PartialEq, Eq)]
pub enum Mark {
    /// A bad split, with the reason why no plan can help.
    Split(Split),
    /// How a two-way site that has no bad split falls apart.
    Apart(Apart),
}

/// What a picture shows, before anything has a place.
struct Content {
    title: String,
    verdict: String,
    offices: Vec<Office>,
    links: Vec<Link>,
    legend: Vec<Entry>,
    /// Sentences for those who have the picture read to them.
    description: Vec<String>,
}

/// An office, the one of its place in the list.
struct Office {
    name: Option<String>,
    /// How many routes it relays, where that is shown.
    relayed: Option<usize>,
    part: Option<Part>,
    /// Radius of its circle.
    radius: f64,
}

/// The sets that are marked. The four of a bad split stand in the order in which the legend explains
/// them: first who stands aside, then the two sides. K is taken away from a two-way site.
#[derive(Debug, Clone, Copy, PartialEq, Eq)]
enum Part {
    F,
    C,
    L,
    R,
    K,
}

impl Part {
    const ALL: [Part; 5] = [Part::F, Part::C, Part::L, Part::R, Part::K];

    fn letter(self) -> char {
        match self {
            Part::F => 'F',
            Part::C => 'C',
            Part::L => 'L',
            Part::R => 'R',
            Part::K => 'K',
        }
    }

    fn members(self, mark: &Mark) -> ServerSet {
        match (self, mark) {
            (Part::F, Mark::Split(split)) => split.f,
            (Part::C, Mark::Split(split)) => split.c,
            (Part::L, Mark::Split(split)) => split.l,
            (Part::R, Mark::Split(split)) => split.r,
            (Part::K, Mark::Apart(apart)) => apart.taken,
            _ => ServerSet::EMPTY,
        }
    }

    /// The set that `office` is in.
    fn of(office: u8, mark: &Mark) -> Option<Part> {
        Part::ALL
            .into_iter()
            .find(|part| part.members(mark).contains(office))
    }
}

fn content(network: &Network, names: &Names, mark: Option<Mark>, load: Option<Load>) -> Content {
    let clean: Vec<Option<String>> = (0..network.n)
        .map(|office| names.name(office).and_then(text::clean))
        .collect();
    let in_prose = clean.iter().map(|name| name.as_deref().map(text::in_prose));
    let names = Names::new(in_prose.collect());
    let verdict = words::verdict(network, matches!(mark, Some(Mark::Split(_))));
    let links = links::of(network, mark);
    let why = mark.map_or(Vec::new(), |mark| legend::of_mark(network, &names, &mark));
    // Numbers that are all 0 say no more than the legend does.
    let counts = load.filter(|load| load.total() > 0);
    let radii = load.map_or([ring::RADIUS; 8], |load| relays::radii(&load));
    let office = |(office, name)| Office {
        name,
        relayed: counts.map(|load| load.of(office)),
        part: mark.and_then(|mark| Part::of(office, &mark)),
        radius: radii[usize::from(office)],
    };
    let relays = load.map(|load| legend::of_load(&load));
    let mut description = words::description(network, &names, &verdict, &links, &why);
    description.extend(load.map(|load| words::of_load(network, &names, &load)));
    Content {
        title: words::title(network),
        description,
        verdict,
        offices: (0..).zip(clean).map(office).collect(),
        legend: legend::of_links(&links)
            .into_iter()
            .chain(relays)
            .chain(why)
            .collect(),
        links,
    }
}
