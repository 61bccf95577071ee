//! What an implementation answers on one card, and how that is written down.

use crate::converted;
use crate::text::plain_refusal;
use reference::{Network, Refusal, Split};
use std::fmt::{self, Display, Formatter};

/// Both answers on one card, links included.
#[derive(Debug, Clone, Copy, PartialEq, Eq)]
pub(super) struct Answers {
    pub read: Result<Network, Refusal>,
    pub split: Result<Option<Split>, Refusal>,
}

impl Answers {
    pub fn of_library(card: &[u8]) -> Answers {
        Answers {
            read: agreement::read_card(card)
                .map(converted::network)
                .map_err(converted::refusal),
            split: agreement::split_test(card)
                .map(|split| split.map(converted::split))
                .map_err(converted::refusal),
        }
    }

    pub fn of_reference(card: &[u8]) -> Answers {
        Answers {
            read: reference::read_card(card),
            split: reference::split_test(card),
        }
    }

    /// The card reader's answer in the plain form of `data/cards.tsv`. Links between
    /// servers that there are not would be written too.
    pub fn plain_read(&self) -> String {
        match self.read {
            Ok(network) => plain_network(&network),
            Err(refusal) => plain_refusal(refusal),
        }
    }

    /// The split test's answer in the plain form of `data/cards.tsv`.
    pub fn plain_split(&self) -> String {
        match self.split {
            Ok(None) => "none".to_string(),
            Ok(Some(Split { f, l, c, r })) => format!("bad {f} {l} {c} {r}"),
            Err(refusal) => plain_refusal(refusal),
        }
    }
}

impl Display for Answers {
    fn fmt(&self, out: &mut Formatter) -> fmt::Result {
        write!(out, "{}; {}", self.plain_read(), self.plain_split())
    }
}

fn plain_network(network: &Network) -> String {
    let mut plain = format!("ok {} {}", network.n, network.f);
    let mut separator = ' ';
    for (u, row) in network.links.iter().enumerate() {
        for (v, _) in row.iter().enumerate().filter(|(_, &linked)| linked) {
            plain.push_str(&format!("{separator}{u}-{v}"));
            separator = ',';
        }
    }
    plain
}
