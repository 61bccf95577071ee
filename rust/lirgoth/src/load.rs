//! The load on each relay in words: how many routes each office relays, and which part of all
//! relaying places that is.

use crate::answer::Answer;
use crate::names::Names;
use crate::planned;
use crate::site::{Site, Unreadable};
use crate::words::{counted, grouped};
use agreement::{Load, Network};
use std::cmp::Reverse;

/// A line for each office, the widest relay first.
pub fn load(site: &Site) -> Result<Answer, Unreadable> {
    let (planned, load) = match planned::open(site, agreement::load)? {
        Ok(opened) => opened,
        Err(refused) => return Ok(refused),
    };
    let mut answer = Answer::of(told(&planned.network, &planned.names, &load));
    answer.notes = planned.notes;
    Ok(answer)
}

fn told(network: &Network, names: &Names, load: &Load) -> String {
    let all = load.total();
    let mut text = match all {
        0 => "no relaying places: every route goes straight from source to receiver\n".to_string(),
        _ => format!("relaying places over all routes: {}\n", grouped(all)),
    };
    for (office, routes) in widest_first(network, load) {
        text += &format!(
            "{} relays {}, {}\n",
            names.office(office),
            counted(routes, "route"),
            share(routes, all)
        );
    }
    text
}

/// The offices with how many routes they relay: those with more first, and else by their
/// numbers.
pub fn widest_first(network: &Network, load: &Load) -> Vec<(u8, usize)> {
    let mut offices: Vec<(u8, usize)> = network
        .servers()
        .iter()
        .map(|office| (office, load.of(office)))
        .collect();
    offices.sort_by_key(|&(_, routes)| Reverse(routes));
    offices
}

/// `34.1%`, to the nearest tenth; where there is nothing to share, each has none of it.
fn share(part: usize, all: usize) -> String {
    let tenths = match all {
        0 => 0,
        _ => (2_000 * part + all) / (2 * all),
    };
    format!("{}.{}%", tenths / 10, tenths % 10)
}

#[cfg(test)]
mod tests {
    use super::*;
    use agreement::ServerSet;

    #[test]
    fn shares_are_to_the_nearest_tenth() {
        let shares = [
            (0, 0),
            (0, 7),
            (1, 3),
            (2, 3),
            (1, 8),
            (1, 16),
            (7, 7),
            (1, 2_001),
        ];
        let written = [
            "0.0%", "0.0%", "33.3%", "66.7%", "12.5%", "6.3%", "100.0%", "0.0%",
        ];
        assert_eq!(shares.map(|(part, all)| share(part, all)), written);
        for all in 1..=300 {
            for part in 0..=all {
                // As a number, off by half a tenth at most.
                let written = share(part, all);
                let percent: f64 = written.trim_end_matches('%').parse().expect("a number");
                let exact = 100.0 * part as f64 / all as f64;
                assert!(
                    (percent - exact).abs() <= 0.05 + 1e-9,
                    "{part} of {all}: {written}"
                );
            }
        }
    }

    fn network(n: u8) -> Network {
        let rows = [ServerSet::EMPTY; 8];
        Network { n, f: 0, rows }
    }

    #[test]
    fn the_widest_relay_comes_first_and_like_ones_by_their_numbers() {
        let names = Names::new(vec![None, Some("Oslo".to_string())]);
        let routes = [1, 1_200, 0, 1, 398, 0, 0, 0];
        assert_eq!(
            told(&network(5), &names, &Load { routes }),
            "relaying places over all routes: 1,600\n\
             office 1 (Oslo) relays 1,200 routes, 75.0%\n\
             office 4 relays 398 routes, 24.9%\n\
             office 0 relays 1 route, 0.1%\n\
             office 3 relays 1 route, 0.1%\n\
             office 2 relays 0 routes, 0.0%\n"
        );
    }

    #[test]
    fn a_plan_without_relays_says_so() {
        assert_eq!(
            told(&network(2), &Names::default(), &Load { routes: [0; 8] }),
            "no relaying places: every route goes straight from source to receiver\n\
             office 0 relays 0 routes, 0.0%\n\
             office 1 relays 0 routes, 0.0%\n"
        );
    }
}
