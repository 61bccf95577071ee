//! Separate routes between offices, or the offices that stand in their way.

use crate::answer::Answer;
use crate::names::Names;
use crate::refused;
use agreement::{Network, Routes, ServerSet};

/// From which offices to which one, and which are left out.
#[derive(Debug, Clone, Copy)]
pub struct Way {
    pub from: ServerSet,
    pub to: u8,
    pub without: ServerSet,
}

/// The routes, a line each, or the offices that every route meets.
pub fn cut(card: &[u8], network: &Network, names: &Names, way: Way) -> Answer {
    match agreement::routes_for(card, way.without, way.from, way.to) {
        Ok(Routes::Separate(routes)) => Answer::of(found(&routes, names, way)),
        Ok(Routes::Cut(servers)) => Answer::of(met(servers, network, names, way)),
        Err(refusal) => {
            let mut answer = Answer::default();
            answer.line(&refused::routes(refusal, network, names, way.without));
            answer.refused()
        }
    }
}

/// `from offices 0 (Oslo), 1 (Lima) to office 4 (Pusan)`, and which are left out.
fn between(names: &Names, way: Way) -> String {
    let (from, to) = (names.offices(way.from), names.office(way.to));
    match way.without.is_empty() {
        true => format!("from {from} to {to}"),
        false => format!(
            "from {from} to {to}, without {}",
            names.offices(way.without)
        ),
    }
}

fn found(routes: &[Vec<u8>], names: &Names, way: Way) -> String {
    let between = between(names, way);
    let mut text = match routes.len() {
        1 => format!("a route {between}:\n"),
        count => format!("{count} routes {between}, that share nothing but the last:\n"),
    };
    for route in routes {
        let called: Vec<String> = route.iter().map(|&office| names.called(office)).collect();
        text += &format!("  {}\n", called.join(" → "));
    }
    text
}

fn met(servers: ServerSet, network: &Network, names: &Names, way: Way) -> String {
    let between = between(names, way);
    let offices = names.offices(servers);
    let wanted = network.f + 1;
    match servers.len() {
        0 => format!("no route {between}\n"),
        1 => {
            format!("fewer than {wanted} separate routes {between}: every route meets {offices}\n")
        }
        _ => format!(
            "fewer than {wanted} separate routes {between}: every route meets one of {offices}\n"
        ),
    }
}

#[cfg(test)]
mod tests {
    use super::*;

    fn set(offices: &[u8]) -> ServerSet {
        offices.iter().copied().collect()
    }

    fn told(n: u8, f: u8, links: &[(u8, u8)], names: &Names, way: Way) -> Answer {
        let card = generate::card_of(n, f, links);
        let network = agreement::read_card(&card).expect("a sound card");
        cut(&card, &network, names, way)
    }

    fn said(answer: Answer) -> (String, u8) {
        let text = String::from_utf8(answer.out).expect("text");
        (text, answer.status)
    }

    /// Offices 0, 1 and 2 have links to office 3, which has one to office 4.
    const FUNNEL: [(u8, u8); 4] = [(0, 3), (1, 3), (2, 3), (3, 4)];

    #[test]
    fn routes_are_told_one_by_one() {
        let names = Names::new(vec![None, Some("Oslo".into()), None, Some("Lima".into())]);
        let way = Way {
            from: set(&[0, 1]),
            to: 3,
            without: set(&[2]),
        };
        let expected = "2 routes from offices 0, 1 (Oslo) to office 3 (Lima), without office 2, \
                        that share nothing but the last:\n  0 → Lima\n  Oslo → Lima\n";
        assert_eq!(said(told(5, 1, &FUNNEL, &names, way)), (expected.into(), 0));
        let way = Way {
            from: set(&[0]),
            to: 4,
            without: set(&[]),
        };
        let expected = "a route from office 0 to office 4:\n  0 → 3 → 4\n";
        let unnamed = Names::default();
        assert_eq!(
            said(told(5, 0, &FUNNEL, &unnamed, way)),
            (expected.into(), 0)
        );
    }

    #[test]
    fn offices_that_all_routes_meet_are_named() {
        let names = Names::default();
        let said = |f, links: &[(u8, u8)], from: &[u8], to, without: &[u8]| {
            let way = Way {
                from: set(from),
                to,
                without: set(without),
            };
            said(told(5, f, links, &names, way))
        };
        assert_eq!(
            said(1, &FUNNEL, &[0, 1, 2], 4, &[]),
            (
                "fewer than 2 separate routes from offices 0 1 2 to office 4: every route meets \
                 office 3\n"
                    .into(),
                0
            )
        );
        assert_eq!(
            said(2, &FUNNEL, &[0, 1], 3, &[2]),
            (
                "fewer than 3 separate routes from offices 0 1 to office 3, without office 2: \
                 every route meets one of offices 0 1\n"
                    .into(),
                0
            )
        );
        assert_eq!(
            said(1, &FUNNEL, &[4], 3, &[]),
            ("no route from office 4 to office 3\n".into(), 0)
        );
        assert_eq!(
            said(1, &FUNNEL, &[0], 3, &[1, 2]),
            (
                "refused call 13: offices 1 2 are to fail, and at most 1 may\n".into(),
                crate::answer::REFUSED
            )
        );
    }
}
