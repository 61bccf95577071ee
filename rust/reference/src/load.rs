//! The load on each relay: how many routes of a plan each server relays.
//!
//! Time on a satellite is bought by relay. A relay is any server of a route between
//! its source and its receiver. The members of a neighbour set N talk to their k over
//! a link, so they have no relays.

use crate::card::{read_card, MAX_SERVERS};
use crate::plan::{
    check_plan_for, command_at, route_servers, Command, BLOCK_SIZE, NEIGHBOURS_SIZE, ROUTE_SIZE,
};
use crate::refusal::Refusal;

/// Answers for each of eight servers with the number of routes of `plan` that it
/// relays; servers that the network does not have relay none.
///
/// Refused is what [`check_plan`] refuses: the faults of the card come before those of
/// the plan.
///
/// [`check_plan`]: crate::check_plan
pub fn load(card: &[u8], plan: &[u8]) -> Result<[usize; 8], Refusal> {
    check_plan_for(&read_card(card)?, plan)?;

    let mut counts = [0; MAX_SERVERS];
    for route in routes(plan) {
        for (server, count) in (0u8..).zip(&mut counts) {
            if relays(server, route) {
                *count += 1;
            }
        }
    }
    Ok(counts)
}

/// The relaying places of an accepted plan: for each route its bytes before the fill,
/// less two.
///
/// It does not look at which servers they are, so that the counts of [`load`] can be
/// held to it. Bytes of any other kind are read up to the first end, or to where no
/// whole command is found.
pub fn relaying_places(plan: &[u8]) -> usize {
    // A route of fewer than two servers stands in no accepted plan.
    routes(plan)
        .map(|route| route.len().saturating_sub(2))
        .sum()
}

/// Whether `server` is on the route, neither as source nor as receiver.
fn relays(server: u8, route: &[u8]) -> bool {
    let is_source = route.first() == Some(&server);
    let is_receiver = route.last() == Some(&server);
    route.contains(&server) && !is_source && !is_receiver
}

/// The routes of an accepted plan in plan order, fill left off. No command is refused
/// here, as the plan has been checked; bytes of any other kind end the walk where no
/// whole command is found.
fn routes(plan: &[u8]) -> impl Iterator<Item = &[u8]> {
    let mut place = 0;
    std::iter::from_fn(move || loop {
        match command_at(plan, place).ok()? {
            Command::Block { .. } => place += BLOCK_SIZE,
            Command::Route { operand, .. } => {
                place += ROUTE_SIZE;
                return Some(route_servers(operand));
            }
            Command::Neighbours { .. } => place += NEIGHBOURS_SIZE,
            Command::End => return None,
        }
    })
}

#[cfg(test)]
mod tests {
    use super::*;
    use crate::plan::check_plan;
    use crate::sample::{card, complete_card, direct_plan, twin_card, Quorum, P1_CARD, P5_PLAN};

    const QUORUMS: [Quorum; 3] = [Quorum::InsideA, Quorum::All, Quorum::AllButOneOfA];

    fn route(kind: u8, servers: &[u8]) -> Vec<u8> {
        let mut command = vec![kind];
        command.extend(servers);
        command.resize(ROUTE_SIZE, 0xff);
        command
    }

    /// The counts of an accepted plan, which add up to its relaying places.
    fn counts(card: &[u8], plan: &[u8]) -> [usize; 8] {
        let counts = load(card, plan).unwrap();
        assert_eq!(counts.iter().sum::<usize>(), relaying_places(plan));
        counts
    }

    /// A card whose links lead from each server to the next and from the last to 0.
    fn ring_card(n: u8) -> Vec<u8> {
        let links: Vec<(u8, u8)> = (0..n).map(|u| (u, (u + 1) % n)).collect();
        card(n, 0, &links)
    }

    /// A plan for the ring of `n` servers: in each block S is {0}, which A holds, and
    /// the routes are 0 to 1, 0 to 1 to 2, and so on to the last server.
    fn ring_plan(n: u8) -> Vec<u8> {
        let mut plan = Vec::new();
        let all = u8::MAX >> (8 - n);
        for a in (1..all).step_by(2) {
            plan.extend([0x10, 0, a, 1]);
            for receiver in 1..n {
                let servers: Vec<u8> = (0..=receiver).collect();
                plan.extend(route(0x13, &servers));
            }
        }
        plan.push(0x15);
        plan
    }

    /// A plan for the ring of three servers by hand, with relays in every command.
    fn three() -> Vec<u8> {
        [
            vec![0x10, 0, 0b001, 0b010],
            route(0x11, &[0, 1]),
            route(0x13, &[1, 2, 0]),
            route(0x13, &[1, 2]),
            vec![0x10, 0, 0b100, 0b110],
            route(0x11, &[2, 0, 1]),
            route(0x12, &[2, 0, 1]),
            route(0x12, &[1, 2]),
            route(0x13, &[1, 2, 0]),
            vec![0x10, 0, 0b101, 0b111],
            route(0x11, &[2, 0, 1]),
            route(0x12, &[1, 2, 0]),
            route(0x12, &[2, 0]),
            route(0x12, &[0, 1]),
            route(0x12, &[2, 0, 1]),
            route(0x12, &[0, 1, 2]),
            route(0x12, &[1, 2]),
            vec![0x15],
        ]
        .concat()
    }

    #[test]
    fn counts_of_a_plan_by_hand() {
        let plan = three();
        assert_eq!(counts(&ring_card(3), &plan), [4, 1, 3, 0, 0, 0, 0, 0]);
        assert_eq!(relaying_places(&plan), 8);
        // A link given again makes no difference.
        let twins = twin_card(&ring_card(3));
        assert_eq!(counts(&twins, &plan), [4, 1, 3, 0, 0, 0, 0, 0]);
    }

    #[test]
    fn a_route_over_one_link_has_no_relay() {
        assert_eq!(counts(&P1_CARD, &P5_PLAN), [0; 8]);
        // Where f is not 0, these plans have neighbour sets too.
        for (n, f) in [(2, 0), (4, 1), (5, 1), (7, 2)] {
            for quorum in QUORUMS {
                let plan = direct_plan(n, f, quorum);
                assert_eq!(counts(&complete_card(n, f), &plan), [0; 8]);
                assert_eq!(relaying_places(&plan), 0);
            }
        }
    }

    #[test]
    fn routes_of_all_three_commands_count() {
        let card = complete_card(4, 1);
        let counts_with = |quorum: Quorum, place: usize, before: &[u8], after: &[u8]| {
            let mut plan = direct_plan(4, 1, quorum);
            let command = &mut plan[place..place + ROUTE_SIZE];
            assert_eq!(command, route(before[0], &before[1..]));
            command.copy_from_slice(&route(after[0], &after[1..]));
            counts(&card, &plan)
        };
        let to_s = counts_with(Quorum::All, 4, &[0x11, 1, 0], &[0x11, 1, 3, 0]);
        assert_eq!(to_s, [0, 0, 0, 1, 0, 0, 0, 0]);
        let within_s = counts_with(Quorum::InsideA, 4, &[0x12, 2, 1], &[0x12, 2, 0, 3, 1]);
        assert_eq!(within_s, [1, 0, 0, 1, 0, 0, 0, 0]);
        let from_s = counts_with(Quorum::InsideA, 58, &[0x13, 1, 0], &[0x13, 1, 3, 0]);
        assert_eq!(from_s, [0, 0, 0, 1, 0, 0, 0, 0]);
    }

    #[test]
    fn a_server_relays_between_the_ends_of_a_route_only() {
        let relaying = |servers: &[u8]| -> Vec<u8> {
            (0..=u8::MAX)
                .filter(|&server| relays(server, servers))
                .collect()
        };
        assert_eq!(relaying(&[3, 5]), []);
        assert_eq!(relaying(&[3, 0, 5]), [0]);
        assert_eq!(relaying(&[7, 3, 0, 5]), [0, 3]);
        assert_eq!(
            relaying(&[7, 6, 5, 4, 3, 2, 1, 0]),
            [1, 2, 3, 4, 5, 6],
            "no fill"
        );
    }

    #[test]
    fn servers_from_n_on_relay_none() {
        for n in 2..=8u8 {
            let counts = counts(&ring_card(n), &ring_plan(n));
            let (in_v, from_n_on) = counts.split_at(usize::from(n));
            assert!(from_n_on.iter().all(|&count| count == 0));
            // In each block a server other than 0 relays to all servers after it.
            let blocks = (1 << (n - 1)) - 1;
            let after = (0..usize::from(n)).rev();
            let expected: Vec<usize> = after.map(|after| blocks * after).collect();
            assert_eq!(in_v[0], 0);
            assert_eq!(in_v[1..], expected[1..]);
        }
    }

    #[test]
    fn the_card_is_refused_before_the_plan() {
        let refused_card = Refusal::Card {
            number: 2,
            place: 0,
        };
        let refused_plan = Refusal::Plan {
            number: 7,
            place: 0,
        };
        assert_eq!(load(&[], &[0x15]), Err(refused_card));
        assert_eq!(load(&[], &P5_PLAN), Err(refused_card));
        assert_eq!(load(&P1_CARD, &[0x15]), Err(refused_plan));
        let long_card = Refusal::Card {
            number: 1,
            place: 0,
        };
        let long_plan = Refusal::Plan {
            number: 1,
            place: 0,
        };
        assert_eq!(load(&[0; 1_025], &[0; 1_048_577]), Err(long_card));
        assert_eq!(load(&P1_CARD, &[0; 1_048_577]), Err(long_plan));
    }

    #[test]
    fn refused_is_what_the_plan_check_refuses() {
        let (card, plan) = (ring_card(3), three());
        let as_checked = |card: &[u8], plan: &[u8]| {
            let answer = load(card, plan);
            assert_eq!(answer.err(), check_plan(card, plan).err());
            // No bytes are too odd to be counted.
            let places = relaying_places(plan);
            assert!(answer.map_or(true, |counts| counts.iter().sum::<usize>() == places));
        };
        for place in 0..card.len() {
            for byte in 0..=u8::MAX {
                let mut card = card.clone();
                card[place] = byte;
                as_checked(&card, &plan);
            }
            as_checked(&card[..place], &plan);
        }
        for place in 0..plan.len() {
            for byte in 0..=u8::MAX {
                let mut plan = plan.clone();
                plan[place] = byte;
                as_checked(&card, &plan);
            }
            as_checked(&card, &plan[..place]);
            as_checked(&card, &plan[place + 1..]);
        }
        as_checked(&card, &[&plan[..], &[0x0a]].concat());
    }

    #[test]
    fn relaying_places_are_counted_on_any_bytes() {
        assert_eq!(relaying_places(&[]), 0);
        assert_eq!(relaying_places(&[0x15]), 0);
        assert_eq!(relaying_places(&[0x01, 0x02, 0x00]), 0);
        assert_eq!(relaying_places(&[0x11; 8]), 0, "operand cut off");
        assert_eq!(relaying_places(&[0x11; 9]), 6);
        for kind in [0x11, 0x12, 0x13] {
            assert_eq!(relaying_places(&route(kind, &[])), 0);
            assert_eq!(relaying_places(&route(kind, &[4])), 0);
            assert_eq!(relaying_places(&route(kind, &[4, 5])), 0);
            assert_eq!(relaying_places(&route(kind, &[4, 6, 5])), 1);
            assert_eq!(
                relaying_places(&route(kind, &[9, 9, 9, 0xff, 0x15, 9])),
                1,
                "what follows the first fill byte counts for nothing"
            );
        }
        // Operands that look like commands are none.
        let looks = [
            vec![0x10, 0x11, 0x12, 0x13],
            vec![0x14, 0x15, 0x15],
            route(0x12, &[0x15, 0x10, 0x15]),
        ];
        assert_eq!(relaying_places(&looks.concat()), 1);
        // The end is the end.
        let after = [vec![0x15], route(0x12, &[0, 1, 2])];
        assert_eq!(relaying_places(&after.concat()), 0);
    }
}
