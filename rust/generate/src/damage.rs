//! Plans with one thing wrong in them.

use crate::draft::{set_of, Command, Draft, ATTEMPTS, COMMANDS, ROUTES, ROUTE_SIZE};
use crate::plans::{members, servers_of, singleton, BLOCK, END, FILL, NEIGHBOURS, ROUTE_OPERAND};
use crate::rng::Rng;
use std::ops::Range;

/// Damages a draft in one way; `None` if this plan leaves no room for it.
type Make = fn(&mut Draft) -> Option<()>;

/// One way to damage a plan.
#[derive(Debug, Clone, Copy)]
pub struct Damage {
    /// What is done to the plan.
    pub name: &'static str,
    /// The refusal of the plan that this damage is made for. Now and then it brings
    /// another one, or none; `None` if what it brings is left to chance.
    pub meant: Option<u8>,
    make: Make,
}

impl Damage {
    /// `plan`, an accepted plan for the network on `card` or the beginning of one, damaged in this way at a
    /// random command, or `None` if this plan leaves no room for it.
    pub fn apply(&self, rng: &mut Rng, card: &[u8], plan: &[u8]) -> Option<Vec<u8>> {
        let mut draft = Draft::new(rng, card, plan);
        (self.make)(&mut draft)?;
        Some(draft.plan)
    }
}

const fn meant(number: u8, name: &'static str, make: Make) -> Damage {
    Damage {
        name,
        meant: Some(number),
        make,
    }
}

const fn by_chance(name: &'static str, make: Make) -> Damage {
    Damage {
        name,
        meant: None,
        make,
    }
}

/// All ways to damage a plan; [`damaged_plan`] draws among them evenly.
pub const DAMAGES: [Damage; 46] = [
    meant(2, "unknown command", unknown_command),
    meant(2, "command cut off", command_cut_off),
    meant(2, "operands cut off", operands_cut_off),
    meant(2, "cut off anywhere", truncated),
    meant(2, "end missing", end_missing),
    meant(3, "bytes after the end", bytes_after_end),
    meant(7, "end early", end_early),
    meant(7, "command byte changed", command_byte_changed),
    meant(7, "route of another kind", route_kind_changed),
    meant(7, "command of another kind", command_replaced),
    meant(7, "F changed", fault_set_changed),
    meant(7, "A changed", a_changed),
    meant(7, "A outside V", a_outside_v),
    by_chance("A the other part", a_other_part),
    meant(8, "S empty", s_empty),
    meant(8, "S outside V - F", s_outside),
    by_chance("S changed", s_changed),
    meant(9, "source changed", source_changed),
    meant(9, "route from elsewhere", wrong_source),
    meant(9, "receiver changed", receiver_changed),
    meant(9, "route to elsewhere", wrong_receiver),
    meant(9, "route of one server or none", route_too_short),
    meant(9, "relay changed", relay_changed),
    meant(9, "byte that is no server", no_server),
    meant(9, "fill changed", fill_changed),
    meant(9, "gap in the fill", gap_in_fill),
    meant(9, "server twice", server_repeated),
    meant(9, "absent link", absent_link),
    meant(9, "through F", through_fault_set),
    meant(10, "one source twice", one_source_twice),
    meant(10, "one relay twice", one_relay_twice),
    meant(10, "one route twice", one_route_twice),
    by_chance("route doubled", route_doubled),
    by_chance("route dropped", route_dropped),
    by_chance("commands swapped", commands_swapped),
    meant(7, "blocks swapped", blocks_swapped),
    meant(7, "block dropped", block_dropped),
    meant(7, "block doubled", block_doubled),
    meant(11, "k changed", k_changed),
    meant(11, "N of f servers", neighbours_too_few),
    meant(11, "N of f+2 servers", neighbours_too_many),
    meant(11, "N with a server of F", neighbour_in_fault_set),
    meant(11, "N with a server without a link", neighbour_without_link),
    meant(11, "N changed", neighbours_changed),
    by_chance("byte changed", byte_changed),
    by_chance("byte inserted or removed", byte_inserted_or_removed),
];

/// `plan`, an accepted or a near plan for the network on `card`, damaged at a random command
/// in one of many ways. A few of the damaged plans are still plans that are
/// accepted, such as one with two routes of a receiver exchanged.
pub fn damaged_plan(rng: &mut Rng, card: &[u8], plan: &[u8]) -> Vec<u8> {
    let mut draft = Draft::new(rng, card, plan);
    for _ in 0..ATTEMPTS {
        let damage = DAMAGES[draft.rng.below(DAMAGES.len())];
        if (damage.make)(&mut draft).is_some() {
            return draft.plan;
        }
    }
    let byte = draft.rng.byte();
    draft.plan.push(byte);
    draft.plan
}

fn fault_set_changed(draft: &mut Draft) -> Option<()> {
    let block = draft.pick(&[BLOCK])?;
    draft.plan[block.place + 1] = draft.other_set(block.fault_set);
    Some(())
}

fn a_changed(draft: &mut Draft) -> Option<()> {
    let block = draft.pick(&[BLOCK])?;
    draft.plan[block.place + 2] = draft.other_set(block.a);
    Some(())
}

fn a_outside_v(draft: &mut Draft) -> Option<()> {
    let outside: Vec<u8> = members(!draft.servers_of_v()).collect();
    let block = draft.pick(&[BLOCK])?;
    draft.plan[block.place + 2] |= singleton(draft.rng.pick(&outside)?);
    Some(())
}

/// The other part of the partition, which is as good an A but changes what is due
/// after it.
fn a_other_part(draft: &mut Draft) -> Option<()> {
    let block = draft.pick(&[BLOCK])?;
    draft.plan[block.place + 2] = draft.servers_of_v() & !block.fault_set & !block.a;
    Some(())
}

fn s_empty(draft: &mut Draft) -> Option<()> {
    let block = draft.pick(&[BLOCK])?;
    draft.plan[block.place + 3] = 0;
    Some(())
}

/// S with a server of F, or with one that is not in V.
fn s_outside(draft: &mut Draft) -> Option<()> {
    let servers = draft.servers_of_v();
    let block =
        draft.pick_where(|command| command.kind == BLOCK && command.fault_set | !servers != 0)?;
    let outside: Vec<u8> = members(block.fault_set | !servers).collect();
    draft.plan[block.place + 3] |= singleton(draft.rng.pick(&outside)?);
    Some(())
}

fn s_changed(draft: &mut Draft) -> Option<()> {
    let block = draft.pick(&[BLOCK])?;
    draft.plan[block.place + 3] = draft.other_set(block.s);
    Some(())
}

fn source_changed(draft: &mut Draft) -> Option<()> {
    let (route, mut servers) = draft.pick_route(2)?;
    servers[0] = draft.other_byte(servers[0]);
    draft.write_route(route, &servers);
    Some(())
}

/// A route to the receiver due, but from a server that is no source of it; all else
/// about the route is as it should be.
fn wrong_source(draft: &mut Draft) -> Option<()> {
    let (route, servers) = draft.pick_route(2)?;
    let due = draft.sources_due(route)?;
    let other = draft.route(route.fault_set, !due, *servers.last()?)?;
    draft.write_route(route, &other);
    Some(())
}

fn receiver_changed(draft: &mut Draft) -> Option<()> {
    let (route, mut servers) = draft.pick_route(2)?;
    match draft.rng.below(3) {
        // The route ends early.
        0 => {
            servers.pop();
        }
        _ => {
            let last = servers.len() - 1;
            servers[last] = draft.other_byte(servers[last]);
        }
    }
    draft.write_route(route, &servers);
    Some(())
}

/// A route from a source due, but to another server; all else about the route is as
/// it should be.
fn wrong_receiver(draft: &mut Draft) -> Option<()> {
    let (route, servers) = draft.pick_route(2)?;
    let taken = route.fault_set | set_of(&servers[servers.len() - 1..]);
    let others: Vec<u8> = members(draft.servers_of_v() & !taken).collect();
    let receiver = draft.rng.pick(&others)?;
    let due = draft.sources_due(route)?;
    let other = draft.route(route.fault_set, due, receiver)?;
    draft.write_route(route, &other);
    Some(())
}

fn route_too_short(draft: &mut Draft) -> Option<()> {
    let (route, servers) = draft.pick_route(2)?;
    let kept = match draft.rng.below(3) {
        0 => &servers[..0],
        1 => &servers[..1],
        _ => &servers[servers.len() - 1..],
    };
    draft.write_route(route, kept);
    Some(())
}

fn relay_changed(draft: &mut Draft) -> Option<()> {
    let (route, mut servers) = draft.pick_route(3)?;
    let relay = 1 + draft.rng.below(servers.len() - 2);
    match draft.rng.below(3) {
        0 => {
            servers.remove(relay);
        }
        _ => servers[relay] = draft.other_byte(servers[relay]),
    }
    draft.write_route(route, &servers);
    Some(())
}

/// A byte that is neither a server of V nor fill, in the place of a server or beside
/// them.
fn no_server(draft: &mut Draft) -> Option<()> {
    let n = draft.network?.n;
    let (route, mut servers) = draft.pick_route(2)?;
    let byte = match draft.rng.below(4) {
        0 => n,
        1 => draft.rng.between(usize::from(n), 8) as u8,
        // A server of the route, but with another bit.
        2 => *servers.last()? | singleton(draft.rng.between(3, 7) as u8),
        _ => draft.rng.between(usize::from(n), usize::from(FILL) - 1) as u8,
    };
    if byte < n || byte == FILL {
        return None;
    }
    if servers.len() < ROUTE_OPERAND && draft.rng.one_in(2) {
        let place = draft.rng.between(0, servers.len());
        servers.insert(place, byte);
    } else {
        let place = draft.rng.below(servers.len());
        servers[place] = byte;
    }
    draft.write_route(route, &servers);
    Some(())
}

fn fill_changed(draft: &mut Draft) -> Option<()> {
    let route = draft.pick(&ROUTES)?;
    let length = draft.servers(route).len();
    if length == ROUTE_OPERAND {
        return None;
    }
    let place = route.place + 1 + draft.rng.between(length, ROUTE_OPERAND - 1);
    draft.plan[place] = draft.other_byte(FILL);
    Some(())
}

/// A fill byte before, between or after the servers, which all stay there.
fn gap_in_fill(draft: &mut Draft) -> Option<()> {
    let (route, mut servers) = draft.pick_route(2)?;
    if servers.len() == ROUTE_OPERAND {
        return None;
    }
    let gap = draft.rng.below(servers.len());
    servers.insert(gap, FILL);
    draft.write_route(route, &servers);
    Some(())
}

fn server_repeated(draft: &mut Draft) -> Option<()> {
    let (route, mut servers) = draft.pick_route(2)?;
    let repeated = servers[draft.rng.below(servers.len())];
    let place = draft.rng.between(0, servers.len());
    if servers.len() < ROUTE_OPERAND {
        servers.insert(place, repeated);
    } else {
        let place = place.min(servers.len() - 1);
        servers[place] = repeated;
    }
    draft.write_route(route, &servers);
    Some(())
}

/// A route that takes a way from which one link is missing, if any is missing.
fn absent_link(draft: &mut Draft) -> Option<()> {
    let network = draft.network?;
    for _ in 0..ATTEMPTS {
        let (route, mut servers) = draft.pick_route(2)?;
        let taken = route.fault_set | set_of(&servers);
        let relays: Vec<u8> = members(servers_of(&network) & !taken).collect();
        let place = 1 + draft.rng.below(servers.len() - 1);
        // Only relays change, if there is room for another one: source and receiver
        // would be at fault as well.
        if let Some(relay) = draft.rng.pick(&relays) {
            servers.insert(place, relay);
        } else {
            servers.swap(place - 1, place);
        }
        let absent = |pair: &[u8]| !network.links[usize::from(pair[0])][usize::from(pair[1])];
        let fits = servers.len() <= ROUTE_OPERAND && servers.iter().all(|&server| server < 8);
        if fits && servers.windows(2).any(absent) {
            draft.write_route(route, &servers);
            return Some(());
        }
    }
    None
}

fn through_fault_set(draft: &mut Draft) -> Option<()> {
    let route =
        draft.pick_where(|command| ROUTES.contains(&command.kind) && command.fault_set != 0)?;
    let mut servers = draft.servers(route);
    let suspects: Vec<u8> = members(route.fault_set).collect();
    let suspect = draft.rng.pick(&suspects)?;
    if servers.len() == ROUTE_OPERAND || draft.rng.one_in(3) {
        let place = draft.rng.below(servers.len());
        *servers.get_mut(place)? = suspect;
    } else {
        let place = draft.rng.between(0, servers.len());
        servers.insert(place, suspect);
    }
    draft.write_route(route, &servers);
    Some(())
}

/// Two routes of one receiver begin at one server; the one that is changed keeps
/// every rule on its own.
fn one_source_twice(draft: &mut Draft) -> Option<()> {
    let (changed, other) = draft.pick_pair()?;
    let source = set_of(draft.servers(other).get(..1)?);
    let receiver = *draft.servers(changed).last()?;
    let route = draft.route(changed.fault_set, source, receiver)?;
    draft.write_route(changed, &route);
    Some(())
}

/// Two routes of one receiver share a relay, or one has the other's source as a
/// relay; the one that is changed keeps every rule on its own.
fn one_relay_twice(draft: &mut Draft) -> Option<()> {
    let (changed, other) = draft.pick_pair()?;
    let servers = draft.servers(other);
    let (&receiver, senders) = servers.split_last()?;
    let sources = draft.sources_due(changed)? & !set_of(senders.get(..1)?);
    for _ in 0..ATTEMPTS {
        let route = draft.route(changed.fault_set, sources, receiver)?;
        if set_of(&route[..route.len() - 1]) & set_of(senders) != 0 {
            draft.write_route(changed, &route);
            return Some(());
        }
    }
    None
}

fn one_route_twice(draft: &mut Draft) -> Option<()> {
    let (changed, other) = draft.pick_pair()?;
    let servers = draft.servers(other);
    draft.write_route(changed, &servers);
    Some(())
}

fn route_dropped(draft: &mut Draft) -> Option<()> {
    let route = draft.pick(&ROUTES)?;
    draft.plan.drain(route.place..route.place + ROUTE_SIZE);
    Some(())
}

/// A route comes once more after itself.
fn route_doubled(draft: &mut Draft) -> Option<()> {
    let route = draft.pick(&ROUTES)?;
    draft.double(route.place..route.place + ROUTE_SIZE);
    Some(())
}

fn commands_swapped(draft: &mut Draft) -> Option<()> {
    let chosen = two_of(draft.rng, draft.commands.len())?;
    let chosen = chosen.map(|index| draft.commands[index]);
    let parts = chosen.map(|command| command.place..command.place + command.size());
    swap_parts(&mut draft.plan, parts);
    Some(())
}

fn blocks_swapped(draft: &mut Draft) -> Option<()> {
    let blocks = draft.blocks();
    let chosen = two_of(draft.rng, blocks.len())?;
    swap_parts(&mut draft.plan, chosen.map(|index| blocks[index].clone()));
    Some(())
}

fn block_dropped(draft: &mut Draft) -> Option<()> {
    let block = draft.pick_block()?;
    draft.plan.drain(block);
    Some(())
}

fn block_doubled(draft: &mut Draft) -> Option<()> {
    let block = draft.pick_block()?;
    draft.double(block);
    Some(())
}

/// Two different numbers below `count`, ascending, half the time neighbours.
fn two_of(rng: &mut Rng, count: usize) -> Option<[usize; 2]> {
    if count < 2 {
        return None;
    }
    let first = rng.below(count - 1);
    let second = match rng.below(2) {
        0 => first + 1,
        _ => rng.between(first + 1, count - 1),
    };
    Some([first, second])
}

/// Exchanges two parts of the plan, the first of which ends before the second.
fn swap_parts(plan: &mut Vec<u8>, [first, second]: [Range<usize>; 2]) {
    let parts = [
        &plan[..first.start],
        &plan[second.clone()],
        &plan[first.end..second.start],
        &plan[first.clone()],
        &plan[second.end..],
    ];
    *plan = parts.concat();
}

fn k_changed(draft: &mut Draft) -> Option<()> {
    let set = draft.pick(&[NEIGHBOURS])?;
    let k = draft.plan[set.place + 1];
    let rest: Vec<u8> = members(set.fault_set).filter(|&other| other != k).collect();
    draft.plan[set.place + 1] = match draft.rng.pick(&rest) {
        Some(other) if draft.rng.one_in(2) => other,
        _ => draft.other_byte(k),
    };
    Some(())
}

/// A random 14 command with its N and the servers that have a link to its k.
fn pick_neighbours(draft: &mut Draft) -> Option<(Command, u8, u8)> {
    let network = draft.network?;
    let set = draft.pick(&[NEIGHBOURS])?;
    let k = usize::from(draft.plan[set.place + 1]);
    let linked = |&u: &u8| k < 8 && network.links[usize::from(u)][k];
    let incoming: Vec<u8> = members(servers_of(&network)).filter(linked).collect();
    let neighbours = draft.plan[set.place + 2];
    Some((set, neighbours, set_of(&incoming)))
}

/// As many servers, but one of them another, which is drawn from `others`.
fn one_replaced(draft: &mut Draft, neighbours: u8, others: u8) -> Option<u8> {
    let leaving: Vec<u8> = members(neighbours).collect();
    let coming: Vec<u8> = members(others & !neighbours).collect();
    let without = neighbours & !singleton(draft.rng.pick(&leaving)?);
    Some(without | singleton(draft.rng.pick(&coming)?))
}

fn neighbours_too_few(draft: &mut Draft) -> Option<()> {
    let (set, neighbours, _) = pick_neighbours(draft)?;
    let leaving: Vec<u8> = members(neighbours).collect();
    draft.plan[set.place + 2] &= !singleton(draft.rng.pick(&leaving)?);
    Some(())
}

/// Every server of N is one that might be in it, but there is one too many.
fn neighbours_too_many(draft: &mut Draft) -> Option<()> {
    let (set, neighbours, incoming) = pick_neighbours(draft)?;
    let coming: Vec<u8> = members(incoming & !set.fault_set & !neighbours).collect();
    draft.plan[set.place + 2] |= singleton(draft.rng.pick(&coming)?);
    Some(())
}

/// A server of F instead of another one: k itself, or one with a link to k.
fn neighbour_in_fault_set(draft: &mut Draft) -> Option<()> {
    let (set, neighbours, incoming) = pick_neighbours(draft)?;
    let linked = set.fault_set & incoming;
    let others = match draft.rng.below(2) {
        0 if linked != 0 => linked,
        _ => set.fault_set,
    };
    draft.plan[set.place + 2] = one_replaced(draft, neighbours, others)?;
    Some(())
}

/// A server of V - F without a link to k instead of one with a link.
fn neighbour_without_link(draft: &mut Draft) -> Option<()> {
    for _ in 0..ATTEMPTS {
        let (set, neighbours, incoming) = pick_neighbours(draft)?;
        let unlinked = draft.servers_of_v() & !set.fault_set & !incoming;
        if let Some(other) = one_replaced(draft, neighbours, unlinked) {
            draft.plan[set.place + 2] = other;
            return Some(());
        }
    }
    None
}

fn neighbours_changed(draft: &mut Draft) -> Option<()> {
    let set = draft.pick(&[NEIGHBOURS])?;
    let old = draft.plan[set.place + 2];
    draft.plan[set.place + 2] = match draft.rng.below(3) {
        0 => one_replaced(draft, old, u8::MAX)?,
        _ => draft.other_set(old),
    };
    Some(())
}

/// A byte that is no command of a plan; one of the card's is not either.
fn unknown_command(draft: &mut Draft) -> Option<()> {
    let command = draft.pick(&COMMANDS)?;
    let byte = match draft.rng.below(3) {
        0 => draft.rng.byte(),
        1 => draft.rng.below(5) as u8,
        _ => draft.rng.pick(&[0x0f, 0x16, 0x20, 0x91, FILL])?,
    };
    if COMMANDS.contains(&byte) {
        return None;
    }
    draft.plan[command.place] = byte;
    Some(())
}

/// The plan is over where a command should start.
fn command_cut_off(draft: &mut Draft) -> Option<()> {
    let command = draft.pick(&COMMANDS)?;
    draft.plan.truncate(command.place);
    Some(())
}

/// The plan is over after a command byte or between its operands.
fn operands_cut_off(draft: &mut Draft) -> Option<()> {
    let command = draft.pick_where(|command| command.kind != END)?;
    let kept = draft.rng.between(1, command.size() - 1);
    draft.plan.truncate(command.place + kept);
    Some(())
}

/// 11 for 13 and the like: the operand stays as it is.
fn route_kind_changed(draft: &mut Draft) -> Option<()> {
    let route = draft.pick(&ROUTES)?;
    let others: Vec<u8> = ROUTES
        .into_iter()
        .filter(|&kind| kind != route.kind)
        .collect();
    draft.plan[route.place] = draft.rng.pick(&others)?;
    Some(())
}

/// Only the command byte becomes another one; its operands stay.
fn command_byte_changed(draft: &mut Draft) -> Option<()> {
    let command = draft.pick(&COMMANDS)?;
    let other = COMMANDS[draft.rng.below(COMMANDS.len())];
    if other == command.kind {
        return None;
    }
    draft.plan[command.place] = other;
    Some(())
}

/// A whole command of another kind, copied from elsewhere in the plan.
fn command_replaced(draft: &mut Draft) -> Option<()> {
    let command = draft.pick(&COMMANDS)?;
    let other = draft.pick_where(|other| other.kind != command.kind)?;
    let bytes = draft.plan[other.place..other.place + other.size()].to_vec();
    let replaced = command.place..command.place + command.size();
    draft.plan.splice(replaced, bytes);
    Some(())
}

fn end_early(draft: &mut Draft) -> Option<()> {
    let command = draft.pick_where(|command| command.kind != END)?;
    if draft.rng.one_in(2) {
        draft.plan.truncate(command.place);
        draft.plan.push(END);
    } else {
        draft.plan.insert(command.place, END);
    }
    Some(())
}

fn end_missing(draft: &mut Draft) -> Option<()> {
    let end = draft.pick(&[END])?;
    draft.plan.remove(end.place);
    Some(())
}

fn bytes_after_end(draft: &mut Draft) -> Option<()> {
    for _ in 0..draft.rng.between(1, 12) {
        let byte = match draft.rng.below(2) {
            0 => draft.rng.byte(),
            _ => COMMANDS[draft.rng.below(COMMANDS.len())],
        };
        draft.plan.push(byte);
    }
    Some(())
}

fn truncated(draft: &mut Draft) -> Option<()> {
    let length = draft.rng.below(draft.plan.len());
    draft.plan.truncate(length);
    Some(())
}

fn byte_changed(draft: &mut Draft) -> Option<()> {
    let place = draft.rng.below(draft.plan.len());
    let old = *draft.plan.get(place)?;
    draft.plan[place] = draft.other_byte(old);
    Some(())
}

fn byte_inserted_or_removed(draft: &mut Draft) -> Option<()> {
    let place = draft.rng.below(draft.plan.len());
    if draft.rng.one_in(2) && place < draft.plan.len() {
        draft.plan.remove(place);
    } else {
        let byte = draft.other_byte(FILL);
        draft.plan.insert(place, byte);
    }
    Some(())
}

#[cfg(test)]
mod tests {
    use super::*;
    use crate::cards::{card, complete_card, network_card};
    use crate::plans::plan;
    use reference::{check_plan, Refusal};

    /// 0 for an accepted plan, else the refusal's number.
    fn number(card: &[u8], plan: &[u8]) -> usize {
        match check_plan(card, plan) {
            Ok(_) => 0,
            Err(Refusal::Plan { number, .. }) => number.into(),
            Err(other) => panic!("not a refusal of the plan: {other:?}"),
        }
    }

    /// Random networks of these sizes with an accepted plan each.
    fn planned(rng: &mut Rng, rounds: usize) -> Vec<(Vec<u8>, Vec<u8>)> {
        let sizes = [(2, 0), (3, 0), (5, 0), (4, 1), (5, 1), (6, 1)];
        let mut planned = Vec::new();
        for round in 0..rounds {
            let (n, f) = sizes[round % sizes.len()];
            let card = match rng.below(3) {
                0 => complete_card(n, f),
                _ => network_card(rng, n, f),
            };
            planned.extend(plan(rng, &card).map(|plan| (card, plan)));
        }
        planned
    }

    #[test]
    fn damaged_plans_meet_every_refusal() {
        let mut rng = Rng::new(1);
        let mut numbers = [0; 12];
        for (card, plan) in planned(&mut rng, 60) {
            for _ in 0..60 {
                numbers[number(&card, &damaged_plan(&mut rng, &card, &plan))] += 1;
            }
        }
        println!("accepted and refused 1 to 11: {numbers:?}");
        for due in [2, 3, 7, 8, 9, 10, 11] {
            assert!(numbers[due] > 0, "{numbers:?}");
        }
    }

    #[test]
    fn each_damage_brings_its_own_refusal() {
        let mut rng = Rng::new(2);
        let planned = planned(&mut rng, 60);
        for damage in DAMAGES {
            let (mut made, mut numbers) = (0, [0; 12]);
            for (card, plan) in &planned {
                for _ in 0..10 {
                    if let Some(damaged) = damage.apply(&mut rng, card, plan) {
                        made += 1;
                        numbers[number(card, &damaged)] += 1;
                    }
                }
            }
            println!("{:<32} {made:>5} {numbers:?}", damage.name);
            assert!(made >= 20, "{} is seldom done", damage.name);
            if let Some(due) = damage.meant {
                let met = numbers[usize::from(due)];
                assert!(met * 2 > made, "{} does not bring {due}", damage.name);
            }
        }
    }

    #[test]
    fn every_damage_changes_the_plan() {
        let mut rng = Rng::new(3);
        let planned = planned(&mut rng, 40);
        for damage in DAMAGES {
            let changed = planned.iter().any(|(card, plan)| {
                let damaged = damage.apply(&mut rng, card, plan);
                damaged.is_some_and(|damaged| damaged != *plan)
            });
            assert!(changed, "{}", damage.name);
        }
    }

    #[test]
    fn any_bytes_can_be_damaged() {
        let mut rng = Rng::new(4);
        for _ in 0..3_000 {
            let card = card(&mut rng);
            let length = rng.below(40);
            let bytes = match rng.below(2) {
                0 => rng.bytes(length),
                _ => (0..length).map(|_| rng.between(0x0e, 0x16) as u8).collect(),
            };
            let damaged = damaged_plan(&mut rng, &card, &bytes);
            let _ = check_plan(&card, &damaged);
        }
    }

    #[test]
    fn one_seed_gives_the_same_damage() {
        let card = complete_card(4, 1);
        let plan = plan(&mut Rng::new(5), &card).unwrap();
        let damage = |seed| damaged_plan(&mut Rng::new(seed), &card, &plan);
        for seed in 0..50 {
            assert_eq!(damage(seed), damage(seed));
        }
    }
}
