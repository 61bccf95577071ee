//! A plan taken apart into its commands, ready to be damaged.

use crate::plans::{
    push_route, servers_of, singleton, BLOCK, END, FILL, NEIGHBOURS, ROUTE_FROM_S, ROUTE_OPERAND,
    ROUTE_TO_S, ROUTE_WITHIN_S,
};
use crate::rng::Rng;
use crate::routes::{disjoint_routes, Demand};
use reference::{read_card, Network};
use std::ops::Range;

pub(crate) const ROUTES: [u8; 3] = [ROUTE_TO_S, ROUTE_WITHIN_S, ROUTE_FROM_S];
/// The kinds of routes that come as f+1 to one receiver.
pub(crate) const QUORUM_ROUTES: [u8; 2] = [ROUTE_TO_S, ROUTE_FROM_S];
pub(crate) const COMMANDS: [u8; 6] = [
    BLOCK,
    ROUTE_TO_S,
    ROUTE_WITHIN_S,
    ROUTE_FROM_S,
    NEIGHBOURS,
    END,
];
pub(crate) const ROUTE_SIZE: usize = 1 + ROUTE_OPERAND;

/// How often something is drawn before it is given up.
pub(crate) const ATTEMPTS: usize = 40;

/// The set of those of `servers` that a set can hold.
pub(crate) fn set_of(servers: &[u8]) -> u8 {
    let held = servers.iter().filter(|&&server| server < 8);
    held.fold(0, |set, &server| set | singleton(server))
}

/// Where a command stands, and the sets of the block around it.
#[derive(Debug, Clone, Copy)]
pub(crate) struct Command {
    pub place: usize,
    pub kind: u8,
    pub fault_set: u8,
    pub a: u8,
    pub s: u8,
}

impl Command {
    pub fn size(&self) -> usize {
        size_of_command(self.kind)
    }
}

fn size_of_command(kind: u8) -> usize {
    match kind {
        BLOCK => 4,
        ROUTE_TO_S | ROUTE_WITHIN_S | ROUTE_FROM_S => ROUTE_SIZE,
        NEIGHBOURS => 3,
        _ => 1,
    }
}

/// All whole commands of `plan` up to the first byte that is none.
fn commands_of(plan: &[u8]) -> Vec<Command> {
    let mut commands = Vec::new();
    let (mut place, mut sets) = (0, [0; 3]);
    while let Some(&kind) = plan.get(place) {
        let size = size_of_command(kind);
        let Some(command) = plan.get(place..place + size) else {
            break;
        };
        if !COMMANDS.contains(&kind) {
            break;
        }
        if let &[BLOCK, fault_set, a, s] = command {
            sets = [fault_set, a, s];
        }
        let [fault_set, a, s] = sets;
        commands.push(Command {
            place,
            kind,
            fault_set,
            a,
            s,
        });
        place += size;
    }
    commands
}

/// The places of all whole commands of these kinds, up to the first byte that is no
/// command.
pub fn places(plan: &[u8], kinds: &[u8]) -> Vec<usize> {
    let commands = commands_of(plan).into_iter();
    let wanted = commands.filter(|command| kinds.contains(&command.kind));
    wanted.map(|command| command.place).collect()
}

/// A plan on its way to be damaged.
pub(crate) struct Draft<'a> {
    pub rng: &'a mut Rng,
    /// The network on the card, if the card is accepted.
    pub network: Option<Network>,
    pub plan: Vec<u8>,
    /// The commands of the plan before it was damaged.
    pub commands: Vec<Command>,
}

impl<'a> Draft<'a> {
    pub fn new(rng: &'a mut Rng, card: &[u8], plan: &[u8]) -> Draft<'a> {
        Draft {
            rng,
            network: read_card(card).ok(),
            plan: plan.to_vec(),
            commands: commands_of(plan),
        }
    }

    /// A random command of one of these kinds.
    pub fn pick(&mut self, kinds: &[u8]) -> Option<Command> {
        self.pick_where(|command| kinds.contains(&command.kind))
    }

    pub fn pick_where(&mut self, wanted: impl Fn(&Command) -> bool) -> Option<Command> {
        // Going through all commands of a long plan is left for what is rare in it.
        for _ in 0..ATTEMPTS {
            let command = self.rng.pick(&self.commands)?;
            if wanted(&command) {
                return Some(command);
            }
        }
        let matching: Vec<Command> = self.commands.iter().copied().filter(wanted).collect();
        self.rng.pick(&matching)
    }

    /// A random route together with its servers, at least `servers` of them.
    pub fn pick_route(&mut self, servers: usize) -> Option<(Command, Vec<u8>)> {
        for _ in 0..ATTEMPTS {
            let command = self.pick(&ROUTES)?;
            let found = self.servers(command);
            if found.len() >= servers {
                return Some((command, found));
            }
        }
        None
    }

    /// The servers of a route.
    pub fn servers(&self, route: Command) -> Vec<u8> {
        let operand = &self.plan[route.place + 1..route.place + ROUTE_SIZE];
        let servers = operand.iter().take_while(|&&byte| byte != FILL);
        servers.copied().collect()
    }

    /// Gives the route of that place other servers, no more than eight.
    pub fn write_route(&mut self, route: Command, servers: &[u8]) {
        let mut command = Vec::with_capacity(ROUTE_SIZE);
        push_route(&mut command, route.kind, servers);
        self.plan
            .splice(route.place..route.place + ROUTE_SIZE, command);
    }

    /// A byte other than `old`: a small one or any.
    pub fn other_byte(&mut self, old: u8) -> u8 {
        loop {
            let byte = match self.rng.below(3) {
                0 => self.rng.byte(),
                _ => self.rng.below(9) as u8,
            };
            if byte != old {
                return byte;
            }
        }
    }

    /// A set other than `old`: mostly one server more or less.
    pub fn other_set(&mut self, old: u8) -> u8 {
        match self.rng.below(5) {
            0 => self.other_byte(old),
            1 if old != 0 => 0,
            _ => old ^ singleton(self.rng.below(8) as u8),
        }
    }

    /// Where each block stands, from its opening command to the next block.
    pub fn blocks(&self) -> Vec<Range<usize>> {
        let openings = self.commands.iter().filter(|command| command.kind == BLOCK);
        let mut bounds: Vec<usize> = openings.map(|command| command.place).collect();
        // The last block ends where the plan's end command stands, if it has one.
        let end = self.commands.last().filter(|last| last.kind == END);
        bounds.push(end.map_or(self.plan.len(), |command| command.place));
        bounds.windows(2).map(|pair| pair[0]..pair[1]).collect()
    }

    /// Where a random block stands.
    pub fn pick_block(&mut self) -> Option<Range<usize>> {
        let blocks = self.blocks();
        blocks.get(self.rng.below(blocks.len())).cloned()
    }

    /// Has a part of the plan come once more after itself.
    pub fn double(&mut self, part: Range<usize>) {
        let bytes = self.plan[part.clone()].to_vec();
        self.plan.splice(part.end..part.end, bytes);
    }

    /// Two routes of one receiver in one block, in any order and not always next to
    /// each other; both of a kind that must not share a server.
    pub fn pick_pair(&mut self) -> Option<(Command, Command)> {
        for _ in 0..ATTEMPTS {
            let one = self.pick(&QUORUM_ROUTES)?;
            let others: Vec<Command> = self
                .same_receiver(one)
                .filter(|other| other.place != one.place)
                .collect();
            if let Some(other) = self.rng.pick(&others) {
                return Some((one, other));
            }
        }
        None
    }

    /// The routes that stand in a row with `route` and go to its receiver, itself
    /// included.
    fn same_receiver(&self, route: Command) -> impl Iterator<Item = Command> + '_ {
        let receiver = self.servers(route).last().copied();
        let wanted = move |other: &&Command| {
            other.kind == route.kind && self.servers(**other).last().copied() == receiver
        };
        let at = self
            .commands
            .partition_point(|other| other.place < route.place);
        let before = self.commands[..at].iter().rev().take_while(wanted);
        before
            .chain(self.commands[at..].iter().take_while(wanted))
            .copied()
    }

    /// V, the set of all servers, or the empty set if the card is refused.
    pub fn servers_of_v(&self) -> u8 {
        self.network.map_or(0, |network| servers_of(&network))
    }

    /// The servers at which `route` may start.
    pub fn sources_due(&self, route: Command) -> Option<u8> {
        match route.kind {
            ROUTE_TO_S => Some(route.a),
            ROUTE_FROM_S => Some(route.s),
            _ => Some(set_of(self.servers(route).get(..1)?)),
        }
    }

    /// A random route to `receiver` from a server of `sources` that keeps clear of
    /// F, if there is one.
    pub fn route(&mut self, fault_set: u8, sources: u8, receiver: u8) -> Option<Vec<u8>> {
        let network = self.network?;
        if receiver >= network.n {
            return None;
        }
        let allowed = servers_of(&network) & !fault_set;
        let demand = Demand {
            sources: sources & allowed & !singleton(receiver),
            receiver,
            allowed,
            count: 1,
        };
        disjoint_routes(self.rng, &network, demand)?.pop()
    }
}
