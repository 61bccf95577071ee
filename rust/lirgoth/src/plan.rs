//! A plan as what is due in it: which blocks, and in each block which commands. The
//! library says whether a plan keeps the rules; here its bytes are taken apart, to say
//! where in the plan a place lies and what an accepted plan has in it.

use agreement::{Network, ServerSet};

/// The commands of a plan.
pub const BLOCK: u8 = 0x10;
pub const TO_S: u8 = 0x11;
pub const WITHIN_S: u8 = 0x12;
pub const FROM_S: u8 = 0x13;
pub const REPORT: u8 = 0x14;
pub const END: u8 = 0x15;
/// What fills a route's operand after its receiver.
pub const FILL: u8 = 0xFF;
/// How many bytes a route's operand has.
pub const ROUTE_BYTES: usize = 8;

/// How many operands a command has; `None` for a byte that is no command of a plan.
pub fn operands(command: u8) -> Option<usize> {
    match command {
        BLOCK => Some(3),
        TO_S | WITHIN_S | FROM_S => Some(ROUTE_BYTES),
        REPORT => Some(2),
        END => Some(0),
        _ => None,
    }
}

/// A block that is due: the fault set, and the part of V-F with its lowest server. One
/// of the two parts of V-F is A.
#[derive(Debug, Clone, Copy, PartialEq, Eq)]
pub struct DueBlock {
    pub fault_set: ServerSet,
    pub part: ServerSet,
    pub rest: ServerSet,
}

/// The blocks of a plan for `network`, in order.
pub fn due_blocks(network: &Network) -> Vec<DueBlock> {
    let all = network.servers();
    let within_f = |set: &ServerSet| set.is_within(all) && set.len() <= usize::from(network.f);
    let fault_sets = (0..=u8::MAX).map(ServerSet::from_bits).filter(within_f);
    fault_sets
        .flat_map(|fault_set| cuts(all, fault_set))
        .collect()
}

/// The ways of cutting what a fault set leaves of all servers into two parts.
fn cuts(all: ServerSet, fault_set: ServerSet) -> impl Iterator<Item = DueBlock> {
    let left = all - fault_set;
    let lowest = left.iter().next();
    let parts = (0..=u8::MAX).map(ServerSet::from_bits).filter(move |part| {
        part.is_within(left) && *part != left && lowest.is_some_and(|lowest| part.contains(lowest))
    });
    parts.map(move |part| DueBlock {
        fault_set,
        part,
        rest: left - part,
    })
}

/// The sets that open a block.
#[derive(Debug, Clone, Copy, PartialEq, Eq)]
pub struct Opening {
    pub fault_set: ServerSet,
    pub a: ServerSet,
    pub s: ServerSet,
}

/// A command that is due inside a block.
#[derive(Debug, Clone, Copy, PartialEq, Eq)]
pub enum Due {
    /// A route of 11, 12 or 13.
    Route {
        command: u8,
        sources: ServerSet,
        receiver: u8,
        /// Which one of those to this receiver, from 0, and of how many; those of 11 and
        /// 13 may share nothing but the receiver.
        index: usize,
        count: usize,
    },
    /// 14 for this server of F.
    Report { k: u8 },
}

impl Due {
    pub fn command(self) -> u8 {
        match self {
            Due::Route { command, .. } => command,
            Due::Report { .. } => REPORT,
        }
    }

    /// The command with its operands.
    pub fn bytes(self) -> usize {
        1 + operands(self.command()).expect("what is due is a command")
    }
}

/// The commands that are due after a block's opening, in order.
pub fn due_commands(network: &Network, opening: Opening) -> Vec<Due> {
    let Opening { fault_set, a, s } = opening;
    let fan = |command, sources, receivers: ServerSet| {
        let count = usize::from(network.f) + 1;
        receivers.iter().flat_map(move |receiver| {
            (0..count).map(move |index| Due::Route {
                command,
                sources,
                receiver,
                index,
                count,
            })
        })
    };
    let mesh = s.iter().flat_map(|receiver| {
        let sources = s - only(receiver);
        sources.iter().map(move |source| Due::Route {
            command: WITHIN_S,
            sources: only(source),
            receiver,
            index: 0,
            count: 1,
        })
    });
    let outside = network.servers() - fault_set - s;
    fan(TO_S, a, s - a)
        .chain(mesh)
        .chain(fan(FROM_S, s, outside))
        .chain(fault_set.iter().map(|k| Due::Report { k }))
        .collect()
}

/// The set of one server.
pub fn only(server: u8) -> ServerSet {
    [server].into_iter().collect()
}

/// The servers of a route's operand, its fill left off.
pub fn servers_of(operand: &[u8]) -> &[u8] {
    let end = operand.iter().position(|&byte| byte == FILL);
    &operand[..end.unwrap_or(operand.len())]
}

/// Where in a plan a command stands.
#[derive(Debug, Clone, PartialEq, Eq)]
pub enum Place {
    /// Where this block, counted from 1, opens.
    Opening { number: usize, due: DueBlock },
    /// Inside the block of that number.
    Inside {
        number: usize,
        opening: Opening,
        due: Due,
        /// The places of the earlier routes of its f+1.
        earlier: Vec<usize>,
    },
    /// Where the end command is due.
    End,
}

/// What is due at `place` of a plan whose commands before it are as they should be;
/// `None` where no command begins there.
pub fn place_of(network: &Network, plan: &[u8], place: usize) -> Option<Place> {
    let mut at = 0;
    for (index, due) in due_blocks(network).into_iter().enumerate() {
        let number = index + 1;
        if at == place {
            return Some(Place::Opening { number, due });
        }
        let opening = opening_at(plan, at)?;
        at += 4;
        for due in due_commands(network, opening) {
            if at == place {
                return Some(Place::Inside {
                    number,
                    opening,
                    due,
                    earlier: earlier(at, due),
                });
            }
            at += due.bytes();
            if at > plan.len() {
                return None;
            }
        }
    }
    (at == place).then_some(Place::End)
}

fn opening_at(plan: &[u8], at: usize) -> Option<Opening> {
    let &[_, f, a, s] = plan.get(at..at + 4)? else {
        return None;
    };
    let [fault_set, a, s] = [f, a, s].map(ServerSet::from_bits);
    Some(Opening { fault_set, a, s })
}

/// The routes of one receiver stand one behind the other.
fn earlier(at: usize, due: Due) -> Vec<usize> {
    match due {
        Due::Route { index, .. } => (1..=index)
            .rev()
            .map(|back| at - back * due.bytes())
            .collect(),
        Due::Report { .. } => Vec::new(),
    }
}

/// One route, or one member of an N.
#[derive(Debug, Clone, Copy, PartialEq, Eq)]
pub struct Carriage {
    pub command: u8,
    pub source: u8,
    /// The servers before the receiver, the source among them.
    pub before: ServerSet,
    pub receiver: u8,
}

/// A block of an accepted plan, with its carriages in plan order.
#[derive(Debug, Clone, PartialEq, Eq)]
pub struct Block {
    pub opening: Opening,
    pub carriages: Vec<Carriage>,
}

/// The blocks of a plan that the library accepts for `network`.
///
/// Panics on a plan that it does not accept.
pub fn blocks(network: &Network, plan: &[u8]) -> Vec<Block> {
    let mut at = 0;
    let mut blocks = Vec::new();
    for _ in due_blocks(network) {
        let opening = opening_at(plan, at).expect("an accepted plan has all its blocks");
        at += 4;
        let mut carriages = Vec::new();
        for due in due_commands(network, opening) {
            let operand = &plan[at + 1..at + due.bytes()];
            match due {
                Due::Route { command, .. } => carriages.push(carriage(command, operand)),
                Due::Report { k } => {
                    let reporters = ServerSet::from_bits(operand[1]);
                    carriages.extend(reporters.iter().map(|reporter| Carriage {
                        command: REPORT,
                        source: reporter,
                        before: only(reporter),
                        receiver: k,
                    }));
                }
            }
            at += due.bytes();
        }
        blocks.push(Block { opening, carriages });
    }
    blocks
}

fn carriage(command: u8, operand: &[u8]) -> Carriage {
    let [before @ .., receiver] = servers_of(operand) else {
        panic!("an accepted route has a receiver");
    };
    Carriage {
        command,
        source: before[0],
        before: before.iter().copied().collect(),
        receiver: *receiver,
    }
}

#[cfg(test)]
mod tests {
    use super::*;
    use generate::{good_card, Rng};

    #[test]
    fn as_many_blocks_are_due_as_the_formats_say() {
        let blocks = |n, f| {
            let rows = [ServerSet::EMPTY; 8];
            due_blocks(&Network { n, f, rows }).len()
        };
        assert_eq!(
            [blocks(4, 0), blocks(4, 1), blocks(7, 2), blocks(8, 2)],
            [7, 19, 595, 1_499]
        );
        assert_eq!([blocks(2, 2), blocks(2, 0)], [1, 1]);
    }

    #[test]
    fn an_accepted_plan_is_taken_apart_as_the_library_counts_it() {
        let mut rng = Rng::new(2);
        for (n, f) in [(2, 0), (4, 0), (4, 1), (5, 1), (6, 1), (7, 2)] {
            let card = good_card(&mut rng, n, f).expect("n is over 3f");
            let plan = generate::plan(&mut rng, &card).expect("a good network has a plan");
            let network = agreement::read_card(&card).expect("a sound card");
            let totals = agreement::check_plan(&card, &plan).expect("a sound plan");
            let blocks = blocks(&network, &plan);
            assert_eq!(blocks.len(), totals.blocks);
            let carriages: usize = blocks.iter().map(|block| block.carriages.len()).sum();
            assert_eq!(carriages, totals.carriages);
            // Every command of the plan stands where one is due, and nothing else does.
            let mut at = 0;
            while at < plan.len() {
                let place = place_of(&network, &plan, at).expect("a command is due here");
                let due = match place {
                    Place::Opening { .. } => BLOCK,
                    Place::Inside { due, .. } => due.command(),
                    Place::End => END,
                };
                assert_eq!(plan[at], due);
                at += 1 + operands(due).expect("a command");
            }
            assert_eq!(at, plan.len());
            assert_eq!(place_of(&network, &plan, 1), None);
            assert_eq!(place_of(&network, &plan, plan.len()), None);
        }
    }
}
