//! What failing offices say: message tables for a drill.
//!
//! A lie that turns a value round has to know it, so the run is played here once, step by
//! step, while its table is written. What the offices then show is for the library to
//! say; a test holds the two to each other.

use crate::plan::{Block, Carriage, FROM_S, REPORT, TO_S, WITHIN_S};
use agreement::ServerSet;
use std::fmt::{self, Display, Formatter};

/// How failing offices lie.
#[derive(Debug, Clone, Copy, PartialEq, Eq)]
pub enum Lies {
    /// Each says closed to one half of the sound offices and open to the other, and
    /// turns round what it relays.
    Split,
    /// Each turns round what it says and what it relays.
    Turned,
    /// Nothing that they have in hand arrives, and the library reads that as open.
    Silent,
    /// Anything arrives, the same for the same seed.
    Random(u64),
}

impl Lies {
    /// Every kind, for a drill of all of them.
    pub fn every(seed: u64) -> [Lies; 4] {
        [Lies::Split, Lies::Turned, Lies::Silent, Lies::Random(seed)]
    }

    pub fn parse(text: &str) -> Option<Lies> {
        match text {
            "split" => Some(Lies::Split),
            "turned" => Some(Lies::Turned),
            "silent" => Some(Lies::Silent),
            _ => {
                let seed = text.strip_prefix("random:")?;
                seed.parse().ok().map(Lies::Random)
            }
        }
    }
}

impl Display for Lies {
    fn fmt(&self, out: &mut Formatter) -> fmt::Result {
        match self {
            Lies::Split => out.write_str("split"),
            Lies::Turned => out.write_str("turned"),
            Lies::Silent => out.write_str("silent"),
            Lies::Random(seed) => write!(out, "random:{seed}"),
        }
    }
}

const OPEN: u8 = 0;
const CLOSED: u8 = 1;
const UNSURE: u8 = 2;
/// The byte of a carriage that no failing office has in hand: nobody looks at it.
const UNUSED: u8 = 0;

/// The message table with which `faulty` lie in a run over `blocks`. Nothing arrives
/// from the silent, so their table is empty: each byte that it lacks is read as open.
pub fn table(blocks: &[Block], inputs: &[u8], faulty: ServerSet, lies: Lies) -> Vec<u8> {
    if lies == Lies::Silent {
        return Vec::new();
    }
    let mut player = Player::new(inputs, faulty, lies);
    for block in blocks {
        player.block(block);
    }
    player.table
}

/// A run under way.
struct Player {
    v: [u8; 8],
    t: [u8; 8],
    faulty: ServerSet,
    lies: Lies,
    /// Those of the sound offices that hear closed where the lies are split.
    told_closed: ServerSet,
    random: u64,
    table: Vec<u8>,
}

impl Player {
    fn new(inputs: &[u8], faulty: ServerSet, lies: Lies) -> Player {
        let mut v = [OPEN; 8];
        v[..inputs.len()].copy_from_slice(inputs);
        Player {
            v,
            t: [UNSURE; 8],
            faulty,
            lies,
            told_closed: first_half(ServerSet::first(inputs.len() as u8) - faulty),
            random: match lies {
                Lies::Random(seed) => seed,
                _ => 0,
            },
            table: Vec::new(),
        }
    }

    /// The six steps of a block.
    fn block(&mut self, block: &Block) {
        let opening = block.opening;
        for server in opening.a {
            self.t[usize::from(server)] = self.v[usize::from(server)];
        }
        let arrivals = self.carry(block, TO_S);
        self.take_common(&arrivals);
        let arrivals = self.carry(block, WITHIN_S);
        for (receiver, arrived) in arrivals {
            let t = &mut self.t[usize::from(receiver)];
            if arrived != *t {
                *t = UNSURE;
            }
        }
        let arrivals = self.carry(block, FROM_S);
        self.take_common(&arrivals);
        let outside = ServerSet::from_bits(u8::MAX) - opening.fault_set - (opening.a & opening.s);
        for server in outside {
            self.settle(server, self.t[usize::from(server)]);
        }
        let arrivals = self.carry(block, REPORT);
        for k in opening.fault_set {
            self.settle(k, common(&arrivals, k));
        }
    }

    /// What arrives by each carriage of one command, with its receiver. All of them set
    /// out before the first of them has arrived.
    fn carry(&mut self, block: &Block, command: u8) -> Vec<(u8, u8)> {
        let carriages = block
            .carriages
            .iter()
            .filter(|carriage| carriage.command == command);
        carriages
            .map(|carriage| (carriage.receiver, self.arrival(carriage)))
            .collect()
    }

    fn arrival(&mut self, carriage: &Carriage) -> u8 {
        let source = usize::from(carriage.source);
        let sent = match carriage.command {
            REPORT => self.v[source],
            _ => self.t[source],
        };
        if (carriage.before & self.faulty).is_empty() {
            self.table.push(UNUSED);
            return sent;
        }
        let lie = self.lie(carriage, sent);
        self.table.push(lie);
        lie
    }

    fn lie(&mut self, carriage: &Carriage, sent: u8) -> u8 {
        match self.lies {
            Lies::Split if self.faulty.contains(carriage.source) => {
                u8::from(self.told_closed.contains(carriage.receiver))
            }
            Lies::Split | Lies::Turned => turned(sent),
            Lies::Random(_) => self.draw(),
            Lies::Silent => OPEN,
        }
    }

    /// One of open, closed and unsure, by splitmix64.
    fn draw(&mut self) -> u8 {
        self.random = self.random.wrapping_add(0x9E37_79B9_7F4A_7C15);
        let mut mixed = self.random;
        mixed = (mixed ^ mixed >> 30).wrapping_mul(0xBF58_476D_1CE4_E5B9);
        mixed = (mixed ^ mixed >> 27).wrapping_mul(0x94D0_49BB_1331_11EB);
        ((mixed ^ mixed >> 31) % 3) as u8
    }

    /// Steps 2 and 4.
    fn take_common(&mut self, arrivals: &[(u8, u8)]) {
        for &(receiver, _) in arrivals {
            self.t[usize::from(receiver)] = common(arrivals, receiver);
        }
    }

    /// A server takes over a value that is sure.
    fn settle(&mut self, server: u8, value: u8) {
        if value != UNSURE {
            self.v[usize::from(server)] = value;
        }
    }
}

/// The one value that arrives at `receiver`, or unsure where two differ.
fn common(arrivals: &[(u8, u8)], receiver: u8) -> u8 {
    let mut own = arrivals
        .iter()
        .filter(|(at, _)| *at == receiver)
        .map(|(_, value)| *value);
    let first = own.next().unwrap_or(UNSURE);
    match own.all(|value| value == first) {
        true => first,
        false => UNSURE,
    }
}

fn turned(value: u8) -> u8 {
    match value {
        OPEN => CLOSED,
        CLOSED => OPEN,
        unsure => unsure,
    }
}

/// The lower half of a set, the larger one where it cannot be halved.
pub fn first_half(set: ServerSet) -> ServerSet {
    set.iter().take(set.len().div_ceil(2)).collect()
}

#[cfg(test)]
mod tests {
    use super::*;
    use crate::plan;
    use generate::{good_card, Rng};

    /// At most `f` of `n` servers.
    fn fault_set(rng: &mut Rng, n: u8, f: u8) -> ServerSet {
        let servers = (0..f).map(|_| rng.below(usize::from(n)) as u8);
        servers.collect()
    }

    #[test]
    fn kinds_of_lies_go_by_their_names() {
        for lies in Lies::every(7) {
            assert_eq!(Lies::parse(&lies.to_string()), Some(lies));
        }
        for text in ["", "Split", "random", "random:", "random:x", "random:-1"] {
            assert_eq!(Lies::parse(text), None, "{text}");
        }
    }

    /// The run is played here to know what to turn round; the library's decisions must
    /// come out the same, for the table that was written on the way.
    #[test]
    fn a_run_is_played_as_the_library_runs_it() {
        let mut rng = Rng::new(3);
        for round in 0..120 {
            let (n, f) = [(3, 0), (4, 1), (5, 1), (7, 2)][round % 4];
            let card = good_card(&mut rng, n, f).expect("n is over 3f");
            let bytes = generate::plan(&mut rng, &card).expect("a good network has a plan");
            let network = agreement::read_card(&card).expect("a sound card");
            let blocks = plan::blocks(&network, &bytes);
            for lies in Lies::every(round as u64) {
                let faulty = fault_set(&mut rng, n, f);
                let inputs: Vec<u8> = (0..n).map(|_| rng.below(2) as u8).collect();
                let mut player = Player::new(&inputs, faulty, lies);
                blocks.iter().for_each(|block| player.block(block));
                let table = table(&blocks, &inputs, faulty, lies);
                let mut lent = [9; 8];
                let answer = agreement::run(&card, &bytes, &inputs, faulty, &table, &mut lent);
                answer.expect("an accepted plan and a sound call");
                for server in network.servers() - faulty {
                    let server = usize::from(server);
                    assert_eq!(player.v[server], lent[server], "{lies}, round {round}");
                }
            }
        }
    }

    #[test]
    fn the_larger_half_comes_first() {
        let half = |bits| first_half(ServerSet::from_bits(bits)).bits();
        assert_eq!(
            [half(0), half(1), half(0b1_1011), half(0b1_1111)],
            [0, 1, 0b11, 0b111]
        );
    }
}
