//! The carriages of an accepted plan: the way each of them goes, and when it is due. An office
//! reads here where a value that it holds goes next; what the values are is the library's part.

use agreement::{ServerSet, State};
use std::ops::Range;

const BLOCK: u8 = 0x10;
const REPORT: u8 = 0x14;
const END: u8 = 0x15;
/// What fills a route's operand after its receiver.
const FILL: u8 = 0xFF;

/// One route, or one member of an N. Its number is its place in the row of all carriages.
#[derive(Debug, Clone, PartialEq, Eq)]
pub struct Carriage {
    /// Its block, and its kind, as a server's state counts them.
    pub block: u64,
    pub kind: u64,
    /// Source, relays, receiver.
    pub servers: Vec<u8>,
    /// The slot in which its source sends it.
    slot: u32,
}

impl Carriage {
    pub fn is_from(&self, office: u8) -> bool {
        self.servers.first() == Some(&office)
    }

    pub fn is_for(&self, office: u8) -> bool {
        self.servers.last() == Some(&office)
    }

    /// Who hands it to `office`, if it comes by there.
    pub fn before(&self, office: u8) -> Option<u8> {
        let step = self.servers.windows(2).find(|step| step[1] == office)?;
        Some(step[0])
    }

    /// Whom `office` hands it to, if it has it in hand and is not its receiver.
    pub fn after(&self, office: u8) -> Option<u8> {
        let step = self.servers.windows(2).find(|step| step[0] == office)?;
        Some(step[1])
    }

    /// How many slots have passed when it must have come to `office`, if it comes by there.
    /// Each step of a route has a slot of its own, and each kind of a block as many as its
    /// longest route.
    pub fn due(&self, office: u8) -> Option<u32> {
        let hops = self.servers.iter().position(|&server| server == office)?;
        (hops > 0).then_some(self.slot + hops as u32)
    }
}

/// The carriages of a plan that the library accepts, in order. Panics on any other.
pub fn carriages(plan: &[u8]) -> Vec<Carriage> {
    let mut all = Vec::new();
    let (mut rest, mut blocks) = (plan, 0);
    loop {
        let mut push = |kind: u8, servers: Vec<u8>| {
            all.push(Carriage {
                block: blocks - 1,
                kind: kind.into(),
                servers,
                slot: 0,
            })
        };
        rest = match rest {
            [BLOCK, _, _, _, rest @ ..] => {
                blocks += 1;
                rest
            }
            &[REPORT, k, reporters, ref rest @ ..] => {
                for reporter in ServerSet::from_bits(reporters) {
                    push(REPORT, vec![reporter, k]);
                }
                rest
            }
            [END] => break,
            [kind, rest @ ..] => {
                let (operand, rest) = rest.split_at(8);
                let servers = operand.iter().copied().take_while(|&byte| byte != FILL);
                push(*kind, servers.collect());
                rest
            }
            [] => panic!("an accepted plan has its end command"),
        };
    }
    number_slots(&mut all);
    all
}

fn number_slots(all: &mut [Carriage]) {
    let mut slot = 0;
    for kind in all.chunk_by_mut(|one, next| (one.block, one.kind) == (next.block, next.kind)) {
        let mut longest = 0;
        for carriage in kind {
            carriage.slot = slot;
            longest = longest.max(carriage.servers.len() - 1);
        }
        slot += longest as u32;
    }
}

/// The numbers of the carriages of the kind and block at which a server's state is.
pub fn of_state(all: &[Carriage], state: State) -> Range<usize> {
    let place = |carriage: &Carriage| (carriage.block, carriage.kind);
    let from = all.partition_point(|carriage| place(carriage) < (state.block, state.kind));
    let to = all.partition_point(|carriage| place(carriage) <= (state.block, state.kind));
    from..to
}

#[cfg(test)]
mod tests {
    use super::*;
    use generate::{good_card, Rng};

    fn carriage(block: u64, kind: u64, servers: &[u8], slot: u32) -> Carriage {
        let servers = servers.to_vec();
        Carriage {
            block,
            kind,
            servers,
            slot,
        }
    }

    #[test]
    fn a_plan_is_its_carriages_and_their_slots() {
        let plan = [
            &[BLOCK, 0x00, 0x01, 0x01][..],
            &[0x13, 0, 1, 2, FILL, FILL, FILL, FILL, FILL],
            &[0x13, 0, 2, FILL, FILL, FILL, FILL, FILL, FILL],
            &[BLOCK, 0x04, 0x01, 0x01],
            &[0x12, 0, 1, FILL, FILL, FILL, FILL, FILL, FILL],
            &[REPORT, 2, 0b1010],
            &[END],
        ];
        let expected = [
            carriage(0, 0x13, &[0, 1, 2], 0),
            carriage(0, 0x13, &[0, 2], 0),
            carriage(1, 0x12, &[0, 1], 2),
            carriage(1, 0x14, &[1, 2], 3),
            carriage(1, 0x14, &[3, 2], 3),
        ];
        let all = carriages(&plan.concat());
        assert_eq!(all, expected);
        let of = |block, kind| of_state(&all, State::from_words([block, kind, 0, 2, 0]));
        assert_eq!([of(0, 0x11), of(0, 0x12), of(0, 0x13)], [0..0, 0..0, 0..2]);
        assert_eq!([of(1, 0x12), of(1, 0x13), of(1, 0x14)], [2..3, 3..3, 3..5]);
    }

    #[test]
    fn a_carriage_goes_from_office_to_office() {
        let carriage = carriage(0, 0x13, &[3, 0, 2], 7);
        assert!(carriage.is_from(3) && !carriage.is_from(0) && !carriage.is_from(2));
        assert!(carriage.is_for(2) && !carriage.is_for(0) && !carriage.is_for(3));
        let before = [0, 1, 2, 3].map(|office| carriage.before(office));
        assert_eq!(before, [Some(3), None, Some(0), None]);
        let after = [0, 1, 2, 3].map(|office| carriage.after(office));
        assert_eq!(after, [Some(2), None, None, Some(0)]);
        let due = [0, 1, 2, 3].map(|office| carriage.due(office));
        assert_eq!(due, [Some(8), None, Some(9), None]);
    }

    #[test]
    fn there_are_as_many_as_the_library_counts() {
        let mut rng = Rng::new(5);
        for (n, f) in [(2, 0), (4, 0), (4, 1), (6, 1), (7, 2)] {
            let card = good_card(&mut rng, n, f).expect("n is over 3f");
            let plan = generate::plan(&mut rng, &card).expect("a good network has a plan");
            let totals = agreement::check_plan(&card, &plan).expect("a sound plan");
            let network = agreement::read_card(&card).expect("a sound card");
            let all = carriages(&plan);
            assert_eq!(all.len(), totals.carriages);
            let mut due = 0;
            for carriage in &all {
                let links = carriage.servers.windows(2);
                assert!(links
                    .into_iter()
                    .all(|link| network.linked(link[0], link[1])));
                // No carriage is due before one of an earlier kind has set out.
                assert!(carriage.slot >= due || carriage.due(carriage.servers[1]) > Some(due));
                due = due.max(carriage.slot);
            }
        }
    }
}
