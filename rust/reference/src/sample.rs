//! Cards and plans that several tests use.

/// Two servers, no faults, one link from 0 to 1.
pub(crate) const P1_CARD: [u8; 7] = [0x01, 0x02, 0x00, 0x02, 0x00, 0x01, 0x03];
/// The only kind of plan that the card of P1 allows.
pub(crate) const P5_PLAN: [u8; 14] = [
    0x10, 0x00, 0x01, 0x01, 0x13, 0x00, 0x01, 0xff, 0xff, 0xff, 0xff, 0xff, 0xff, 0x15,
];

/// A card with these links.
pub(crate) fn card(n: u8, f: u8, links: &[(u8, u8)]) -> Vec<u8> {
    let mut bytes = vec![0x01, n, f];
    for &(u, v) in links {
        bytes.extend([0x02, u, v]);
    }
    bytes.push(0x03);
    bytes
}

/// A card with every link there can be.
pub(crate) fn complete_card(n: u8, f: u8) -> Vec<u8> {
    let mut links = Vec::new();
    for u in 0..n {
        for v in (0..n).filter(|&v| v != u) {
            links.push((u, v));
        }
    }
    card(n, f, &links)
}

/// The same card with every link given once more, as for twin cables.
pub(crate) fn twin_card(card: &[u8]) -> Vec<u8> {
    let links = &card[3..card.len() - 1];
    [&card[..3], links, links, &[0x03]].concat()
}

/// Numbers that look drawn at random and are the same in every test.
pub(crate) struct Draw(u64);

impl Draw {
    pub(crate) fn new(seed: u64) -> Draw {
        Draw(seed)
    }

    /// The next number, below `limit`.
    pub(crate) fn below(&mut self, limit: u64) -> u64 {
        self.0 = self
            .0
            .wrapping_mul(6364136223846793005)
            .wrapping_add(1442695040888963407);
        (self.0 >> 33) % limit
    }
}

/// A card on which each link stands with `tenths` chances in ten.
pub(crate) fn random_card(n: u8, f: u8, tenths: u64, draw: &mut Draw) -> Vec<u8> {
    let mut links = Vec::new();
    for u in 0..n {
        for v in (0..n).filter(|&v| v != u) {
            if draw.below(10) < tenths {
                links.push((u, v));
            }
        }
    }
    card(n, f, &links)
}

/// Which set S the blocks of [`direct_plan`] use.
#[derive(Clone, Copy)]
pub(crate) enum Quorum {
    /// S is A, so that step 2 has nothing to do (case 1 of the paper).
    InsideA,
    /// S is all of V - F, so that step 4 has nothing to do (case 2).
    All,
    /// S is all of V - F but the lowest server of A, so that both step 2 and
    /// step 4 have something to do.
    AllButOneOfA,
}

/// A plan for the complete network of `n` servers, `n` over 3`f`, that uses links
/// only; A is always the larger part.
pub(crate) fn direct_plan(n: u8, f: u8, quorum: Quorum) -> Vec<u8> {
    let mut plan = Vec::new();
    let servers = 0..1u16 << n;
    for fault_set in servers.filter(|set| set.count_ones() <= u32::from(f)) {
        let rest = ((1u16 << n) - 1) & !fault_set;
        for part in 1..rest {
            let holds_lowest = part & (rest & rest.wrapping_neg()) != 0;
            if holds_lowest && part & !rest == 0 {
                let other = rest & !part;
                let a = if part.count_ones() > other.count_ones() {
                    part
                } else {
                    other
                };
                direct_block(
                    &mut plan,
                    f,
                    [fault_set, rest, a].map(|set| set as u8),
                    quorum,
                );
            }
        }
    }
    plan.push(0x15);
    plan
}

fn direct_block(plan: &mut Vec<u8>, f: u8, [fault_set, rest, a]: [u8; 3], quorum: Quorum) {
    let list = |set: u8| (0..8u8).filter(move |&server| set >> server & 1 == 1);
    let quorum_size = usize::from(f) + 1;
    let s = match quorum {
        Quorum::InsideA => a,
        Quorum::All => rest,
        Quorum::AllButOneOfA => rest & !(a & a.wrapping_neg()),
    };
    plan.extend([0x10, fault_set, a, s]);
    let mut link = |kind: u8, source: u8, receiver: u8| {
        plan.extend([kind, source, receiver, 0xff, 0xff, 0xff, 0xff, 0xff, 0xff]);
    };
    for receiver in list(s & !a) {
        list(a)
            .take(quorum_size)
            .for_each(|source| link(0x11, source, receiver));
    }
    for receiver in list(s) {
        let others = list(s).filter(|&source| source != receiver);
        others.for_each(|source| link(0x12, source, receiver));
    }
    for receiver in list(rest & !s) {
        list(s)
            .take(quorum_size)
            .for_each(|source| link(0x13, source, receiver));
    }
    for k in list(fault_set) {
        let neighbours = list(rest)
            .take(quorum_size)
            .fold(0, |set, server| set | 1 << server);
        plan.extend([0x14, k, neighbours]);
    }
}
