//! Safe functions over the proved agreement library, for networks of 2 to 8 servers of
//! which at most 2 fail: the card reader, the card printed back, the split test, the quick
//! test for two-way sites, the plan check, the plan writer and the separate routes that it
//! finds, the load on each relay, the run, and a server's own part in a live network.
//!
//! The library is written and proved in Rattle and linked as a static archive; its
//! contracts, not this crate, say why the answers are right. What is done here is to
//! hand card, plan and whatever else a call takes over as pointer and length, and to
//! put the words that come back into types. What a card, a plan and a message table
//! look like is in docs/FORMATS.md of the library.
//!
//! ```
//! // Two offices and one link, from 0 to 1; none may fail.
//! let card = [0x01, 2, 0, 0x02, 0, 1, 0x03];
//! let network = agreement::read_card(&card)?;
//! assert!(network.linked(0, 1) && !network.linked(1, 0));
//! assert_eq!(agreement::split_test(&card)?, None);
//! # Ok::<(), agreement::Refusal>(())
//! ```
//!
//! # In a live network
//!
//! A [`Server`] knows only itself. It asks what to send, commits what arrived, kind by kind
//! and block by block, and has the decided bit at the end; its types keep asks and commits in
//! turn. [`start`], [`ask`] and [`commit`] are the same on a [`State`] that the caller keeps
//! and may store.
//!
//! # Linking
//!
//! Inside the library's repository the archive is looked for where
//! `sh tools/archive` puts it. Elsewhere, as a path dependency or as a copy of
//! this folder alone, set `AGREEMENT_LIB_DIR` to the absolute path of the folder that
//! has `libagreement.a`, such as the `lib` of `sh tools/install PREFIX`. The archive is
//! for x86-64 Linux.
//!
//! All `unsafe` code that is built on is in this crate, one call a block; the benchmark has
//! some of its own, for an older archive that it times beside this one.

#![deny(unsafe_op_in_unsafe_fn)]

mod answers;
mod library;
mod own_part;
mod refusal;
mod servers;
mod writer;

pub use own_part::{ask, commit, start, Asked, Sending, Server, State, Turn, VALUES_LIMIT};
pub use refusal::{CallGround, CardGround, PlanGround, Refusal};
pub use servers::{Members, ServerSet};
pub use writer::{plan_for, routes_for, separate_routes, write_plan};
pub use writer::{Routes, Separate, Unwritten, ROUTES_LIMIT, ROUTE_BYTES};

use answers::UNWRITTEN;
use std::fmt::{self, Display, Formatter};

/// How many bytes a card has at most.
pub const CARD_LIMIT: usize = 1_024;
/// How many bytes a clean card has at most: a buffer of so many is never too short for
/// [`print_card`].
pub const CLEAN_CARD_LIMIT: usize = 172;
/// How many bytes a plan has at most.
pub const PLAN_LIMIT: usize = 1_048_576;

/// The network of an accepted card.
#[derive(Debug, Clone, Copy, PartialEq, Eq)]
pub struct Network {
    /// Number of servers, 2 to 8.
    pub n: u8,
    /// How many servers may be faulty, 0 to 2.
    pub f: u8,
    /// `rows[u]`: the servers that `u` has a link to.
    pub rows: [ServerSet; 8],
}

impl Network {
    /// V, all servers of the network.
    pub fn servers(&self) -> ServerSet {
        ServerSet::first(self.n)
    }

    /// Whether there is a link from `u` to `v`.
    pub fn linked(&self, u: u8, v: u8) -> bool {
        self.rows
            .get(usize::from(u))
            .is_some_and(|row| row.contains(v))
    }

    /// The incoming neighbours of `set`: the servers outside it with a link into it.
    pub fn incoming(&self, set: ServerSet) -> ServerSet {
        let linked = |u: &u8| !(self.rows[usize::from(*u)] & set).is_empty();
        (self.servers() - set).iter().filter(linked).collect()
    }
}

/// A bad split of the servers into four sets: with `f` failing, too little of what `l`
/// hears, and of what `r` hears, comes from outside them.
#[derive(Debug, Clone, Copy, PartialEq, Eq)]
pub struct Split {
    pub f: ServerSet,
    pub l: ServerSet,
    pub c: ServerSet,
    pub r: ServerSet,
}

/// What the older rule for two-way sites says: `n` is at least 3f+1, and `least`, the
/// number of servers to be taken away before the rest falls apart, at least 2f+1.
#[derive(Debug, Clone, Copy, PartialEq, Eq)]
pub struct Quick {
    /// Whether both hold.
    pub holds: bool,
    /// Number of servers, 2 to 8.
    pub n: u8,
    /// The least number of servers that leave two parts without a link between them when
    /// they are taken away; n - 1 where no number does, as all servers are linked.
    pub least: u8,
}

/// How much an accepted plan has.
#[derive(Debug, Clone, Copy, PartialEq, Eq)]
pub struct Totals {
    pub blocks: usize,
    pub carriages: usize,
}

/// How many routes of an accepted plan each server relays: stands on as neither source nor
/// receiver.
#[derive(Debug, Clone, Copy, PartialEq, Eq)]
pub struct Load {
    /// `routes[i]`: how many server `i` relays, 0 where there is no such server.
    pub routes: [usize; 8],
}

impl Load {
    /// How many routes `server` relays; one from 8 on relays none.
    pub fn of(&self, server: u8) -> usize {
        self.routes.get(usize::from(server)).copied().unwrap_or(0)
    }

    /// The relaying places over all routes: for each route, its servers less two.
    pub fn total(&self) -> usize {
        self.routes.iter().sum()
    }
}

/// A version of the library.
#[derive(Debug, Clone, Copy, PartialEq, Eq, PartialOrd, Ord)]
pub struct Version {
    pub major: u64,
    pub minor: u64,
    pub patch: u64,
}

/// Major, minor and patch, with points between them.
impl Display for Version {
    fn fmt(&self, out: &mut Formatter) -> fmt::Result {
        write!(out, "{}.{}.{}", self.major, self.minor, self.patch)
    }
}

/// The version of the linked library. It is that of this crate where the two belong
/// together.
///
/// ```
/// let oldest = agreement::Version { major: 0, minor: 1, patch: 0 };
/// assert!(agreement::version() >= oldest);
/// ```
pub fn version() -> Version {
    // SAFETY: the function takes nothing and touches no memory.
    let number = unsafe { library::agreement_version() };
    Version {
        major: number / 1_000_000,
        minor: number / 1_000 % 1_000,
        patch: number % 1_000,
    }
}

/// Answers with the network that `card` describes, or with the first fault found
/// from the front of the card.
///
/// ```
/// let network = agreement::read_card(&[0x01, 3, 1, 0x02, 0, 1, 0x02, 2, 1, 0x03])?;
/// assert_eq!((network.n, network.f), (3, 1));
/// assert_eq!(network.incoming([1].into_iter().collect()).to_string(), "0 2");
/// # Ok::<(), agreement::Refusal>(())
/// ```
pub fn read_card(card: &[u8]) -> Result<Network, Refusal> {
    let mut answer = [UNWRITTEN; 12];
    // SAFETY: pointer and length are those of one live slice, which is only read;
    // an empty slice's pointer is not null either. `answer` is lent for the call
    // alone and nothing else refers to it.
    unsafe { library::agreement_read_card(card.as_ptr(), card.len(), &mut answer) };
    // One after the other, since an `Option<Result<..>>` of both would be copied on its
    // way out, and that takes some of the few nanoseconds of a call.
    if let Some(network) = answers::network(&answer) {
        return Ok(network);
    }
    if let Some(refusal) = answers::card_refusal(&answer) {
        return Err(refusal);
    }
    panic!("the card reader cannot answer {answer:?} on {card:02x?}")
}

/// Writes the clean card of the network on `card` to the front of `lent` and answers with
/// its number of bytes, 4 and 3 for each link.
///
/// The clean card has each link once, ascending by where it starts and then by where it
/// leads, so that two cards of one network are printed alike. Reading it gives the same
/// network, and printing it gives the same bytes. The card's own refusal comes before that
/// of a buffer which is too short. A refused call changes no byte of `lent`, and bytes of
/// `lent` past the clean card are never touched.
///
/// ```
/// // The link from 2 to 1 stands first, and that from 0 to 1 twice.
/// let card = [0x01, 3, 1, 0x02, 2, 1, 0x02, 0, 1, 0x02, 0, 1, 0x03];
/// let mut lent = [0; agreement::CLEAN_CARD_LIMIT];
/// let bytes = agreement::print_card(&card, &mut lent)?;
/// assert_eq!(lent[..bytes], [0x01, 3, 1, 0x02, 0, 1, 0x02, 2, 1, 0x03]);
/// # Ok::<(), agreement::Refusal>(())
/// ```
pub fn print_card(card: &[u8], lent: &mut [u8]) -> Result<usize, Refusal> {
    let mut answer = [UNWRITTEN; 4];
    // SAFETY: each pointer and length are those of one live slice; an empty slice's
    // pointer is not null either. Only `lent` and `answer` are written; both are lent
    // for the call alone, and nothing else refers to either of them.
    unsafe {
        library::agreement_print_card(
            card.as_ptr(),
            card.len(),
            lent.as_mut_ptr(),
            lent.len(),
            &mut answer,
        )
    };
    answers::printed_or_refusal(answer)
        .unwrap_or_else(|| panic!("the card cannot be printed as {answer:?} says: {card:02x?}"))
}

/// Answers with the first bad split of the network on `card`, or with `None` if it
/// has no bad split; a card that cannot be read is refused.
///
/// ```
/// // Two offices without a link between them.
/// let split = agreement::split_test(&[0x01, 2, 0, 0x03])?.expect("a bad split");
/// assert_eq!((split.l.to_string(), split.r.to_string()), ("0".into(), "1".into()));
/// # Ok::<(), agreement::Refusal>(())
/// ```
pub fn split_test(card: &[u8]) -> Result<Option<Split>, Refusal> {
    let mut answer = [UNWRITTEN; 5];
    // SAFETY: pointer and length are those of one live slice, which is only read;
    // an empty slice's pointer is not null either. `answer` is lent for the call
    // alone and nothing else refers to it.
    unsafe { library::agreement_split_test(card.as_ptr(), card.len(), &mut answer) };
    answers::split_or_refusal(answer)
        .unwrap_or_else(|| panic!("the split test cannot answer {answer:?} on {card:02x?}"))
}

/// Answers with what the older rule says of the network on `card`, if each of its links
/// has a return; one that has none is refused, after the card's own refusals.
///
/// The rule holds exactly if [`split_test`] finds no bad split.
///
/// ```
/// // Three offices in a row, links both ways.
/// let card = [0x01, 3, 0, 0x02, 0, 1, 0x02, 1, 0, 0x02, 1, 2, 0x02, 2, 1, 0x03];
/// let quick = agreement::quick_test(&card)?;
/// assert!(quick.holds && (quick.n, quick.least) == (3, 1));
/// # Ok::<(), agreement::Refusal>(())
/// ```
pub fn quick_test(card: &[u8]) -> Result<Quick, Refusal> {
    let mut answer = [UNWRITTEN; 4];
    // SAFETY: pointer and length are those of one live slice, which is only read;
    // an empty slice's pointer is not null either. `answer` is lent for the call
    // alone and nothing else refers to it.
    unsafe { library::agreement_quick_test(card.as_ptr(), card.len(), &mut answer) };
    answers::quick_or_refusal(answer)
        .unwrap_or_else(|| panic!("the quick test cannot answer {answer:?} on {card:02x?}"))
}

/// Answers with the number of blocks and of carriages of `plan` if it is a sound
/// plan for the network on `card`, or with the first fault: those of the card come
/// before those of the plan.
///
/// Any bytes of any length are answered. A plan is accepted exactly if it has one
/// block for each F and each way of cutting V - F, in order, and every set and every
/// route in them keeps its rules; else the refusal is the one ground and place that
/// a check from the front meets first.
///
/// An accepted plan shows a good network: if some plan is accepted for `card`, the
/// [`split_test`] on `card` says none, and n is at least 3f+1. So one check is enough.
/// A refused plan says nothing about the network.
///
/// ```
/// let card = [0x01, 2, 0, 0x02, 0, 1, 0x03];
/// let plan = [0x10, 0, 1, 1, 0x13, 0, 1, 255, 255, 255, 255, 255, 255, 0x15];
/// let totals = agreement::check_plan(&card, &plan)?;
/// assert_eq!((totals.blocks, totals.carriages), (1, 1));
/// assert_eq!(agreement::split_test(&card)?, None);
/// # Ok::<(), agreement::Refusal>(())
/// ```
pub fn check_plan(card: &[u8], plan: &[u8]) -> Result<Totals, Refusal> {
    let mut answer = [UNWRITTEN; 4];
    // SAFETY: each pointer and length are those of one live slice, which is only
    // read; an empty slice's pointer is not null either. `answer` is lent for the
    // call alone and nothing else refers to it.
    unsafe {
        library::agreement_check_plan(
            card.as_ptr(),
            card.len(),
            plan.as_ptr(),
            plan.len(),
            &mut answer,
        )
    };
    // A plan may be too long to be shown.
    answers::totals_or_refusal(answer).unwrap_or_else(|| {
        let length = plan.len();
        panic!("the plan check cannot answer {answer:?} on {length} bytes for {card:02x?}")
    })
}

/// Answers with how many routes of `plan` each server relays, or with the refusal of
/// [`check_plan`], exactly where that refuses.
///
/// The counts add up to the relaying places of the plan's bytes: for each route of the
/// commands 11, 12 and 13, its bytes before the fill less two. A member of an N tells k its
/// value over a link, with no relay.
///
/// ```
/// // Three offices in a row; what office 0 sends to office 2 goes over office 1.
/// let card = [0x01, 3, 0, 0x02, 0, 1, 0x02, 1, 2, 0x03];
/// let block = |a| {
///     let straight = [0x13, 0, 1, 255, 255, 255, 255, 255, 255];
///     let relayed = [0x13, 0, 1, 2, 255, 255, 255, 255, 255];
///     [&[0x10, 0, a, 1][..], &straight, &relayed].concat()
/// };
/// let plan = [block(1), block(3), block(5), vec![0x15]].concat();
/// let load = agreement::load(&card, &plan)?;
/// assert_eq!((load.of(0), load.of(1), load.of(2)), (0, 3, 0));
/// assert_eq!(load.total(), 3);
/// # Ok::<(), agreement::Refusal>(())
/// ```
pub fn load(card: &[u8], plan: &[u8]) -> Result<Load, Refusal> {
    let mut answer = [UNWRITTEN; 9];
    // SAFETY: each pointer and length are those of one live slice, which is only
    // read; an empty slice's pointer is not null either. `answer` is lent for the
    // call alone and nothing else refers to it.
    unsafe {
        library::agreement_load(
            card.as_ptr(),
            card.len(),
            plan.as_ptr(),
            plan.len(),
            &mut answer,
        )
    };
    // A plan may be too long to be shown.
    answers::load_or_refusal(answer).unwrap_or_else(|| {
        let length = plan.len();
        panic!("the load cannot be {answer:?} on {length} bytes for {card:02x?}")
    })
}

/// Runs every block of `plan` and answers with its number of blocks and of
/// carriages; `lent` then starts with one byte for each server: the bit that a sound
/// server decided, 2 for a faulty one.
///
/// The run plays the whole network: `inputs` holds each server's input bit, `faulty` is
/// the set of faulty servers, and `table` says for each carriage what arrives if a faulty
/// server had it in hand. Any bytes will do, as many as there are: 0 and 1 are taken as they
/// are, any other byte as unsure and a missing one as 0: no word from an office means that the
/// recap is open. Card and plan are checked first. A refused call changes no byte of `lent`,
/// and bytes of `lent` past the last server are never touched.
///
/// Whatever the faulty servers have arrive, an answered call leaves all sound servers
/// with one bit, which was the input of a sound server.
///
/// This is for rehearsals, comparisons and drills; in a live network each server takes its
/// own part, as a [`Server`].
///
/// ```
/// use agreement::ServerSet;
///
/// let card = [0x01, 2, 0, 0x02, 0, 1, 0x03];
/// let plan = [0x10, 0, 1, 1, 0x13, 0, 1, 255, 255, 255, 255, 255, 255, 0x15];
/// let mut decided = [0; 2];
/// agreement::run(&card, &plan, &[1, 0], ServerSet::EMPTY, &[], &mut decided)?;
/// assert_eq!(decided, [1, 1]);
/// # Ok::<(), agreement::Refusal>(())
/// ```
pub fn run(
    card: &[u8],
    plan: &[u8],
    inputs: &[u8],
    faulty: ServerSet,
    table: &[u8],
    lent: &mut [u8],
) -> Result<Totals, Refusal> {
    let mut answer = [UNWRITTEN; 4];
    // SAFETY: each pointer and length are those of one live slice; an empty slice's
    // pointer is not null either. Only `lent` and `answer` are written; both are lent
    // for the call alone, and nothing else refers to either of them.
    unsafe {
        library::agreement_run(
            card.as_ptr(),
            card.len(),
            plan.as_ptr(),
            plan.len(),
            inputs.as_ptr(),
            inputs.len(),
            faulty.bits(),
            table.as_ptr(),
            table.len(),
            lent.as_mut_ptr(),
            lent.len(),
            &mut answer,
        )
    };
    // A plan and a table may be too long to be shown.
    answers::ran_or_refusal(answer).unwrap_or_else(|| {
        let length = plan.len();
        panic!(
            "the run cannot answer {answer:?} on {length} bytes for {card:02x?}, \
             inputs {inputs:02x?}, faulty set {faulty:?}"
        )
    })
}

#[cfg(test)]
mod tests {
    use super::*;

    /// The card of P1 (docs/FORMATS.md has the cases P1 to P10): two servers, no faults, one link from 0 to 1.
    pub(crate) const P1: [u8; 7] = [0x01, 0x02, 0x00, 0x02, 0x00, 0x01, 0x03];

    #[test]
    fn wrapper_and_library_are_of_one_version() {
        assert_eq!(version().to_string(), env!("CARGO_PKG_VERSION"));
    }

    pub(crate) const fn card_cut(place: usize) -> Refusal {
        let ground = CardGround::Cut;
        Refusal::Card { ground, place }
    }

    pub(crate) const fn of_plan(ground: PlanGround, place: usize) -> Refusal {
        Refusal::Plan { ground, place }
    }

    #[test]
    fn small_networks() {
        let network = Network {
            n: 2,
            f: 0,
            rows: [2, 0, 0, 0, 0, 0, 0, 0].map(ServerSet::from_bits),
        };
        assert_eq!(read_card(&P1), Ok(network));
        assert_eq!(split_test(&P1), Ok(None));
        assert_eq!(quick_test(&P1), Err(ONE_WAY));
        assert_eq!(read_card(&[]), Err(card_cut(0)));
        assert_eq!(split_test(&[]), Err(card_cut(0)));
        assert_eq!(quick_test(&[]), Err(card_cut(0)));
        assert_eq!(check_plan(&[], &[]), Err(card_cut(0)));
        assert_eq!(load(&[], &[]), Err(card_cut(0)));
    }

    /// A link from 2 to 1, then one from 0 to 2 twice, and the clean card of that.
    const PATCHED: [u8; 13] = [1, 3, 2, 2, 2, 1, 2, 0, 2, 2, 0, 2, 3];
    const CLEAN: [u8; 10] = [1, 3, 2, 2, 0, 2, 2, 2, 1, 3];

    const SHORT_BUFFER: Refusal = Refusal::Call {
        ground: CallGround::Buffer,
    };
    const ONE_WAY: Refusal = Refusal::Call {
        ground: CallGround::OneWay,
    };

    #[test]
    fn two_way_networks() {
        // Two servers without links, with a link and its return, and with one of them twice.
        let apart = [1, 2, 0, 3];
        let linked = [1, 2, 0, 2, 0, 1, 2, 1, 0, 3];
        let again = [1, 2, 0, 2, 0, 1, 2, 0, 1, 3];
        let answer = |holds, least| Ok(Quick { holds, n: 2, least });
        assert_eq!(quick_test(&apart), answer(false, 0));
        assert_eq!(quick_test(&linked), answer(true, 1));
        assert_eq!(quick_test(&again), Err(ONE_WAY));
    }

    /// Prints into so many of sixteen bytes; the answer, and all sixteen.
    fn printed(card: &[u8], length: usize) -> (Result<usize, Refusal>, [u8; 16]) {
        let mut lent = [9; 16];
        let answer = print_card(card, &mut lent[..length]);
        (answer, lent)
    }

    #[test]
    fn cards_are_printed_into_every_buffer_with_room_for_them() {
        for (card, clean) in [
            (&P1[..], &P1[..]),
            (&[1, 8, 2, 3], &[1, 8, 2, 3]),
            (&CLEAN, &CLEAN),
            (&PATCHED, &CLEAN),
        ] {
            for length in 0..clean.len() {
                assert_eq!(printed(card, length), (Err(SHORT_BUFFER), [9; 16]));
            }
            let mut written = [9; 16];
            written[..clean.len()].copy_from_slice(clean);
            for length in clean.len()..=16 {
                assert_eq!(printed(card, length), (Ok(clean.len()), written));
            }
        }
    }

    #[test]
    fn the_longest_clean_card_takes_the_limit() {
        let pairs = (0..8).flat_map(|u| (0..8).map(move |v| (u, v)));
        let links: Vec<(u8, u8)> = pairs.filter(|(u, v)| u != v).collect();
        let command = |&(u, v): &(u8, u8)| [2, u, v];
        let card = |links: Vec<u8>| [&[1, 8, 2][..], &links, &[3]].concat();
        let clean = card(links.iter().flat_map(command).collect());
        let backwards = card(links.iter().rev().flat_map(command).collect());
        let mut lent = [9; CLEAN_CARD_LIMIT];
        assert_eq!(print_card(&backwards, &mut lent), Ok(CLEAN_CARD_LIMIT));
        assert_eq!(lent[..], clean);
        assert_eq!(print_card(&backwards, &mut lent[1..]), Err(SHORT_BUFFER));
        assert_eq!(lent[..], clean, "refused, all as it was");
    }

    #[test]
    fn a_refused_card_is_not_printed() {
        let mut many = [3; CARD_LIMIT + 1];
        many[..3].copy_from_slice(&[1, 2, 0]);
        for (card, ground, place) in [
            (&many[..], CardGround::TooLong, 0),
            (&[], CardGround::Cut, 0),
            (&P1[..6], CardGround::Cut, 6),
            (&[1, 2, 0, 3, 3], CardGround::Trailing, 4),
            (&[3], CardGround::Head, 0),
            (&[1, 9, 0, 3], CardGround::Range, 0),
        ] {
            // The card's fault comes before that of a buffer which is too short.
            for length in [0, 3, 4, CLEAN_CARD_LIMIT, CLEAN_CARD_LIMIT + 1] {
                let mut lent = vec![9; length];
                let refusal = Refusal::Card { ground, place };
                assert_eq!(print_card(card, &mut lent), Err(refusal));
                assert_eq!(lent, vec![9; length], "refused, all as it was");
            }
        }
    }

    #[test]
    fn incoming_neighbours_lie_outside_the_set() {
        let network = read_card(&P1).expect("accepted");
        let [zero, one] = [1, 2].map(ServerSet::from_bits);
        assert_eq!(network.servers(), zero | one);
        assert_eq!(network.incoming(one), zero);
        assert_eq!(network.incoming(zero), ServerSet::EMPTY);
        assert_eq!(network.incoming(zero | one), ServerSet::EMPTY);
        assert!(!network.linked(8, 0) && !network.linked(0, 8));
    }

    /// The plan of P5, which fits the card of P1, and the totals of it.
    pub(crate) const P5: [u8; 14] = [
        0x10, 0x00, 0x01, 0x01, 0x13, 0x00, 0x01, 0xff, 0xff, 0xff, 0xff, 0xff, 0xff, 0x15,
    ];
    const P5_TOTALS: Totals = Totals {
        blocks: 1,
        carriages: 1,
    };

    /// P5 with A 02, where a 11 route is due.
    fn p6() -> [u8; 14] {
        let mut p6 = P5;
        p6[2] = 0x02;
        p6
    }

    #[test]
    fn small_plans() {
        assert_eq!(check_plan(&P1, &P5), Ok(P5_TOTALS));
        assert_eq!(check_plan(&P1, &p6()), Err(of_plan(PlanGround::NotDue, 4)));
        assert_eq!(check_plan(&P1, &[]), Err(of_plan(PlanGround::Cut, 0)));
    }

    /// A ring of three servers, 0 to 1 to 2 and back to 0. In the plan for it server 0 relays a
    /// route of 11 and one of 12, server 1 one of 12 and two of 13, server 2 one of 12.
    const RING: [u8; 13] = [1, 3, 0, 2, 0, 1, 2, 1, 2, 2, 2, 0, 3];

    fn ring_plan() -> Vec<u8> {
        let route = |command: u8, servers: &[u8]| {
            let fill = [0xff; 8];
            [&[command], servers, &fill[servers.len()..]].concat()
        };
        let straight = |a| [vec![0x10, 0, a, 1], route(0x13, &[0, 1])].concat();
        let last = [
            vec![0x10, 0, 5, 7],
            route(0x11, &[2, 0, 1]),
            route(0x12, &[1, 2, 0]),
            route(0x12, &[2, 0]),
            route(0x12, &[0, 1]),
            route(0x12, &[2, 0, 1]),
            route(0x12, &[0, 1, 2]),
            route(0x12, &[1, 2]),
            vec![0x15],
        ];
        let two = route(0x13, &[0, 1, 2]);
        [straight(1), two.clone(), straight(3), two, last.concat()].concat()
    }

    #[test]
    fn small_loads() {
        assert_eq!(load(&P1, &P5), Ok(Load { routes: [0; 8] }));
        let relayed = load(&RING, &ring_plan()).expect("an accepted plan");
        assert_eq!(relayed.routes, [2, 3, 1, 0, 0, 0, 0, 0]);
        assert_eq!((0..=255).map(|server| relayed.of(server)).sum::<usize>(), 6);
        assert_eq!(relayed.total(), 6);
    }

    #[test]
    fn a_load_is_refused_as_the_plan_check_refuses() {
        let plan = ring_plan();
        for (card, plan) in [
            (&[][..], &[][..]),
            (&[], &plan),
            (&RING, &plan[1..]),
            (&RING, &plan[..plan.len() - 1]),
            (&RING, &P5),
            (&P1, &p6()),
            (&P1, &plan),
        ] {
            let refusal = check_plan(card, plan).expect_err("refused");
            assert_eq!(load(card, plan), Err(refusal));
        }
    }

    #[test]
    fn small_runs() {
        let mut lent = [9; 4];
        let none = ServerSet::EMPTY;
        assert_eq!(run(&P1, &P5, &[1, 0], none, &[], &mut lent), Ok(P5_TOTALS));
        assert_eq!(lent, [1, 1, 9, 9]);
        assert_eq!(
            run(&P1, &P5, &[0, 1], none, &[1; 9], &mut lent[..2]),
            Ok(P5_TOTALS)
        );
        assert_eq!(lent, [0, 0, 9, 9]);
    }

    #[test]
    fn a_refused_run_writes_nothing() {
        let mut lent = [9; 4];
        let mut refused = |card: &[u8], plan: &[u8], inputs: &[u8], faulty: u8, length: usize| {
            let faulty = ServerSet::from_bits(faulty);
            let answer = run(card, plan, inputs, faulty, &[], &mut lent[..length]);
            assert_eq!(lent, [9; 4]);
            answer.expect_err("refused")
        };
        let of_call = |ground| Refusal::Call { ground };
        assert_eq!(refused(&[], &[], &[], 1, 0), card_cut(0));
        assert_eq!(refused(&P1, &[], &[], 1, 0), of_plan(PlanGround::Cut, 0));
        assert_eq!(
            refused(&P1, &p6(), &[], 1, 0),
            of_plan(PlanGround::NotDue, 4)
        );
        assert_eq!(refused(&P1, &P5, &[1], 1, 0), of_call(CallGround::Inputs));
        assert_eq!(
            refused(&P1, &P5, &[1, 2], 1, 0),
            of_call(CallGround::Inputs)
        );
        assert_eq!(
            refused(&P1, &P5, &[1, 0], 1, 0),
            of_call(CallGround::FaultSet)
        );
        assert_eq!(
            refused(&P1, &P5, &[1, 0], 4, 0),
            of_call(CallGround::FaultSet)
        );
        assert_eq!(
            refused(&P1, &P5, &[1, 0], 0, 1),
            of_call(CallGround::Buffer)
        );
        assert_eq!(
            refused(&P1, &P5, &[1, 0], 0, 0),
            of_call(CallGround::Buffer)
        );
    }
}
