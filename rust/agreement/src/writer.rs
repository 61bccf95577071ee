//! The plan writer, and the separate routes that its plans are made of.

use crate::answers::{self, UNWRITTEN};
use crate::{library, CallGround, Refusal, ServerSet, Split, PLAN_LIMIT};
use std::error::Error;
use std::fmt::{self, Display, Formatter};

/// How many bytes a route takes: its servers from source to receiver, then 255.
pub const ROUTE_BYTES: usize = 8;
/// How many bytes separate routes take at most: a buffer of so many is never too short for
/// [`separate_routes`].
pub const ROUTES_LIMIT: usize = 3 * ROUTE_BYTES;

/// Why no plan was written.
///
/// ```
/// // Two offices without a link between them.
/// let unwritten = agreement::plan_for(&[0x01, 2, 0, 0x03]).unwrap_err();
/// assert_eq!(unwritten.refusal().number(), 17);
/// assert_eq!(
///     unwritten.to_string(),
///     "refused call 17: the network has a bad split: F none, L 0, C none, R 1"
/// );
/// ```
#[derive(Debug, Clone, Copy, PartialEq, Eq)]
pub enum Unwritten {
    /// The network has a bad split, of which this is the first: refusal 17.
    BadSplit(Split),
    /// The card is refused, or the plan is longer than the lent buffer: refusal 18.
    Refused(Refusal),
}

impl Unwritten {
    /// The refusal by itself, which for a bad split does not say which one.
    pub fn refusal(self) -> Refusal {
        match self {
            Unwritten::BadSplit(_) => Refusal::Call {
                ground: CallGround::BadSplit,
            },
            Unwritten::Refused(refusal) => refusal,
        }
    }
}

impl Display for Unwritten {
    fn fmt(&self, out: &mut Formatter) -> fmt::Result {
        self.refusal().fmt(out)?;
        match self {
            Unwritten::BadSplit(Split { f, l, c, r }) => {
                write!(out, ": F {f}, L {l}, C {c}, R {r}")
            }
            Unwritten::Refused(_) => Ok(()),
        }
    }
}

impl Error for Unwritten {}

/// So that a caller who does not ask for the split can pass the refusal on.
impl From<Unwritten> for Refusal {
    fn from(unwritten: Unwritten) -> Refusal {
        unwritten.refusal()
    }
}

/// Writes a plan for the network on `card` to the front of `lent` and answers with its number
/// of bytes.
///
/// [`check_plan`] accepts the plan, and no plan that it accepts for `card` is shorter. It follows
/// from the card alone, whatever the buffer, and has at most [`PLAN_LIMIT`] bytes.
///
/// The card's own refusals come first; then a bad split, exactly if [`split_test`] finds one, and
/// it is the same; then a buffer shorter than the plan. A refused call changes no byte of `lent`,
/// and bytes of `lent` past the plan are never touched.
///
/// ```
/// let card = [0x01, 2, 0, 0x02, 0, 1, 0x03];
/// let mut lent = [9; 20];
/// let bytes = agreement::write_plan(&card, &mut lent)?;
/// assert_eq!(lent[..bytes], [0x10, 0, 1, 1, 0x13, 0, 1, 255, 255, 255, 255, 255, 255, 0x15]);
/// assert!(agreement::check_plan(&card, &lent[..bytes]).is_ok());
/// assert_eq!(lent[bytes..], [9; 6]);
/// # Ok::<(), agreement::Unwritten>(())
/// ```
///
/// [`check_plan`]: crate::check_plan
/// [`split_test`]: crate::split_test
pub fn write_plan(card: &[u8], lent: &mut [u8]) -> Result<usize, Unwritten> {
    let mut answer = [UNWRITTEN; 8];
    // SAFETY: each pointer and length are those of one live slice; an empty slice's
    // pointer is not null either. Only `lent` and `answer` are written; both are lent
    // for the call alone, and nothing else refers to either of them.
    unsafe {
        library::agreement_write_plan(
            card.as_ptr(),
            card.len(),
            lent.as_mut_ptr(),
            lent.len(),
            &mut answer,
        )
    };
    answers::written_or_refusal(answer)
        .unwrap_or_else(|| panic!("no plan is written as {answer:?} says: {card:02x?}"))
}

/// The plan that [`write_plan`] writes, in bytes of its own, which are always enough.
///
/// ```
/// // Four offices, all linked; one may fail.
/// let links = (0..4).flat_map(|u| (0..4).map(move |v| [0x02, u, v]));
/// let links: Vec<[u8; 3]> = links.filter(|[_, u, v]| u != v).collect();
/// let card = [&[0x01, 4, 1], links.concat().as_slice(), &[0x03]].concat();
/// let plan = agreement::plan_for(&card)?;
/// assert_eq!(agreement::check_plan(&card, &plan)?.blocks, 19);
/// # Ok::<(), Box<dyn std::error::Error>>(())
/// ```
pub fn plan_for(card: &[u8]) -> Result<Vec<u8>, Unwritten> {
    let mut plan = vec![0; PLAN_LIMIT];
    let bytes = write_plan(card, &mut plan)?;
    plan.truncate(bytes);
    plan.shrink_to_fit();
    Ok(plan)
}

/// What [`separate_routes`] answers, the lent bytes aside.
#[derive(Debug, Clone, Copy, PartialEq, Eq)]
pub enum Separate {
    /// So many routes stand in the lent bytes, f+1 of them, [`ROUTE_BYTES`] each.
    Found { routes: usize },
    /// There are not so many: every route meets one of these servers, of which there are at
    /// most f. The receiver is not among them, and a source counts as met.
    Cut { servers: ServerSet },
}

/// Looks for f+1 routes from servers of `sources` to `receiver` that share nothing but the
/// receiver and keep clear of `faults`, and writes them to the front of `lent`, [`ROUTE_BYTES`]
/// for each. Where there are not so many, it answers with at most f servers other than the
/// receiver that every route meets, and writes nothing.
///
/// A source that is faulty or the receiver itself counts as no source. To a receiver that is
/// faulty there is no route.
///
/// The card's own refusals come first; then `faults` with more than f servers, or a server
/// anywhere that is not in the network; then, where there are routes, a buffer shorter than they
/// are. A refused call changes no byte of `lent`, and bytes of `lent` past the routes are never
/// touched.
///
/// ```
/// use agreement::{Separate, ServerSet};
///
/// // A row of offices, of which none may fail.
/// let card = [0x01, 3, 0, 0x02, 0, 1, 0x02, 1, 2, 0x03];
/// let [none, first, last] = [0, 0b001, 0b100].map(ServerSet::from_bits);
/// let mut lent = [9; 10];
/// let found = agreement::separate_routes(&card, none, first, 2, &mut lent)?;
/// assert_eq!(found, Separate::Found { routes: 1 });
/// assert_eq!(lent, [0, 1, 2, 255, 255, 255, 255, 255, 9, 9]);
/// // Nothing leads back, so that no server has to be met.
/// let cut = agreement::separate_routes(&card, none, last, 0, &mut lent)?;
/// assert_eq!(cut, Separate::Cut { servers: none });
/// # Ok::<(), agreement::Refusal>(())
/// ```
pub fn separate_routes(
    card: &[u8],
    faults: ServerSet,
    sources: ServerSet,
    receiver: u8,
    lent: &mut [u8],
) -> Result<Separate, Refusal> {
    let mut answer = [UNWRITTEN; 4];
    // SAFETY: each pointer and length are those of one live slice; an empty slice's
    // pointer is not null either. Only `lent` and `answer` are written; both are lent
    // for the call alone, and nothing else refers to either of them.
    unsafe {
        library::agreement_separate_routes(
            card.as_ptr(),
            card.len(),
            faults.bits(),
            sources.bits(),
            receiver,
            lent.as_mut_ptr(),
            lent.len(),
            &mut answer,
        )
    };
    answers::separate_or_refusal(answer).unwrap_or_else(|| {
        panic!(
            "separate routes cannot be {answer:?} on {card:02x?}, faulty {faults:?}, \
             from {sources:?} to {receiver}"
        )
    })
}

/// Separate routes, or the servers that stand in their way.
#[derive(Debug, Clone, PartialEq, Eq)]
pub enum Routes {
    /// f+1 routes, each with its servers from source to receiver.
    Separate(Vec<Vec<u8>>),
    /// At most f servers, one of which every route meets.
    Cut(ServerSet),
}

/// What [`separate_routes`] finds, with the routes in bytes of their own, which are always
/// enough.
///
/// ```
/// use agreement::{Routes, ServerSet};
///
/// // Two ways from office 0 to office 3, and a way from office 1; one office may fail.
/// let card = [0x01, 4, 1, 0x02, 0, 1, 0x02, 0, 2, 0x02, 1, 3, 0x02, 2, 3, 0x03];
/// let [none, one, two] = [0, 0b0001, 0b0011].map(ServerSet::from_bits);
/// let routes = agreement::routes_for(&card, none, two, 3)?;
/// assert_eq!(routes, Routes::Separate(vec![vec![0, 2, 3], vec![1, 3]]));
/// // Both ways begin at office 0.
/// assert_eq!(agreement::routes_for(&card, none, one, 3)?, Routes::Cut(one));
/// # Ok::<(), agreement::Refusal>(())
/// ```
pub fn routes_for(
    card: &[u8],
    faults: ServerSet,
    sources: ServerSet,
    receiver: u8,
) -> Result<Routes, Refusal> {
    let mut lent = [0; ROUTES_LIMIT];
    let found = separate_routes(card, faults, sources, receiver, &mut lent)?;
    Ok(match found {
        Separate::Found { routes } => {
            let operands = lent.chunks(ROUTE_BYTES).take(routes);
            Routes::Separate(operands.map(servers).collect())
        }
        Separate::Cut { servers } => Routes::Cut(servers),
    })
}

/// The servers of a route, from source to receiver, without the fill.
fn servers(route: &[u8]) -> Vec<u8> {
    const FILL: u8 = 255;
    let servers = route.iter().take_while(|&&byte| byte != FILL);
    servers.copied().collect()
}

#[cfg(test)]
mod tests {
    use super::*;
    use crate::tests::{card_cut, P1, P5};
    use crate::{check_plan, split_test, CardGround, CARD_LIMIT};

    const TOO_LONG: Unwritten = Unwritten::Refused(Refusal::Call {
        ground: CallGround::PlanBuffer,
    });
    const SHORT_BUFFER: Refusal = Refusal::Call {
        ground: CallGround::Buffer,
    };
    const FAULT_SET: Refusal = Refusal::Call {
        ground: CallGround::FaultSet,
    };

    const NONE: ServerSet = ServerSet::EMPTY;

    fn card_of(n: u8, f: u8, links: &[(u8, u8)]) -> Vec<u8> {
        let commands: Vec<[u8; 3]> = links.iter().map(|&(u, v)| [2, u, v]).collect();
        [&[1, n, f], commands.concat().as_slice(), &[3]].concat()
    }

    fn complete_card(n: u8, f: u8) -> Vec<u8> {
        let pairs = (0..n).flat_map(|u| (0..n).map(move |v| (u, v)));
        let links: Vec<(u8, u8)> = pairs.filter(|(u, v)| u != v).collect();
        card_of(n, f, &links)
    }

    #[test]
    fn a_plan_is_written_into_every_buffer_with_room_for_it() {
        for length in 0..P5.len() {
            let mut lent = vec![9; length];
            assert_eq!(write_plan(&P1, &mut lent), Err(TOO_LONG));
            assert_eq!(lent, vec![9; length], "refused, all as it was");
        }
        for length in P5.len()..=20 {
            let mut lent = vec![9; length];
            assert_eq!(write_plan(&P1, &mut lent), Ok(P5.len()));
            assert_eq!(lent, [&P5[..], &vec![9; length - P5.len()]].concat());
        }
    }

    #[test]
    fn plans_of_all_sizes_are_accepted() {
        for n in 2..=8 {
            for f in (0..=2).filter(|f| n > 3 * f) {
                let card = complete_card(n, f);
                let plan = plan_for(&card).expect("no split is bad");
                assert!(check_plan(&card, &plan).is_ok(), "n {n} f {f}");
                let mut lent = vec![9; plan.len() - 1];
                assert_eq!(write_plan(&card, &mut lent), Err(TOO_LONG));
                assert!(lent.iter().all(|&byte| byte == 9));
            }
        }
    }

    #[test]
    fn a_bad_split_comes_with_17_and_before_18() {
        for card in [
            card_of(2, 0, &[]),
            complete_card(3, 1),
            card_of(5, 1, &[(0, 1), (1, 2), (2, 3), (3, 4), (4, 0)]),
        ] {
            let split = split_test(&card).expect("read").expect("a bad split");
            let unwritten = Unwritten::BadSplit(split);
            for length in [0, 100] {
                let mut lent = vec![9; length];
                assert_eq!(write_plan(&card, &mut lent), Err(unwritten));
                assert_eq!(lent, vec![9; length], "refused, all as it was");
            }
            assert_eq!(plan_for(&card), Err(unwritten));
            assert_eq!(Refusal::from(unwritten).number(), 17);
        }
    }

    #[test]
    fn a_refused_card_has_no_plan_and_no_routes() {
        let mut many = [3; CARD_LIMIT + 1];
        many[..3].copy_from_slice(&[1, 2, 0]);
        for (card, ground, place) in [
            (&many[..], CardGround::TooLong, 0),
            (&[], CardGround::Cut, 0),
            (&P1[..6], CardGround::Cut, 6),
            (&[1, 2, 0, 3, 3], CardGround::Trailing, 4),
            (&[3], CardGround::Head, 0),
            (&[1, 9, 0, 3], CardGround::Range, 0),
        ] {
            let refusal = Refusal::Card { ground, place };
            for length in [0, 20] {
                let mut lent = vec![9; length];
                let unwritten = Unwritten::Refused(refusal);
                assert_eq!(write_plan(card, &mut lent), Err(unwritten));
                // The faulty set and the receiver cannot be either.
                let all = ServerSet::from_bits(255);
                let answer = separate_routes(card, all, all, 255, &mut lent);
                assert_eq!(answer, Err(refusal));
                assert_eq!(lent, vec![9; length], "refused, all as it was");
            }
        }
        assert_eq!(routes_for(&[], NONE, NONE, 0), Err(card_cut(0)));
    }

    /// Five servers, one of which may fail: 0, 1 and 2 have a link to 3, and 3 one to 4.
    fn funnel() -> Vec<u8> {
        card_of(5, 1, &[(0, 3), (1, 3), (2, 3), (3, 4)])
    }

    #[test]
    fn separate_routes_or_the_servers_that_they_all_meet() {
        let all = ServerSet::first(5);
        let [two, one, last, relay] = [0b110, 0b001, 0b10000, 0b01000].map(ServerSet::from_bits);
        let straight = |sources: [u8; 2]| Routes::Separate(sources.map(|u| vec![u, 3]).to_vec());
        let found = |faults, sources, receiver| routes_for(&funnel(), faults, sources, receiver);
        assert_eq!(found(NONE, two, 3), Ok(straight([1, 2])));
        // A faulty source is none, and neither is the receiver.
        assert_eq!(found(one, all, 3), Ok(straight([1, 2])));
        assert_eq!(found(NONE, all - last, 4), Ok(Routes::Cut(relay)));
        assert_eq!(found(NONE, one, 3), Ok(Routes::Cut(one)));
        assert_eq!(found(NONE, NONE, 3), Ok(Routes::Cut(NONE)));
        assert_eq!(found(relay, all, 4), Ok(Routes::Cut(NONE)));
        assert_eq!(found(relay, all, 3), Ok(Routes::Cut(NONE)));
    }

    #[test]
    fn a_buffer_that_is_too_short_is_met_only_where_there_are_routes() {
        let two = ServerSet::from_bits(0b110);
        for length in 0..=20 {
            let mut lent = vec![9; length];
            let answer = separate_routes(&funnel(), NONE, two, 3, &mut lent);
            let mut expected = vec![9; length];
            if length < 16 {
                assert_eq!(answer, Err(SHORT_BUFFER));
            } else {
                assert_eq!(answer, Ok(Separate::Found { routes: 2 }));
                let route = |source| [source, 3, 255, 255, 255, 255, 255, 255];
                expected[..16].copy_from_slice(&[route(1), route(2)].concat());
            }
            assert_eq!(lent, expected);
            let cut = Separate::Cut {
                servers: ServerSet::from_bits(0b01000),
            };
            assert_eq!(separate_routes(&funnel(), NONE, two, 4, &mut lent), Ok(cut));
            assert_eq!(lent, expected, "nothing is written for a cut");
        }
    }

    #[test]
    fn strangers_and_too_many_faults_are_13() {
        let sets = [0b00011, 0b100000, 0b100001].map(ServerSet::from_bits);
        for faults in sets {
            assert_eq!(routes_for(&funnel(), faults, NONE, 0), Err(FAULT_SET));
        }
        let stranger = ServerSet::from_bits(0b100000);
        assert_eq!(routes_for(&funnel(), NONE, stranger, 0), Err(FAULT_SET));
        for receiver in [5, 7, 8, 255] {
            assert_eq!(routes_for(&funnel(), NONE, NONE, receiver), Err(FAULT_SET));
        }
    }
}
