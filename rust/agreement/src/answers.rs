//! What the words of an answer say, in the types of this crate. Each function answers
//! with `None` for words that the library's contract rules out.

use crate::{
    Asked, CallGround, CardGround, Load, Network, PlanGround, Quick, Refusal, Separate, ServerSet,
    Split, State, Totals, Unwritten,
};
use crate::{CLEAN_CARD_LIMIT, PLAN_LIMIT, VALUES_LIMIT};

/// Lent answers start out as this, which no answer holds: a word that the library left
/// unwritten would be noticed.
pub const UNWRITTEN: u64 = u64::MAX;

/// What the first word of an answer says.
const ANSWERED: u64 = 0;
const BAD_SPLIT: u64 = 1;
const REFUSED: u64 = 2;

/// Whose fault a refusal is.
const OF_CARD: u64 = 0;
const OF_PLAN: u64 = 1;
const OF_CALL: u64 = 2;

/// A clean card without links has this many bytes, and each link adds so many.
const WITHOUT_LINKS: u64 = 4;
const OF_A_LINK: u64 = 3;
const LONGEST_CLEAN: u64 = CLEAN_CARD_LIMIT as u64;

/// The plan of two servers without faults, the shortest there is.
const SHORTEST_PLAN: u64 = 14;
const LONGEST_PLAN: u64 = PLAN_LIMIT as u64;
/// f+1 routes are looked for, and f is at most 2.
const MOST_ROUTES: u64 = 3;

/// No network has more blocks than one of eight servers and two faults.
const MOST_BLOCKS: u64 = 1_499;
/// No carriage takes less than a byte of its plan.
const MOST_CARRIAGES: u64 = PLAN_LIMIT as u64;
/// A route takes nine bytes of its plan, and nobody relays one route twice.
const MOST_RELAYED: u64 = PLAN_LIMIT as u64 / 9;

const MOST_VALUES: u64 = VALUES_LIMIT as u64;

/// The t of a server that is not sure.
const UNSURE: u64 = 2;

/// Why a call for separate routes is turned back.
const OF_ROUTES: [CallGround; 2] = [CallGround::FaultSet, CallGround::Buffer];

/// Why a call to run is turned back, and one to start, to ask and to commit.
const OF_A_RUN: [CallGround; 3] = [CallGround::Inputs, CallGround::FaultSet, CallGround::Buffer];
const OF_A_START: [CallGround; 2] = [CallGround::Inputs, CallGround::FaultSet];
const OF_AN_ASK: [CallGround; 3] = [
    CallGround::FaultSet,
    CallGround::Buffer,
    CallGround::OutOfTurn,
];
const OF_A_COMMIT: [CallGround; 2] = [CallGround::FaultSet, CallGround::OutOfTurn];

pub fn network(answer: &[u64; 12]) -> Option<Network> {
    let [ANSWERED, n @ 2..=8, f @ 0..=2, 0, words @ ..] = *answer else {
        return None;
    };
    let mut rows = [ServerSet::EMPTY; 8];
    for (row, word) in rows.iter_mut().zip(words) {
        *row = set(word)?;
    }
    Some(Network {
        n: n as u8,
        f: f as u8,
        rows,
    })
}

/// The refusal of the card reader.
pub fn card_refusal(answer: &[u64; 12]) -> Option<Refusal> {
    match *answer {
        [REFUSED, OF_CARD, number, place, 0, 0, 0, 0, 0, 0, 0, 0] => of_card(number, place),
        _ => None,
    }
}

/// How many bytes were printed, or the refusal.
pub fn printed_or_refusal(answer: [u64; 4]) -> Option<Result<usize, Refusal>> {
    match answer {
        [ANSWERED, bytes @ WITHOUT_LINKS..=LONGEST_CLEAN, 0, 0]
            if (bytes - WITHOUT_LINKS).is_multiple_of(OF_A_LINK) =>
        {
            Some(Ok(usize::try_from(bytes).ok()?))
        }
        [REFUSED, OF_CARD, number, place] => Some(Err(of_card(number, place)?)),
        // Neither inputs nor a faulty set are handed over.
        [REFUSED, OF_CALL, number, 0] => Some(Err(of_call(number, &[CallGround::Buffer])?)),
        _ => None,
    }
}

pub fn split_or_refusal(answer: [u64; 5]) -> Option<Result<Option<Split>, Refusal>> {
    match answer {
        [ANSWERED, 0, 0, 0, 0] => Some(Ok(None)),
        [BAD_SPLIT, split @ ..] => Some(Ok(Some(self::split(split)?))),
        [REFUSED, OF_CARD, number, place, 0] => Some(Err(of_card(number, place)?)),
        _ => None,
    }
}

/// The answer of the quick test.
pub fn quick_or_refusal(answer: [u64; 4]) -> Option<Result<Quick, Refusal>> {
    match answer {
        // Nothing is taken away that would leave fewer than one server.
        [ANSWERED, holds @ 0..=1, n @ 2..=8, least] if least < n => Some(Ok(Quick {
            holds: holds == 1,
            n: n as u8,
            least: least as u8,
        })),
        [REFUSED, OF_CARD, number, place] => Some(Err(of_card(number, place)?)),
        [REFUSED, OF_CALL, number, 0] => Some(Err(of_call(number, &[CallGround::OneWay])?)),
        _ => None,
    }
}

/// The answer of the plan check.
pub fn totals_or_refusal(answer: [u64; 4]) -> Option<Result<Totals, Refusal>> {
    match answer {
        [ANSWERED, blocks @ 1..=MOST_BLOCKS, carriages @ 1..=MOST_CARRIAGES, 0] => {
            Some(Ok(Totals {
                blocks: usize::try_from(blocks).ok()?,
                carriages: usize::try_from(carriages).ok()?,
            }))
        }
        [REFUSED, whose, number, place] => Some(Err(of_site([whose, number, place], &[])?)),
        _ => None,
    }
}

/// How many bytes the plan has that was written, or why none was.
pub fn written_or_refusal(answer: [u64; 8]) -> Option<Result<usize, Unwritten>> {
    match answer {
        [ANSWERED, bytes @ SHORTEST_PLAN..=LONGEST_PLAN, 0, 0, 0, 0, 0, 0] => {
            Some(Ok(usize::try_from(bytes).ok()?))
        }
        [REFUSED, OF_CALL, number, 0, split @ ..]
            if of_call(number, &[CallGround::BadSplit]).is_some() =>
        {
            Some(Err(Unwritten::BadSplit(self::split(split)?)))
        }
        [REFUSED, OF_CALL, number, 0, 0, 0, 0, 0] => {
            let refusal = of_call(number, &[CallGround::PlanBuffer])?;
            Some(Err(Unwritten::Refused(refusal)))
        }
        [REFUSED, OF_CARD, number, place, 0, 0, 0, 0] => {
            Some(Err(Unwritten::Refused(of_card(number, place)?)))
        }
        _ => None,
    }
}

/// Separate routes, or the servers that every route meets.
pub fn separate_or_refusal(answer: [u64; 4]) -> Option<Result<Separate, Refusal>> {
    match answer {
        [ANSWERED, 1, routes @ 1..=MOST_ROUTES, 0] => {
            let routes = usize::try_from(routes).ok()?;
            Some(Ok(Separate::Found { routes }))
        }
        // There are fewer of them than routes were looked for.
        [ANSWERED, 0, servers, count] if count < MOST_ROUTES => {
            let servers = set(servers)?;
            (servers.len() as u64 == count).then_some(Ok(Separate::Cut { servers }))
        }
        [REFUSED, OF_CARD, number, place] => Some(Err(of_card(number, place)?)),
        [REFUSED, OF_CALL, number, 0] => Some(Err(of_call(number, &OF_ROUTES)?)),
        _ => None,
    }
}

/// The load on each relay. Which servers there are, and so whose counts have to be 0, cannot
/// be seen from its words.
pub fn load_or_refusal(answer: [u64; 9]) -> Option<Result<Load, Refusal>> {
    match answer {
        [ANSWERED, counts @ ..] if counts.iter().all(|count| *count <= MOST_RELAYED) => {
            Some(Ok(Load {
                routes: counts.map(|count| count as usize),
            }))
        }
        [REFUSED, refusal @ .., 0, 0, 0, 0, 0] => Some(Err(of_site(refusal, &[])?)),
        _ => None,
    }
}

/// The answer of the run.
pub fn ran_or_refusal(answer: [u64; 4]) -> Option<Result<Totals, Refusal>> {
    match answer {
        [REFUSED, OF_CALL, number, 0] => Some(Err(of_call(number, &OF_A_RUN)?)),
        // Else it says what the plan check would say.
        _ => totals_or_refusal(answer),
    }
}

/// The answer of the start: t is unsure, whatever the input.
pub fn started_or_refusal(answer: [u64; 6]) -> Option<Result<State, Refusal>> {
    match answer {
        [ANSWERED, words @ ..] => match words {
            [0, State::TO_QUORUM, 0..=1, UNSURE, 0] => Some(Ok(State::from_words(words))),
            _ => None,
        },
        [REFUSED, refusal @ .., 0, 0] => Some(Err(of_site(refusal, &OF_A_START)?)),
        _ => None,
    }
}

/// The answer of the ask.
pub fn asked_or_refusal(answer: [u64; 7]) -> Option<Result<Asked, Refusal>> {
    match answer {
        [ANSWERED, words @ .., values @ 0..=MOST_VALUES] => {
            let state = state(words)?;
            // At the end there is one value, and no ask opens.
            let opened = match state.kind {
                State::END => state.open == 0 && values == 1,
                _ => state.open == 1,
            };
            let values = usize::try_from(values).ok()?;
            opened.then_some(Ok(Asked { state, values }))
        }
        [REFUSED, refusal @ .., 0, 0, 0] => Some(Err(of_site(refusal, &OF_AN_ASK)?)),
        _ => None,
    }
}

/// The answer of the commit.
pub fn committed_or_refusal(answer: [u64; 6]) -> Option<Result<State, Refusal>> {
    match answer {
        [ANSWERED, words @ ..] => state(words).filter(|state| state.open == 0).map(Ok),
        [REFUSED, refusal @ .., 0, 0] => Some(Err(of_site(refusal, &OF_A_COMMIT)?)),
        _ => None,
    }
}

/// A state at a kind of a block or at the end of some plan.
fn state(words: [u64; 5]) -> Option<State> {
    let state = State::from_words(words);
    let placed = match state.kind {
        State::TO_QUORUM..=State::REPORTS => state.block < MOST_BLOCKS,
        State::END => (1..=MOST_BLOCKS).contains(&state.block),
        _ => false,
    };
    let in_range = state.v <= 1 && state.t <= UNSURE && state.open <= 1;
    (placed && in_range).then_some(state)
}

/// The refusal of a call that takes card and plan and can itself be turned back on these
/// grounds: whose, number, place.
fn of_site([whose, number, place]: [u64; 3], grounds: &[CallGround]) -> Option<Refusal> {
    match (whose, place) {
        (OF_CARD, place) => of_card(number, place),
        (OF_PLAN, place) => Some(Refusal::Plan {
            ground: PlanGround::of_number(number)?,
            place: usize::try_from(place).ok()?,
        }),
        (OF_CALL, 0) => of_call(number, grounds),
        _ => None,
    }
}

fn of_card(number: u64, place: u64) -> Option<Refusal> {
    Some(Refusal::Card {
        ground: CardGround::of_number(number)?,
        place: usize::try_from(place).ok()?,
    })
}

/// The refusal of a call that can be turned back on these grounds.
fn of_call(number: u64, grounds: &[CallGround]) -> Option<Refusal> {
    CallGround::of_number(number)
        .filter(|ground| grounds.contains(ground))
        .map(|ground| Refusal::Call { ground })
}

/// F, L, C, R.
fn split([f, l, c, r]: [u64; 4]) -> Option<Split> {
    Some(Split {
        f: set(f)?,
        l: set(l)?,
        c: set(c)?,
        r: set(r)?,
    })
}

fn set(word: u64) -> Option<ServerSet> {
    u8::try_from(word).ok().map(ServerSet::from_bits)
}

#[cfg(test)]
mod tests {
    use super::*;

    const OUT_OF_RANGE: Refusal = Refusal::Card {
        ground: CardGround::Range,
        place: 87,
    };
    const NOT_DUE: Refusal = Refusal::Plan {
        ground: PlanGround::NotDue,
        place: 4,
    };
    const FAULT_SET: Refusal = Refusal::Call {
        ground: CallGround::FaultSet,
    };
    const SHORT_BUFFER: Refusal = Refusal::Call {
        ground: CallGround::Buffer,
    };

    const SHORT_FOR_PLAN: Refusal = Refusal::Call {
        ground: CallGround::PlanBuffer,
    };

    const ONE_WAY: Refusal = Refusal::Call {
        ground: CallGround::OneWay,
    };

    const INPUTS: Refusal = Refusal::Call {
        ground: CallGround::Inputs,
    };
    const OUT_OF_TURN: Refusal = Refusal::Call {
        ground: CallGround::OutOfTurn,
    };

    #[test]
    fn words_of_a_card_become_its_network_or_refusal() {
        let accepted = [0, 3, 1, 0, 6, 0, 3, 0, 0, 0, 0, 0];
        let expected = Network {
            n: 3,
            f: 1,
            rows: [6, 0, 3, 0, 0, 0, 0, 0].map(ServerSet::from_bits),
        };
        assert_eq!(network(&accepted), Some(expected));
        assert_eq!(card_refusal(&accepted), None);
        let refused = [2, 0, 5, 87, 0, 0, 0, 0, 0, 0, 0, 0];
        assert_eq!(network(&refused), None);
        assert_eq!(card_refusal(&refused), Some(OUT_OF_RANGE));
    }

    #[test]
    fn words_of_a_printed_card_become_the_answers_they_stand_for() {
        for links in 0..=56 {
            let bytes = 4 + 3 * links;
            let answer = printed_or_refusal([0, bytes, 0, 0]);
            assert_eq!(answer, Some(Ok(bytes as usize)), "{links} links");
        }
        assert_eq!(printed_or_refusal([2, 0, 5, 87]), Some(Err(OUT_OF_RANGE)));
        assert_eq!(printed_or_refusal([2, 2, 14, 0]), Some(Err(SHORT_BUFFER)));
    }

    #[test]
    fn words_of_a_split_become_the_answers_they_stand_for() {
        let [f, l, c, r] = [1, 2, 0, 4].map(ServerSet::from_bits);
        let bad = Split { f, l, c, r };
        assert_eq!(split_or_refusal([0; 5]), Some(Ok(None)));
        assert_eq!(split_or_refusal([1, 1, 2, 0, 4]), Some(Ok(Some(bad))));
        assert_eq!(split_or_refusal([2, 0, 5, 87, 0]), Some(Err(OUT_OF_RANGE)));
    }

    #[test]
    fn words_of_the_quick_test_become_the_answers_they_stand_for() {
        for n in 2..=8 {
            for least in 0..n {
                for holds in [false, true] {
                    let answer = quick_or_refusal([0, holds.into(), n, least]);
                    let (n, least) = (n as u8, least as u8);
                    assert_eq!(answer, Some(Ok(Quick { holds, n, least })));
                }
            }
        }
        assert_eq!(quick_or_refusal([2, 0, 5, 87]), Some(Err(OUT_OF_RANGE)));
        assert_eq!(quick_or_refusal([2, 2, 15, 0]), Some(Err(ONE_WAY)));
    }

    #[test]
    fn words_of_a_plan_or_a_run_become_the_answers_they_stand_for() {
        let totals = Totals {
            blocks: 19,
            carriages: 230,
        };
        assert_eq!(totals_or_refusal([0, 19, 230, 0]), Some(Ok(totals)));
        assert_eq!(totals_or_refusal([2, 0, 5, 87]), Some(Err(OUT_OF_RANGE)));
        assert_eq!(totals_or_refusal([2, 1, 7, 4]), Some(Err(NOT_DUE)));
        assert_eq!(ran_or_refusal([0, 19, 230, 0]), Some(Ok(totals)));
        assert_eq!(ran_or_refusal([2, 0, 5, 87]), Some(Err(OUT_OF_RANGE)));
        assert_eq!(ran_or_refusal([2, 1, 7, 4]), Some(Err(NOT_DUE)));
        assert_eq!(ran_or_refusal([2, 2, 13, 0]), Some(Err(FAULT_SET)));
    }

    #[test]
    fn words_of_a_written_plan_become_the_answers_they_stand_for() {
        for bytes in [14, 923, 1_048_576] {
            let answer = written_or_refusal([0, bytes, 0, 0, 0, 0, 0, 0]);
            assert_eq!(answer, Some(Ok(bytes as usize)));
        }
        let [f, l, c, r] = [1, 2, 0, 4].map(ServerSet::from_bits);
        let bad = Unwritten::BadSplit(Split { f, l, c, r });
        let answer = written_or_refusal([2, 2, 17, 0, 1, 2, 0, 4]);
        assert_eq!(answer, Some(Err(bad)));
        for (refusal, expected) in [([0, 5, 87], OUT_OF_RANGE), ([2, 18, 0], SHORT_FOR_PLAN)] {
            let answer = written_or_refusal(refused(refusal));
            assert_eq!(answer, Some(Err(Unwritten::Refused(expected))));
        }
    }

    #[test]
    fn words_of_separate_routes_become_the_answers_they_stand_for() {
        for routes in 1..=3 {
            let answer = separate_or_refusal([0, 1, routes, 0]);
            let routes = routes as usize;
            assert_eq!(answer, Some(Ok(Separate::Found { routes })));
        }
        for (servers, count) in [(0, 0), (1, 1), (128, 1), (3, 2), (192, 2)] {
            let answer = separate_or_refusal([0, 0, servers, count]);
            let servers = ServerSet::from_bits(servers as u8);
            assert_eq!(answer, Some(Ok(Separate::Cut { servers })));
        }
        for (refusal, expected) in [
            ([0, 5, 87], OUT_OF_RANGE),
            ([2, 13, 0], FAULT_SET),
            ([2, 14, 0], SHORT_BUFFER),
        ] {
            let answer = separate_or_refusal(refused(refusal));
            assert_eq!(answer, Some(Err(expected)));
        }
    }

    #[test]
    fn words_of_a_load_become_the_answers_they_stand_for() {
        for counts in [[0; 8], [12, 18, 12, 16, 30, 0, 0, 0], [116_508; 8]] {
            let [a, b, c, d, e, f, g, h] = counts;
            let routes = counts.map(|count| count as usize);
            let answer = load_or_refusal([0, a, b, c, d, e, f, g, h]);
            assert_eq!(answer, Some(Ok(Load { routes })));
        }
        for (refusal, expected) in [([0, 5, 87], OUT_OF_RANGE), ([1, 7, 4], NOT_DUE)] {
            let answer = load_or_refusal(refused(refusal));
            assert_eq!(answer, Some(Err(expected)));
        }
    }

    /// The words of a refusal: whose, number, place.
    fn refused<const N: usize>(refusal: [u64; 3]) -> [u64; N] {
        let mut answer = [0; N];
        answer[0] = 2;
        answer[1..4].copy_from_slice(&refusal);
        answer
    }

    #[test]
    fn words_of_a_start_become_the_answers_they_stand_for() {
        for input in 0..=1 {
            let state = State::from_words([0, 0x11, input, 2, 0]);
            let answer = started_or_refusal([0, 0, 0x11, input, 2, 0]);
            assert_eq!(answer, Some(Ok(state)));
        }
        for (refusal, expected) in [
            ([0, 5, 87], OUT_OF_RANGE),
            ([1, 7, 4], NOT_DUE),
            ([2, 12, 0], INPUTS),
            ([2, 13, 0], FAULT_SET),
        ] {
            let answer = started_or_refusal(refused(refusal));
            assert_eq!(answer, Some(Err(expected)));
        }
    }

    #[test]
    fn words_of_an_ask_become_the_answers_they_stand_for() {
        for kind in 0x11..=0x14 {
            for (block, v, t, values) in [(0, 0, 0, 0), (1_498, 1, 2, 56)] {
                let state = State::from_words([block, kind, v, t, 1]);
                let answer = asked_or_refusal([0, block, kind, v, t, 1, values]);
                let values = values as usize;
                assert_eq!(answer, Some(Ok(Asked { state, values })));
            }
        }
        let state = State::from_words([1_499, 0x15, 1, 2, 0]);
        let answer = asked_or_refusal([0, 1_499, 0x15, 1, 2, 0, 1]);
        assert_eq!(answer, Some(Ok(Asked { state, values: 1 })));
        for (refusal, expected) in [
            ([0, 5, 87], OUT_OF_RANGE),
            ([1, 7, 4], NOT_DUE),
            ([2, 13, 0], FAULT_SET),
            ([2, 14, 0], SHORT_BUFFER),
            ([2, 16, 0], OUT_OF_TURN),
        ] {
            let answer = asked_or_refusal(refused(refusal));
            assert_eq!(answer, Some(Err(expected)));
        }
    }

    #[test]
    fn words_of_a_commit_become_the_answers_they_stand_for() {
        for words in [
            [0, 0x12, 0, 0, 0],
            [1_498, 0x11, 1, 2, 0],
            [1, 0x15, 1, 1, 0],
            [1_499, 0x15, 0, 2, 0],
        ] {
            let [block, kind, v, t, open] = words;
            let answer = committed_or_refusal([0, block, kind, v, t, open]);
            assert_eq!(answer, Some(Ok(State::from_words(words))));
        }
        for (refusal, expected) in [
            ([0, 5, 87], OUT_OF_RANGE),
            ([1, 7, 4], NOT_DUE),
            ([2, 13, 0], FAULT_SET),
            ([2, 16, 0], OUT_OF_TURN),
        ] {
            let answer = committed_or_refusal(refused(refusal));
            assert_eq!(answer, Some(Err(expected)));
        }
    }

    #[test]
    fn words_that_are_no_answer_of_the_card_reader_are_noticed() {
        for answer in [
            [UNWRITTEN; 12],
            [0, 3, 1, UNWRITTEN, 0, 0, 0, 0, 0, 0, 0, 0],
            [0, 1, 0, 0, 0, 0, 0, 0, 0, 0, 0, 0],
            [0, 9, 0, 0, 0, 0, 0, 0, 0, 0, 0, 0],
            [0, 2, 3, 0, 0, 0, 0, 0, 0, 0, 0, 0],
            [0, 2, 0, 0, 256, 0, 0, 0, 0, 0, 0, 0],
            [0, 2, 0, 0, 2, 1, 0, 0, 0, 0, 0, UNWRITTEN],
            [1, 2, 0, 0, 0, 0, 0, 0, 0, 0, 0, 0],
            [2, 1, 2, 87, 0, 0, 0, 0, 0, 0, 0, 0],
            [2, 3, 5, 87, 0, 0, 0, 0, 0, 0, 0, 0],
            [2, 0, 6, 87, 0, 0, 0, 0, 0, 0, 0, 0],
            [2, 0, 7, 87, 0, 0, 0, 0, 0, 0, 0, 0],
            [2, 0, 256, 87, 0, 0, 0, 0, 0, 0, 0, 0],
            [2, 0, 5, 87, 2, 0, 0, 0, 0, 0, 0, 0],
            [2, 0, 5, 87, 0, 0, 0, 0, 0, 0, 0, UNWRITTEN],
        ] {
            assert_eq!(network(&answer), None, "{answer:?}");
            assert_eq!(card_refusal(&answer), None, "{answer:?}");
        }
    }

    #[test]
    fn words_that_are_no_answer_of_the_printed_card_are_noticed() {
        for answer in [
            [UNWRITTEN; 4],
            [0, UNWRITTEN, 0, 0],
            [0, 7, UNWRITTEN, 0],
            [0, 7, 0, UNWRITTEN],
            [0, 0, 0, 0],
            [0, 1, 0, 0],
            [0, 5, 0, 0],
            [0, 6, 0, 0],
            [0, 171, 0, 0],
            [0, 173, 0, 0],
            [0, 175, 0, 0],
            [0, 7, 1, 0],
            [0, 7, 0, 1],
            [1, 7, 0, 0],
            [2, 0, 6, 87],
            [2, 0, 14, 0],
            [2, 1, 2, 4],
            [2, 2, 12, 0],
            [2, 2, 13, 0],
            [2, 2, 14, 1],
            [2, 2, 15, 0],
            [2, 3, 14, 0],
        ] {
            assert_eq!(printed_or_refusal(answer), None, "{answer:?}");
        }
    }

    #[test]
    fn words_that_are_no_answer_of_the_split_test_are_noticed() {
        for answer in [
            [UNWRITTEN; 5],
            [0, 0, 0, 0, UNWRITTEN],
            [0, 0, 0, 0, 1],
            [1, 0, 1, 0, 256],
            [2, 0, 5, 87, 1],
            [2, 1, 2, 87, 0],
            [3, 0, 0, 0, 0],
        ] {
            assert_eq!(split_or_refusal(answer), None, "{answer:?}");
        }
    }

    #[test]
    fn words_that_are_no_answer_of_the_quick_test_are_noticed() {
        for answer in [
            [UNWRITTEN; 4],
            [0, UNWRITTEN, 4, 3],
            [0, 1, UNWRITTEN, 3],
            [0, 1, 4, UNWRITTEN],
            [0, 2, 4, 3],
            [0, 1, 1, 0],
            [0, 1, 9, 3],
            [0, 1, 4, 4],
            [1, 1, 4, 3],
            [2, 0, 6, 87],
            [2, 0, 15, 0],
            [2, 1, 2, 4],
            [2, 2, 14, 0],
            [2, 2, 15, 1],
            [2, 2, 16, 0],
            [2, 3, 15, 0],
        ] {
            assert_eq!(quick_or_refusal(answer), None, "{answer:?}");
        }
    }

    #[test]
    fn words_that_are_no_answer_of_the_plan_check_are_noticed() {
        for answer in [
            [UNWRITTEN; 4],
            [0, 1, UNWRITTEN, 0],
            [0, UNWRITTEN, 1, 0],
            [0, 0, 1, 0],
            [0, 1, 0, 0],
            [0, 1, 1, 1],
            [1, 1, 1, 0],
            [2, 2, 13, 0],
            [2, 3, 7, 4],
            [2, 1, 6, 4],
            [2, 1, 256, 4],
        ] {
            assert_eq!(totals_or_refusal(answer), None, "{answer:?}");
        }
    }

    #[test]
    fn words_that_are_no_answer_of_the_plan_writer_are_noticed() {
        for answer in [
            [UNWRITTEN; 8],
            [0, UNWRITTEN, 0, 0, 0, 0, 0, 0],
            [0, 14, 0, 0, 0, 0, 0, UNWRITTEN],
            [0, 13, 0, 0, 0, 0, 0, 0],
            [0, 1_048_577, 0, 0, 0, 0, 0, 0],
            [0, 14, 1, 0, 0, 0, 0, 0],
            [1, 0, 1, 0, 2, 0, 0, 0],
            [2, 0, 6, 87, 0, 0, 0, 0],
            [2, 0, 5, 87, 1, 0, 0, 0],
            [2, 0, 17, 0, 0, 1, 0, 2],
            [2, 1, 7, 4, 0, 0, 0, 0],
            [2, 2, 14, 0, 0, 0, 0, 0],
            [2, 2, 17, 1, 0, 1, 0, 2],
            [2, 2, 17, 0, 0, 1, 0, 256],
            [2, 2, 18, 0, 0, 1, 0, 2],
            [2, 2, 18, 1, 0, 0, 0, 0],
            [2, 3, 18, 0, 0, 0, 0, 0],
        ] {
            assert_eq!(written_or_refusal(answer), None, "{answer:?}");
        }
    }

    #[test]
    fn words_that_are_no_answer_of_separate_routes_are_noticed() {
        for answer in [
            [UNWRITTEN; 4],
            [0, UNWRITTEN, 2, 0],
            [0, 1, UNWRITTEN, 0],
            [0, 1, 2, UNWRITTEN],
            [0, 1, 0, 0],
            [0, 1, 4, 0],
            [0, 1, 2, 1],
            [0, 2, 2, 0],
            [0, 0, 1, 0],
            [0, 0, 1, 2],
            [0, 0, 7, 3],
            [0, 0, 256, 1],
            [1, 0, 1, 1],
            [2, 0, 6, 87],
            [2, 1, 7, 4],
            [2, 2, 12, 0],
            [2, 2, 13, 1],
            [2, 2, 17, 0],
            [2, 2, 18, 0],
            [2, 3, 13, 0],
        ] {
            assert_eq!(separate_or_refusal(answer), None, "{answer:?}");
        }
    }

    #[test]
    fn words_that_are_no_answer_of_the_load_are_noticed() {
        for answer in [
            [UNWRITTEN; 9],
            [0, 0, 0, 0, 0, 0, 0, 0, UNWRITTEN],
            [0, 116_509, 0, 0, 0, 0, 0, 0, 0],
            [1, 0, 0, 0, 0, 0, 0, 0, 0],
            [2, 0, 6, 87, 0, 0, 0, 0, 0],
            [2, 1, 6, 4, 0, 0, 0, 0, 0],
            [2, 1, 7, 4, 1, 0, 0, 0, 0],
            [2, 1, 7, 4, 0, 0, 0, 0, UNWRITTEN],
            [2, 2, 12, 0, 0, 0, 0, 0, 0],
            [2, 2, 13, 0, 0, 0, 0, 0, 0],
            [2, 3, 7, 4, 0, 0, 0, 0, 0],
        ] {
            assert_eq!(load_or_refusal(answer), None, "{answer:?}");
        }
    }

    /// What neither start nor commit answers.
    const NO_STATE: [[u64; 6]; 16] = [
        [UNWRITTEN; 6],
        [0, UNWRITTEN, 0x11, 0, 2, 0],
        [0, 0, UNWRITTEN, 0, 2, 0],
        [0, 0, 0x11, UNWRITTEN, 2, 0],
        [0, 0, 0x11, 0, UNWRITTEN, 0],
        [0, 0, 0x11, 0, 2, UNWRITTEN],
        [0, 0, 0x11, 0, 2, 1],
        [0, 0, 0x11, 2, 2, 0],
        [0, 0, 0x11, 0, 3, 0],
        [0, 0, 0x10, 0, 2, 0],
        [1, 0, 0x11, 0, 2, 0],
        [2, 0, 6, 87, 0, 0],
        [2, 1, 7, 4, 1, 0],
        [2, 2, 13, 0, 0, 1],
        [2, 2, 13, 1, 0, 0],
        [2, 3, 13, 0, 0, 0],
    ];

    #[test]
    fn words_that_are_no_answer_of_the_start_are_noticed() {
        let of_others = [
            [0, 0, 0x11, 0, 1, 0],
            [0, 1, 0x11, 0, 2, 0],
            [0, 0, 0x12, 0, 2, 0],
            [0, 0, 0x15, 0, 2, 0],
            [2, 2, 14, 0, 0, 0],
            [2, 2, 16, 0, 0, 0],
        ];
        for answer in NO_STATE.into_iter().chain(of_others) {
            assert_eq!(started_or_refusal(answer), None, "{answer:?}");
        }
    }

    #[test]
    fn words_that_are_no_answer_of_the_commit_are_noticed() {
        let of_others = [
            [0, 0, 0x15, 0, 2, 0],
            [0, 1_500, 0x15, 0, 2, 0],
            [0, 1_499, 0x11, 0, 2, 0],
            [0, 1, 0x15, 0, 2, 1],
            [2, 2, 12, 0, 0, 0],
            [2, 2, 14, 0, 0, 0],
        ];
        for answer in NO_STATE.into_iter().chain(of_others) {
            assert_eq!(committed_or_refusal(answer), None, "{answer:?}");
        }
    }

    #[test]
    fn words_that_are_no_answer_of_the_ask_are_noticed() {
        for answer in [
            [UNWRITTEN; 7],
            [0, 0, 0x13, 0, 1, 1, UNWRITTEN],
            [0, 0, 0x13, 0, 1, 1, 57],
            [0, 0, 0x13, 0, 1, 0, 1],
            [0, 0, 0x13, 0, 1, 2, 1],
            [0, 0, 0x13, 2, 1, 1, 1],
            [0, 0, 0x13, 0, 3, 1, 1],
            [0, 0, 0x10, 0, 1, 1, 1],
            [0, 1_499, 0x13, 0, 1, 1, 1],
            [0, 0, 0x15, 0, 1, 0, 1],
            [0, 1, 0x15, 0, 1, 1, 1],
            [0, 1, 0x15, 0, 1, 0, 0],
            [0, 1, 0x15, 0, 1, 0, 2],
            [1, 0, 0x13, 0, 1, 1, 1],
            [2, 0, 6, 87, 0, 0, 0],
            [2, 1, 7, 4, 0, 0, 1],
            [2, 2, 12, 0, 0, 0, 0],
            [2, 2, 15, 0, 0, 0, 0],
            [2, 2, 13, 1, 0, 0, 0],
            [2, 3, 13, 0, 0, 0, 0],
        ] {
            assert_eq!(asked_or_refusal(answer), None, "{answer:?}");
        }
    }

    #[test]
    fn words_that_are_no_answer_of_the_run_are_noticed() {
        for answer in [
            [UNWRITTEN; 4],
            [0, 0, 1, 0],
            [0, 1, 1, 1],
            [1, 1, 1, 0],
            [2, 2, 11, 0],
            [2, 2, 15, 0],
            [2, 2, 16, 0],
            [2, 2, 13, 1],
            [2, 2, 13, UNWRITTEN],
            [2, 3, 13, 0],
        ] {
            assert_eq!(ran_or_refusal(answer), None, "{answer:?}");
        }
    }
}
