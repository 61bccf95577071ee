//! A server's own part in a live network, in two layers: [`start`], [`ask`] and [`commit`]
//! on a [`State`] that the caller keeps, as the library has them, and [`Server`] over them,
//! whose types leave no room for a call out of turn.

use crate::answers::{self, UNWRITTEN};
use crate::{library, CallGround, Refusal};
use std::fmt::{self, Debug, Formatter};

/// How many carriages one kind of a block has at most: a buffer of so many bytes is never
/// too short for [`ask`].
pub const VALUES_LIMIT: usize = 56;

/// Where a server stands between two calls, and what it holds: five words of any size, which
/// its owner keeps and may store.
///
/// ```
/// use agreement::State;
///
/// let stored = [0, State::FROM_QUORUM, 1, 2, 0];
/// let state = State::from_words(stored);
/// assert_eq!((state.block, state.kind, state.v, state.t, state.open), (0, 0x13, 1, 2, 0));
/// assert_eq!(state.words(), stored);
/// ```
#[derive(Debug, Clone, Copy, PartialEq, Eq, Hash)]
pub struct State {
    /// The block, counted from 0; at the end the number of blocks.
    pub block: u64,
    /// The kind of carriages, the plan's command for them, or [`State::END`].
    pub kind: u64,
    /// The server's value, 0 or 1.
    pub v: u64,
    /// Its working value: 0, 1, or 2 for unsure.
    pub t: u64,
    /// 1 between an ask and its commit, else 0.
    pub open: u64,
}

impl State {
    /// The kind of the routes from A to S-A.
    pub const TO_QUORUM: u64 = 0x11;
    /// The kind of the routes among S.
    pub const WITHIN_QUORUM: u64 = 0x12;
    /// The kind of the routes from S to V-F-S.
    pub const FROM_QUORUM: u64 = 0x13;
    /// The kind of what the N of a k in F tell it.
    pub const REPORTS: u64 = 0x14;
    /// After the last block.
    pub const END: u64 = 0x15;

    /// Block, kind, v, t, open.
    pub const fn words(self) -> [u64; 5] {
        [self.block, self.kind, self.v, self.t, self.open]
    }

    /// The state with these words, in the order of [`State::words`]. Whether a server can be
    /// in it is looked at when it is used.
    pub const fn from_words([block, kind, v, t, open]: [u64; 5]) -> State {
        State {
            block,
            kind,
            v,
            t,
            open,
        }
    }
}

/// What an answered ask comes to, the lent bytes aside.
#[derive(Debug, Clone, Copy, PartialEq, Eq)]
pub struct Asked {
    /// The state with its ask open; at the end none opens.
    pub state: State,
    /// How many values stand in the lent bytes.
    pub values: usize,
}

/// Answers with the state in which `server` starts, with its own bit as `input`.
///
/// Card and plan are refused first, then an input above 1, then a server that is not in the
/// network.
///
/// ```
/// let card = [0x01, 2, 0, 0x02, 0, 1, 0x03];
/// let plan = [0x10, 0, 1, 1, 0x13, 0, 1, 255, 255, 255, 255, 255, 255, 0x15];
/// let state = agreement::start(&card, &plan, 0, 1)?;
/// assert_eq!(state.words(), [0, 0x11, 1, 2, 0]);
/// # Ok::<(), agreement::Refusal>(())
/// ```
pub fn start(card: &[u8], plan: &[u8], server: u8, input: u8) -> Result<State, Refusal> {
    let mut answer = [UNWRITTEN; 6];
    // SAFETY: each pointer and length are those of one live slice, which is only
    // read; an empty slice's pointer is not null either. `answer` is lent for the
    // call alone and nothing else refers to it.
    unsafe {
        library::agreement_start(
            card.as_ptr(),
            card.len(),
            plan.as_ptr(),
            plan.len(),
            server,
            input,
            &mut answer,
        )
    };
    answers::started_or_refusal(answer)
        .unwrap_or_else(|| not_an_answer("start", &answer, card, plan))
}

/// Writes what `server` sends as source in its state's kind of its block to the front of
/// `lent`, a byte for each of these carriages in plan order, and answers with their number
/// and with the state, in which the ask is now open. A 2, for unsure, has to be sent like a
/// bit: one that does not come counts as 0.
///
/// At the end of the plan the one value is the decided bit, as often as it is asked, and no
/// ask opens.
///
/// Card and plan are refused first, then the server and its state, then a buffer shorter
/// than the values due, and last an ask while one is open. A refused call changes no byte of
/// `lent`, and bytes of `lent` past the values are never touched.
///
/// ```
/// # let card = [0x01, 2, 0, 0x02, 0, 1, 0x03];
/// # let plan = [0x10, 0, 1, 1, 0x13, 0, 1, 255, 255, 255, 255, 255, 255, 0x15];
/// use agreement::State;
///
/// // Office 0 is the source of the only route.
/// let state = State { kind: State::FROM_QUORUM, t: 1, ..agreement::start(&card, &plan, 0, 1)? };
/// let mut lent = [0; agreement::VALUES_LIMIT];
/// let asked = agreement::ask(&card, &plan, 0, state, &mut lent)?;
/// assert_eq!((asked.state.open, &lent[..asked.values]), (1, &[1][..]));
/// # Ok::<(), agreement::Refusal>(())
/// ```
pub fn ask(
    card: &[u8],
    plan: &[u8],
    server: u8,
    state: State,
    lent: &mut [u8],
) -> Result<Asked, Refusal> {
    let mut answer = [UNWRITTEN; 7];
    // SAFETY: each pointer and length are those of one live slice; an empty slice's
    // pointer is not null either. Only `lent` and `answer` are written; both are lent
    // for the call alone, and nothing else refers to either of them.
    unsafe {
        library::agreement_ask(
            card.as_ptr(),
            card.len(),
            plan.as_ptr(),
            plan.len(),
            server,
            &state.words(),
            lent.as_mut_ptr(),
            lent.len(),
            &mut answer,
        )
    };
    answers::asked_or_refusal(answer).unwrap_or_else(|| not_an_answer("ask", &answer, card, plan))
}

/// Takes in what arrived for `server` as receiver in its state's kind of its block, and
/// answers with its state at the next kind, the next block or the end.
///
/// Byte i of `arrived` came by carriage i, from 0, of those whose receiver is this server, in
/// plan order. 0 and 1 are taken as they are, any other byte as unsure and a missing one as
/// 0, so that 0 stands for one that did not come while a later one did; bytes beyond those due
/// have no effect.
///
/// Card and plan are refused first, then the server and its state, and last a commit with no
/// ask open, as at the end.
///
/// ```
/// # let card = [0x01, 2, 0, 0x02, 0, 1, 0x03];
/// # let plan = [0x10, 0, 1, 1, 0x13, 0, 1, 255, 255, 255, 255, 255, 255, 0x15];
/// use agreement::State;
///
/// // Office 1 entered 0, and hears 1 from office 0.
/// let state = State { kind: State::FROM_QUORUM, open: 1, ..agreement::start(&card, &plan, 1, 0)? };
/// let state = agreement::commit(&card, &plan, 1, state, &[1])?;
/// assert_eq!((state.kind, state.v, state.open), (State::REPORTS, 1, 0));
/// # Ok::<(), agreement::Refusal>(())
/// ```
pub fn commit(
    card: &[u8],
    plan: &[u8],
    server: u8,
    state: State,
    arrived: &[u8],
) -> Result<State, Refusal> {
    let mut answer = [UNWRITTEN; 6];
    // SAFETY: each pointer and length are those of one live slice, which is only
    // read; an empty slice's pointer is not null either. `answer` is lent for the
    // call alone and nothing else refers to it.
    unsafe {
        library::agreement_commit(
            card.as_ptr(),
            card.len(),
            plan.as_ptr(),
            plan.len(),
            server,
            &state.words(),
            arrived.as_ptr(),
            arrived.len(),
            &mut answer,
        )
    };
    answers::committed_or_refusal(answer)
        .unwrap_or_else(|| not_an_answer("commit", &answer, card, plan))
}

/// The library's contract rules these words out. A plan may be too long to be shown.
fn not_an_answer(call: &str, answer: &[u64], card: &[u8], plan: &[u8]) -> ! {
    let length = plan.len();
    panic!("the {call} cannot answer {answer:?} on {length} bytes for {card:02x?}")
}

/// A server of a network with an accepted plan, with no ask open.
///
/// An ask uses the server up, and only the commit of what was asked gives it back. So each
/// ask has its one commit, and none of them comes out of turn. Card, plan, server and state
/// are found good when the server is started or resumed, and stay as they are while it is
/// there, so that no later call is refused.
///
/// ```
/// use agreement::{Server, State, Turn};
///
/// // Two offices and one link, from 0 to 1. Office 1 enters 0, and office 0 enters 1.
/// let card = [0x01, 2, 0, 0x02, 0, 1, 0x03];
/// let plan = [0x10, 0, 1, 1, 0x13, 0, 1, 255, 255, 255, 255, 255, 255, 0x15];
/// let mut turn = Server::start(&card, &plan, 1, 0)?.ask();
/// let decided = loop {
///     turn = match turn {
///         Turn::Sending(sending) => {
///             // Here `sending.values()` go out, and what is due is waited for.
///             let arrived: &[u8] = match sending.state().kind {
///                 State::FROM_QUORUM => &[1],
///                 _ => &[],
///             };
///             sending.commit(arrived).ask()
///         }
///         Turn::Decided(bit) => break bit,
///     };
/// };
/// assert_eq!(decided, 1);
/// # Ok::<(), agreement::Refusal>(())
/// ```
///
/// A second ask while one is open is not built:
///
/// ```compile_fail,E0382
/// # let card = [0x01, 2, 0, 0x02, 0, 1, 0x03];
/// # let plan = [0x10, 0, 1, 1, 0x13, 0, 1, 255, 255, 255, 255, 255, 255, 0x15];
/// let server = agreement::Server::start(&card, &plan, 1, 0)?;
/// let sending = server.ask();
/// let again = server.ask();
/// # Ok::<(), agreement::Refusal>(())
/// ```
///
/// Nor is a commit with none open:
///
/// ```compile_fail,E0599
/// # let card = [0x01, 2, 0, 0x02, 0, 1, 0x03];
/// # let plan = [0x10, 0, 1, 1, 0x13, 0, 1, 255, 255, 255, 255, 255, 255, 0x15];
/// let server = agreement::Server::start(&card, &plan, 1, 0)?;
/// let server = server.commit(&[1]);
/// # Ok::<(), agreement::Refusal>(())
/// ```
#[must_use = "a server that is dropped takes no further part"]
#[derive(Debug, PartialEq, Eq)]
pub struct Server<'a> {
    own: Own<'a>,
    state: State,
}

impl<'a> Server<'a> {
    /// The server `server` before the first block, with its own bit as `input`. Refused is
    /// what [`start`] refuses.
    pub fn start(
        card: &'a [u8],
        plan: &'a [u8],
        server: u8,
        input: u8,
    ) -> Result<Server<'a>, Refusal> {
        let own = Own { card, plan, server };
        let state = start(card, plan, server, input)?;
        Ok(Server { own, state })
    }

    /// The turn of a server in a stored `state`, whether an ask is open there or not. What
    /// it sends is in both cases what it would have sent then, so that a server that was
    /// stopped between ask and commit may send it again. Refused are card, plan, and a
    /// server or a state that cannot be.
    ///
    /// ```
    /// # let card = [0x01, 2, 0, 0x02, 0, 1, 0x03];
    /// # let plan = [0x10, 0, 1, 1, 0x13, 0, 1, 255, 255, 255, 255, 255, 255, 0x15];
    /// use agreement::{Server, State, Turn};
    ///
    /// let stored = State::from_words([0, State::FROM_QUORUM, 1, 1, 1]);
    /// let Turn::Sending(sending) = Server::resume(&card, &plan, 0, stored)? else {
    ///     panic!("the end is not reached");
    /// };
    /// assert_eq!((sending.values(), sending.state()), (&[1][..], stored));
    ///
    /// let at_no_block = State { block: 1, ..stored };
    /// let refusal = Server::resume(&card, &plan, 0, at_no_block).unwrap_err();
    /// assert_eq!(refusal.number(), 13);
    /// # Ok::<(), agreement::Refusal>(())
    /// ```
    pub fn resume(
        card: &'a [u8],
        plan: &'a [u8],
        server: u8,
        state: State,
    ) -> Result<Turn<'a>, Refusal> {
        let own = Own { card, plan, server };
        let open = Refusal::Call {
            ground: CallGround::OutOfTurn,
        };
        match own.turn(state) {
            // A state that can be, with its ask open: asked anew, as it was before.
            Err(refusal) if refusal == open => own.turn(State { open: 0, ..state }),
            turn => turn,
        }
    }

    /// Its state, with no ask open.
    pub fn state(&self) -> State {
        self.state
    }

    /// What it sends in its kind of its block, or at the end the bit that it decided.
    pub fn ask(self) -> Turn<'a> {
        not_refused(self.own.turn(self.state))
    }
}

/// What a server does next.
#[must_use = "values are to be sent, or a bit was decided"]
#[derive(Debug, PartialEq, Eq)]
pub enum Turn<'a> {
    /// It sends, and then commits what arrives.
    Sending(Sending<'a>),
    /// It is at the end and shows this bit, 0 or 1.
    Decided(u8),
}

/// A server with an ask open.
///
/// ```compile_fail,E0382
/// # let card = [0x01, 2, 0, 0x02, 0, 1, 0x03];
/// # let plan = [0x10, 0, 1, 1, 0x13, 0, 1, 255, 255, 255, 255, 255, 255, 0x15];
/// # let server = agreement::Server::start(&card, &plan, 1, 0)?;
/// # let agreement::Turn::Sending(sending) = server.ask() else { panic!() };
/// let server = sending.commit(&[]);
/// let again = sending.commit(&[]); // is not built: what was asked is committed once
/// # Ok::<(), agreement::Refusal>(())
/// ```
#[must_use = "a server goes on when what arrived is committed"]
#[derive(Debug, PartialEq, Eq)]
pub struct Sending<'a> {
    own: Own<'a>,
    state: State,
    lent: [u8; VALUES_LIMIT],
    count: usize,
}

impl<'a> Sending<'a> {
    /// What it sends, a value for each carriage of its state's kind and block whose source
    /// it is, in plan order: 0, 1, or 2 for unsure, which has to be sent too.
    pub fn values(&self) -> &[u8] {
        &self.lent[..self.count]
    }

    /// Its state, with the ask open.
    pub fn state(&self) -> State {
        self.state
    }

    /// Commits what arrived for it as receiver, as [`commit`] takes it, and moves on.
    pub fn commit(self, arrived: &[u8]) -> Server<'a> {
        let Own { card, plan, server } = self.own;
        Server {
            own: self.own,
            state: not_refused(commit(card, plan, server, self.state, arrived)),
        }
    }
}

/// Which server of which network and plan.
#[derive(Clone, Copy, PartialEq, Eq)]
struct Own<'a> {
    card: &'a [u8],
    plan: &'a [u8],
    server: u8,
}

impl<'a> Own<'a> {
    /// Asks in `state`.
    fn turn(self, state: State) -> Result<Turn<'a>, Refusal> {
        let mut lent = [0; VALUES_LIMIT];
        let asked = ask(self.card, self.plan, self.server, state, &mut lent)?;
        Ok(match asked.state.kind {
            State::END => Turn::Decided(lent[0]),
            _ => Turn::Sending(Sending {
                own: self,
                state: asked.state,
                lent,
                count: asked.values,
            }),
        })
    }
}

/// The types keep asks and commits in turn, and the rest was looked at when the server was
/// started or resumed.
fn not_refused<T>(answer: Result<T, Refusal>) -> T {
    answer.unwrap_or_else(|refusal| panic!("a server in its turn cannot be {refusal}"))
}

/// Card and plan may be too long to be shown.
impl Debug for Own<'_> {
    fn fmt(&self, out: &mut Formatter) -> fmt::Result {
        out.debug_struct("Own")
            .field("server", &self.server)
            .finish_non_exhaustive()
    }
}

#[cfg(test)]
mod tests {
    use super::*;
    use crate::tests::{card_cut, of_plan, P1, P5};
    use crate::PlanGround;

    const BAD_STATE: Refusal = of_call(CallGround::FaultSet);
    const SHORT_BUFFER: Refusal = of_call(CallGround::Buffer);
    const OUT_OF_TURN: Refusal = of_call(CallGround::OutOfTurn);

    const fn of_call(ground: CallGround) -> Refusal {
        Refusal::Call { ground }
    }

    /// The states of a server of P5, from its start with `input` to the end, in words, and
    /// what it sends in each, if 1 arrives whenever something does.
    fn walked(server: u8, input: u8) -> Vec<([u64; 5], Vec<u8>)> {
        let mut state = start(&P1, &P5, server, input).expect("it starts");
        let mut walk = Vec::new();
        loop {
            let mut lent = [9; VALUES_LIMIT];
            let asked = ask(&P1, &P5, server, state, &mut lent).expect("it is its turn");
            let (values, rest) = lent.split_at(asked.values);
            assert!(rest.iter().all(|&byte| byte == 9), "later bytes are left");
            walk.push((state.words(), values.to_vec()));
            if state.kind == State::END {
                assert_eq!(asked.state, state, "no ask opens at the end");
                return walk;
            }
            assert_eq!(asked.state, State { open: 1, ..state });
            state = commit(&P1, &P5, server, asked.state, &[1]).expect("it is its turn");
        }
    }

    #[test]
    fn small_parts() {
        // Office 0 is A and S, and keeps what it has.
        let zero = [
            ([0, 0x11, 0, 2, 0], vec![]),
            ([0, 0x12, 0, 0, 0], vec![]),
            ([0, 0x13, 0, 0, 0], vec![0]),
            ([0, 0x14, 0, 0, 0], vec![]),
            ([1, 0x15, 0, 0, 0], vec![0]),
        ];
        assert_eq!(walked(0, 0), zero);
        // Office 1 hears of it by the one route.
        let one = [
            ([0, 0x11, 0, 2, 0], vec![]),
            ([0, 0x12, 0, 2, 0], vec![]),
            ([0, 0x13, 0, 2, 0], vec![]),
            ([0, 0x14, 1, 1, 0], vec![]),
            ([1, 0x15, 1, 1, 0], vec![1]),
        ];
        assert_eq!(walked(1, 0), one);
    }

    #[test]
    fn what_arrives_is_read_as_in_the_run() {
        let state = State::from_words([0, State::FROM_QUORUM, 1, 1, 1]);
        let committed = |arrived: &[u8]| {
            let state = commit(&P1, &P5, 1, state, arrived).expect("an ask is open");
            (state.v, state.t)
        };
        for (arrived, expected) in [
            // Silence means open.
            (&[][..], (0, 0)),
            (&[0], (0, 0)),
            (&[1], (1, 1)),
            (&[2], (1, 2)),
            (&[255], (1, 2)),
            // One byte is due.
            (&[1, 0], (1, 1)),
        ] {
            assert_eq!(committed(arrived), expected, "{arrived:?}");
        }
    }

    #[test]
    fn refusals_come_in_their_order_and_change_nothing() {
        let sends = State::from_words([0, State::FROM_QUORUM, 0, 0, 0]);
        let open = State { open: 1, ..sends };
        let nowhere = State { block: 1, ..open };
        let cut = of_plan(PlanGround::Cut, 0);
        assert_eq!(start(&[], &[], 2, 2), Err(card_cut(0)));
        assert_eq!(start(&P1, &[], 2, 2), Err(cut));
        assert_eq!(start(&P1, &P5, 2, 2), Err(of_call(CallGround::Inputs)));
        assert_eq!(start(&P1, &P5, 2, 1), Err(BAD_STATE));
        assert_eq!(commit(&[], &[], 2, nowhere, &[]), Err(card_cut(0)));
        assert_eq!(commit(&P1, &[], 2, nowhere, &[]), Err(cut));
        assert_eq!(commit(&P1, &P5, 2, open, &[]), Err(BAD_STATE));
        assert_eq!(commit(&P1, &P5, 0, nowhere, &[]), Err(BAD_STATE));
        assert_eq!(commit(&P1, &P5, 0, sends, &[]), Err(OUT_OF_TURN));
        let mut lent = [9; 2];
        let mut refused = |card: &[u8], plan: &[u8], server, state, length| {
            let answer = ask(card, plan, server, state, &mut lent[..length]);
            assert_eq!(lent, [9; 2]);
            answer.expect_err("refused")
        };
        assert_eq!(refused(&[], &[], 2, nowhere, 0), card_cut(0));
        assert_eq!(refused(&P1, &[], 2, nowhere, 0), cut);
        assert_eq!(refused(&P1, &P5, 2, open, 0), BAD_STATE);
        assert_eq!(refused(&P1, &P5, 0, nowhere, 0), BAD_STATE);
        assert_eq!(refused(&P1, &P5, 0, open, 0), SHORT_BUFFER);
        assert_eq!(refused(&P1, &P5, 0, open, 1), OUT_OF_TURN);
    }

    #[test]
    fn states_that_cannot_be_are_refused() {
        const MANY: u64 = u64::MAX;
        for words in [
            [1, 0x13, 1, 2, 0],
            [MANY, 0x13, 1, 2, 0],
            [0, 0x10, 1, 2, 0],
            [0, 0x113, 1, 2, 0],
            [0, MANY, 1, 2, 0],
            [0, 0x13, 2, 2, 0],
            [0, 0x13, 1 << 32, 2, 0],
            [0, 0x13, 1, 3, 0],
            [0, 0x13, 1, 256, 0],
            [0, 0x13, 1, 2, 2],
            [0, 0x13, 1, 2, MANY],
            [0, 0x15, 1, 2, 0],
            [2, 0x15, 1, 2, 0],
            [1, 0x15, 2, 2, 0],
            [1, 0x15, 1, 3, 0],
            [1, 0x15, 1, 2, 1],
        ] {
            let state = State::from_words(words);
            let mut lent = [9; VALUES_LIMIT];
            assert_eq!(ask(&P1, &P5, 0, state, &mut lent), Err(BAD_STATE));
            assert_eq!(commit(&P1, &P5, 0, state, &[]), Err(BAD_STATE));
            assert_eq!(Server::resume(&P1, &P5, 0, state), Err(BAD_STATE));
            assert_eq!(lent, [9; VALUES_LIMIT]);
        }
        // Any t up to 2 is taken as it stands.
        for t in 0..=2 {
            let [sends, end] = [[0, 0x13, 1, t, 0], [1, 0x15, 1, t, 0]].map(State::from_words);
            assert!(Server::resume(&P1, &P5, 0, sends).is_ok());
            assert_eq!(Server::resume(&P1, &P5, 0, end), Ok(Turn::Decided(1)));
            assert_eq!(commit(&P1, &P5, 0, end, &[]), Err(OUT_OF_TURN));
        }
    }

    /// A server stepped by its types goes through the states of the one stepped by calls,
    /// and from each of them a server is resumed that goes on as it does.
    #[test]
    fn typed_servers_take_the_same_turns() {
        for (server, input) in [(0, 0), (0, 1), (1, 0), (1, 1)] {
            let mut typed = Server::start(&P1, &P5, server, input).expect("it starts");
            for (words, values) in walked(server, input) {
                let state = State::from_words(words);
                assert_eq!(typed.state(), state);
                let resumed = || Server::resume(&P1, &P5, server, state).expect("a stored state");
                match typed.ask() {
                    Turn::Decided(bit) => {
                        assert_eq!(state.kind, State::END);
                        assert_eq!(values, [bit]);
                        assert_eq!(resumed(), Turn::Decided(bit));
                        break;
                    }
                    Turn::Sending(sending) => {
                        let open = State { open: 1, ..state };
                        assert_eq!((sending.state(), sending.values()), (open, &values[..]));
                        let again = Server::resume(&P1, &P5, server, open).expect("stored");
                        assert_eq!(again, resumed());
                        typed = sending.commit(&[1]);
                        let Turn::Sending(again) = again else {
                            panic!("{again:?} is not at the end");
                        };
                        assert_eq!(again.commit(&[1]), typed);
                    }
                }
            }
        }
    }

    #[test]
    fn typed_servers_are_refused_at_their_start() {
        let cut = of_plan(PlanGround::Cut, 0);
        let state = State::from_words([0, State::TO_QUORUM, 0, 2, 1]);
        assert_eq!(Server::start(&[], &P5, 0, 0), Err(card_cut(0)));
        assert_eq!(Server::start(&P1, &[], 0, 0), Err(cut));
        assert_eq!(
            Server::start(&P1, &P5, 0, 2),
            Err(of_call(CallGround::Inputs))
        );
        assert_eq!(Server::start(&P1, &P5, 2, 0), Err(BAD_STATE));
        assert_eq!(Server::resume(&[], &P5, 0, state), Err(card_cut(0)));
        assert_eq!(Server::resume(&P1, &[], 0, state), Err(cut));
        assert_eq!(Server::resume(&P1, &P5, 255, state), Err(BAD_STATE));
    }
}
