//! Comparing the two implementations on one call for a server, and counting what they
//! answer.

use crate::lent::{self, Call as _, Outcome};
use crate::plans::good;
use crate::text::{hex, hex_beginning, Plain};
use crate::{add, converted};
use reference::{Refusal, State};
use std::fmt::{self, Arguments, Display, Formatter};

/// The kinds of carriages, and the end.
pub(super) const KINDS: [u64; 4] = [0x11, 0x12, 0x13, 0x14];
pub(super) const END: u64 = 0x15;

/// A call for one server.
#[derive(Debug, Clone, Copy)]
pub(super) struct Call<'a> {
    pub card: &'a [u8],
    pub plan: &'a [u8],
    pub server: u8,
    pub what: What<'a>,
}

/// Which one.
#[derive(Debug, Clone, Copy)]
pub(super) enum What<'a> {
    Start {
        input: u8,
    },
    Ask {
        state: State,
        /// How many bytes are lent.
        lent: usize,
    },
    Commit {
        state: State,
        arrived: &'a [u8],
    },
}

/// What an answered call hands back.
#[derive(Debug, Clone, Copy, PartialEq, Eq)]
pub(super) struct Step {
    pub state: State,
    /// How many values an ask gives; the others give none.
    values: usize,
}

impl Step {
    fn to(state: State) -> Step {
        Step { state, values: 0 }
    }

    fn with((state, values): (State, usize)) -> Step {
        Step { state, values }
    }
}

impl Plain for Step {
    fn plain(&self) -> String {
        plain_state(self.state)
    }
}

/// The words of a state.
fn plain_state(state: State) -> String {
    let State {
        block,
        kind,
        v,
        t,
        open,
    } = state;
    format!("{block} {kind} {v} {t} {open}")
}

/// The state with these words.
pub(super) fn state([block, kind, v, t, open]: [u64; 5]) -> State {
    State {
        block,
        kind,
        v,
        t,
        open,
    }
}

impl lent::Call for Call<'_> {
    type Answer = Step;

    fn of_library(&self) -> Outcome<Step> {
        let Call {
            card, plan, server, ..
        } = *self;
        let words =
            |State {
                 block,
                 kind,
                 v,
                 t,
                 open,
             }| { agreement::State::from_words([block, kind, v, t, open]) };
        Outcome::of(self.lent(), |lent| match self.what {
            What::Start { input } => {
                let answer = agreement::start(card, plan, server, input);
                converted::stepped(answer).map(Step::to)
            }
            What::Ask { state, .. } => {
                let answer = agreement::ask(card, plan, server, words(state), lent);
                converted::asked(answer).map(Step::with)
            }
            What::Commit { state, arrived } => {
                let answer = agreement::commit(card, plan, server, words(state), arrived);
                converted::stepped(answer).map(Step::to)
            }
        })
    }

    fn of_reference(&self) -> Outcome<Step> {
        let Call {
            card, plan, server, ..
        } = *self;
        Outcome::of(self.lent(), |lent| match self.what {
            What::Start { input } => reference::start(card, plan, server, input).map(Step::to),
            What::Ask { state, .. } => {
                reference::ask(card, plan, server, state, lent).map(Step::with)
            }
            What::Commit { state, arrived } => {
                reference::commit(card, plan, server, state, arrived).map(Step::to)
            }
        })
    }

    fn fault(&self, outcome: &Outcome<Step>) -> Option<&'static str> {
        let values = outcome.answer.map_or(0, |step| step.values);
        let fault = outcome.fault(values);
        let fault = fault.or_else(|| good::fault_after(self.card, &outcome.answer));
        let Ok(Step { state: after, .. }) = outcome.answer else {
            return fault;
        };
        fault.or_else(|| match self.what {
            What::Start { input } => {
                let start = state([0, KINDS[0], input.into(), 2, 0]);
                (after != start).then_some("a server does not start with its input at the start")
            }
            What::Ask { state, .. } => asked_fault(state, after, outcome.written()),
            What::Commit { state, .. } => committed_fault(state, after),
        })
    }
}

/// What is wrong with an answered ask in `state`.
fn asked_fault(state: State, after: State, values: &[u8]) -> Option<&'static str> {
    let at_the_end = state.kind == END;
    let open = u64::from(!at_the_end);
    if after != (State { open, ..state }) {
        return Some("an ask changed more than its mark");
    }
    let value = match state.kind {
        0x12 | 0x13 => state.t,
        _ => state.v,
    };
    if values.iter().any(|&sent| u64::from(sent) != value) {
        return Some("a server sent another value than it holds");
    }
    (at_the_end && values.len() != 1).then_some("there is not one value at the end")
}

/// What is wrong with an answered commit in `state`.
fn committed_fault(state: State, after: State) -> Option<&'static str> {
    let follows = match KINDS.into_iter().find(|&kind| kind > state.kind) {
        Some(kind) => (after.block, after.kind) == (state.block, kind),
        None => after.block == state.block + 1 && [KINDS[0], END].contains(&after.kind),
    };
    if !follows || after.open != 0 {
        return Some("a commit did not move on to the kind that follows");
    }
    if after.v > 1 || after.t > 2 {
        return Some("a commit left a value that cannot be");
    }
    if state.kind < 0x13 && after.v != state.v || state.kind == 0x14 && after.t != state.t {
        return Some("a commit changed a value that its steps do not change");
    }
    None
}

impl Call<'_> {
    fn lent(&self) -> usize {
        match self.what {
            What::Ask { lent, .. } => lent,
            What::Start { .. } | What::Commit { .. } => 0,
        }
    }
}

impl Display for Call<'_> {
    fn fmt(&self, out: &mut Formatter) -> fmt::Result {
        write!(
            out,
            "  card       {}\n  plan       {}\n  server     {}\n  call       ",
            hex(self.card),
            hex_beginning(self.plan),
            self.server
        )?;
        match self.what {
            What::Start { input } => write!(out, "start, input {input}"),
            What::Ask { state, lent } => {
                write!(out, "ask in {}, lent {lent} bytes", plain_state(state))
            }
            What::Commit { state, arrived } => {
                let arrived = hex_beginning(arrived);
                write!(out, "commit in {}, arrived {arrived}", plain_state(state))
            }
        }
    }
}

/// How often each answer was met.
#[derive(Debug, Clone, Default)]
pub struct Tally {
    /// Answered starts.
    pub starts: usize,
    /// Answered asks by the kind, 11 to 14 and the end.
    pub asks: [usize; 5],
    /// Answered commits by the kind.
    pub commits: [usize; 4],
    /// Calls with a refused card by the refusal's number, 1 to 5; there is no number 0.
    pub card_refused: [usize; 6],
    /// Calls with a refused plan by the refusal's number; 4 to 6 are no numbers of a plan.
    pub plan_refused: [usize; 12],
    /// Refused calls by the refusal's number: of starts 12 and 13, of asks 13, 14 and 16, of
    /// commits 13 and 16.
    pub start_refused: [usize; 17],
    pub ask_refused: [usize; 17],
    pub commit_refused: [usize; 17],
}

impl Tally {
    pub fn calls(&self) -> usize {
        let cards_and_plans = self.card_refused.iter().chain(&self.plan_refused);
        let of_calls = [&self.start_refused, &self.ask_refused, &self.commit_refused];
        let refused = cards_and_plans.chain(of_calls.into_iter().flatten());
        self.answered() + refused.sum::<usize>()
    }

    pub fn answered(&self) -> usize {
        self.starts + self.asks.iter().chain(&self.commits).sum::<usize>()
    }

    pub fn add(&mut self, other: &Tally) {
        self.starts += other.starts;
        add(&mut self.asks, &other.asks);
        add(&mut self.commits, &other.commits);
        add(&mut self.card_refused, &other.card_refused);
        add(&mut self.plan_refused, &other.plan_refused);
        add(&mut self.start_refused, &other.start_refused);
        add(&mut self.ask_refused, &other.ask_refused);
        add(&mut self.commit_refused, &other.commit_refused);
    }

    /// Makes `call` to the library and to the reference and counts the answer.
    ///
    /// Panics if they differ, in the answer or in a byte of memory, or if what they agree on
    /// cannot be; `made_by` then says how to get the call again.
    pub(super) fn compare(&mut self, call: &Call, made_by: Arguments) {
        let refusal = match call.compared(made_by).answer {
            Ok(_) => return self.count_answered(call.what),
            Err(refusal) => refusal,
        };
        let (counts, number) = match (refusal, call.what) {
            (Refusal::Card { number, .. }, _) => (&mut self.card_refused[..], number),
            (Refusal::Plan { number, .. }, _) => (&mut self.plan_refused[..], number),
            (Refusal::Call { number }, What::Start { .. }) => (&mut self.start_refused[..], number),
            (Refusal::Call { number }, What::Ask { .. }) => (&mut self.ask_refused[..], number),
            (Refusal::Call { number }, What::Commit { .. }) => {
                (&mut self.commit_refused[..], number)
            }
        };
        counts[usize::from(number)] += 1;
    }

    fn count_answered(&mut self, what: What) {
        // An answered call is at a kind or at the end.
        let index = |state: State| (state.kind - KINDS[0]) as usize;
        match what {
            What::Start { .. } => self.starts += 1,
            What::Ask { state, .. } => self.asks[index(state)] += 1,
            What::Commit { state, .. } => self.commits[index(state)] += 1,
        }
    }
}

impl Display for Tally {
    fn fmt(&self, out: &mut Formatter) -> fmt::Result {
        let [bad_state, short, out_of_turn] = [13, 14, 16];
        write!(
            out,
            "{} calls; answered: {} starts, asks of 11 to 14 and at the end {:?}, commits of 11 to \
             14 {:?}; card refused 1 to 5: {:?}, plan refused 1 to 3: {:?}, 7 to 11: {:?}, start \
             refused 12 and 13: {:?}, ask refused 13, 14, 16: {:?}, commit refused 13, 16: {:?}",
            self.calls(),
            self.starts,
            self.asks,
            self.commits,
            &self.card_refused[1..],
            &self.plan_refused[1..4],
            &self.plan_refused[7..],
            &self.start_refused[12..14],
            [bad_state, short, out_of_turn].map(|number| self.ask_refused[number]),
            [bad_state, out_of_turn].map(|number| self.commit_refused[number])
        )
    }
}
