//! A server's own part, as header and docs/FORMATS.md tell of it, beside what the library
//! answers.

use super::header::name;
use super::library::*;
use super::numbers::{listed, members, quoted, row};
use super::page::Held;
use super::plans::{longest, plan, shortest, EXTREMES};
use super::steps::UNSURE;
use super::Documents;
use agreement::{ask, commit, start, CallGround, Refusal, ServerSet, State, VALUES_LIMIT};
use generate::{carriages, complete_card, Carriage};
use std::sync::LazyLock;

/// Two servers with links both ways and no faults; A is the first of them and S the second.
const SERVERS: [u8; 2] = [0, 1];
static TWO: LazyLock<(Vec<u8>, Vec<u8>)> = LazyLock::new(|| {
    let blocks = shortest(2, 0);
    let [mut block] = blocks[..] else {
        panic!("two servers have one block");
    };
    [block.a, block.s] = SERVERS.map(|server| ServerSet::from_bits(1 << server));
    (complete_card(2, 0), plan(0, &[block]))
});

/// Their inputs.
const INPUTS: [u8; 2] = [1, 0];

/// One kind of a block, taken by both of them.
struct Taken {
    kind: u8,
    sent: [Vec<u8>; 2],
    heard: [Vec<u8>; 2],
    after: [State; 2],
}

/// All kinds of their plan, and the bit that both show at the end.
struct Walk {
    start: State,
    taken: Vec<Taken>,
    end: u8,
    shown: u8,
}

static WALK: LazyLock<Walk> = LazyLock::new(|| {
    let (card, plan) = &*TWO;
    let begin = |server: u8| start(card, plan, server, INPUTS[usize::from(server)]);
    let mut states = SERVERS.map(|server| begin(server).expect("it starts"));
    let start = states[0];
    let mut taken = Vec::new();
    loop {
        let mut lent = [[0; VALUES_LIMIT]; 2];
        let asked = SERVERS.map(|server| {
            let at = usize::from(server);
            ask(card, plan, server, states[at], &mut lent[at]).expect("it is its turn")
        });
        let sent = [0, 1].map(|at| lent[at][..asked[at].values].to_vec());
        let kind = states[0].kind as u8;
        if asked.iter().all(|asked| asked.state.open == 0) {
            let [[shown], [other]] = [&sent[0][..], &sent[1][..]] else {
                panic!("each shows one bit: {sent:?}");
            };
            assert_eq!(shown, other, "both show the same");
            let (end, shown) = (kind, *shown);
            return Walk {
                start,
                taken,
                end,
                shown,
            };
        }
        // What one sends the other hears.
        let heard = [sent[1].clone(), sent[0].clone()];
        states = SERVERS.map(|server| {
            let at = usize::from(server);
            commit(card, plan, server, asked[at].state, &heard[at]).expect("it is its turn")
        });
        taken.push(Taken {
            kind,
            sent,
            heard,
            after: states,
        });
    }
});

/// The one byte that a commit takes as it takes a missing one. Server 1 has one arrival due at
/// the start, by which it takes t.
static SILENCE: LazyLock<u8> = LazyLock::new(|| {
    let (card, plan) = &*TWO;
    let state = State {
        open: 1,
        ..WALK.start
    };
    let taken = |arrived: &[u8]| commit(card, plan, SERVERS[1], state, arrived);
    let missing = taken(&[]);
    let is_missing = |byte: &u8| taken(&[*byte]) == missing;
    let alike: Vec<u8> = (0..=u8::MAX).filter(is_missing).collect();
    match alike[..] {
        [silence] => silence,
        _ => panic!("{alike:?} do what a missing byte does, {missing:?}"),
    }
});

/// The kinds of carriages, in the order in which a server takes them.
fn kinds() -> Vec<u8> {
    WALK.taken.iter().map(|taken| taken.kind).collect()
}

fn refused(ground: CallGround) -> Refusal {
    Refusal::Call { ground }
}

/// The values of a word of a state that are not refused, the other words being those of a
/// server that starts.
fn word(place: usize) -> Span {
    let (card, plan) = &*TWO;
    let is_taken = |value: &u8| {
        let mut words = WALK.start.words();
        words[place] = u64::from(*value);
        let state = State::from_words(words);
        let answer = ask(card, plan, SERVERS[0], state, &mut [0; VALUES_LIMIT]);
        answer != Err(refused(CallGround::FaultSet))
    };
    let values: Vec<u8> = (0..=u8::MAX).filter(is_taken).collect();
    Span::over("a word of a state", &values)
}

/// The inputs with which a server starts.
fn inputs() -> Span {
    let (card, plan) = &*TWO;
    let starts = |input: &u8| start(card, plan, SERVERS[0], *input).is_ok();
    let values: Vec<u8> = (0..=u8::MAX).filter(starts).collect();
    Span::over("a server's own input", &values)
}

/// What the sources of each kind send, `v` or `t`.
static SENT: LazyLock<Vec<&str>> = LazyLock::new(|| {
    let (n, f) = (4, 1);
    let card = complete_card(n, f);
    // Between them these have sources of every kind.
    let plans = [shortest(n, f), longest(n, f)].map(|blocks| plan(f, &blocks));
    let (v, t) = (0, 1);
    let sent = |kind: u8| {
        let mut values = Vec::new();
        for (plan, server) in plans.iter().flat_map(|plan| (0..n).map(move |i| (plan, i))) {
            let blocks = carriages(plan).last().map_or(0, |last| last.block + 1);
            for block in 0..blocks as u64 {
                let state = State::from_words([block, kind.into(), v.into(), t.into(), 0]);
                let mut lent = [0; VALUES_LIMIT];
                let asked = ask(&card, plan, server, state, &mut lent).expect("its turn");
                values.extend_from_slice(&lent[..asked.values]);
            }
        }
        values.dedup();
        match values[..] {
            [value] if value == v => "v",
            [value] if value == t => "t",
            _ => panic!("the sources of {kind:02X} send {values:?}"),
        }
    };
    kinds().into_iter().map(sent).collect()
});

/// The most carriages that one kind of a block can have, which are so many in a longest plan.
pub static MOST_VALUES: LazyLock<usize> = LazyLock::new(|| {
    let of_kind =
        |one: &Carriage, next: &Carriage| (one.block, one.kind) == (next.block, next.kind);
    let most = EXTREMES.iter().map(|extreme| {
        let carriages = carriages(&plan(extreme.f, &longest(extreme.n, extreme.f)));
        carriages.chunk_by(of_kind).map(<[Carriage]>::len).max()
    });
    most.max().flatten().expect("plans have carriages")
});

/// What a start, an ask and a commit refuse after card and plan, in this order.
pub const OF_START: [CallGround; 2] = [CallGround::Inputs, CallGround::FaultSet];
pub const OF_ASK: [CallGround; 3] = [
    CallGround::FaultSet,
    CallGround::Buffer,
    CallGround::OutOfTurn,
];
pub const OF_COMMIT: [CallGround; 2] = [CallGround::FaultSet, CallGround::OutOfTurn];

/// Calls that are wrong in more and more ways meet these.
pub fn refusals_are_in_order() {
    let (card, plan) = &*TWO;
    let nobody = SERVERS.len() as u8;
    let starts = [(SERVERS[0], 2), (nobody, 1)];
    let starts = starts.map(|(server, input)| start(card, plan, server, input));
    assert_eq!(starts, OF_START.map(|ground| Err(refused(ground))));
    assert_eq!(start(card, plan, nobody, 2), starts[0], "both at once");
    // The one source of the last routes is asked while its ask is open.
    let open = State {
        kind: FROM_S.into(),
        open: 1,
        ..WALK.start
    };
    let asks = [(nobody, 0), (SERVERS[1], 0), (SERVERS[1], 1)];
    let asks = asks.map(|(server, lent)| ask(card, plan, server, open, &mut vec![0; lent]));
    assert_eq!(asks, OF_ASK.map(|ground| Err(refused(ground))));
    let commits = [nobody, SERVERS[1]];
    let commits = commits.map(|server| commit(card, plan, server, WALK.start, &[]));
    assert_eq!(commits, OF_COMMIT.map(|ground| Err(refused(ground))));
}

/// The numbers of some grounds.
pub fn numbers<const N: usize>(grounds: [CallGround; N]) -> [u8; N] {
    grounds.map(CallGround::number)
}

pub fn stated(documents: &Documents) -> Held {
    in_header(documents)?;
    in_formats(documents)?;
    let silence = *SILENCE;
    documents.theorems.says(&format!(
        "a missing arrival does what the byte {silence} does:"
    ))
}

fn in_header(documents: &Documents) -> Held {
    let page = &documents.header;
    let all = kinds();
    let kinds: Vec<String> = all.iter().map(|kind| format!("{kind:02X}")).collect();
    let named = [
        "AGREEMENT_TO_QUORUM",
        "AGREEMENT_WITHIN_QUORUM",
        "AGREEMENT_FROM_QUORUM",
        "AGREEMENT_REPORTS",
        "AGREEMENT_END",
    ];
    for (which, kind) in named.into_iter().zip(all.iter().chain([&WALK.end])) {
        let found = name(page, which)?;
        if found.value != usize::from(*kind) {
            return Err(page.fault(found.line, format!("{which} should be {kind:#04x}")));
        }
    }
    let words = State::from_words([0, 1, 2, 3, 4]).words();
    let [block, kind, v, t, open] = words.map(|place| format!("state[{place}]"));
    let [most_v, most_t, most_open] = [2, 3, 4].map(|place| word(place).most());
    let of = |which: &str| name(page, which).map(|name| name.value);
    let (answered, refused) = (of("AGREEMENT_ANSWERED")?, of("AGREEMENT_REFUSED")?);
    let [inputs_number, bad_state] = numbers(OF_START);
    let [_, buffer, out_of_turn] = numbers(OF_ASK);
    let most_input = inputs().most();
    let first = WALK.start;
    let sent = |which: &str| {
        let sent = kinds.iter().zip(&*SENT).filter(|(_, sent)| **sent == which);
        listed(sent.map(|(kind, _)| kind))
    };
    let [k11, k12, k13, k14] = &kinds[..] else {
        return Err(format!("there are the kinds {kinds:?}"));
    };
    let silence = *SILENCE;
    page.says_all(&[
        format!("a value that does not come counts as {silence}."),
        format!("to start: the server's own input above {most_input}"),
        format!("or with v above {most_v}, t above {most_t} or open above {most_open}"),
        format!("in each block for the kinds {} of carriages in turn", listed(&kinds)),
        format!("{block}  block   counted from {}; at the end the number", first.block),
        format!("{kind}  kind    of carriages,"),
        format!("and the end, for {kind}."),
        format!("{v}  v       the server's value, 0 or {most_v}"),
        format!("{t}  t       its working value: 0, 1, or {most_t} for unsure"),
        format!("{open}  open    {most_open} while an ask is open,"),
        format!("between an ask and its commit; else {}", first.open),
        format!("The words answer[1] to answer[{}] of an answered call", words.len()),
        format!("agreement_ask never refuses {buffer} for a buffer of so many bytes."),
        format!("at kind {k11} of block {}, v its input, t unsure,", first.block),
        format!("answer: {answered}, block, kind, v, t, open: that is {answered}, {},", first.block),
        format!("AGREEMENT_TO_QUORUM, input, {}, {}.", first.t, first.open),
        format!(
            "Or answer: {refused}, what is at fault, number, place, 0, 0: the refusal of card or plan, \
             {inputs_number} where the input is above {most_input}, or else {bad_state} where the server \
             is not in V."
        ),
        format!("answer: {answered}, block, kind, v, t, open, values."),
        format!("The state is as it was, but that `open` is now {most_open}."),
        "whose source is this server, and may be 0.".to_string(),
        format!(
            "v in the kinds {}, t, which may be {UNSURE}, in the kinds {}.",
            sent("v"),
            sent("t")
        ),
        format!("A {UNSURE} has to be sent too: one that does not come counts as {silence}."),
        format!("as often as it is asked, and `open` stays {}.", first.open),
        format!(
            "Or answer: {refused}, what is at fault, number, place, 0, 0, 0: the refusal of card or \
             plan, {bad_state} for the server or its state, {buffer} where `lent` is shorter than the \
             values due, or else {out_of_turn} where an ask is open already."
        ),
        "the carriage that is number i, from 0, of the kind's carriages".to_string(),
        format!("in plan order: 0 or 1, any other counting as unsure and a missing one as {silence}, as in"),
        format!("So {silence} stands for one that did not come while a later one did."),
        format!("answer: {answered}, block, kind, v, t, open: the state after"),
        format!("which are 1 and 2 in the kind {k11}, 3 in {k12}, 4 and 5 in {k13}, 6 in {k14}"),
        format!("at kind {k11} of the next block or at the end"),
        format!(
            "Or answer: {refused}, what is at fault, number, place, 0, 0: the refusal of card or plan, \
             {bad_state} for the server or its state, or else {out_of_turn} where no ask is open,"
        ),
    ])?;
    for (which, value) in [
        ("AGREEMENT_STATE_WORDS", words.len()),
        ("AGREEMENT_VALUES_LIMIT", *MOST_VALUES),
    ] {
        let found = name(page, which)?;
        if found.value != value {
            return Err(page.fault(found.line, format!("{which} should be {value}")));
        }
    }
    Ok(())
}

fn in_formats(documents: &Documents) -> Held {
    let page = &documents.formats;
    let title = "A server's own part";
    let all = kinds();
    let each: Vec<String> = all.iter().map(|kind| quoted(&[*kind])).collect();
    let [k11, .., k14] = &each[..] else {
        return Err(format!("there are the kinds {each:?}"));
    };
    let end = quoted(&[WALK.end]);
    let [most_v, most_t, most_open] = [2, 3, 4].map(|place| word(place).most());
    let first = WALK.start;
    let cells = |cells: &[&str]| cells.iter().map(|cell| cell.to_string()).collect();
    let words: Vec<Vec<String>> = vec![
        cells(&[
            "block",
            &format!(
                "the block, counted from {}; at the end the number of blocks",
                first.block
            ),
            &first.block.to_string(),
        ]),
        cells(&["kind", &format!("{k11} to {k14}, or {end} at the end"), k11]),
        cells(&["v", &format!("the value, 0 or {most_v}"), "the input"]),
        cells(&[
            "t",
            &format!("the working value: 0, 1, or {most_t} for unsure"),
            &first.t.to_string(),
        ]),
        cells(&[
            "open",
            &format!(
                "{most_open} between an ask and its commit, else {}",
                first.open
            ),
            &first.open.to_string(),
        ]),
    ];
    page.same_rows(&page.table(title, "word of a state")?, &words)?;
    let mut sent: Vec<Vec<String>> = each
        .iter()
        .zip(&*SENT)
        .map(|(kind, sent)| cells(&[kind, sent]))
        .collect();
    sent.push(cells(&[&format!("{end}, the end"), "v, the decided bit"]));
    page.same_rows(&page.table(title, "at kind")?, &sent)?;
    let walk = page.table(title, "in kind")?;
    page.same_cells(&walk.head, &head())?;
    page.same_rows(&walk, &WALK.rows())?;
    let [start, ask] = [numbers(OF_START).to_vec(), numbers(OF_ASK).to_vec()].map(listed);
    let commit = listed(numbers(OF_COMMIT));
    let [a, s] = SERVERS.map(|server| members(ServerSet::from_bits(1 << server)));
    let (shown, receiver) = (WALK.shown, SERVERS[1]);
    page.says_all(&[
        format!("along the four kinds of carriages, {}.", listed(&each)),
        format!(
            "From card, plan, server and its input, 0 or {}, comes",
            inputs().most()
        ),
        format!(
            "the state to start in: block {}, kind {k11}, v the input, t {}, no ask open.",
            first.block, first.t
        ),
        format!(
            "A {UNSURE} has to be sent like a bit, since a value that does not come counts as {}.",
            *SILENCE
        ),
        "Byte i of what arrived, from 0, came by carriage i".to_string(),
        format!(
            "so {} stands for a value that did not come",
            quoted(&[*SILENCE])
        ),
        format!("In the run the sources of {k11} send t, which step 1 has set to v."),
        format!("with inputs {}. A is {a} and S is {s};", listed(INPUTS)),
        format!("Server {receiver} takes t by step 2, from the one {k11}, and v in step 5."),
        format!("Both show {shown} at the end."),
        format!(
            "after these a start refuses {start}, an ask {ask}, a commit {commit}, in this order."
        ),
        format!("or v is above {most_v}, t above {most_t} or open above {most_open}."),
        format!(
            "Of a start, the server's own input is above {}.",
            inputs().most()
        ),
        format!(
            "; a start: the server's own input above {}",
            inputs().most()
        ),
        format!("A server that starts enters 0 or {}.", inputs().most()),
        format!("ask in the same state with open {}.", first.open),
    ])
}

/// The head of the table that goes through the walk.
fn head() -> Vec<String> {
    let each = |words: fn(u8) -> String| SERVERS.map(words);
    let sends = each(|server| format!("{server} sends"));
    let hears = each(|server| format!("{server} hears"));
    let states = each(|server| format!("state of {server} after it"));
    let first = ["in kind".to_string()];
    let cells = first.into_iter().chain(sends).chain(hears).chain(states);
    cells.collect()
}

impl Walk {
    /// The rows of the table that goes through it.
    fn rows(&self) -> Vec<Vec<String>> {
        let values = |values: &Vec<u8>| row(values);
        let state = |state: &State| {
            let State {
                block,
                kind,
                v,
                t,
                open,
            } = *state;
            format!("{block} {} {v} {t} {open}", quoted(&[kind as u8]))
        };
        let rows = self.taken.iter().map(|taken| {
            let kind = quoted(&[taken.kind]);
            let values = taken.sent.iter().chain(&taken.heard).map(values);
            let states = taken.after.iter().map(state);
            [kind].into_iter().chain(values).chain(states).collect()
        });
        rows.collect()
    }
}
