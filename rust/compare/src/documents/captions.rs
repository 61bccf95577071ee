//! What docs/FORMATS.md says above its examples, held to the bytes of the examples.

use super::examples::{bytes, examples, Example};
use super::library::*;
use super::numbers::{capital, listed, members, ordinal, quoted, word};
use super::own_calls::{Call, What};
use super::page::{Held, Page};
use super::plans::{plan, shortest, MORE_THAN_F};
use super::rehearsal::{rehearsed, Files};
use super::{refusals, Documents};
use agreement::{check_plan, read_card, CallGround, CardGround, PlanGround, Refusal, ServerSet};
use generate::{all_links, card_of, complete_card, places};

/// The sentences that go with the examples of a section; `None` if the examples are not
/// of the kind that the sentences speak of.
type Caption = fn(&[Example]) -> Option<Vec<String>>;

pub fn stated(documents: &Documents) -> Held {
    let page = &documents.formats;
    page.says_all(&written())?;
    page.says_all(&absent_files())?;
    hold(page, "Network card", twins)?;
    hold(
        page,
        "Carriages, and what the plan check answers",
        carriages,
    )?;
    hold(page, "The plan writer", written_plan)?;
    hold(page, "Separate routes", separate)?;
    hold(page, "The load on each relay", load)?;
    hold(page, "A server's own part", own_part)?;
    let captions: [(u8, Caption); 10] = [
        (CardGround::Range.number(), out_of_range),
        (PlanGround::NotDue.number(), not_due),
        (PlanGround::Quorum.number(), quorum),
        (PlanGround::Route.number(), route),
        (PlanGround::Shared.number(), shared),
        (PlanGround::Reporters.number(), reporters),
        (CallGround::Inputs.number(), inputs),
        (CallGround::FaultSet.number(), faulty_set),
        (CallGround::OutOfTurn.number(), out_of_turn),
        (CallGround::PlanBuffer.number(), short_for_plan),
    ];
    for (number, caption) in captions {
        hold(page, refusals::title(page, number)?, caption)?;
    }
    Ok(())
}

fn hold(page: &Page, title: &str, caption: Caption) -> Held {
    let section = page.section(title)?;
    let heading = section.start - 1;
    match caption(&examples(page, section)?) {
        Some(sentences) => page.says_all(&sentences),
        None => Err(page.fault(
            heading,
            "the examples are not those that the text speaks of",
        )),
    }
}

/// How bytes are written.
fn written() -> Vec<String> {
    let repeated = bytes("FF x 6").expect("bytes as the examples have them");
    let (times, byte) = (word(repeated.len()), quoted(&repeated[..1]));
    let lent = word(1);
    vec![
        format!("`FF x 6` stands for {times} times {byte}."),
        format!("`buffer 1` means that the library's run is called with {lent} byte lent"),
        "`write 20` means that the plan writer is called with 20 bytes lent,".to_string(),
        "`routes 00 03 2` that separate routes are asked, with no faulty server, from {0, 1} to server 2,"
            .to_string(),
        "`start 1 00` is the start of server 1 with input 0;".to_string(),
        "`ask 1` and `commit 1 00` are its ask, with room for all values, and its commit of the arrival 0,"
            .to_string(),
    ]
}

/// The link that the card gives twice.
fn twins(examples: &[Example]) -> Option<Vec<String>> {
    let [example] = examples else { return None };
    let card = &example.files.card;
    let [HEAD, _, _, LINK, u, v, LINK, again @ .., CARD_END] = &card[..] else {
        return None;
    };
    let once = Files {
        card: [&card[..6], &card[9..]].concat(),
        ..example.files.clone()
    };
    let same = rehearsed(&once) == rehearsed(&example.files);
    (again == [*u, *v] && same).then(|| {
        vec![format!(
            "Here the link from {u} to {v} is given twice, and all goes as it does with one:"
        )]
    })
}

/// What is printed where a file is not there.
fn absent_files() -> Vec<String> {
    let (card, plan) = (complete_card(2, 0), plan(0, &shortest(2, 0)));
    let printed = |card: &[u8], plan: &[u8]| {
        let [card, plan] = [card, plan].map(<[u8]>::to_vec);
        let run_in = Vec::new();
        rehearsed(&Files { card, plan, run_in })
            .trim_end()
            .to_string()
    };
    let (no_card, no_plan) = (printed(&[], &[]), printed(&card, &[]));
    let no_run = printed(&card, &plan);
    vec![
        format!("An empty or absent card is `{no_card}`."),
        format!("an empty or absent plan is `{no_plan}`."),
        format!("empty or absent `run.in` is `{no_run}`, once card and plan are accepted."),
        "An empty `run.in` is faulty set 0 and no inputs.".to_string(),
    ]
}

/// A and S of the first block.
fn opened(plan: &[u8]) -> Option<[String; 2]> {
    let [_, _, a, s, ..] = *plan else {
        return None;
    };
    Some([a, s].map(|set| members(ServerSet::from_bits(set))))
}

fn carriages(examples: &[Example]) -> Option<Vec<String>> {
    let [example] = examples else { return None };
    let plan = &example.files.plan;
    let [a, s] = opened(plan)?;
    let due = [TO_S, FROM_S].map(|command| {
        let count = word(places(plan, &[command]).len());
        format!("{count} {}", quoted(&[command]))
    });
    let due = listed(due);
    Some(vec![format!(
        "In this plan A is {a} and S is {s}, so that {due} are due:"
    )])
}

/// The plan of one block and one link.
fn written_plan(examples: &[Example]) -> Option<Vec<String>> {
    let [example] = examples else { return None };
    let card = &example.files.card;
    let network = read_card(card).ok()?;
    let plan = agreement::plan_for(card).ok()?;
    let [HEAD, _, _, LINK, u, v, CARD_END] = card[..] else {
        return None;
    };
    let [_, s] = opened(&plan)?;
    let one_block = places(&plan, &[BLOCK]).len() == 1;
    let (servers, f) = (capital(word(usize::from(network.n))), network.f);
    let length = plan.len();
    one_block.then(|| {
        vec![format!(
            "{servers} servers, f {f}, and a link from {u} to {v}. The only block has S {s}, and its plan \
             has {length} bytes:"
        )]
    })
}

/// One byte is missing.
fn short_for_plan(examples: &[Example]) -> Option<Vec<String>> {
    let [example] = examples else { return None };
    let (card, lent) = (&example.files.card, example.lent_to_writer()?);
    let (n, length) = (*card.get(1)?, agreement::plan_for(card).ok()?.len());
    let servers = word(usize::from(n));
    (lent + 1 == length).then(|| {
        vec![format!(
            "The plan of {servers} servers has {length} bytes, and {lent} are lent:"
        )]
    })
}

/// Four servers, of which the first and the second are the sources, and then the first alone.
fn separate(examples: &[Example]) -> Option<Vec<String>> {
    let [found, met] = examples else { return None };
    let network = read_card(&found.files.card).ok()?;
    let links = [(0, 1), (0, 2), (1, 3), (2, 3)];
    let same = read_card(&card_of(4, 1, &links)) == Ok(network)
        && found.files.card == met.files.card
        && found.way()?.receiver == met.way()?.receiver;
    let (servers, f) = (capital(word(usize::from(network.n))), network.f);
    let routes = capital(word(usize::from(f) + MORE_THAN_F));
    let (from, receiver) = (members(found.way()?.sources), found.way()?.receiver);
    let only = met.way()?.sources.iter().next()?;
    same.then(|| {
        vec![
            format!(
                "{servers} servers, f {f}, with links from 0 to 1 and 2, and from 1 and 2 to 3. {routes} \
                 routes from {from} to {receiver} are separate;"
            ),
            format!("all routes from {only} alone begin there:"),
        ]
    })
}

/// A row of servers, in which the first is the S of every block.
fn load(examples: &[Example]) -> Option<Vec<String>> {
    let [example] = examples else { return None };
    let Files { card, plan, .. } = &example.files;
    let network = read_card(card).ok()?;
    let in_a_row =
        (0..network.n).all(|u| (0..network.n).all(|v| network.linked(u, v) == (v == u + 1)));
    let openings = places(plan, &[BLOCK]);
    let s = ServerSet::from_bits(*plan.get(openings.first()? + 3)?);
    let same = openings.iter().all(|place| plan[place + 3] == s.bits());
    // Each block has one route with a relay, the same in all of them.
    let routes = places(plan, &[FROM_S]).into_iter();
    let relayed: Vec<&[u8]> = routes
        .map(|place| &plan[place + 1..place + 5])
        .filter(|operand| operand[2] != FILL)
        .collect();
    let [source, relay, receiver, FILL] = *relayed.first()? else {
        return None;
    };
    let counts = agreement::load(card, plan).ok()?;
    let holds = in_a_row
        && same
        && relayed.iter().all(|route| route == &relayed[0])
        && counts.of(*relay) == openings.len()
        && counts.total() == openings.len();
    let (servers, f) = (capital(word(usize::from(network.n))), network.f);
    let (blocks, s) = (word(openings.len()), members(s));
    holds.then(|| {
        vec![format!(
            "{servers} servers in a row, f {f}. In each of the {blocks} blocks S is {s}, and the \
             route from {source} to {receiver} goes over {relay}:"
        )]
    })
}

fn out_of_range(examples: &[Example]) -> Option<Vec<String>> {
    let [of_n, of_f, of_v, of_both] = examples else {
        return None;
    };
    let (n, f) = (of_n.files.card.get(1)?, of_f.files.card.get(2)?);
    let (servers, v) = (listed(0..*of_v.files.card.get(1)?), of_v.files.card.get(5)?);
    let (u, same) = (of_both.files.card.get(4)?, of_both.files.card.get(5)?);
    let sentence = format!(
        "n is {n}; f is {f}; v is {v}, while the servers are {servers}; u and v are both {same}:"
    );
    (u == same).then_some(vec![sentence])
}

fn not_due(examples: &[Example]) -> Option<Vec<String>> {
    let [p6, early, stranger] = examples else {
        return None;
    };
    let Files { card, plan, .. } = &p6.files;
    let [a, s] = opened(plan)?;
    let place = check_plan(card, plan).err()?.place()?;
    let (due, found) = (
        quoted(&[due_at(card, plan, place)?]),
        quoted(&[plan[place]]),
    );
    let (server, n) = outside(stranger, 2)?;
    let early = quoted(&early.files.plan);
    Some(vec![
        format!(
            "In P6, A is {a} and S is {s}, so {due} is due at place {place}, and {found} is found."
        ),
        format!("Then {early} comes too early;"),
        format!("then A has server {server}, where n is {n}:"),
    ])
}

/// The one command that is not refused as not due at a place of the plan.
fn due_at(card: &[u8], plan: &[u8], place: usize) -> Option<u8> {
    let is_due = |command: &u8| {
        let mut plan = plan.to_vec();
        plan[place] = *command;
        let ground = PlanGround::NotDue;
        check_plan(card, &plan) != Err(Refusal::Plan { ground, place })
    };
    let mut due = (BLOCK..=PLAN_END).filter(is_due);
    let first = due.next();
    first.filter(|_| due.next().is_none())
}

/// The server outside V in a set of the first opening, and n.
fn outside(example: &Example, at: usize) -> Option<(u8, u8)> {
    let network = read_card(&example.files.card).ok()?;
    let strangers = ServerSet::from_bits(*example.files.plan.get(at)?) - network.servers();
    Some((strangers.iter().next()?, network.n))
}

fn quorum(examples: &[Example]) -> Option<Vec<String>> {
    let [_, stranger] = examples else {
        return None;
    };
    let (server, n) = outside(stranger, 3)?;
    Some(vec![format!(
        "S is empty; S has server {server}, where n is {n}:"
    )])
}

fn route(examples: &[Example]) -> Option<Vec<String>> {
    let [unlinked, _] = examples else {
        return None;
    };
    let [from, to, ..] = *unlinked.files.plan.get(5..)? else {
        return None;
    };
    let [u, v, ..] = *unlinked.files.card.get(4..)? else {
        return None;
    };
    let fill = quoted(&[FILL]);
    Some(vec![
        format!(
            "The route goes from {from} to {to}, and the card has only the link from {u} to {v};"
        ),
        format!("a server stands after the first {fill}:"),
    ])
}

fn shared(examples: &[Example]) -> Option<Vec<String>> {
    let [example] = examples else { return None };
    let (f, plan) = (*example.files.card.get(2)?, &example.files.plan);
    let servers = |place: usize| {
        let operand = plan[place + 1..].iter().take(8);
        let servers: Vec<u8> = operand.copied().filter(|&server| server != FILL).collect();
        servers
    };
    let routes: Vec<Vec<u8>> = places(plan, &[FROM_S]).into_iter().map(servers).collect();
    let arrows = |route: &Vec<u8>| listed(route).replace(", ", " → ").replace(" and ", " → ");
    let (source, receiver) = (routes.first()?.first()?, routes.first()?.last()?);
    let due = word(usize::from(f) + MORE_THAN_F);
    let shown = listed(routes.iter().map(arrows));
    Some(vec![
        format!("f is {f}, so {due} routes to receiver {receiver} are due."),
        format!("Both begin at server {source}: {shown}."),
    ])
}

fn reporters(examples: &[Example]) -> Option<Vec<String>> {
    let [example] = examples else { return None };
    let Files { card, plan, .. } = &example.files;
    let network = read_card(card).ok()?;
    let (n, f, links) = (network.n, network.f, all_links(network.n));
    let place = check_plan(card, plan).err()?.place()?;
    let [report, k, neighbours] = *plan.get(place..)? else {
        return None;
    };
    // Any other set of f+1 servers will do as well; the page names one.
    let right = [report, k, 0x06];
    let corrected = [&plan[..place], &right].concat();
    let complete = links.iter().all(|&(u, v)| network.linked(u, v));
    if !complete || check_plan(card, &corrected).err()?.place()? == place {
        return None;
    }
    let last = places(plan, &[BLOCK]).len() - 1;
    let (links, blocks, eighth) = (word(links.len()), word(last), ordinal(last));
    let neighbours = ServerSet::from_bits(neighbours);
    let (set, count) = (members(neighbours), word(neighbours.len()));
    let due = word(usize::from(f) + MORE_THAN_F);
    let (report, right, empty) = (quoted(&[report]), quoted(&right), quoted(&[0]));
    Some(vec![
        format!("A {report} comes only after all blocks of F {empty}, so the example is long:"),
        format!("n {n} f {f} with all {links} links, {blocks} blocks,"),
        format!("and the {eighth} up to its {report} at place {place}."),
        format!("There N is {set}, {count} server where {due} are due. {right} would do."),
    ])
}

/// Four calls of one server.
fn own_part(examples: &[Example]) -> Option<Vec<String>> {
    let calls: Option<Vec<&Call>> = examples.iter().map(Example::own_call).collect();
    let calls = calls?;
    let (server, kind) = (calls.first()?.server, examples.get(1)?.state.kind as u8);
    let same = calls.iter().all(|call| call.server == server);
    let [What::Start { .. }, What::Ask, What::Commit { .. }, What::Ask] =
        [0, 1, 2, 3].map(|at| &calls[at].what)
    else {
        return None;
    };
    same.then(|| {
        vec![format!(
            "The start of server {server}; its ask of {}, where it has nothing to send;",
            quoted(&[kind])
        )]
    })
}

fn inputs(examples: &[Example]) -> Option<Vec<String>> {
    let [of_run, of_start] = examples else {
        return None;
    };
    let inputs = of_run.files.run_in.get(1..)?;
    let server = inputs.iter().position(|&input| input > 1)?;
    let input = inputs[server];
    let call = of_start.own_call()?;
    let same = matches!(call.what, What::Start { input: own } if own == input);
    let same = same && usize::from(call.server) == server;
    same.then(|| {
        vec![format!(
            "The input of server {server} is {input}, in a run and in its own start:"
        )]
    })
}

fn faulty_set(examples: &[Example]) -> Option<Vec<String>> {
    let [of_run, no_server, no_block, no_route] = examples else {
        return None;
    };
    let (n, receiver) = (no_route.files.card.get(1)?, no_route.way()?.receiver);
    let faulty = listed(ServerSet::from_bits(*of_run.files.run_in.first()?));
    let f = of_run.files.card.get(2)?;
    let server = no_server.own_call()?.server;
    let Files { card, plan, .. } = &no_block.files;
    let (block, blocks) = (no_block.state.block, check_plan(card, plan).ok()?.blocks);
    let blocks = word(blocks);
    Some(vec![format!(
        "Server {faulty} is to be faulty, and f is {f}; there is no server {server} to start; no block \
         {block}, where the plan has {blocks} block; and no route to server {receiver}, where n is {n}:"
    )])
}

fn out_of_turn(examples: &[Example]) -> Option<Vec<String>> {
    let [again, early] = examples else {
        return None;
    };
    let (ask, commit) = (again.own_call()?, early.own_call()?);
    let (What::Ask, What::Commit { .. }) = (&ask.what, &commit.what) else {
        return None;
    };
    let server = ask.server;
    (server == commit.server).then(|| {
        vec![format!(
            "Server {server} asks a second time; then it commits before it has asked:"
        )]
    })
}
