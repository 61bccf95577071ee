//! The load on each relay, as header, docs/FORMATS.md and docs/THEOREMS.md tell of it, beside
//! what the library answers.

use super::library::*;
use super::numbers::{listed, quoted, word};
use super::page::Held;
use super::plans::{longest, plan, shortest};
use super::rehearsal::{line, Files};
use super::Documents;
use agreement::{load, Load};
use generate::{complete_card, places};
use std::sync::LazyLock;

/// What the library answers, in the line of an example.
pub fn answered(files: &Files) -> String {
    match load(&files.card, &files.plan) {
        Ok(Load { routes }) => {
            let counts = routes.map(|count| count.to_string());
            format!("relayed {}", counts.join(" "))
        }
        Err(refusal) => line(refusal),
    }
}

/// The commands of a plan whose operand may be a route over a relay, which is then counted.
static RELAYED: LazyLock<Vec<u8>> = LazyLock::new(|| {
    let (n, f) = (4, 1);
    // With S within A there is no 11, with S all of V-F no 13.
    let plans = [shortest(n, f), longest(n, f)].map(|blocks| plan(f, &blocks));
    let has_relay = |command: &u8| {
        let mut plans = plans.iter();
        plans.any(|plan| relayed(&complete_card(n, f), plan, *command))
    };
    (BLOCK..=PLAN_END).filter(has_relay).collect()
});

/// Whether `plan`, whose routes are all direct, can have a relay put into one of its commands
/// of this kind, and has one relaying place then.
fn relayed(card: &[u8], plan: &[u8], command: u8) -> bool {
    let total = |plan: &[u8]| load(card, plan).map(|load| load.total());
    assert_eq!(total(plan), Ok(0), "a plan of direct routes");
    let over = |place: usize, relay: u8| {
        let mut plan = plan.to_vec();
        let operand = plan.get_mut(place + 1..place + 4)?;
        operand.copy_from_slice(&[operand[0], relay, operand[1]]);
        Some(plan)
    };
    let relays = || 0..SIZES.n.most();
    let commands = places(plan, &[command]).into_iter();
    let mut changed =
        commands.flat_map(|place| relays().filter_map(move |relay| over(place, relay)));
    changed.any(|plan| total(&plan) == Ok(1))
}

pub fn stated(documents: &Documents) -> Held {
    let commands = RELAYED.iter();
    let in_header = listed(commands.clone().map(|command| format!("{command:02X}")));
    let in_formats = listed(commands.map(|command| quoted(&[*command])));
    let servers = SIZES.n.most();
    let (eight, last) = (word(usize::from(servers)), servers - 1);
    let sum = format!("{eight} counts add up to the relaying places over all routes,");
    documents.header.says_all(&[
        format!("Routes are those of the commands {in_header};"),
        sum.clone(),
    ])?;
    documents.formats.says_all(&[
        format!("answers with {eight} counts: how many routes servers 0 to {last} relay."),
        format!("answers with a count for each of servers 0 to {last}."),
        format!(
            "**Routes** are those of {in_formats}. A {} has no relay:",
            quoted(&[REPORT])
        ),
        "The counts from server n on are 0.".to_string(),
        sum,
    ])?;
    documents
        .theorems
        .says("the counts of servers from n on are 0")
}
