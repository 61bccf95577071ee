//! What an accepted plan shows of its network, as header, docs/FORMATS.md and
//! docs/THEOREMS.md tell of it, beside what the library answers.

use super::blocks::{due, Cut};
use super::header::name;
use super::library::*;
use super::page::Held;
use super::plans::{choices, plan, Choice};
use super::quick::formula;
use super::Documents;
use agreement::check_plan;
use generate::complete_card;

/// The least n with which the library accepts a plan at this f, for the network with all links.
fn fewest_planned(f: u8) -> u8 {
    let found = SIZES.n.iter().find(|&n| {
        let blocks: Vec<Choice> = due(n, f).into_iter().map(|cut| best(cut, f)).collect();
        check_plan(&complete_card(n, f), &plan(f, &blocks)).is_ok()
    });
    found.expect("some size has a plan")
}

/// An A and S for which f+1 separate routes lead to each receiver, or any, where there are too
/// few servers.
fn best(cut: Cut, f: u8) -> Choice {
    let best = choices(cut).max_by_key(|choice| choice.serves(f));
    best.expect("a cut has two parts")
}

/// What stands of it above the declaration of the plan check, and in the sections of plans.
pub fn stated(documents: &Documents) -> Held {
    let servers = formula(fewest_planned);
    let page = &documents.header;
    let answered = name(page, "AGREEMENT_ANSWERED")?.value;
    page.says(&format!(
        "wherever some plan is answered {answered}, blocks, carriages, 0, agreement_split_test \
         answers {answered}, 0, 0, 0, 0 for the same card, and n is at least {servers}."
    ))?;
    documents.formats.says(&format!(
        "if some plan is accepted for it, the split test says \"none\", and n is at least {servers}."
    ))?;
    documents
        .theorems
        .says(&format!("and n is at least {servers}"))
}
