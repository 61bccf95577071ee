//! How long cards and plans can be.

use super::blocks::{due, Cut};
use super::library::*;
use super::numbers::{capital, grouped, listed, word};
use super::page::Held;
use super::plans::{choices, plan, shortest, Choice, Extreme, EXTREMES};
use super::Documents;
use crate::planned;
use crate::rehearsals::FILE_LIMIT;
use agreement::{check_plan, read_card, CardGround, PlanGround, Refusal, ServerSet};
use generate::{card_of, complete_card, places, Rng};

/// The sentences on plans that `rehearse` has no room for, on the longest plan and on the
/// longest card.
pub fn stated(documents: &Documents) -> Held {
    let limit = grouped(FILE_LIMIT);
    let mut never = extremes(|extreme| extreme.shortest > FILE_LIMIT);
    never.sort_by_key(|extreme| extreme.shortest);
    let mut at_times = extremes(|extreme| extreme.longest > FILE_LIMIT);
    at_times.retain(|extreme| extreme.shortest <= FILE_LIMIT);
    at_times.sort_by_key(|extreme| extreme.n);
    let longest = EXTREMES.iter().max_by_key(|extreme| extreme.longest);
    let longest = longest.expect("some size has a plan");
    let n = usize::from(SIZES.n.most());
    documents.formats.says_all(&[
        format!(
            "Networks of {} have no plan of {limit} bytes or less: the shortest have {} bytes.",
            listed(never.iter().map(|extreme| size(extreme))),
            listed(never.iter().map(|extreme| grouped(extreme.shortest)))
        ),
        format!(
            "Plans of {} can be over {limit} bytes too, if their sets S are large; they need not be.",
            listed(at_times.iter().map(|extreme| size(extreme)))
        ),
        format!(
            "The longest plan that can be accepted, of {}, has {} bytes, well under a plan's limit.",
            size(longest),
            grouped(longest.longest)
        ),
        format!(
            "{} servers with all {} links take a card of {} bytes if each is given once, and a \
             card has room for {} links in all, those given again included.",
            capital(word(n)),
            n * (n - 1),
            complete_card(SIZES.n.most(), SIZES.f.most()).len(),
            most_links()
        ),
    ])
}

fn extremes(wanted: impl Fn(&Extreme) -> bool) -> Vec<&'static Extreme> {
    EXTREMES.iter().filter(|extreme| wanted(extreme)).collect()
}

fn size(extreme: &Extreme) -> String {
    format!("n {} f {}", extreme.n, extreme.f)
}

/// How often a link can be given before the card is too long.
fn most_links() -> usize {
    let (n, f) = (SIZES.n.most(), SIZES.f.most());
    let is_refused = |&links: &usize| read_card(&card_of(n, f, &vec![(0, 1); links])).is_err();
    (0..).find(is_refused).expect("cards have a limit") - 1
}

/// Beside all links there can be, every further one is given again or out of range.
pub fn no_link_is_left() {
    let (n, f) = (SIZES.n.most(), SIZES.f.most());
    let card = complete_card(n, f);
    let network = read_card(&card).expect("all links are accepted");
    let start = &card[..card.len() - 1];
    for (u, v) in (0..=u8::MAX).flat_map(|u| (0..=u8::MAX).map(move |v| (u, v))) {
        let longer = [start, &[LINK, u, v, CARD_END]].concat();
        match read_card(&longer) {
            Ok(again) => assert!(again == network && network.linked(u, v), "{u} to {v}"),
            Err(Refusal::Card { ground, place }) => {
                let refused = (ground, place) == (CardGround::Range, start.len());
                assert!(refused && (u >= n || v >= n || u == v), "{u} to {v}");
            }
            Err(other) => panic!("a link from {u} to {v} beside all links: {other}"),
        }
    }
}

/// The formula of a block's length and the two extremes, on accepted plans with routes
/// and networks of all kinds.
pub fn formula_is_right() {
    for extreme in EXTREMES.iter() {
        let Extreme { n, f, .. } = *extreme;
        for seed in 0..6 {
            let (card, plan) = planned(&mut Rng::new(seed), n, f);
            assert!(check_plan(&card, &plan).is_ok(), "n {n} f {f} seed {seed}");
            let between = extreme.shortest..=extreme.longest;
            assert!(between.contains(&plan.len()), "n {n} f {f} seed {seed}");
            let places = places(&plan, &[BLOCK, PLAN_END]);
            for (cut, place) in due(n, f).into_iter().zip(places.windows(2)) {
                let block = opened(cut, &plan[place[0]..]);
                let length = place[1] - place[0];
                assert_eq!(
                    length,
                    block.length(f),
                    "n {n} f {f} seed {seed}: {block:?}"
                );
            }
        }
    }
}

/// The choices of a block by its opening command.
fn opened(cut: Cut, block: &[u8]) -> Choice {
    let [fault_set, a, s] = [1, 2, 3].map(|at| ServerSet::from_bits(block[at]));
    assert_eq!(fault_set, cut.fault_set, "F of a block");
    assert!([cut.with_lowest, cut.other].contains(&a), "A of a block");
    Choice { cut, a, s }
}

/// A choice with too few sources is refused, so that no plan is shorter by it.
pub fn too_few_sources_are_refused() {
    let (n, f) = (4, 1);
    let card = complete_card(n, f);
    let blocks = shortest(n, f);
    for (index, cut) in due(n, f).into_iter().enumerate() {
        for choice in choices(cut).filter(|choice| !choice.serves(f)) {
            let mut blocks = blocks.clone();
            blocks[index] = choice;
            let refused = match check_plan(&card, &plan(f, &blocks)) {
                Err(Refusal::Plan { ground, .. }) => ground == PlanGround::Shared,
                _ => false,
            };
            assert!(refused, "n {n} f {f}: {choice:?}");
        }
    }
}
