//! Which blocks are due, by the rules of docs/FORMATS.md: how many, and their order.

use super::library::{all_servers, every_size, least_n, BLOCK, SIZES};
use super::numbers::{byte, grouped, listed, members, ordinal, row, word};
use super::page::Held;
use super::plans::{choices, EXTREMES};
use super::Documents;
use agreement::{check_plan, PlanGround, Refusal, ServerSet};
use generate::complete_card;

/// A block that is due: F, and a way of cutting V-F into two parts.
#[derive(Debug, Clone, Copy)]
pub struct Cut {
    pub fault_set: ServerSet,
    /// The part that holds the lowest server of V-F.
    pub with_lowest: ServerSet,
    pub other: ServerSet,
}

impl Cut {
    /// V-F.
    pub fn rest(&self) -> ServerSet {
        self.with_lowest | self.other
    }

    fn lowest(&self) -> u8 {
        self.rest().iter().next().expect("two parts with servers")
    }

    /// Both parts have servers, and the first one has the lowest.
    fn is_due(&self) -> bool {
        let parts = [self.with_lowest, self.other];
        parts.iter().all(|part| !part.is_empty()) && self.with_lowest.contains(self.lowest())
    }
}

/// The blocks that are due, in order.
pub fn due(n: u8, f: u8) -> Vec<Cut> {
    let all = all_servers(n);
    let sets = || (0..=all.bits()).map(ServerSet::from_bits);
    let fault_sets = sets().filter(|set| set.len() <= usize::from(f));
    let cuts = fault_sets.flat_map(|fault_set| {
        let rest = all - fault_set;
        let parts = sets().filter(move |part| part.is_within(rest));
        parts.map(move |part| Cut {
            fault_set,
            with_lowest: part,
            other: rest - part,
        })
    });
    cuts.filter(Cut::is_due).collect()
}

/// How many blocks are due, by the page's formula.
fn count(n: u8, f: u8) -> usize {
    let sets = (0..=all_servers(n).bits()).map(ServerSet::from_bits);
    let fault_sets = sets.filter(|set| set.len() <= usize::from(f));
    let left = fault_sets.map(|set| usize::from(n) - set.len());
    left.filter(|&m| m > 0).map(|m| (1 << (m - 1)) - 1).sum()
}

/// The formula counts the blocks that the rules list, and those of the library wherever
/// it accepts a plan.
pub fn formula_is_right() {
    for (n, f) in every_size() {
        assert_eq!(due(n, f).len(), count(n, f), "blocks of n {n} f {f}");
    }
    for extreme in EXTREMES.iter() {
        let (n, f) = (extreme.n, extreme.f);
        assert_eq!(extreme.blocks, count(n, f), "blocks of n {n} f {f}");
    }
}

/// The library has the same order: where a block is due, no other F and no other A will
/// do.
pub fn order_is_right() {
    for (n, f) in [(3, 1), (4, 0), (4, 1), (5, 1)] {
        let card = complete_card(n, f);
        let mut plan = Vec::new();
        for cut in due(n, f) {
            no_other_is_due(&card, &plan, cut);
            // Three servers of which one may fail have a fourth block due, and no choice
            // for it.
            let Some(choice) = choices(cut).find(|choice| choice.serves(f)) else {
                break;
            };
            choice.put(f, &mut plan);
        }
    }
}

/// Tries every byte as F, and every byte as A, in the opening that is due after `plan`.
fn no_other_is_due(card: &[u8], plan: &[u8], cut: Cut) {
    let rest = cut.rest().bits();
    let (fault_set, a) = (cut.fault_set.bits(), cut.with_lowest.bits());
    let of_f = (0..=u8::MAX).map(|byte| [BLOCK, byte, a, rest]);
    let of_a = (0..=u8::MAX).map(|byte| [BLOCK, fault_set, byte, rest]);
    for opening in of_f.chain(of_a) {
        let (ground, place) = (PlanGround::NotDue, plan.len());
        let answer = check_plan(card, &[plan, &opening].concat());
        let is_refused = answer == Err(Refusal::Plan { ground, place });
        let is_due = opening[1] == fault_set && [a, cut.other.bits()].contains(&opening[2]);
        assert_eq!(is_refused, !is_due, "{opening:02x?} for {cut:?}");
    }
}

/// The sizes whose counts are proved, which are printed bold.
const PROVED: [(u8, u8); 4] = [(4, 0), (4, 1), (7, 2), (8, 2)];

/// The table of counts, and the four in docs/THEOREMS.md.
pub fn counted(documents: &Documents) -> Held {
    let page = &documents.formats;
    page.says("Where V−F has m servers there are 2^(m−1) − 1 ways.")?;
    let table = page.table("Which blocks are due", "blocks")?;
    let heads = SIZES.n.iter().map(|n| format!("n {n}"));
    let heads: Vec<String> = std::iter::once("blocks".to_string()).chain(heads).collect();
    page.same_cells(&table.head, &heads)?;
    let of_f = |f: u8| {
        let counts = SIZES.n.iter().map(|n| cell(n, f));
        std::iter::once(format!("f {f}")).chain(counts).collect()
    };
    let rows: Vec<Vec<String>> = SIZES.f.iter().map(of_f).collect();
    page.same_rows(&table, &rows)?;
    let counts = listed(PROVED.map(|(n, f)| grouped(count(n, f))));
    let sizes = row(PROVED.map(|(n, f)| format!("({n}, {f})")));
    documents
        .theorems
        .says(&format!("{counts} blocks for {sizes}"))
}

fn cell(n: u8, f: u8) -> String {
    let blocks = grouped(count(n, f));
    match PROVED.contains(&(n, f)) {
        true => format!("**{blocks}**"),
        false => blocks,
    }
}

/// The order worked out for n 3 f 1, and the parts for n 4 f 1.
pub fn ordered(documents: &Documents) -> Held {
    let page = &documents.formats;
    let due = due(3, 1);
    let set = |set| format!("{} = {}", byte(set), members(set));
    let cells = |(index, cut): (usize, &Cut)| {
        vec![
            ordinal(index).to_string(),
            set(cut.fault_set),
            set(cut.rest()),
            cut.lowest().to_string(),
            set(cut.with_lowest),
            set(cut.other),
        ]
    };
    let rows: Vec<Vec<String>> = due.iter().enumerate().map(cells).collect();
    page.same_rows(&page.table("Which blocks are due", "block")?, &rows)?;
    let all = byte(all_servers(3));
    let [a, b] = [due[3].with_lowest, due[3].other].map(byte);
    page.says_all(&[
        format!("The order worked out for n 3 f 1, where V is {all}:"),
        format!("A is either part: in the fourth block {a} or {b}."),
        parts_of_four(),
    ])
}

/// The sentence on n 4 f 1.
fn parts_of_four() -> String {
    let due = due(4, 1);
    let of_one_f = due.chunk_by(|one, next| one.fault_set == next.fault_set);
    let parts = of_one_f.map(|cuts| {
        let parts: Vec<String> = cuts.iter().map(|cut| byte(cut.with_lowest)).collect();
        format!("F {}: {}", byte(cuts[0].fault_set), parts.join(" "))
    });
    let parts: Vec<String> = parts.collect();
    let start = "For n 4 f 1 the parts that hold the lowest server are:";
    format!("{start} {}.", parts.join("; "))
}

/// How many servers f 1 and f 2 take, by the split test.
pub fn least_sizes(documents: &Documents) -> Held {
    let [one, two] = [1, 2].map(|f| word(usize::from(least_n(f))));
    documents.formats.says(&format!(
        "f 1 takes at least {one} servers and f 2 at least {two}; with fewer there is a bad split"
    ))
}
