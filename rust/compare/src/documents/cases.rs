//! The small cases, as far as a function of the interface can be asked about them.

use super::examples::bytes;
use super::library::*;
use super::numbers::{byte, quoted, word};
use super::page::{Held, Page};
use super::rehearsal::{decided, line, Files};
use super::tables::Row;
use super::Documents;
use agreement::{check_plan, read_card, split_test, Refusal};
use generate::{all_links, card_of, complete_card};

/// Every row but P8 to P10, which are about a single step.
pub fn stated(documents: &Documents) -> Held {
    let page = &documents.formats;
    let table = page.table("Small cases", "case")?;
    let names = (1..=10).map(|number| vec![format!("P{number}")]);
    let unnamed = [vec![String::new()], vec![String::new()]];
    page.same_rows(&table, &names.chain(unnamed).collect::<Vec<_>>())?;
    let same = |row: usize, [what, answer]: [String; 2]| {
        let row = &table.rows[row];
        page.same_cells(row, &[row.cells[0].clone(), what, answer])
    };
    let given = |row: usize, words: &str| given(page, &table.rows[row], words);
    let (p1, card) = given(0, "card ")?;
    same(0, [p1, format!("accepted; {}", split_of(&card))])?;
    let no_links = split_of(&card_of(2, 0, &[]));
    same(1, ["n 2 f 0 without links".to_string(), no_links])?;
    same(2, complete(3, 1))?;
    same(3, complete(4, 1))?;
    let (p5, plan) = given(4, "P1 with plan ")?;
    same(4, [p5, accepted(&card, &plan)])?;
    let (p6, a) = given(5, "the same with A ")?;
    same(5, [p6, not_due(&card, &plan, &a)])?;
    same(6, both_decide(card, plan))?;
    same(10, most_sizes())?;
    let empty = short(&read_card(&[]));
    same(11, ["an empty card".to_string(), empty])
}

/// What a case is about, and the bytes that it gives between backticks after these words.
fn given(page: &Page, row: &Row, words: &str) -> Result<(String, Vec<u8>), String> {
    let what = row.cells.get(1).cloned().unwrap_or_default();
    let Some(quoted) = what.strip_prefix(words) else {
        return Err(page.fault(row.line, format!("`{words}` should begin the case")));
    };
    let bytes = bytes(quoted.trim_matches('`')).map_err(|fault| page.fault(row.line, fault))?;
    Ok((what, bytes))
}

/// What the split test answers.
fn split_of(card: &[u8]) -> String {
    match split_test(card) {
        Ok(None) => "no bad split".to_string(),
        Ok(Some(split)) => {
            let [f, l, c, r] = [split.f, split.l, split.c, split.r].map(byte);
            format!("bad split F {f}, L {l}, C {c}, R {r}")
        }
        Err(refusal) => line(refusal),
    }
}

/// The case of a network with all links.
fn complete(n: u8, f: u8) -> [String; 2] {
    let links = word(all_links(n).len());
    let what = format!("n {n} f {f}, all {links} links");
    [what, split_of(&complete_card(n, f))]
}

/// What the plan check answers.
fn accepted(card: &[u8], plan: &[u8]) -> String {
    match check_plan(card, plan) {
        Ok(totals) => {
            let counted = |count, what| match count {
                1 => format!("1 {what}"),
                _ => format!("{count} {what}s"),
            };
            let blocks = counted(totals.blocks, "block");
            let carriages = counted(totals.carriages, "carriage");
            format!("accepted, {blocks}, {carriages}")
        }
        Err(refusal) => line(refusal),
    }
}

/// What it answers with this A, and which command would not be refused in that place.
fn not_due(card: &[u8], plan: &[u8], a: &[u8]) -> String {
    let [command, fault_set, _, rest @ ..] = plan else {
        return "no block".to_string();
    };
    let changed = [&[*command, *fault_set], a, rest].concat();
    let answer = check_plan(card, &changed);
    let Err(Refusal::Plan { place, .. }) = answer else {
        return short(&answer);
    };
    if place == changed.len() {
        return short(&answer);
    }
    let is_due = |command: &u8| {
        let mut other = changed.clone();
        other[place] = *command;
        check_plan(card, &other) != answer
    };
    let due: Vec<u8> = (BLOCK..=PLAN_END).filter(is_due).collect();
    let (refused, due) = (short(&answer), quoted(&due));
    format!("plan {refused}, since a {due} route is due")
}

/// The number and place of a refusal.
fn short<T>(answer: &Result<T, Refusal>) -> String {
    let Err(refusal) = answer else {
        return "accepted".to_string();
    };
    match refusal.place() {
        Some(place) => format!("refused {} at place {place}", refusal.number()),
        None => format!("refused {}", refusal.number()),
    }
}

/// P7, whose inputs are 1 and 0.
fn both_decide(card: Vec<u8>, plan: Vec<u8>) -> [String; 2] {
    let run_in = vec![0, 1, 0];
    let what = "P5, inputs 1 and 0, faulty set `00`: the site `examples/small`".to_string();
    let answer = match decided(&Files { card, plan, run_in }, 2) {
        Ok(ran) if ran.decided[0] == ran.decided[1] => {
            format!("both servers decide {}", ran.decided[0])
        }
        Ok(ran) => format!("the servers decide {:?}", ran.decided),
        Err(refusal) => line(refusal),
    };
    [what, answer]
}

/// The greatest n and f, each with the next.
fn most_sizes() -> [String; 2] {
    let (n, f) = (SIZES.n.most(), SIZES.f.most());
    let what = format!("n {n} and n {}; f {f} and f {}", n + 1, f + 1);
    let [n, over_n] = [n, n + 1].map(|n| read(n, 0));
    let [f, over_f] = [f, f + 1].map(|f| read(2, f));
    [what, format!("{n} and {over_n}; {f} and {over_f}")]
}

/// Whether a card of this size is read.
fn read(n: u8, f: u8) -> String {
    match read_card(&card_of(n, f, &[])) {
        Ok(_) => "read".to_string(),
        Err(refusal) => format!("refused {}", refusal.number()),
    }
}

/// What docs/THEOREMS.md says of the same rows.
pub fn proved(documents: &Documents) -> Held {
    let (n, f) = (SIZES.n.most(), SIZES.f.most());
    let empty = read_card(&[]).expect_err("an empty card is refused");
    let place = empty.place().expect("the card is at fault");
    documents.theorems.says_all(&[
        format!("n {n} {}, {} {};", read(n, 0), n + 1, read(n + 1, 0)),
        format!("f {f} {}, {} {};", read(2, f), f + 1, read(2, f + 1)),
        format!("an empty card refused {} at {place};", empty.number()),
    ])
}
