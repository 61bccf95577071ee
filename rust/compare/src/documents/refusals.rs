//! The refusals' numbers wherever they stand in a row, and the order of the tests.

use super::grounds::{self, File};
use super::header;
use super::library::*;
use super::numbers::{self, quoted, row};
use super::own_part::{self, MOST_VALUES, OF_ASK, OF_COMMIT, OF_START};
use super::page::{Held, Page};
use super::writer;
use super::Documents;
use agreement::{check_plan, read_card, CallGround};
use generate::card_of;

/// Every list of the refusals has the wrapper's numbers, with the right files.
pub fn numbered(documents: &Documents) -> Held {
    same_table(&documents.formats)?;
    same_headings(&documents.formats)?;
    header::same_table(&documents.header)
}

/// The header has a name for each number.
pub fn named(documents: &Documents) -> Held {
    header::refusals(&documents.header)
}

/// The table of docs/FORMATS.md.
fn same_table(page: &Page) -> Held {
    let table = page.table("What is turned back", "number")?;
    let of = |number: u8| vec![number.to_string(), row(grounds::files(number))];
    let rows: Vec<Vec<String>> = grounds::numbers().into_iter().map(of).collect();
    page.same_rows(&table, &rows)?;
    for (row, number) in table.rows.iter().zip(grounds::numbers()) {
        let of_call = grounds::files(number) == [File::Call];
        if of_call != row.cells.get(3).is_some_and(|place| place == "none") {
            let what = "the refusals of a call, and no others, have no place";
            return Err(page.fault(row.line, what));
        }
    }
    Ok(())
}

/// The number of a heading such as `Refusal 7: not the one due`.
pub fn headed(title: &str) -> Option<u8> {
    let (number, _) = title.strip_prefix("Refusal ")?.split_once(':')?;
    number.parse().ok()
}

/// The heading of this refusal.
pub fn title(page: &Page, number: u8) -> Result<&str, String> {
    let mut titles = page.headings().into_iter().map(|heading| heading.2);
    let found = titles.find(|title| headed(title) == Some(number));
    found.ok_or_else(|| format!("{} has no `Refusal {number}: ..`", page.name))
}

fn same_headings(page: &Page) -> Held {
    let headings = page.headings().into_iter();
    let mut found = headings.filter(|heading| heading.2.starts_with("Refusal "));
    for number in grounds::numbers() {
        match found.next() {
            Some((_, _, title)) if headed(title) == Some(number) => {}
            Some((line, _, _)) => {
                let what = format!("`Refusal {number}: ..` should stand here");
                return Err(page.fault(line, what));
            }
            None => return Err(format!("{} has no `Refusal {number}: ..`", page.name)),
        }
    }
    match found.next() {
        Some((line, _, _)) => Err(page.fault(line, "there is no such refusal")),
        None => Ok(()),
    }
}

/// The sentences that list the numbers of a file or of the call, or count them all.
pub fn listed(documents: &Documents) -> Held {
    let call = row(File::Call.numbers());
    let of_run = [CallGround::Inputs, CallGround::FaultSet, CallGround::Buffer];
    let of_run = row(of_run.map(CallGround::number));
    let of_start = row(own_part::numbers(OF_START));
    let of_ask = row(own_part::numbers(OF_ASK));
    let of_commit = row(own_part::numbers(OF_COMMIT));
    let [buffer, one_way] = [CallGround::Buffer, CallGround::OneWay].map(CallGround::number);
    let of_writer = row(writer::OF_WRITER.map(CallGround::number));
    let of_routes = row(writer::OF_ROUTES.map(CallGround::number));
    let count = grounds::numbers().len();
    let of_card = Span::over("a card's refusal", &File::Card.numbers());
    let of_run_in = [CallGround::Inputs, CallGround::FaultSet].map(CallGround::number);
    let of_run_in = numbers::listed(of_run_in);
    let [card, plan] = [File::Card, File::Plan].map(|file| row(of_command(file)));
    documents.formats.says_all(&[
        format!("meets none of {of_card},"),
        format!("none of {of_run_in}."),
        format!(
            "then the call: {of_run} of a run, {buffer} of a card that is printed, {one_way} of the quick \
             test, {of_writer} of the plan writer, {of_routes} of separate routes, {of_start} of a start, \
             {of_ask} of an ask, {of_commit} of a commit."
        ),
        format!("{} is no longer given:", row(grounds::no_longer_given())),
        format!("In the order of the table: {card} in a card; {plan} in a plan."),
    ])?;
    documents.header.says(&format!(
        "The card's refusal comes before the plan's, and that before the call's {call}."
    ))?;
    documents.theorems.says_all(&[
        format!("number and place of each of the {count} refusals"),
        format!("card, plan, then {of_run};"),
        format!("and the run refused {of_run} and for its plan"),
        format!(
            "card, plan, then {of_start} of a start, {of_ask} of an ask, {of_commit} of a commit;"
        ),
        format!(
            "an ask into a buffer of {} bytes or more is never refused {buffer}",
            *MOST_VALUES
        ),
    ])
}

/// The numbers of the tests that a command meets: the length comes before all commands,
/// and what follows the end after them.
fn of_command(file: File) -> Vec<u8> {
    let [length, _, trailing, ..] = file.numbers()[..] else {
        panic!("a {file} has refusals of length and of bytes after its end");
    };
    let numbers = file.numbers().into_iter();
    numbers
        .filter(|number| ![length, trailing].contains(number))
        .collect()
}

/// Where one command breaks two rules, the first of the tests is the one that answers.
pub fn in_order(documents: &Documents) -> Held {
    let of_card = |card: &[u8]| read_card(card).expect_err("a refused card").number();
    let of_plan = |plan: &[u8]| {
        let answer = check_plan(&card_of(2, 0, &[(0, 1)]), plan);
        answer.expect_err("a refused plan").number()
    };
    let [block, head, end] = [BLOCK, HEAD, CARD_END].map(|command| quoted(&[command]));
    let cut_off = quoted(&[LINK, 0]);
    // What a fault is called where it is the only one.
    let (no_head, bad_n) = (of_card(&[CARD_END]), of_card(&[HEAD, 9, 0]));
    let (bad_a, bad_s) = (of_plan(&[BLOCK, 0, 5, 1]), of_plan(&[BLOCK, 0, 1, 0]));
    let trailing = of_card(&[HEAD, 2, 0, CARD_END, 0]);
    // And two at once.
    let (cut_no_head, head_bad_n) = (of_card(&[LINK, 0]), of_card(&[HEAD, 2, 0, HEAD, 9, 0]));
    let no_head_trailing = of_card(&[CARD_END, 0]);
    assert_eq!(of_plan(&[BLOCK, 0, 5, 0]), bad_a, "a bad A with a bad S");
    documents.formats.says_all(&[
        format!("In a {block}, F and A ({bad_a}) come before S ({bad_s})."),
        format!("{trailing} is met only after an end command that passed its own tests."),
        format!("So {cut_off} as a card is {cut_no_head} and not {no_head},"),
        format!("a second {head} with a bad n is {head_bad_n} and not {bad_n},"),
        format!("and {end} first is {no_head_trailing} even with bytes after it."),
    ])
}
