//! The commands of card and plan: their bytes, and how many operands each has.

use super::library::*;
use super::numbers::{quoted, word};
use super::page::Held;
use super::Documents;
use agreement::{check_plan, read_card, CardGround, PlanGround, Refusal};
use generate::complete_card;
use std::sync::LazyLock;

/// The commands of a card and of a block, with their operands.
const OF_CARD: [(u8, &str); 3] = [(HEAD, "n f"), (LINK, "u v"), (CARD_END, "")];
const OF_BLOCK: [(u8, &str); 5] = [
    (BLOCK, "F A S"),
    (TO_S, "route"),
    (WITHIN_S, "route"),
    (FROM_S, "route"),
    (REPORT, "k N"),
];

/// What the library says of them.
struct Commands {
    of_card: Vec<Vec<String>>,
    of_block: Vec<Vec<String>>,
    sentences: [String; 2],
}

static COMMANDS: LazyLock<Commands> = LazyLock::new(|| {
    let (of_card, of_plan) = (known(card_bytes), known(plan_bytes));
    let (end, bytes) = (quoted(&[PLAN_END]), plan_bytes(PLAN_END));
    let bytes = word(bytes.expect("the end is a command"));
    Commands {
        of_card: rows(&OF_CARD, card_bytes),
        of_block: rows(&OF_BLOCK, plan_bytes),
        sentences: [
            format!("A card has the commands {of_card}, a plan {of_plan};"),
            format!("After the last block stands {end}, the end: {bytes} byte without operands"),
        ],
    }
});

/// The tables of the commands, and the sentences on all of them.
pub fn stated(documents: &Documents) -> Held {
    let page = &documents.formats;
    let table = page.table("Network card", "command")?;
    page.same_rows(&table, &COMMANDS.of_card)?;
    let table = page.table("The commands of a block", "command")?;
    page.same_rows(&table, &COMMANDS.of_block)?;
    page.says_all(&COMMANDS.sentences)
}

/// The first three cells of each command's row.
fn rows(commands: &[(u8, &str)], bytes: fn(u8) -> Option<usize>) -> Vec<Vec<String>> {
    let row = |&(command, operands): &(u8, &str)| {
        let bytes = bytes(command).expect("the library knows the command");
        vec![quoted(&[command]), operands.to_string(), bytes.to_string()]
    };
    commands.iter().map(row).collect()
}

/// The commands that a file knows, of all bytes.
fn known(bytes: fn(u8) -> Option<usize>) -> String {
    let known: Vec<u8> = (0..=u8::MAX)
        .filter(|&command| bytes(command).is_some())
        .collect();
    let known = Span::over("a command", &known);
    format!(
        "{} to {}",
        quoted(&[known.least()]),
        quoted(&[known.most()])
    )
}

/// More bytes than any command has.
const PLENTY: usize = 16;

/// How many bytes a command of a card has: with fewer it is cut off. An unknown one is
/// refused on the same ground, with however many.
fn card_bytes(command: u8) -> Option<usize> {
    let is_whole = |bytes: &usize| {
        let mut card = vec![HEAD, 2, 0, command];
        card.resize(3 + bytes, 0);
        let ground = CardGround::Cut;
        read_card(&card) != Err(Refusal::Card { ground, place: 3 })
    };
    (1..PLENTY).find(is_whole)
}

/// The same of a plan.
fn plan_bytes(command: u8) -> Option<usize> {
    let card = complete_card(2, 0);
    let is_whole = |bytes: &usize| {
        let mut plan = vec![command];
        plan.resize(*bytes, 0);
        let ground = PlanGround::Cut;
        check_plan(&card, &plan) != Err(Refusal::Plan { ground, place: 0 })
    };
    (1..PLENTY).find(is_whole)
}

/// The bytes of a route operand, the same in all three commands.
pub fn route_operand() -> usize {
    let operands = [TO_S, WITHIN_S, FROM_S].map(|command| plan_bytes(command).map(|all| all - 1));
    let [Some(one), Some(two), Some(three)] = operands else {
        panic!("the library knows the commands of routes: {operands:?}");
    };
    assert!(one == two && two == three, "route operands of {operands:?}");
    one
}
