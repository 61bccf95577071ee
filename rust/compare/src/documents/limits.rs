//! The limits: those of docs/FORMATS.md, and the header's.

use super::clean::CLEAN_LIMIT;
use super::commands::route_operand;
use super::header;
use super::library::*;
use super::numbers::{capital, grouped, ordinal, quoted, word};
use super::own_part::MOST_VALUES;
use super::page::Held;
use super::plans::{plan, shortest};
use super::rehearsal::LENT;
use super::writer::MOST_ROUTES;
use super::Documents;
use crate::rehearsals::FILE_LIMIT;
use agreement::{check_plan, CallGround, CardGround};
use generate::complete_card;
use std::sync::LazyLock;

/// The table of limits, and the sentences that give one of them again.
pub fn stated(documents: &Documents) -> Held {
    let page = &documents.formats;
    page.same_rows(&page.table("Limits", "what")?, &rows())?;
    let [card, over, plan, file] =
        [*CARD_LIMIT, *CARD_LIMIT + 1, *PLAN_LIMIT, FILE_LIMIT].map(grouped);
    let (n, f, operand) = (&SIZES.n, &SIZES.f, route_operand());
    let (least, most, servers) = (n.least(), f.most(), n.most());
    let (fill, eighth) = (quoted(&[FILL]), ordinal(operand - 1));
    page.says_all(&[
        format!("a card of {card} bytes is read, one of {over} is refused."),
        format!("The card has over {card} bytes, or the plan over {plan}. The place is 0:"),
        format!("If any of the three files is over {file} bytes, the only line is `too long`"),
        format!("| `too long` | a file is over {file} bytes |"),
        format!("server 0 to server n−1. n is {n}."),
        format!("At most f servers may fail; f is {f}."),
        format!("n is {n} and f is {f}. f is not held against n: n {least} f {most} is read."),
        format!("n is not {n}, f not {f}, u or v is no server of V"),
        // A link chart has the same limits.
        format!("how many there are, {n}, or their names"),
        format!("`may fail` is f, {f}."),
        format!("`rehearse` lends {} and never meets this.", word(LENT)),
        format!("`AGREEMENT_SERVERS` bytes, which is {servers} and always enough,"),
        format!(
            "printed `AGREEMENT_CLEAN_CARD_LIMIT`, which is {}, and an ask `AGREEMENT_VALUES_LIMIT`, \
             which is {}.",
            *CLEAN_LIMIT, *MOST_VALUES
        ),
        format!(
            "Separate routes take `AGREEMENT_ROUTES`, which is {}, times `AGREEMENT_ROUTE_BYTES`, \
             which is {operand}, at most.",
            *MOST_ROUTES
        ),
        format!("lend `AGREEMENT_PLAN_LIMIT` bytes, which is {plan} and always enough."),
        format!("A route operand is {operand} bytes: source first"),
        format!("then {fill} up to the {eighth} byte, the fill."),
        format!("{} servers have no fill.", capital(word(operand))),
    ])?;
    let sentence = format!("the network of an accepted card: n {n}, f {f}, each link");
    documents.theorems.says(&sentence)
}

fn rows() -> Vec<Vec<String>> {
    let at_most = |bytes| format!("at most {} bytes", grouped(bytes));
    let sizes = format!("{}; {}", SIZES.n, SIZES.f);
    let (operand, servers) = (route_operand(), &*ROUTE_SERVERS);
    let route = format!("{operand} bytes: {servers} servers, then fill");
    let [card, plan, file] = [*CARD_LIMIT, *PLAN_LIMIT, FILE_LIMIT].map(at_most);
    let clean = format!(
        "at least the bytes of the clean card; {} are always enough",
        *CLEAN_LIMIT
    );
    let values = format!(
        "at least the values due; {} are always enough",
        *MOST_VALUES
    );
    let written = format!(
        "at least the bytes of the plan; {} are always enough",
        grouped(*PLAN_LIMIT)
    );
    let routes = format!(
        "at least {operand} bytes for each route found; {} are always enough",
        operand * *MOST_ROUTES
    );
    let rows = [
        ["servers n; servers that may fail, f", &sizes],
        ["card", &card],
        ["plan", &plan],
        ["each of the three files of `rehearse`", &file],
        ["route operand", &route],
        // What a call may be is held to the library in `calls`.
        ["inputs", "n bytes, each `00` or `01`"],
        ["faulty set of a call", "at most f servers, all of V"],
        ["message table", "any number of bytes, or none"],
        ["lent buffer of a run", "at least n bytes"],
        ["lent buffer to print a card", &clean],
        ["lent buffer of the plan writer", &written],
        ["lent buffer of separate routes", &routes],
        ["a server's own input", "0 or 1"],
        ["lent buffer of an ask", &values],
        ["what arrived, for a commit", "any number of bytes, or none"],
    ];
    rows.map(|row| row.map(str::to_string).to_vec()).to_vec()
}

/// How many servers a route may have: one of a plan for the most servers is made longer.
static ROUTE_SERVERS: LazyLock<Span> = LazyLock::new(|| {
    let n = SIZES.n.most();
    let card = complete_card(n, 0);
    let plan = plan(0, &shortest(n, 0));
    // The opening of the first block has four bytes, and a route follows it.
    let operand = 5..5 + route_operand();
    let [source, receiver] = [plan[operand.start], plan[operand.start + 1]];
    let between: Vec<u8> = (0..n)
        .filter(|server| ![source, receiver].contains(server))
        .collect();
    let is_accepted = |&servers: &u8| {
        let ends = [vec![source], vec![receiver]];
        let route = match usize::from(servers).checked_sub(2) {
            Some(relays) => ends.join(&between[..relays]),
            None => vec![source],
        };
        let mut changed = plan.clone();
        changed[operand.clone()].fill(FILL);
        changed[operand.start..][..route.len()].copy_from_slice(&route);
        check_plan(&card, &changed).is_ok()
    };
    let servers: Vec<u8> = (1..=n).filter(is_accepted).collect();
    Span::over("servers of a route", &servers)
});

/// The header's own, in its comments and by its names.
pub fn in_header(documents: &Documents) -> Held {
    let page = &documents.header;
    let (n, f) = (&SIZES.n, &SIZES.f);
    let [card, plan] = [*CARD_LIMIT, *PLAN_LIMIT].map(grouped);
    let (length, buffer) = (CardGround::TooLong.number(), CallGround::Buffer.number());
    page.says_all(&[
        format!("n from {n}; f, from {f}, bounds how many are faulty"),
        format!("card or plan over its length ({card} and {plan} bytes), place 0"),
        format!("agreement_run never refuses {buffer} for a buffer of so many bytes."),
        format!("agreement_print_card never refuses {buffer} for a buffer of so many bytes."),
        format!("longer ones are refused {length}."),
        format!(
            "agreement_write_plan never refuses {} for a buffer of so many bytes.",
            CallGround::PlanBuffer.number()
        ),
        format!(
            "The most f+1: agreement_separate_routes never refuses {buffer} for a buffer of so many routes."
        ),
        format!("its servers from source to receiver, then {FILL:02X}."),
    ])?;
    for (name, value) in [
        ("AGREEMENT_SERVERS", usize::from(n.most())),
        ("AGREEMENT_CLEAN_CARD_LIMIT", *CLEAN_LIMIT),
        ("AGREEMENT_CARD_LIMIT", *CARD_LIMIT),
        ("AGREEMENT_PLAN_LIMIT", *PLAN_LIMIT),
        ("AGREEMENT_ROUTE_BYTES", route_operand()),
        ("AGREEMENT_ROUTES", *MOST_ROUTES),
    ] {
        let found = header::name(page, name)?;
        if found.value != value {
            return Err(page.fault(found.line, format!("{name} should be {value}")));
        }
    }
    header::in_parentheses(page)
}
