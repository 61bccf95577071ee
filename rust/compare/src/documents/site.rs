//! The site examples/small, byte by byte.

use super::numbers::{byte, members, quoted};
use super::page::{root, Held, Page};
use super::rehearsal::{decided, rehearsed, Files, LENT};
use super::tables::Table;
use super::Documents;
use agreement::{read_card, Network, ServerSet};
use std::fs;

const FOLDER: &str = "examples/small";

/// The bytes of the site's files.
fn files() -> Files {
    let read = |name: &str| {
        let path = root().join(FOLDER).join(name);
        fs::read(&path).unwrap_or_else(|why| panic!("{} cannot be read: {why}", path.display()))
    };
    Files {
        card: read("network.card"),
        plan: read("network.plan"),
        run_in: read("run.in"),
    }
}

/// Each table has a row for each byte of its file, and the text below is the site's.
pub fn small(documents: &Documents) -> Held {
    let page = &documents.formats;
    let files = files();
    let card = same_bytes(page, "network.card", &files.card)?;
    let plan = same_bytes(page, "network.plan", &files.plan)?;
    let run_in = same_bytes(page, "run.in", &files.run_in)?;
    let network = read_card(&files.card).expect("the site's card is accepted");
    let answer = decided(&files, LENT);
    assert!(answer.is_ok(), "{FOLDER} is refused: {answer:?}");
    same_meanings(page, &card, &card_meanings(&network))?;
    same_meanings(page, &plan, &plan_meanings(&network, &files.plan))?;
    same_meanings(page, &run_in, &run_meanings(&files.run_in))?;
    same_text(page, &rehearsed(&files))?;
    page.says_all(&sentences(&files))
}

/// What the byte at a place is said to mean, as far as that has numbers.
type Meanings = Vec<(usize, String)>;

fn same_bytes(page: &Page, name: &str, bytes: &[u8]) -> Result<Table, String> {
    let table = page.table(name, "place")?;
    let row = |(place, &byte): (usize, &u8)| vec![place.to_string(), quoted(&[byte])];
    let rows: Vec<Vec<String>> = bytes.iter().enumerate().map(row).collect();
    let held = page.same_rows(&table, &rows);
    held.map_err(|fault| format!("{fault}, by {FOLDER}/{name}"))?;
    Ok(table)
}

fn same_meanings(page: &Page, table: &Table, meanings: &Meanings) -> Held {
    for (place, meaning) in meanings {
        let row = &table.rows[*place];
        if !row.cells.get(2).is_some_and(|cell| cell.contains(meaning)) {
            return Err(page.fault(row.line, format!("it should say `{meaning}`")));
        }
    }
    Ok(())
}

fn card_meanings(network: &Network) -> Meanings {
    let Network { n, f, rows } = network;
    let last = n - 1;
    let v = byte(network.servers());
    let mut links = (0..*n).filter_map(|u| Some((u, rows[usize::from(u)].iter().next()?)));
    let (from, to) = links.next().expect("an accepted plan has a route");
    vec![
        (1, format!("n is {n}: servers 0 and {last}, V is {v}")),
        (2, format!("f is {f}: no server may fail")),
        (4, format!("from server {from}")),
        (5, format!("to server {to}")),
    ]
}

fn plan_meanings(network: &Network, plan: &[u8]) -> Meanings {
    let [fault_set, a, s] = [1, 2, 3].map(|place| ServerSet::from_bits(plan[place]));
    let rest = network.servers() - fault_set;
    let each = network.f + 1;
    let (source, receiver) = (plan[5], plan[6]);
    let [rest_of, a_of, b_of, s_of] = [rest, a, rest - a, s].map(members);
    vec![
        (1, format!("V−F is {rest_of}")),
        (2, format!("A is {a_of}, so B is {b_of}")),
        (3, format!("S is {s_of}: S−A is empty, so no `11` is due")),
        (3, "S has one server, so no `12` is due".to_string()),
        (4, format!("receiver {receiver}, the only server of V−F−S")),
        (4, format!("f+1 is {each}, so one route is due")),
        (5, format!("the source, server {source}, which is in S")),
        (6, format!("the receiver, server {receiver};")),
        (6, format!("the link from {source} to {receiver}")),
        (12, "the eighth byte of the operand".to_string()),
        (12, "F is empty, so no `14` is due".to_string()),
    ]
}

fn run_meanings(run_in: &[u8]) -> Meanings {
    let input = |server: usize| format!("the input of server {server} is {}", run_in[1 + server]);
    vec![(1, input(0)), (2, input(1))]
}

fn same_text(page: &Page, text: &str) -> Held {
    let section = page.section("What rehearse prints for it")?;
    let start = section.start;
    let [lines] = &page.fenced(section, "")[..] else {
        return Err(page.fault(start, "one text should follow"));
    };
    let found = &page.lines[lines.clone()];
    for (line, expected) in lines.clone().zip(text.lines()) {
        if page.lines[line] != expected {
            return Err(page.fault(line, format!("the library answers `{expected}`")));
        }
    }
    match found.len() == text.lines().count() {
        true => Ok(()),
        false => Err(page.fault(lines.start, format!("the library answers\n{text}"))),
    }
}

/// What else the page says of the site.
fn sentences(files: &Files) -> Vec<String> {
    let (card, plan) = (quoted(&files.card), &files.plan);
    let (source, receiver) = (plan[5], plan[6]);
    let value = files.run_in[1 + usize::from(source)];
    vec![
        format!("`echo {} | xxd -r -p", card.trim_matches('`')),
        format!(
            "Step 1 sets t of server {source} to {value}, step 4 carries it to server {receiver}, \
             and in step 5 server {receiver} takes it. Server {source} is in A∩S"
        ),
    ]
}
