//! Sets of servers as bytes, and the split that docs/FORMATS.md goes through.

use super::library::*;
use super::numbers::{byte, listed, members, row, word};
use super::page::Held;
use super::Documents;
use agreement::{read_card, split_test, ServerSet};
use generate::{all_links, complete_card};

/// The bytes of single servers, of a few sets and of V, by the rows of cards; and how
/// many sets there are, which is the length of the table of sizes.
pub fn stated(documents: &Documents) -> Held {
    let most = SIZES.n.most();
    let single = |server| format!("{server} for {}", byte(row_of(&[server])));
    let singles = row((0..most).map(single));
    let all = row(SIZES.n.iter().map(|n| byte(all_servers(n))));
    let [two, third, none] = [row_of(&[0, 2]), row_of(&[2]), row_of(&[])];
    let (pair, two, third, none) = (members(two), byte(two), byte(third), byte(none));
    let sets = usize::from(all_servers(most).bits()) + 1;
    let eight = word(usize::from(most));
    documents.formats.says_all(&[
        format!("Server i stands for 2^i: server {singles}."),
        format!("{pair} is {two}, the empty set is {none}."),
        format!("V is {all} for n {}.", SIZES.n),
        format!("server 2 alone is {third}."),
        format!("links are held as {eight} rows of {eight} marks"),
        format!("Sizes of sets come from a table of {sets} entries."),
        format!("that of the empty set is {most}, which is no server."),
    ])?;
    documents.theorems.says_all(&[
        format!("The table of {sets} entries"),
        "sets of V: as numbers below 2^n".to_string(),
    ])?;
    documents.header.says("server i standing for 2^i.")
}

/// A server stands for 2^i, and the sets of V are the numbers below 2^n.
pub fn bytes_are_right() {
    for server in 0..SIZES.n.most() {
        assert_eq!(row_of(&[server]).bits(), 1 << server, "server {server}");
    }
    for n in SIZES.n.iter() {
        assert_eq!(u32::from(all_servers(n).bits()), (1 << n) - 1, "V of n {n}");
    }
}

/// The bad split of P3, with what each side hears.
pub fn split(documents: &Documents) -> Held {
    let card = complete_card(3, 1);
    let network = read_card(&card).expect("the card is accepted");
    let split = split_test(&card).expect("the card is accepted");
    let split = split.expect("P3 has a bad split");
    let heard = |side: ServerSet, others: ServerSet| {
        let incoming = network.incoming(side);
        (listed(incoming), word((incoming & others).len()))
    };
    let (of_r, of_l_c) = heard(split.r, split.l | split.c);
    let (of_l, of_r_c) = heard(split.l, split.r | split.c);
    let [f, l, c, r] = [split.f, split.l, split.c, split.r].map(members);
    let links = word(all_links(3).len());
    documents.formats.says_all(&[
        format!("An example is P3 below, n 3 f 1 with all {links} links:"),
        format!("F is {f}, L {l}, C {c}, R {r}."),
        format!("R has the incoming neighbours {of_r}, of which L∪C holds {of_l_c}."),
        format!("L has {of_l}, of which R∪C holds {of_r_c}."),
    ])
}
