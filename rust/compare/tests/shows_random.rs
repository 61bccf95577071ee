//! Library and reference on near plans, which are sound but for the blocks that cannot be had;
//! run with `cargo test --release`.
//!
//! Each test fails at the first plan on which they differ, that is accepted for a network with
//! a bad split or refused for one without, or that is refused elsewhere than in the first
//! block that cannot be had, and says how it was made.

use compare::shows::{self, Tally};

/// Near plans as they are meet 7 to 10 so often, and damaged ones these and 11.
fn assert_refusals(tally: &Tally, times: usize) {
    for number in 7..=11 {
        let (near, damaged) = (&tally.near.plan_refused, &tally.damaged.plan_refused);
        let counts = (near[number], damaged[number]);
        // See `near_plans` for why none of these is refused 11.
        let often_enough = match number {
            11 => counts.0 == 0 && counts.1 >= times,
            _ => counts.0 >= times && counts.1 >= times,
        };
        assert!(often_enough, "refusal {number} was met {counts:?} times");
    }
}

/// Most near plans that pass the first block pass at least so many.
fn assert_near(tally: &Tally, blocks: usize) {
    let (passing, past_the_first) = (tally.passing(blocks), tally.passing(1));
    assert!(
        2 * passing > past_the_first,
        "{passing} of {past_the_first}"
    );
}

#[test]
fn good_networks_that_lost_links() {
    let tally = shows::spoilt_networks(360, 3);
    println!("good networks that lost links: {tally}");
    assert!(tally.bad_cards() >= 2_000 && tally.good_cards() == 0);
    assert_eq!(tally.near.plans(), 3 * tally.bad_cards());
    assert_refusals(&tally, 500);
    assert_eq!(tally.seldom(100), [""; 0], "these makeshifts are seldom");
    // Without faults no block can be had, where one cannot. With faults the first ones can.
    let without_faults: usize = tally.cards.iter().map(|by_f| by_f[0][1]).sum();
    assert_eq!(tally.passing(1), 3 * (tally.bad_cards() - without_faults));
    assert_near(&tally, 10);
    assert!(tally.passing(100) >= 200 && tally.in_one_way >= 1_000);
}

#[test]
fn random_networks() {
    let tally = shows::random_networks(240, 3);
    println!("random networks: {tally}");
    for n in 2..=8 {
        for f in 0..=2 {
            let [good, bad] = tally.cards[n][f];
            // Without faults few networks of many servers have a bad split.
            assert!(bad > 0 || f == 0, "n {n} f {f}: {bad} with a bad split");
            assert!(good == 0 || n > 3 * f, "n {n} f {f}: {good} without one");
        }
    }
    assert!(tally.bad_cards() >= 1_500 && tally.good_cards() >= 200);
    assert_refusals(&tally, 300);
}

#[test]
fn networks_of_every_density() {
    let tally = shows::networks_of_every_density(8, 2);
    println!("every density: {tally}");
    assert!(tally.bad_cards() >= 700 && tally.good_cards() >= 50);
    assert_refusals(&tally, 50);
}

#[test]
fn sparse_networks() {
    let tally = shows::sparse_networks(40, 2);
    println!("sparse networks: {tally}");
    assert!(tally.bad_cards() >= 300);
}

#[test]
fn two_way_networks() {
    let tally = shows::two_way_networks(16, 2);
    println!("two-way networks: {tally}");
    assert!(tally.bad_cards() >= 1_000 && tally.good_cards() >= 100);
    assert_refusals(&tally, 100);
    assert_near(&tally, 5);
}

#[test]
fn networks_of_too_few_servers() {
    let tally = shows::too_few_servers(200, 4);
    println!("too few servers: {tally}");
    assert!(tally.bad_cards() >= 1_000 && tally.good_cards() == 0);
    assert_refusals(&tally, 300);
}

#[test]
fn every_network_of_up_to_four_servers() {
    let tally = shows::every_small_network(8);
    println!("small networks: {tally}");
    let networks = (1 << 2) + (1 << 6) + (1 << 12);
    assert_eq!(tally.bad_cards() + tally.good_cards(), 3 * networks);
    // How many networks of two to four named servers have one that reaches all is known, 3, 51
    // and 3,614; without faults these are the good ones. With a fault there is one, that of
    // four servers with every link.
    assert_eq!(tally.good_cards(), 3 + 51 + 3_614 + 1);
    assert_refusals(&tally, 50);
}

#[test]
fn random_cards() {
    let tally = shows::random_cards(0..3_000, 2);
    println!("random cards: {tally}");
    assert!(tally.bad_cards() >= 200 && tally.good_cards() >= 100);
    assert_refusals(&tally, 30);
}

#[test]
fn cards_of_the_data_files() {
    let tally = shows::given_cards(4);
    println!("cards of the data files: {tally}");
    assert!(tally.bad_cards() >= 200 && tally.good_cards() >= 500);
    assert_refusals(&tally, 50);
}
