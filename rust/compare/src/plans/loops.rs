//! The plans on which library and reference are compared.

use super::compared::Compared;
use super::tally::Damages;
use crate::planned::{planned, SMALL};
use crate::repeated;
use generate::{
    all_links, broken_off_plan, card_of, complete_card, damaged_plan, network_card, places,
    with_twins, Rng, DAMAGES,
};
use std::ops::Range;

/// The most bytes that a plan may have.
pub const PLAN_LIMIT: usize = 1_048_576;

/// Command bytes of the plan.
const BLOCK: u8 = 0x10;
const ROUTES: [u8; 3] = [0x11, 0x12, 0x13];
const NEIGHBOURS: u8 = 0x14;
const END: u8 = 0x15;
const FILL: u8 = 0xff;

/// The card and the plan of P5: two servers, no faults, one link.
const P5_CARD: [u8; 7] = [0x01, 0x02, 0x00, 0x02, 0x00, 0x01, 0x03];
const P5_PLAN: [u8; 14] = [
    0x10, 0x00, 0x01, 0x01, 0x13, 0x00, 0x01, 0xff, 0xff, 0xff, 0xff, 0xff, 0xff, 0x15,
];

/// The shortest of some accepted plans for random networks.
fn short_plan(n: u8, f: u8) -> (Vec<u8>, Vec<u8>) {
    let drawn = (0..20).map(|seed| planned(&mut Rng::new(seed), n, f));
    drawn.min_by_key(|(_, plan)| plan.len()).expect("20 plans")
}

/// For each seed a network of `n` servers and `f` faults with an accepted plan; then
/// that plan `times` times in every way of damage, and once more with two damages.
///
/// Panics if the sound plan is not accepted.
pub fn damaged_plans<T: Compared>(n: u8, f: u8, seeds: Range<u64>, times: usize) -> (T, Damages) {
    let (mut tally, mut damages) = (T::default(), Damages::default());
    for seed in seeds {
        let mut rng = Rng::new(seed);
        let (card, plan) = planned(&mut rng, n, f);
        let sound = tally.compare(&card, &plan, format_args!("plan, n {n} f {f} seed {seed}"));
        assert!(sound.is_ok(), "refused: plan, n {n} f {f} seed {seed}");
        for (index, damage) in DAMAGES.iter().enumerate() {
            let name = damage.name;
            for _ in 0..times {
                let Some(damaged) = damage.apply(&mut rng, &card, &plan) else {
                    continue;
                };
                let made_by = format_args!("damage, n {n} f {f} seed {seed}, {name}");
                let answer = tally.compare(&card, &damaged, made_by);
                damages.count(index, answer.err());
            }
            if let Some(damaged) = damage.apply(&mut rng, &card, &plan) {
                let twice = damaged_plan(&mut rng, &card, &damaged);
                let made_by = format_args!("two damages, n {n} f {f} seed {seed}, {name} first");
                let _ = tally.compare(&card, &twice, made_by);
            }
        }
    }
    (tally, damages)
}

/// Random networks of every n and f, with a bad split or without: a plan for as many
/// blocks as can be had, as it is and damaged `times` times.
pub fn broken_off_plans<T: Compared>(seeds: Range<u64>, times: usize) -> T {
    let mut tally = T::default();
    for seed in seeds {
        let mut rng = Rng::new(seed);
        // The plans of seven and eight servers are long.
        let n = match seed % 32 {
            0 => 7,
            1 => 8,
            rest => 2 + (rest % 5) as u8,
        };
        let f = (seed / 32 % 3) as u8;
        let card = network_card(&mut rng, n, f);
        let plan = broken_off_plan(&mut rng, &card);
        let made_by = format_args!("broken_off_plan, n {n} f {f} seed {seed}");
        let _ = tally.compare(&card, &plan, made_by);
        for _ in 0..times {
            let damaged = damaged_plan(&mut rng, &card, &plan);
            let made_by = format_args!("broken_off_plan damaged, n {n} f {f} seed {seed}");
            let _ = tally.compare(&card, &damaged, made_by);
        }
    }
    tally
}

/// Accepted plans together with the card of another network: one with some links
/// less, one with other links, one of another n or f.
pub fn other_cards<T: Compared>(seeds: Range<u64>) -> T {
    let mut tally = T::default();
    for seed in seeds {
        let mut rng = Rng::new(seed);
        let (n, f) = SMALL[seed as usize % SMALL.len()];
        let (card, plan) = planned(&mut rng, n, f);
        let all = all_links(n).len();
        let lacking = 1 + rng.below(all);
        let others = [
            generate::network_card_with(&mut rng, n, f, all - lacking),
            generate::network_card_with(&mut rng, n, f, all - 1),
            network_card(&mut rng, n, f),
            complete_card(n + 1, f),
            complete_card(n, f + 1),
            complete_card(2 + rng.below(7) as u8, rng.below(3) as u8),
            // The plan's own network with the last link left out.
            [&card[..card.len() - 4], &card[card.len() - 1..]].concat(),
        ];
        for (number, other) in others.iter().enumerate() {
            let made_by = format_args!("other_cards, n {n} f {f} seed {seed}, card {number}");
            let _ = tally.compare(other, &plan, made_by);
        }
    }
    tally
}

/// Plans for networks whose cards give links again, as they are and damaged `times`
/// times: each gets the answer that it gets with the card that gives each link once.
pub fn twin_cables<T: Compared>(seeds: Range<u64>, times: usize) -> T {
    let mut tally = T::default();
    for seed in seeds {
        let mut rng = Rng::new(seed);
        let (n, f) = SMALL[seed as usize % SMALL.len()];
        let (card, plan) = planned(&mut rng, n, f);
        for number in 0..=times {
            let plan = match number {
                0 => plan.clone(),
                _ => damaged_plan(&mut rng, &card, &plan),
            };
            let twins = with_twins(&mut rng, &card);
            let made_by = format_args!("twin_cables, n {n} f {f} seed {seed}, plan {number}");
            let alone = tally.compare(&card, &plan, made_by);
            assert_eq!(tally.compare(&twins, &plan, made_by), alone, "{made_by}");
        }
    }
    tally
}

/// Random cards, sound or damaged, with plans that do not look at them.
pub fn any_cards<T: Compared>(seeds: Range<u64>) -> T {
    let mut tally = T::default();
    let (_, sound) = planned(&mut Rng::new(1), 4, 1);
    let too_long = vec![BLOCK; PLAN_LIMIT + 1];
    for seed in seeds {
        let mut rng = Rng::new(seed);
        let card = generate::card(&mut rng);
        let like = generate::plan_like_bytes(&mut rng, &sound);
        // The card itself may be what is handed over as the plan.
        let plans = [&[][..], &P5_PLAN, &sound, &too_long, &card, &like];
        for (number, plan) in plans.into_iter().enumerate() {
            let made_by = format_args!("any_cards, seed {seed}, plan {number}");
            let _ = tally.compare(&card, plan, made_by);
        }
    }
    tally
}

/// Random bytes for random networks, most of them after the beginning of a sound
/// plan.
pub fn plan_like_bytes<T: Compared>(seeds: Range<u64>, times: usize) -> T {
    let mut tally = T::default();
    for seed in seeds {
        let mut rng = Rng::new(seed);
        let (n, f) = [(2, 0), (3, 0), (4, 0), (4, 1), (5, 1)][seed as usize % 5];
        let (card, plan) = planned(&mut rng, n, f);
        for _ in 0..times {
            let bytes = generate::plan_like_bytes(&mut rng, &plan);
            let made_by = format_args!("plan_like_bytes, n {n} f {f} seed {seed}");
            let _ = tally.compare(&card, &bytes, made_by);
        }
    }
    tally
}

/// Every beginning of accepted plans of `n` servers and `f` faults, the whole plan
/// included.
///
/// The bytes after the end of what is handed over are the rest of the sound plan, so
/// an implementation that read on would be found out.
pub fn truncations<T: Compared>(n: u8, f: u8, seeds: Range<u64>) -> T {
    let mut tally = T::default();
    for seed in seeds {
        let (card, plan) = planned(&mut Rng::new(seed), n, f);
        for length in 0..=plan.len() {
            let made_by = format_args!("plan, n {n} f {f} seed {seed}, cut off at {length}");
            let _ = tally.compare(&card, &plan[..length], made_by);
        }
    }
    tally
}

/// A short accepted plan with every one of its bytes set to every value, left out,
/// and with every byte of a plan put before it.
pub fn every_byte<T: Compared>(n: u8, f: u8) -> T {
    let mut tally = T::default();
    let (card, mut plan) = short_plan(n, f);
    for place in 0..plan.len() {
        let old = plan[place];
        for byte in 0..=u8::MAX {
            plan[place] = byte;
            let made_by = format_args!("short_plan, n {n} f {f}, byte {byte} at {place}");
            let _ = tally.compare(&card, &plan, made_by);
        }
        plan[place] = old;
        let removed = [&plan[..place], &plan[place + 1..]].concat();
        let made_by = format_args!("short_plan, n {n} f {f}, no byte {place}");
        let _ = tally.compare(&card, &removed, made_by);
        for byte in (0..=8).chain(0x0f..=0x16).chain([FILL]) {
            let inserted = [&plan[..place], &[byte], &plan[place..]].concat();
            let made_by = format_args!("short_plan, n {n} f {f}, {byte} inserted at {place}");
            let _ = tally.compare(&card, &inserted, made_by);
        }
    }
    tally
}

/// `count` of the places of commands of these kinds, spread over the plan, or all.
fn some_places(plan: &[u8], kinds: &[u8], count: usize) -> Vec<usize> {
    let places = places(plan, kinds);
    let step = places.len().div_ceil(count).max(1);
    places.into_iter().step_by(step).collect()
}

/// A short accepted plan with every pair of values for A and S, in `blocks` of its
/// blocks.
pub fn every_opening<T: Compared>(n: u8, f: u8, blocks: usize) -> T {
    let (card, plan) = short_plan(n, f);
    let places = some_places(&plan, &[BLOCK], blocks);
    every_pair(&card, &plan, places.iter().map(|place| place + 2))
}

/// A short accepted plan with every pair of values for k and N, in `sets` of its 14
/// commands.
pub fn every_neighbours<T: Compared>(n: u8, f: u8, sets: usize) -> T {
    let (card, plan) = short_plan(n, f);
    let places = some_places(&plan, &[NEIGHBOURS], sets);
    every_pair(&card, &plan, places.iter().map(|place| place + 1))
}

/// Every pair of values for the two bytes at each of these places.
fn every_pair<T: Compared>(card: &[u8], plan: &[u8], places: impl Iterator<Item = usize>) -> T {
    let mut tally = T::default();
    let mut plan = plan.to_vec();
    for place in places {
        let old = [plan[place], plan[place + 1]];
        for pair in 0..=u16::MAX {
            plan[place..place + 2].copy_from_slice(&pair.to_be_bytes());
            let made_by = format_args!("short_plan, {pair:04x} at {place}");
            let _ = tally.compare(card, &plan, made_by);
        }
        plan[place..place + 2].copy_from_slice(&old);
    }
    tally
}

/// An accepted plan that has routes of every kind.
fn plan_with_every_route(n: u8, f: u8) -> (Vec<u8>, Vec<u8>) {
    let mut drawn = (0..).map(|seed| planned(&mut Rng::new(seed), n, f));
    let has_every = |plan: &[u8]| ROUTES.iter().all(|&kind| !places(plan, &[kind]).is_empty());
    let found = drawn.find(|(_, plan)| has_every(plan));
    found.expect("seeds without end")
}

/// An accepted plan with every operand of a route whose first n+1 bytes are servers,
/// the number n or fill, and the others fill; in `routes` of its routes of each kind.
pub fn every_short_route<T: Compared>(n: u8, f: u8, routes: usize) -> T {
    let mut tally = T::default();
    let (card, mut plan) = plan_with_every_route(n, f);
    let bytes: Vec<u8> = (0..=n).chain([FILL]).collect();
    let length = usize::from(n) + 1;
    let chosen = ROUTES.map(|kind| some_places(&plan, &[kind], routes));
    for place in chosen.concat() {
        let operand = place + 1..place + 9;
        let old = plan[operand.clone()].to_vec();
        plan[operand.clone()].fill(FILL);
        for number in 0..bytes.len().pow(length as u32) {
            let mut rest = number;
            for byte in &mut plan[operand.clone()][..length] {
                *byte = bytes[rest % bytes.len()];
                rest /= bytes.len();
            }
            let made_by = format_args!("every_short_route, n {n} f {f}, {number} at {place}");
            let _ = tally.compare(&card, &plan, made_by);
        }
        plan[operand].copy_from_slice(&old);
    }
    tally
}

/// Plans of these lengths, which are longer than any accepted plan is: sound plans
/// with more behind them, commands over and over, random bytes; with sound and with
/// refused cards.
pub fn around_the_limit<T: Compared>(lengths: &[usize]) -> T {
    let mut tally = T::default();
    let (card, plan) = planned(&mut Rng::new(1), 8, 2);
    let first_block = &plan[..places(&plan, &[BLOCK])[1]];
    let longest = lengths.iter().copied().max().unwrap_or(0);
    let mut rng = Rng::new(2);
    let random: Vec<u8> = (0..longest).map(|_| rng.next() as u8).collect();
    let fillings = [
        repeated(&P5_PLAN, &[0], longest),
        repeated(&P5_PLAN, &[END], longest),
        repeated(&plan, &[END], longest),
        repeated(&plan, &plan, longest),
        repeated(&plan[..plan.len() - 1], first_block, longest),
        repeated(&[], first_block, longest),
        repeated(&[], &[END], longest),
        random,
    ];
    let cards = [&P5_CARD[..], &card, &card_of(8, 2, &[]), &card[1..], &[]];
    for &length in lengths {
        for (filling, bytes) in fillings.iter().enumerate() {
            for (number, card) in cards.into_iter().enumerate() {
                let made_by = format_args!(
                    "around_the_limit, length {length}, filling {filling}, card {number}"
                );
                let _ = tally.compare(card, &bytes[..length], made_by);
            }
        }
    }
    tally
}
