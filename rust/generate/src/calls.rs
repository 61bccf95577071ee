//! The rest of a call to run: inputs, faulty set, message table and how much is lent.

use crate::carriages::Carriage;
use crate::plans::singleton;
use crate::rng::Rng;

/// Inputs for `n` servers: mostly n bytes of 0 or 1, now and then of a wrong length
/// or with a byte above 1.
pub fn inputs(rng: &mut Rng, n: u8) -> Vec<u8> {
    let n = usize::from(n);
    let mut inputs: Vec<u8> = match rng.below(5) {
        0 => vec![0; n],
        1 => vec![1; n],
        _ => (0..n).map(|_| rng.below(2) as u8).collect(),
    };
    match rng.below(12) {
        0 => {
            let length = rng.between(0, n + 3);
            inputs.resize(length, 0);
        }
        1 if n > 0 => {
            let place = rng.below(n);
            inputs[place] = match rng.below(2) {
                0 => 2,
                _ => rng.between(2, 255) as u8,
            };
        }
        _ => {}
    }
    inputs
}

/// A set of faulty servers: mostly at most `f` of the `n` servers, now and then too
/// many of them or one that is not in V.
pub fn faulty(rng: &mut Rng, n: u8, f: u8) -> u8 {
    match rng.below(14) {
        0 => rng.byte(),
        1 => some_servers(rng, n, usize::from(f) + 1),
        2 if n < 8 => singleton(rng.between(usize::from(n), 7) as u8),
        3..=6 => {
            let count = rng.between(0, usize::from(f));
            some_servers(rng, n, count)
        }
        _ => some_servers(rng, n, usize::from(f)),
    }
}

/// `count` random servers out of the first `n`, or all of them if `n` is less.
fn some_servers(rng: &mut Rng, n: u8, count: usize) -> u8 {
    let mut servers: Vec<u8> = (0..n.min(8)).collect();
    rng.shuffle(&mut servers);
    let chosen = servers.iter().take(count);
    chosen.fold(0, |set, &server| set | singleton(server))
}

/// A message table for a plan of so many carriages: random, constant, alternating,
/// short, empty or long, of bits or of any bytes.
pub fn table(rng: &mut Rng, carriages: usize) -> Vec<u8> {
    match rng.below(10) {
        0 => Vec::new(),
        1 => vec![0; carriages],
        2 => vec![1; carriages],
        3 => alternating(rng, carriages),
        4 => {
            let length = rng.between(0, carriages);
            bits(rng, length)
        }
        5 => {
            let length = carriages + rng.between(1, 40);
            bits(rng, length)
        }
        6 => rng.bytes(carriages),
        7 => (0..carriages).map(|_| rng.below(4) as u8).collect(),
        _ => bits(rng, carriages),
    }
}

/// How many ways of aiming [`aimed_table`] has.
pub const AIMS: usize = 9;

/// A message table that has something in mind, by the number `aim` below [`AIMS`]: one
/// byte for each of `carriages`, the plan's, against servers with these `inputs`.
///
/// Inputs of any length and any bytes are taken; a server that has none counts as 0.
pub fn aimed_table(rng: &mut Rng, aim: usize, carriages: &[Carriage], inputs: &[u8]) -> Vec<u8> {
    let input = |server: u8| inputs.get(usize::from(server)).copied().unwrap_or(0) & 1;
    let (one, other) = (rng.byte(), rng.byte());
    let blocks = carriages.last().map_or(0, |last| last.block + 1);
    let turn = rng.below(blocks);
    let is_in = |set: u8, server: u8| u8::from(set & singleton(server) != 0);
    let bytes = carriages.iter().map(|carriage| match aim {
        // The source says what it does not hold.
        0 => 1 - input(carriage.source),
        // Everybody hears that it is right, or wrong.
        1 => input(carriage.receiver),
        2 => 1 - input(carriage.receiver),
        // Two faces: some servers hear one bit all the time, the others the other.
        3 => is_in(one, carriage.receiver),
        // The same, but turned over from block to block.
        4 => is_in(one, carriage.receiver) ^ (carriage.block % 2) as u8,
        // One bit in each block, so that whole blocks pull in one direction.
        5 => (carriage.block % 2) as u8,
        // No bit for some servers, a lie for the others.
        6 if is_in(one, carriage.receiver) == 1 => 2,
        6 => 1 - input(carriage.source),
        // Whoever the route comes from decides what is said, and to whom it is said.
        7 => is_in(one, carriage.receiver) ^ is_in(other, carriage.source),
        // No bits, which keep different values apart for long, and bits from some block on.
        _ if carriage.block < turn => 2,
        _ => rng.below(2) as u8,
    });
    bytes.collect()
}

/// How many bytes are lent where so many are to be written: mostly enough or more, now and
/// then less.
pub fn lent(rng: &mut Rng, due: usize) -> usize {
    match rng.below(8) {
        0 => rng.below(due),
        1 => due.saturating_sub(1),
        2 => due + rng.between(1, 300),
        3 | 4 => due + rng.between(1, 9),
        _ => due,
    }
}

pub(crate) fn bits(rng: &mut Rng, count: usize) -> Vec<u8> {
    (0..count).map(|_| rng.below(2) as u8).collect()
}

/// 0 and 1 by turns, in runs of one length.
fn alternating(rng: &mut Rng, count: usize) -> Vec<u8> {
    let (first, length) = (rng.below(2), rng.between(1, 5));
    (0..count)
        .map(|number| ((number / length + first) % 2) as u8)
        .collect()
}

#[cfg(test)]
mod tests {
    use super::*;
    use crate::plans::ROUTE_FROM_S;

    #[test]
    fn inputs_are_mostly_sound_but_not_always() {
        let mut rng = Rng::new(1);
        let (mut sound, mut wrong_length, mut no_bit) = (0, 0, 0);
        for _ in 0..1_000 {
            let inputs = inputs(&mut rng, 5);
            if inputs.len() != 5 {
                wrong_length += 1;
            } else if inputs.iter().any(|&input| input > 1) {
                no_bit += 1;
            } else {
                sound += 1;
            }
        }
        assert!(sound > 700 && wrong_length > 20 && no_bit > 20);
    }

    #[test]
    fn faulty_sets_are_mostly_sound_but_not_always() {
        let mut rng = Rng::new(2);
        for (n, f) in [(2, 0), (4, 1), (7, 2), (8, 2)] {
            let (mut sound, mut too_many, mut outside) = (0, 0, 0);
            for _ in 0..1_000 {
                let faulty = faulty(&mut rng, n, f);
                if faulty.count_ones() > u32::from(f) {
                    too_many += 1;
                } else if u32::from(faulty) >> n != 0 {
                    outside += 1;
                } else {
                    sound += 1;
                }
            }
            assert!(sound > 600 && too_many > 20, "n {n} f {f}");
            assert!(outside > 20 || n == 8 || f == 0, "n {n} f {f}");
        }
    }

    #[test]
    fn tables_have_lengths_on_both_sides() {
        let mut rng = Rng::new(3);
        let lengths: Vec<usize> = (0..500).map(|_| table(&mut rng, 30).len()).collect();
        assert!(lengths.contains(&0) && lengths.contains(&30));
        assert!(lengths.iter().any(|&length| length > 30));
        assert!(lengths.iter().any(|&length| (1..30).contains(&length)));
        assert!(table(&mut rng, 0).len() <= 40);
    }

    #[test]
    fn aimed_tables_have_a_byte_for_each_carriage() {
        let mut rng = Rng::new(4);
        let carriage = |block, source, receiver| Carriage {
            block,
            kind: ROUTE_FROM_S,
            source,
            receiver,
            senders: singleton(source),
        };
        let carriages = [carriage(0, 0, 1), carriage(0, 1, 0), carriage(1, 1, 0)];
        for aim in 0..AIMS {
            let table = aimed_table(&mut rng, aim, &carriages, &[0, 1]);
            assert_eq!(table.len(), 3);
            assert!(table.iter().all(|&byte| byte <= 2), "aim {aim}: {table:?}");
            // Inputs that will be refused are taken as well.
            assert_eq!(aimed_table(&mut rng, aim, &carriages, &[255]).len(), 3);
        }
        assert_eq!(aimed_table(&mut rng, 0, &carriages, &[0, 1]), [1, 0, 0]);
        assert_eq!(aimed_table(&mut rng, 1, &carriages, &[0, 1]), [1, 0, 0]);
        assert_eq!(aimed_table(&mut rng, 2, &carriages, &[0, 1]), [0, 1, 1]);
        assert_eq!(aimed_table(&mut rng, 5, &carriages, &[0, 1]), [0, 0, 1]);
    }

    #[test]
    fn lent_buffers_have_lengths_on_both_sides() {
        let mut rng = Rng::new(5);
        let lengths: Vec<usize> = (0..500).map(|_| lent(&mut rng, 4)).collect();
        assert!((0..=8).all(|length| lengths.contains(&length)));
        assert!(lengths.iter().any(|&length| length > 100));
        assert!(lengths.iter().filter(|&&length| length < 4).count() < 200);
    }
}
