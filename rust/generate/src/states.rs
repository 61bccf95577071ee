//! The rest of a call for one server: which one, its input, its state and what arrived.

use crate::calls::bits;
use crate::plans::{END, NEIGHBOURS, ROUTE_TO_S};
use crate::rng::Rng;

/// A server: mostly one of the `n`, now and then one that is not in V.
pub fn server(rng: &mut Rng, n: u8) -> u8 {
    match rng.below(14) {
        0 => n,
        1 => rng.byte(),
        _ => rng.below(n.into()) as u8,
    }
}

/// A server's own input: mostly 0 or 1.
pub fn own_input(rng: &mut Rng) -> u8 {
    match rng.below(8) {
        0 => 2,
        1 => rng.byte(),
        _ => rng.below(2) as u8,
    }
}

/// The words of a state, for a plan of so many blocks: block, kind, v, t, open. Mostly it is
/// one that a server can be in, with its ask `open` or not, now and then the other way
/// round, or with a word or two that it cannot have.
pub fn state(rng: &mut Rng, blocks: usize, open: bool) -> [u64; 5] {
    let (v, t) = (rng.below(2) as u64, rng.below(3) as u64);
    let mut words = match rng.below(8) {
        0 => [blocks as u64, END.into(), v, t, 0],
        _ => {
            let block = rng.below(blocks) as u64;
            let kind = rng.between(ROUTE_TO_S.into(), NEIGHBOURS.into()) as u64;
            let open = u64::from(open ^ rng.one_in(5));
            [block, kind, v, t, open]
        }
    };
    if rng.one_in(4) {
        for _ in 0..rng.between(1, 2) {
            let place = rng.below(words.len());
            words[place] = other_word(rng, words[place]);
        }
    }
    words
}

/// A word next to this one, one that is the same in its low bytes, or any.
fn other_word(rng: &mut Rng, word: u64) -> u64 {
    match rng.below(9) {
        0 | 1 => word.wrapping_add(1),
        2 => word.wrapping_sub(1),
        3 => word.wrapping_add(2),
        4 => word.wrapping_add(1 << 8),
        5 => word.wrapping_add(1 << 32),
        6 => word.wrapping_add(1 << 63),
        7 => u64::MAX,
        _ => rng.next(),
    }
}

/// What arrived where so many bytes are due: mostly so many, else fewer or more; alike,
/// bits, or any bytes.
pub fn arrived(rng: &mut Rng, due: usize) -> Vec<u8> {
    let length = match rng.below(8) {
        0 => rng.below(due),
        1 => due.saturating_sub(1),
        2 => due + rng.between(1, 9),
        3 => due + rng.between(1, 300),
        _ => due,
    };
    match rng.below(6) {
        0 => vec![0; length],
        1 => vec![1; length],
        2 => rng.bytes(length),
        3 => (0..length).map(|_| rng.below(4) as u8).collect(),
        _ => bits(rng, length),
    }
}

#[cfg(test)]
mod tests {
    use super::*;

    #[test]
    fn servers_and_inputs_are_mostly_sound_but_not_always() {
        let mut rng = Rng::new(1);
        let outside = (0..1_000).filter(|_| server(&mut rng, 4) >= 4).count();
        assert!((50..400).contains(&outside));
        let no_bit = (0..1_000).filter(|_| own_input(&mut rng) > 1).count();
        assert!((50..400).contains(&no_bit));
    }

    #[test]
    fn states_are_mostly_sound_but_not_always() {
        let mut rng = Rng::new(2);
        let (mut sound, mut ended, mut as_wanted) = (0, 0, 0);
        for _ in 0..1_000 {
            let wanted = rng.one_in(2);
            let [block, kind, v, t, open] = state(&mut rng, 7, wanted);
            let in_range = v <= 1 && t <= 2 && open <= 1;
            let in_a_block = block < 7 && (0x11..=0x14).contains(&kind);
            let at_the_end = block == 7 && kind == 0x15 && open == 0;
            sound += usize::from(in_range && in_a_block);
            ended += usize::from(in_range && at_the_end);
            as_wanted += usize::from(open == u64::from(wanted));
        }
        assert!(sound > 500 && ended > 50 && sound + ended < 950);
        assert!((600..900).contains(&as_wanted));
    }

    #[test]
    fn arrivals_have_lengths_on_both_sides() {
        let mut rng = Rng::new(3);
        let lengths: Vec<usize> = (0..500).map(|_| arrived(&mut rng, 3).len()).collect();
        assert!((0..=6).all(|length| lengths.contains(&length)));
        assert!(lengths.iter().any(|&length| length > 100));
        assert!(arrived(&mut rng, 0).len() <= 300);
    }
}
