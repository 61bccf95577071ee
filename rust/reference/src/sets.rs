//! Sets of servers held in one byte, server `i` standing for `1 << i`.

/// The set that holds just `server`, which is below eight.
pub(crate) fn singleton(server: u8) -> u8 {
    1 << server
}

/// Whether `server`, which is below eight, is a member of `set`.
pub(crate) fn contains(set: u8, server: u8) -> bool {
    set & singleton(server) != 0
}

/// Whether every member of `inner` is a member of `outer`.
pub(crate) fn is_within(inner: u8, outer: u8) -> bool {
    inner & !outer == 0
}

/// The members of `set`, ascending.
pub(crate) fn members(mut set: u8) -> impl Iterator<Item = u8> {
    std::iter::from_fn(move || {
        if set == 0 {
            return None;
        }
        let lowest = set.trailing_zeros() as u8;
        set &= set - 1;
        Some(lowest)
    })
}

/// All subsets of `set` ascending as numbers, from the empty one to `set` itself.
pub(crate) fn subsets(set: u8) -> impl Iterator<Item = u8> {
    let mut upcoming = Some(0u8);
    std::iter::from_fn(move || {
        let subset = upcoming?;
        // Counting up by one in only those bit positions that `set` holds.
        upcoming = (subset != set).then(|| subset.wrapping_sub(set) & set);
        Some(subset)
    })
}

#[cfg(test)]
mod tests {
    use super::*;

    #[test]
    fn members_are_the_set_bits_ascending() {
        for set in 0..=u8::MAX {
            let expected: Vec<u8> = (0..8).filter(|&s| (set >> s) & 1 == 1).collect();
            assert_eq!(members(set).collect::<Vec<u8>>(), expected);
        }
    }

    #[test]
    fn subsets_are_all_subsets_ascending() {
        for set in 0..=u8::MAX {
            let expected: Vec<u8> = (0..=u8::MAX).filter(|&sub| sub & set == sub).collect();
            assert_eq!(subsets(set).collect::<Vec<u8>>(), expected);
        }
    }
}
