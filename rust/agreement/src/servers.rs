//! Sets of servers.

use std::fmt::{self, Debug, Display, Formatter};
use std::ops::{BitAnd, BitOr, Sub};

/// A set of servers, held in one byte: server `i` stands for 2^i.
///
/// ```
/// use agreement::ServerSet;
///
/// let failing: ServerSet = [0, 3].into_iter().collect();
/// assert_eq!(failing.bits(), 0b1001);
/// assert_eq!(failing.iter().collect::<Vec<u8>>(), [0, 3]);
/// assert_eq!(failing.to_string(), "0 3");
/// assert!(failing.contains(3) && !failing.contains(1));
/// ```
#[derive(Clone, Copy, PartialEq, Eq, PartialOrd, Ord, Hash, Default)]
pub struct ServerSet(u8);

impl ServerSet {
    /// No server.
    pub const EMPTY: ServerSet = ServerSet(0);

    /// The set that `bits` stands for; every byte is a set.
    pub const fn from_bits(bits: u8) -> ServerSet {
        ServerSet(bits)
    }

    /// The byte that stands for this set.
    pub const fn bits(self) -> u8 {
        self.0
    }

    /// The servers 0 to `n` - 1 of a network of `n` servers, at most eight.
    pub const fn first(n: u8) -> ServerSet {
        assert!(n <= 8, "there are at most eight servers");
        ServerSet(((1u16 << n) - 1) as u8)
    }

    /// Whether `server` is in the set; one from 8 on never is.
    pub const fn contains(self, server: u8) -> bool {
        server < 8 && self.0 >> server & 1 == 1
    }

    /// How many servers are in the set.
    pub const fn len(self) -> usize {
        self.0.count_ones() as usize
    }

    /// Whether there is no server in the set.
    pub const fn is_empty(self) -> bool {
        self.0 == 0
    }

    /// Whether every server of this set is in `other`.
    pub const fn is_within(self, other: ServerSet) -> bool {
        self.0 & !other.0 == 0
    }

    /// The servers of the set, ascending.
    pub fn iter(self) -> Members {
        Members(self.0)
    }
}

/// Servers in either set.
impl BitOr for ServerSet {
    type Output = ServerSet;

    fn bitor(self, other: ServerSet) -> ServerSet {
        ServerSet(self.0 | other.0)
    }
}

/// Servers in both sets.
impl BitAnd for ServerSet {
    type Output = ServerSet;

    fn bitand(self, other: ServerSet) -> ServerSet {
        ServerSet(self.0 & other.0)
    }
}

/// Servers in the first set that are not in the second.
impl Sub for ServerSet {
    type Output = ServerSet;

    fn sub(self, other: ServerSet) -> ServerSet {
        ServerSet(self.0 & !other.0)
    }
}

/// The servers of a set, ascending.
#[derive(Debug, Clone)]
pub struct Members(u8);

impl Iterator for Members {
    type Item = u8;

    fn next(&mut self) -> Option<u8> {
        if self.0 == 0 {
            return None;
        }
        let lowest = self.0.trailing_zeros() as u8;
        self.0 &= self.0 - 1;
        Some(lowest)
    }

    fn size_hint(&self) -> (usize, Option<usize>) {
        let left = self.0.count_ones() as usize;
        (left, Some(left))
    }
}

impl ExactSizeIterator for Members {}

impl IntoIterator for ServerSet {
    type Item = u8;
    type IntoIter = Members;

    fn into_iter(self) -> Members {
        self.iter()
    }
}

/// Panics at a server that cannot be, one from 8 on.
impl FromIterator<u8> for ServerSet {
    fn from_iter<I: IntoIterator<Item = u8>>(servers: I) -> ServerSet {
        servers.into_iter().fold(ServerSet::EMPTY, |set, server| {
            assert!(server < 8, "there is no server {server}");
            set | ServerSet(1 << server)
        })
    }
}

/// The servers with a space between them, `none` for the empty set.
impl Display for ServerSet {
    fn fmt(&self, out: &mut Formatter) -> fmt::Result {
        if self.is_empty() {
            return out.pad("none");
        }
        let servers: Vec<String> = self.iter().map(|server| server.to_string()).collect();
        out.pad(&servers.join(" "))
    }
}

impl Debug for ServerSet {
    fn fmt(&self, out: &mut Formatter) -> fmt::Result {
        out.debug_set().entries(self.iter()).finish()
    }
}

#[cfg(test)]
mod tests {
    use super::*;

    #[test]
    fn every_byte_is_the_set_of_its_members() {
        for bits in 0..=u8::MAX {
            let set = ServerSet::from_bits(bits);
            let members: Vec<u8> = (0..8).filter(|i| bits >> i & 1 == 1).collect();
            assert_eq!(set.iter().collect::<Vec<u8>>(), members);
            assert_eq!(set.iter().len(), set.len());
            assert_eq!(members.into_iter().collect::<ServerSet>(), set);
            assert!((0..=u8::MAX).all(|i| set.contains(i) == (i < 8 && bits >> i & 1 == 1)));
        }
    }

    #[test]
    fn sets_come_together_by_their_members() {
        let [one, other] = [0b0110, 0b0011].map(ServerSet::from_bits);
        assert_eq!((one | other).bits(), 0b0111);
        assert_eq!((one & other).bits(), 0b0010);
        assert_eq!((one - other).bits(), 0b0100);
        assert!((one - other).is_within(one) && !one.is_within(other));
        assert_eq!(ServerSet::first(0), ServerSet::EMPTY);
        assert_eq!(ServerSet::first(5).bits(), 31);
        assert_eq!(ServerSet::first(8).bits(), 255);
    }

    #[test]
    fn sets_are_written_as_their_members() {
        assert_eq!(ServerSet::EMPTY.to_string(), "none");
        assert_eq!(ServerSet::from_bits(0b1000_0101).to_string(), "0 2 7");
        assert_eq!(format!("{:?}", ServerSet::from_bits(6)), "{1, 2}");
    }
}
