//! What the library answers, as far as the documents put it into numbers.

use agreement::{check_plan, read_card, split_test, CardGround, PlanGround, Refusal, ServerSet};
use generate::{card_of, complete_card};
use std::fmt::{self, Display, Formatter};
use std::ops::RangeInclusive;
use std::sync::LazyLock;

/// Command bytes of card and plan. [`super::commands`] asks the library for them.
pub const HEAD: u8 = 0x01;
pub const LINK: u8 = 0x02;
pub const CARD_END: u8 = 0x03;
pub const BLOCK: u8 = 0x10;
pub const TO_S: u8 = 0x11;
pub const WITHIN_S: u8 = 0x12;
pub const FROM_S: u8 = 0x13;
pub const REPORT: u8 = 0x14;
pub const PLAN_END: u8 = 0x15;
/// What fills up a route.
pub const FILL: u8 = 0xff;

/// From a least number to a greatest, written `2 to 8`.
#[derive(Debug, Clone, PartialEq, Eq)]
pub struct Span(pub RangeInclusive<u8>);

impl Span {
    /// All of `values`, which are ascending and without a gap: else they are not what
    /// can be written so, and this panics.
    pub fn over(what: &str, values: &[u8]) -> Span {
        let [least, ..] = values else {
            panic!("the library takes no value for {what}");
        };
        let span = *least..=values[values.len() - 1];
        let no_gap = span.clone().eq(values.iter().copied());
        assert!(no_gap, "the library takes for {what} just {values:?}");
        Span(span)
    }

    pub fn least(&self) -> u8 {
        *self.0.start()
    }

    pub fn most(&self) -> u8 {
        *self.0.end()
    }

    pub fn iter(&self) -> RangeInclusive<u8> {
        self.0.clone()
    }
}

impl Display for Span {
    fn fmt(&self, out: &mut Formatter) -> fmt::Result {
        write!(out, "{} to {}", self.least(), self.most())
    }
}

/// The n and the f that a card is read with, of all bytes.
pub struct Sizes {
    pub n: Span,
    pub f: Span,
}

pub static SIZES: LazyLock<Sizes> = LazyLock::new(|| {
    let every = || 0..=u8::MAX;
    let reads = |n, f| read_card(&[HEAD, n, f, CARD_END]).is_ok();
    let n: Vec<u8> = every().filter(|&n| every().any(|f| reads(n, f))).collect();
    let f: Vec<u8> = every().filter(|&f| every().any(|n| reads(n, f))).collect();
    let sizes = Sizes {
        n: Span::over("n", &n),
        f: Span::over("f", &f),
    };
    for (n, f) in every().flat_map(|n| every().map(move |f| (n, f))) {
        // f is not held against n.
        let within = sizes.n.0.contains(&n) && sizes.f.0.contains(&f);
        let refusal = Refusal::Card {
            ground: CardGround::Range,
            place: 0,
        };
        let answer = read_card(&[HEAD, n, f, CARD_END]).map(|network| (network.n, network.f));
        let expected = if within { Ok((n, f)) } else { Err(refusal) };
        assert_eq!(answer, expected, "n {n} f {f}");
    }
    sizes
});

/// Every n and f that a card is read with, by f and then by n.
pub fn every_size() -> impl Iterator<Item = (u8, u8)> {
    SIZES
        .f
        .iter()
        .flat_map(|f| SIZES.n.iter().map(move |n| (n, f)))
}

/// Whether some network of this size has a plan: if the one with all links has a bad
/// split, so have those with fewer.
pub fn has_plan(n: u8, f: u8) -> bool {
    split_test(&complete_card(n, f)) == Ok(None)
}

/// The least n for which a network of `f` faults has a plan.
pub fn least_n(f: u8) -> u8 {
    let least = SIZES.n.iter().find(|&n| has_plan(n, f));
    least.expect("some network of each f has a plan")
}

/// The most bytes of a card that are not refused as too many.
pub static CARD_LIMIT: LazyLock<usize> = LazyLock::new(|| {
    limit(4_096, |bytes| match read_card(bytes) {
        Err(Refusal::Card { ground, .. }) => ground == CardGround::TooLong,
        _ => false,
    })
});

/// The same of a plan.
pub static PLAN_LIMIT: LazyLock<usize> = LazyLock::new(|| {
    let card = card_of(2, 0, &[(0, 1)]);
    limit(1 << 21, |bytes| match check_plan(&card, bytes) {
        Err(Refusal::Plan { ground, .. }) => ground == PlanGround::TooLong,
        _ => false,
    })
});

/// How many zeros are not yet too long, `most` of them being too long for sure.
fn limit(most: usize, too_long: impl Fn(&[u8]) -> bool) -> usize {
    let zeros = vec![0; most];
    let (mut fits, mut exceeds) = (0, most);
    assert!(!too_long(&[]) && too_long(&zeros), "there is a limit");
    while exceeds - fits > 1 {
        let between = (fits + exceeds) / 2;
        match too_long(&zeros[..between]) {
            true => exceeds = between,
            false => fits = between,
        }
    }
    fits
}

/// The byte that stands for a set of servers, by the row of a server outside it, which
/// has a link to each member.
pub fn row_of(members: &[u8]) -> ServerSet {
    let n = SIZES.n.most();
    let outside = (0..n).find(|server| !members.contains(server));
    let outside = outside.expect("a server without a link to itself");
    let links: Vec<(u8, u8)> = members.iter().map(|&member| (outside, member)).collect();
    let network = read_card(&card_of(n, 0, &links)).expect("the card is accepted");
    network.rows[usize::from(outside)]
}

/// V, by the rows of the network that has all links.
pub fn all_servers(n: u8) -> ServerSet {
    let network = read_card(&complete_card(n, 0)).expect("the card is accepted");
    let rows = network.rows.into_iter();
    rows.fold(ServerSet::EMPTY, |all, row| all | row)
}
