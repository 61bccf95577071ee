//! What stands in a plan where what is due cannot be had.

/// Something against the rules that stands where a block cannot be had. Those of routes and of
/// blocks, where a plan has no other, would pass if just one rule were read wrong.
#[derive(Debug, Clone, Copy, PartialEq, Eq)]
pub enum Makeshift {
    /// A route that starts where another one to its receiver starts.
    SameSource,
    /// A route from another source that shares a server with another one to its receiver.
    SameRelay,
    /// A route that is there already.
    SameRoute,
    /// A route that is separate from the others, but does not start at a source.
    OtherSource,
    /// A route that is separate from the others, but for one step has no link.
    AbsentLink,
    /// A route that is separate from the others, but goes through a server of F.
    ThroughFaultSet,
    /// No route: just those that there are.
    RouteLeftOut,
    /// An N of those servers only that may be in it, f or fewer.
    NeighboursTooFew,
    /// An N with a server of V - F that has no link to k.
    NeighbourWithoutLink,
    /// An N with a server of F.
    NeighbourInFaultSet,
    /// An N with a server outside V.
    NeighbourOutside,
    /// No N.
    NeighboursLeftOut,
    /// An S without a server.
    QuorumEmpty,
    /// An S with a server of F, or one outside V.
    QuorumOutside,
    /// Another S than the one that the routes are for, a server more or less.
    QuorumOfOthers,
    /// No block.
    BlockLeftOut,
    /// A sound block of another cut with the same F.
    OtherCut,
}

use Makeshift::*;

/// What a makeshift stands for.
#[derive(Debug, Clone, Copy, PartialEq, Eq)]
pub(crate) enum Due {
    Route,
    Neighbours,
    Quorum,
    Block,
}

impl Makeshift {
    pub const ALL: [Makeshift; 17] = [
        SameSource,
        SameRelay,
        SameRoute,
        OtherSource,
        AbsentLink,
        ThroughFaultSet,
        RouteLeftOut,
        NeighboursTooFew,
        NeighbourWithoutLink,
        NeighbourInFaultSet,
        NeighbourOutside,
        NeighboursLeftOut,
        QuorumEmpty,
        QuorumOutside,
        QuorumOfOthers,
        BlockLeftOut,
        OtherCut,
    ];

    pub fn name(self) -> &'static str {
        match self {
            SameSource => "one source twice",
            SameRelay => "one relay twice",
            SameRoute => "one route twice",
            OtherSource => "route from elsewhere",
            AbsentLink => "absent link",
            ThroughFaultSet => "through F",
            RouteLeftOut => "route left out",
            NeighboursTooFew => "N of f servers or fewer",
            NeighbourWithoutLink => "N with a server without a link",
            NeighbourInFaultSet => "N with a server of F",
            NeighbourOutside => "N with a server outside V",
            NeighboursLeftOut => "N left out",
            QuorumEmpty => "S empty",
            QuorumOutside => "S outside V - F",
            QuorumOfOthers => "S not that of the routes",
            BlockLeftOut => "block left out",
            OtherCut => "block of another cut",
        }
    }

    /// What it stands for.
    pub(crate) fn due(self) -> Due {
        match self {
            SameSource | SameRelay | SameRoute => Due::Route,
            OtherSource | AbsentLink | ThroughFaultSet | RouteLeftOut => Due::Route,
            NeighboursTooFew | NeighbourWithoutLink => Due::Neighbours,
            NeighbourInFaultSet | NeighbourOutside | NeighboursLeftOut => Due::Neighbours,
            QuorumEmpty | QuorumOutside | QuorumOfOthers => Due::Quorum,
            BlockLeftOut | OtherCut => Due::Block,
        }
    }

    /// Whether a near plan may be refused for it: it never is for an N, see
    /// [`near_plans`](crate::near_plans).
    pub fn may_come_first(self) -> bool {
        self.due() != Due::Neighbours
    }

    /// The refusals that a plan meets whose first fault this is. Where something is left out,
    /// it goes by what stands there next.
    pub fn meant(self) -> &'static [u8] {
        match self {
            SameSource | SameRelay | SameRoute => &[10],
            OtherSource | AbsentLink | ThroughFaultSet => &[9],
            RouteLeftOut => &[7, 9],
            NeighboursTooFew | NeighbourWithoutLink | NeighbourInFaultSet | NeighbourOutside => {
                &[11]
            }
            NeighboursLeftOut => &[7, 11],
            QuorumEmpty | QuorumOutside => &[8],
            QuorumOfOthers => &[7, 9, 10],
            BlockLeftOut | OtherCut => &[7],
        }
    }

    /// Whether the fault may not be met before the block is over: something is missing then.
    pub fn may_end_the_block(self) -> bool {
        let leaves_out = [
            RouteLeftOut,
            NeighboursLeftOut,
            QuorumOfOthers,
            BlockLeftOut,
        ];
        leaves_out.contains(&self)
    }
}
