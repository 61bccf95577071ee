//! What is turned back, and on which ground.

/// Why a card, a plan or a call is turned back.
///
/// `number` is the ground's number in the table of docs/FORMATS.md. `place` is the
/// position of the command byte at fault in the card or plan; the table says what
/// stands there when no such command exists.
#[derive(Debug, Clone, Copy, PartialEq, Eq)]
pub enum Refusal {
    /// The network card is at fault (numbers 1 to 5).
    Card { number: u8, place: usize },
    /// The route plan is at fault (numbers 1 to 3 and 7 to 11).
    Plan { number: u8, place: usize },
    /// The rest of the call is at fault (numbers 12 to 16 and 18). Number 17 hands a
    /// split back with it, see [`Unwritten`].
    ///
    /// [`Unwritten`]: crate::Unwritten
    Call { number: u8 },
}

/// The numbers of the table of refusals in docs/FORMATS.md; 6 is no longer given.
pub(crate) mod ground {
    /// Card or plan over its length.
    pub const TOO_LONG: u8 = 1;
    /// Unknown command in this file, or a command or its operands cut off.
    pub const NO_WHOLE_COMMAND: u8 = 2;
    /// Bytes follow the end command.
    pub const BYTES_AFTER_END: u8 = 3;
    /// Card: the first command is not the opening one, or the opening comes again.
    pub const OPENING_MISPLACED: u8 = 4;
    /// Card: n, f or a server out of range, or a link from a server to itself.
    pub const OUT_OF_RANGE: u8 = 5;
    /// Plan: the command, or the F and A of a block, is not the one due.
    pub const NOT_DUE: u8 = 7;
    /// Plan: S is empty or not within V - F.
    pub const BAD_SOURCE_SET: u8 = 8;
    /// Plan: a route breaks a rule on its own.
    pub const BAD_ROUTE: u8 = 9;
    /// Plan: a route shares a server with an earlier one to the same receiver.
    pub const ROUTES_NOT_DISJOINT: u8 = 10;
    /// Plan: k is not the one due, or N breaks its rule.
    pub const BAD_NEIGHBOURS: u8 = 11;
    /// Call: inputs are not n bytes of 0 or 1, or a server's own input is above 1.
    pub const BAD_INPUTS: u8 = 12;
    /// Call: more than f faulty servers, or one that is not in V.
    pub const BAD_FAULTY_SET: u8 = 13;
    /// Call: a server that is not in V, or a state at no place of the plan or with a
    /// word out of range. It shares its number with the faulty set, which no call for
    /// a single server has.
    pub const BAD_STATE: u8 = 13;
    /// Call: the lent buffer is too short: under n bytes for a run, shorter than the
    /// card to be written when a card is printed back, or than the values due when a
    /// server asks.
    pub const SHORT_BUFFER: u8 = 14;
    /// Call: some link of the card has no return, which the quick test is not for.
    pub const NO_RETURN: u8 = 15;
    /// Call: out of turn, that is a second ask while one is open, or a commit with
    /// none open.
    pub const OUT_OF_TURN: u8 = 16;
    /// Call: the network has a bad split, so that no plan can be written.
    pub const BAD_SPLIT: u8 = 17;
    /// Call: the plan to be written is longer than the lent buffer.
    pub const PLAN_TOO_LONG: u8 = 18;
}
