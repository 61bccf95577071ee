//! What is turned back, and on which ground. docs/FORMATS.md of the library has an
//! example of each and says what to do about it.

use std::error::Error;
use std::fmt::{self, Display, Formatter};

/// Why a card, a plan or a call is turned back: what is at fault, the ground, and in a
/// card or a plan the place of the command byte at fault.
///
/// ```
/// use agreement::{CardGround, Refusal};
///
/// let refusal = agreement::read_card(&[0x01, 0x09, 0x00, 0x03]).unwrap_err();
/// assert_eq!(refusal, Refusal::Card { ground: CardGround::Range, place: 0 });
/// assert_eq!((refusal.number(), refusal.place()), (5, Some(0)));
/// assert_eq!(
///     refusal.to_string(),
///     "refused card 5 at byte 0: n, f or a server is out of range, or a link leads from a server to itself"
/// );
/// ```
#[derive(Debug, Clone, Copy, PartialEq, Eq, Hash)]
pub enum Refusal {
    /// The network card is at fault.
    Card { ground: CardGround, place: usize },
    /// The route plan is at fault.
    Plan { ground: PlanGround, place: usize },
    /// The rest of the call is at fault, which has no place.
    Call { ground: CallGround },
}

impl Refusal {
    /// The number that the header's table gives the ground.
    pub fn number(self) -> u8 {
        match self {
            Refusal::Card { ground, .. } => ground.number(),
            Refusal::Plan { ground, .. } => ground.number(),
            Refusal::Call { ground } => ground.number(),
        }
    }

    /// The place of the command byte at fault, from 0; `None` where the call is at fault.
    pub fn place(self) -> Option<usize> {
        match self {
            Refusal::Card { place, .. } | Refusal::Plan { place, .. } => Some(place),
            Refusal::Call { .. } => None,
        }
    }
}

impl Display for Refusal {
    fn fmt(&self, out: &mut Formatter) -> fmt::Result {
        match self {
            Refusal::Card { ground, place } => {
                write!(
                    out,
                    "refused card {} at byte {place}: {ground}",
                    ground.number()
                )
            }
            Refusal::Plan { ground, place } => {
                write!(
                    out,
                    "refused plan {} at byte {place}: {ground}",
                    ground.number()
                )
            }
            Refusal::Call { ground } => write!(out, "refused call {}: {ground}", ground.number()),
        }
    }
}

impl Error for Refusal {}

/// An enum of grounds, each with its number and its words, and the way back from the
/// number.
macro_rules! grounds {
    ($(#[$about:meta])* $name:ident { $($ground:ident = $number:literal, $words:literal;)* }) => {
        $(#[$about])*
        #[derive(Debug, Clone, Copy, PartialEq, Eq, Hash)]
        pub enum $name {
            $(#[doc = concat!($words, ".")] $ground = $number,)*
        }

        impl $name {
            /// All grounds, by their numbers.
            pub const ALL: &'static [$name] = &[$($name::$ground),*];

            /// The number that the header's table gives the ground.
            pub fn number(self) -> u8 {
                self as u8
            }

            pub(crate) fn of_number(number: u64) -> Option<$name> {
                match number {
                    $($number => Some($name::$ground),)*
                    _ => None,
                }
            }
        }

        impl Display for $name {
            fn fmt(&self, out: &mut Formatter) -> fmt::Result {
                out.pad(match self {
                    $($name::$ground => $words,)*
                })
            }
        }
    };
}

grounds! {
    /// Why a card is turned back.
    CardGround {
        TooLong = 1, "more bytes than a card may have";
        Cut = 2, "unknown command, or a command or its operands cut off";
        Trailing = 3, "bytes follow the end command";
        Head = 4, "the first command is not 01, or 01 stands again";
        Range = 5, "n, f or a server is out of range, or a link leads from a server to itself";
    }
}

grounds! {
    /// Why a plan is turned back.
    PlanGround {
        TooLong = 1, "more bytes than a plan may have";
        Cut = 2, "unknown command, or a command or its operands cut off";
        Trailing = 3, "bytes follow the end command";
        NotDue = 7, "the command, or the F and A of a block, is not the one due";
        Quorum = 8, "S is empty or not within V-F";
        Route = 9, "the route breaks a rule on its own";
        Shared = 10, "the route shares a server, the receiver aside, with an earlier one of its f+1";
        Reporters = 11, "k is not the one due, or N breaks its rule";
    }
}

grounds! {
    /// Why a call is turned back.
    CallGround {
        Inputs = 12, "the inputs are not n bytes of 0 or 1 or, to start a server, its own input is above 1";
        FaultSet = 13, "the faulty set has more than f servers, or one that is not in the network; or, for separate routes, a source or the receiver is not in the network; or, for a server's own part, the server is not in the network, or its state is at no place of the plan or has a word out of range";
        Buffer = 14, "the lent buffer has fewer than n bytes or, to print a card, fewer than the card to be written or, to ask, fewer than the values due or, for separate routes, fewer than the routes found";
        OneWay = 15, "some link has no return";
        OutOfTurn = 16, "an ask while one is open, or a commit while none is";
        BadSplit = 17, "the network has a bad split";
        PlanBuffer = 18, "the lent buffer is shorter than the plan to be written";
    }
}

#[cfg(test)]
mod tests {
    use super::*;

    #[test]
    fn numbers_and_grounds_go_both_ways() {
        for number in 0..=300 {
            let card = CardGround::of_number(number).map(CardGround::number);
            assert_eq!(
                card.map(u64::from),
                (1..=5).contains(&number).then_some(number)
            );
            let plan = PlanGround::of_number(number).map(PlanGround::number);
            let of_plan = (1..=3).contains(&number) || (7..=11).contains(&number);
            assert_eq!(plan.map(u64::from), of_plan.then_some(number));
            let call = CallGround::of_number(number).map(CallGround::number);
            assert_eq!(
                call.map(u64::from),
                (12..=18).contains(&number).then_some(number)
            );
        }
    }

    #[test]
    fn a_refusal_says_its_number_its_place_and_why() {
        let of_plan = Refusal::Plan {
            ground: PlanGround::Quorum,
            place: 4,
        };
        assert_eq!(
            of_plan.to_string(),
            "refused plan 8 at byte 4: S is empty or not within V-F"
        );
        assert_eq!((of_plan.number(), of_plan.place()), (8, Some(4)));
        let of_call = Refusal::Call {
            ground: CallGround::Buffer,
        };
        assert_eq!(
            of_call.to_string(),
            "refused call 14: the lent buffer has fewer than n bytes or, to print a card, fewer than \
             the card to be written or, to ask, fewer than the values due or, for separate routes, \
             fewer than the routes found"
        );
        assert_eq!((of_call.number(), of_call.place()), (14, None));
        let _: &dyn Error = &of_call;
    }
}
