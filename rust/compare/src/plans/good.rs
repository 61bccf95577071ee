//! What an accepted plan shows of its network, by the library alone.

use agreement::{read_card, split_test, Network};
use reference::Refusal;

/// What is wrong with `card` if some plan is accepted for it: the card is refused, the split
/// test finds a bad split, or there are not 3f+1 servers.
///
/// An accepted plan rules all of that out, whoever made it: nothing else has to be known of
/// it, so the plan is not asked for.
pub(crate) fn fault(card: &[u8]) -> Option<&'static str> {
    let Ok(Network { n, f, .. }) = read_card(card) else {
        return Some("a plan is accepted for a card that is refused");
    };
    if split_test(card) != Ok(None) {
        return Some("a plan is accepted for a network with a bad split");
    }
    // Without faults 3f+1 is one server, and no network has so few.
    (n <= 3 * f).then_some("a plan is accepted for a network of fewer than 3f+1 servers")
}

/// The same after a call that checks card and plan first: where the call itself is refused, or
/// nothing is, the plan was accepted.
pub(crate) fn fault_after<T>(card: &[u8], answer: &Result<T, Refusal>) -> Option<&'static str> {
    match answer {
        Err(Refusal::Card { .. } | Refusal::Plan { .. }) => None,
        Ok(_) | Err(Refusal::Call { .. }) => fault(card),
    }
}
