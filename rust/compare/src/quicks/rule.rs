//! The quick test beside the card reader and the split test, by the library alone.

use agreement::{read_card, split_test, CallGround, Network, Quick, Refusal};

const ONE_WAY: Refusal = Refusal::Call {
    ground: CallGround::OneWay,
};

/// What is wrong with the quick test's answer on `card`, by what reader and split test say
/// of it.
pub(super) fn fault(card: &[u8], answer: Result<Quick, Refusal>) -> Option<&'static str> {
    let network = match read_card(card) {
        Ok(network) => network,
        Err(refusal) => {
            return (answer != Err(refusal)).then_some("the reader's refusal is not the answer")
        }
    };
    if !every_link_has_a_return(&network) {
        return (answer != Err(ONE_WAY)).then_some("a link without a return was passed over");
    }
    let Ok(Quick { holds, n, least }) = answer else {
        return Some("a two-way card was refused");
    };
    if n != network.n {
        return Some("the number of servers is not the card's");
    }
    if holds != (n > 3 * network.f && least > 2 * network.f) {
        return Some("the rule's word does not follow from its two numbers");
    }
    if holds != (split_test(card) == Ok(None)) {
        return Some("the rule and the split test differ");
    }
    None
}

fn every_link_has_a_return(network: &Network) -> bool {
    let servers = network.servers();
    servers.iter().all(|u| {
        let row = network.rows[usize::from(u)];
        row.iter().all(|v| network.linked(v, u))
    })
}
