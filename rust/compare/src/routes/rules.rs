//! The rules of separate routes, by themselves.

use super::tally::Call;
use reference::Network;

const ROUTE_BYTES: usize = 8;
const FILL: u8 = 0xff;

/// What is wrong with the bytes that were written for so many routes.
pub(super) fn fault(network: &Network, call: &Call, bytes: &[u8]) -> Option<String> {
    let mut met = 0;
    for operand in bytes.chunks(ROUTE_BYTES) {
        let shown = |what: &str| Some(format!("{what}: {operand:02x?}"));
        let fill = operand.iter().position(|&byte| byte == FILL);
        let (route, rest) = operand.split_at(fill.unwrap_or(operand.len()));
        if rest.iter().any(|&byte| byte != FILL) {
            return shown("a byte follows the fill");
        }
        let [source, .., receiver] = *route else {
            return shown("a route has two servers at least");
        };
        if receiver != call.receiver || source >= network.n || call.sources >> source & 1 == 0 {
            return shown("a route is from no source, or to another receiver");
        }
        let linked = |hop: &[u8]| {
            let [u, v] = [hop[0], hop[1]].map(usize::from);
            network.links.get(u).and_then(|row| row.get(v)) == Some(&true)
        };
        if !route.windows(2).all(linked) {
            return shown("two servers on a route are not linked");
        }
        for &server in &route[..route.len() - 1] {
            if server == receiver || (met | call.faults) >> server & 1 == 1 {
                return shown("a server on a route is faulty, or met before");
            }
            met |= 1 << server;
        }
    }
    None
}
