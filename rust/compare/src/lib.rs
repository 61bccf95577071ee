//! The proved library beside the reference: both are asked about the same cards, plans
//! and calls and must give the same answers.
//!
//! The proofs say that the library keeps its contracts. What they cannot say is that
//! the contracts mean what the papers mean, or that compiler, archive and wrapper
//! hand the answers on unchanged; these comparisons look at that.
//!
//! Of a run, besides, more is demanded than that both do the same: all sound servers
//! decide one bit, and it is the input of one of them. This is looked at in every
//! answered call, and [`runs::search`] tries hard to make it fail.
//!
//! Of a plan that is accepted, in any of these comparisons, the network has to be good: the
//! library's split test says none and there are at least 3f+1 servers. [`shows`] looks from
//! the other side, for a network with a bad split and a plan that is accepted for it all the
//! same.
//!
//! Of a load, the counts have to add up to the relaying places of the plan's bytes, and the
//! plan check has to refuse the same plans.
//!
//! Of a plan that is written, both may choose their routes; its length and the sets of its blocks
//! are compared, and the library's own plan check has to accept it ([`writes`]). In the same way
//! separate routes are held to their rules ([`routes`]).
//!
//! A server's own part is compared call by call, and the library has to be one with itself:
//! servers stepped side by side, each on its own, end with what the run decides.
//!
//! The numbers of the header and of the documents are held to the library too, in
//! [`documents`]; the reference has no say there.
//!
//! The loops stand here and `tests/` calls them. Run them optimised, since they go
//! through hundreds of thousands of cards, plans and calls and the reference scans
//! every split:
//!
//! ```text
//! cargo test --release                                  all tests
//! cargo test --release -p compare -- --nocapture        with the counts of answers
//! ```

#![forbid(unsafe_code)]

pub mod cards;
pub mod converted;
pub mod documents;
mod lent;
pub mod loads;
mod planned;
pub mod plans;
pub mod prints;
pub mod quicks;
pub mod rehearsals;
pub mod routes;
pub mod runs;
pub mod servers;
pub mod shows;
mod text;
pub mod writes;

use planned::planned;

/// `start`, then `bytes` over and over, up to `length` bytes.
fn repeated(start: &[u8], bytes: &[u8], length: usize) -> Vec<u8> {
    let over_and_over = bytes.iter().cycle();
    start
        .iter()
        .chain(over_and_over)
        .take(length)
        .copied()
        .collect()
}

/// Counts more.
fn add<const N: usize>(counts: &mut [usize; N], more: &[usize; N]) {
    for (count, more) in counts.iter_mut().zip(more) {
        *count += more;
    }
}
