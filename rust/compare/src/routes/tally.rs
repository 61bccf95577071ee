//! Comparing the two implementations on one call, and counting what they answer.

use super::rules;
use crate::converted;
use crate::lent::written;
use crate::text::{hex, plain_refusal};
use agreement::{Separate, ServerSet, ROUTES_LIMIT, ROUTE_BYTES};
use reference::{read_card, separate_routes, smallest_cut, Network, Refusal};
use std::fmt::{self, Arguments, Display, Formatter};

/// What the library answers.
type Answer = Result<Separate, Refusal>;

/// From where, to where, and which servers are left out.
#[derive(Debug, Clone, Copy)]
pub(super) struct Call {
    pub faults: u8,
    pub sources: u8,
    pub receiver: u8,
}

impl Call {
    /// Whether every server that is named is there, and no more than f of them fail.
    fn is_sound(&self, network: &Network) -> bool {
        let servers = u8::MAX >> (8 - network.n);
        let strangers = (self.faults | self.sources) & !servers;
        let few = self.faults.count_ones() <= u32::from(network.f);
        few && strangers == 0 && self.receiver < network.n
    }
}

/// How many buffers are lent for each call.
pub const LENGTHS: usize = 4;

/// Their lengths where the routes take so many bytes.
fn about(bytes: usize) -> [usize; LENGTHS] {
    [0, bytes - 1, bytes, bytes + 11]
}

/// How often each answer was met; there is a call for each length of the lent buffer.
#[derive(Debug, Clone, Default)]
pub struct Tally {
    /// Calls that were answered with routes, by f.
    pub found: [usize; 3],
    /// Routes among them that have a relay.
    pub relayed: usize,
    /// Calls that were answered with servers that all routes meet, by their number.
    pub cut: [usize; 3],
    /// Refused calls by the refusal's number: 1 to 5 of the card, 13 and 14.
    pub refused: [usize; 15],
}

impl Tally {
    pub fn calls(&self) -> usize {
        let counts = self.found.iter().chain(&self.cut).chain(&self.refused);
        counts.sum()
    }

    /// Asks the library with buffers of many lengths and holds its answers to the reference.
    ///
    /// Panics if they differ, or if the routes or the servers shown are not what they should be;
    /// `made_by` then says how to get the call again.
    pub(super) fn compare(&mut self, card: &[u8], call: Call, made_by: Arguments) {
        let held = match read_card(card) {
            Err(refusal) => self.refused_alike(card, call, refusal),
            Ok(network) if !call.is_sound(&network) => {
                self.refused_alike(card, call, Refusal::Call { number: 13 })
            }
            Ok(network) => self.answered_alike(card, &network, call),
        };
        held.unwrap_or_else(|fault| {
            panic!(
                "{fault}\n  card     {}\n  call     {call:?}\n  made by  {made_by}",
                hex(card)
            )
        });
    }

    fn refused_alike(&mut self, card: &[u8], call: Call, due: Refusal) -> Result<(), String> {
        for lent in about(ROUTES_LIMIT) {
            let (answer, _) = library(card, call, lent)?;
            self.refusal(answer, due)?;
        }
        Ok(())
    }

    /// The refusal that is due, counted.
    fn refusal(&mut self, answer: Answer, due: Refusal) -> Result<(), String> {
        if answer != Err(due) {
            return Err(format!("{answer:?}, not {}", plain_refusal(due)));
        }
        let (Refusal::Card { number, .. }
        | Refusal::Plan { number, .. }
        | Refusal::Call { number }) = due;
        self.refused[usize::from(number)] += 1;
        Ok(())
    }

    fn answered_alike(&mut self, card: &[u8], network: &Network, call: Call) -> Result<(), String> {
        let Call {
            faults,
            sources,
            receiver,
        } = call;
        let count = network.f + 1;
        let due = ROUTE_BYTES * usize::from(count);
        let found = separate_routes(network, faults, sources, receiver, count).is_some();
        for lent in about(due) {
            let (answer, bytes) = library(card, call, lent)?;
            match answer {
                _ if found && lent < due => self.refusal(answer, Refusal::Call { number: 14 })?,
                Ok(Separate::Found { routes }) if found && routes == usize::from(count) => {
                    if let Some(fault) = rules::fault(network, &call, &bytes) {
                        return Err(fault);
                    }
                    let over = |route: &&[u8]| route[2] != 0xff;
                    self.relayed += bytes.chunks(ROUTE_BYTES).filter(over).count();
                    self.found[usize::from(network.f)] += 1;
                }
                Ok(Separate::Cut { servers }) if !found => {
                    self.cut_alike(network, call, servers)?;
                }
                _ => {
                    return Err(format!(
                        "{answer:?}, and the reference finds routes: {found}"
                    ))
                }
            }
        }
        Ok(())
    }

    /// The servers that every route meets.
    fn cut_alike(
        &mut self,
        network: &Network,
        call: Call,
        servers: ServerSet,
    ) -> Result<(), String> {
        let Call {
            faults,
            sources,
            receiver,
        } = call;
        let size = servers.len();
        if servers.contains(receiver) || size > usize::from(network.f) {
            return Err(format!("{servers:?} has the receiver, or too many servers"));
        }
        let smallest = smallest_cut(network, faults, sources, receiver);
        if size != smallest.count_ones() as usize {
            return Err(format!("{servers:?}, and {smallest:02x} is a smallest set"));
        }
        let without = faults | servers.bits();
        if separate_routes(network, without, sources, receiver, 1).is_some() {
            return Err(format!("some route meets none of {servers:?}"));
        }
        self.cut[size] += 1;
        Ok(())
    }
}

/// What the library answers with so many bytes lent, and what it writes.
fn library(card: &[u8], call: Call, lent: usize) -> Result<(Answer, Vec<u8>), String> {
    let [faults, sources] = [call.faults, call.sources].map(ServerSet::from_bits);
    let count = |answer: &Answer| match answer {
        Ok(Separate::Found { routes }) => ROUTE_BYTES * routes,
        _ => 0,
    };
    let asked = |lent: &mut [u8]| {
        let answer = agreement::separate_routes(card, faults, sources, call.receiver, lent);
        answer.map_err(converted::refusal)
    };
    written(lent, count, asked).map_err(|fault| format!("{fault}, with {lent} lent"))
}

impl Display for Tally {
    fn fmt(&self, out: &mut Formatter) -> fmt::Result {
        write!(
            out,
            "{} calls, with routes for f 0 to 2: {:?} ({} routes over relays), with 0 to 2 servers \
             that all meet: {:?}, refused 1 to 5: {:?}, 13: {}, 14: {}",
            self.calls(),
            self.found,
            self.relayed,
            self.cut,
            &self.refused[1..6],
            self.refused[13],
            self.refused[14]
        )
    }
}
