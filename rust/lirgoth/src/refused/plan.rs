//! Refusals of a plan in words: the block, the command in it, and the rule.

use super::{cut, too_long, trailing};
use crate::names::Names;
use crate::plan::{self, Due, DueBlock, Opening, Place, BLOCK, END, FILL};
use crate::words::ordinal;
use agreement::{Network, PlanGround, ServerSet, PLAN_LIMIT};

/// Why the plan is refused on that ground at that place.
pub(super) fn why(
    ground: PlanGround,
    place: usize,
    network: &Network,
    names: &Names,
    plan: &[u8],
) -> Option<String> {
    let teller = Teller {
        network,
        names,
        plan,
        at: place,
    };
    match ground {
        PlanGround::TooLong => Some(too_long(plan, PLAN_LIMIT, "plan")),
        PlanGround::Trailing => Some(trailing(plan, place)),
        _ => {
            let due = plan::place_of(network, plan, place)?;
            let fault = match ground {
                PlanGround::Cut => Some(teller.cut(&due)),
                PlanGround::NotDue => teller.not_due(&due),
                PlanGround::Quorum => teller.quorum(&due),
                PlanGround::Route => teller.route(&due),
                PlanGround::Shared => teller.shared(&due),
                PlanGround::Reporters => teller.reporters(&due),
                PlanGround::TooLong | PlanGround::Trailing => None,
            }?;
            Some(match teller.block(&due) {
                Some(block) => format!("{block}, {fault}"),
                None => fault,
            })
        }
    }
}

/// What the words are made from.
struct Teller<'a> {
    network: &'a Network,
    names: &'a Names,
    plan: &'a [u8],
    at: usize,
}

impl Teller<'_> {
    /// `block 2 (F none, A 0 1)`: the block that the place lies in.
    fn block(&self, place: &Place) -> Option<String> {
        match place {
            Place::Opening { number, due } => Some(format!(
                "block {number} (due: F {}, A {} or {})",
                due.fault_set, due.part, due.rest
            )),
            Place::Inside {
                number, opening, ..
            } => {
                let Opening { fault_set, a, .. } = opening;
                Some(format!("block {number} (F {fault_set}, A {a})"))
            }
            Place::End => None,
        }
    }

    /// What is due, as `the second route of 13 to office 4`.
    fn due(&self, place: &Place) -> String {
        match place {
            Place::Opening { .. } => "its opening (10)".to_string(),
            Place::End => "the end (15)".to_string(),
            Place::Inside { due, .. } => match due {
                Due::Route { .. } => format!("the {}", self.due_command(*due)),
                Due::Report { .. } => self.due_command(*due),
            },
        }
    }

    fn due_command(&self, due: Due) -> String {
        match due {
            Due::Report { k } => format!("14 for {}", self.names.office(k)),
            Due::Route {
                command,
                sources,
                receiver,
                index,
                count,
            } => {
                let receiver = self.names.office(receiver);
                if count > 1 {
                    format!("{} route of {command:02X} to {receiver}", ordinal(index))
                } else if sources.len() == 1 {
                    let source = self.names.office(sources.iter().next().unwrap_or_default());
                    format!("route of {command:02X} from {source} to {receiver}")
                } else {
                    format!("route of {command:02X} to {receiver}")
                }
            }
        }
    }

    fn cut(&self, place: &Place) -> String {
        let fault = cut(self.plan, self.at, plan::operands, "plan");
        format!("where {} is due: {fault}", self.due(place))
    }

    fn not_due(&self, place: &Place) -> Option<String> {
        let command = *self.plan.get(self.at)?;
        if let (Place::Opening { due, .. }, BLOCK) = (place, command) {
            return self.other_cut(*due);
        }
        let due = self.due(place);
        Some(match command {
            END => format!("15 stands where {due} is due: the plan ends too early"),
            _ => format!("{command:02X} stands where {due} is due"),
        })
    }

    /// A block opens, but with another F or A.
    fn other_cut(&self, due: DueBlock) -> Option<String> {
        let [f, a] = [1, 2].map(|operand| self.plan.get(self.at + operand).copied());
        let (f, a) = (ServerSet::from_bits(f?), ServerSet::from_bits(a?));
        Some(if f == due.fault_set {
            format!("opens with A {a}")
        } else {
            format!("opens with F {f} and A {a}")
        })
    }

    fn quorum(&self, place: &Place) -> Option<String> {
        let Place::Opening { due, .. } = place else {
            return None;
        };
        let s = ServerSet::from_bits(*self.plan.get(self.at + 3)?);
        if s.is_empty() {
            return Some("S is empty".to_string());
        }
        let strangers = s - due.part - due.rest;
        let where_they_are = if strangers.is_within(due.fault_set) {
            "in F"
        } else if (strangers & due.fault_set).is_empty() {
            "outside the network"
        } else {
            "in F or outside the network"
        };
        let strangers = self.names.offices(strangers);
        Some(format!("S is {s}, with {strangers} {where_they_are}"))
    }

    fn route(&self, place: &Place) -> Option<String> {
        let Place::Inside { opening, due, .. } = place else {
            return None;
        };
        let Due::Route {
            sources, receiver, ..
        } = *due
        else {
            return None;
        };
        let operand = self.plan.get(self.at + 1..self.at + due.bytes())?;
        let rule = self.broken_rule(operand, opening.fault_set, sources, receiver)?;
        let route = self.servers(operand);
        let which = self.due_command(*due);
        Some(match route.is_empty() {
            true => format!("{which}: {rule}"),
            false => format!("{which}, {route}: {rule}"),
        })
    }

    /// The first rule that a route on its own breaks, told from its front.
    fn broken_rule(
        &self,
        operand: &[u8],
        fault_set: ServerSet,
        sources: ServerSet,
        receiver: u8,
    ) -> Option<String> {
        let route = plan::servers_of(operand);
        let all = self.network.servers();
        if let Some(byte) = route.iter().find(|&&byte| !all.contains(byte)) {
            return Some(format!("{byte:02X} is no office and no fill"));
        }
        if let Some(byte) = operand[route.len()..].iter().find(|&&byte| byte != FILL) {
            return Some(format!("{byte:02X} stands behind the fill"));
        }
        let (Some(&first), Some(&last)) = (route.first(), route.last()) else {
            return Some("it has no office".to_string());
        };
        if route.len() < 2 {
            return Some("a route has at least two offices".to_string());
        }
        if let Some(office) = route.iter().find(|&&office| fault_set.contains(office)) {
            return Some(format!("{} is in F", self.names.office(*office)));
        }
        let twice = |(index, office): &(usize, &u8)| route[..*index].contains(office);
        if let Some((_, office)) = route.iter().enumerate().find(twice) {
            return Some(format!("{} is on it twice", self.names.office(*office)));
        }
        if let Some(hop) = route
            .windows(2)
            .find(|hop| !self.network.linked(hop[0], hop[1]))
        {
            return Some(format!("there is no link {} → {}", hop[0], hop[1]));
        }
        if !sources.contains(first) {
            let sources = self.names.offices(sources);
            return Some(format!("it begins at {first}, and should at {sources}"));
        }
        if last != receiver {
            return Some(format!("it ends at {last}"));
        }
        None
    }

    fn shared(&self, place: &Place) -> Option<String> {
        let Place::Inside { due, earlier, .. } = place else {
            return None;
        };
        let Due::Route { receiver, .. } = *due else {
            return None;
        };
        let route = |at: usize| self.plan.get(at + 1..at + due.bytes());
        let without_receiver = |operand: &[u8]| -> ServerSet {
            let servers = plan::servers_of(operand).iter().copied();
            servers.filter(|&server| server != receiver).collect()
        };
        let operand = route(self.at)?;
        let own = without_receiver(operand);
        let (index, shared) = earlier.iter().enumerate().find_map(|(index, &at)| {
            let shared = without_receiver(route(at)?) & own;
            (!shared.is_empty()).then_some((index, shared))
        })?;
        Some(format!(
            "{}, {}, shares {} with the {}",
            self.due_command(*due),
            self.servers(operand),
            self.names.offices(shared),
            ordinal(index)
        ))
    }

    /// `2 → 0 → 4`.
    fn servers(&self, operand: &[u8]) -> String {
        let servers = plan::servers_of(operand).iter();
        servers
            .map(u8::to_string)
            .collect::<Vec<String>>()
            .join(" → ")
    }

    fn reporters(&self, place: &Place) -> Option<String> {
        let Place::Inside { opening, due, .. } = place else {
            return None;
        };
        let Due::Report { k } = *due else {
            return None;
        };
        let which = self.due_command(*due);
        let found = *self.plan.get(self.at + 1)?;
        if found != k {
            return Some(format!("{which}: k is {found}"));
        }
        let reporters = ServerSet::from_bits(*self.plan.get(self.at + 2)?);
        let strangers = reporters - (self.network.servers() - opening.fault_set);
        let unlinked = reporters
            .iter()
            .find(|&reporter| !self.network.linked(reporter, k));
        let due = usize::from(self.network.f) + 1;
        Some(if !strangers.is_empty() {
            let strangers = self.names.offices(strangers);
            format!("{which}: N is {reporters}, with {strangers} in F or outside the network")
        } else if let Some(reporter) = unlinked {
            format!("{which}: N is {reporters}, and there is no link {reporter} → {k}")
        } else {
            format!("{which}: N is {reporters}, and has to have {due} offices")
        })
    }
}
