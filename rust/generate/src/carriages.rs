//! The carriages of a plan, in the order of their numbers.

use crate::draft::places;
use crate::plans::{
    members, singleton, BLOCK, FILL, NEIGHBOURS, ROUTE_FROM_S, ROUTE_OPERAND, ROUTE_TO_S,
    ROUTE_WITHIN_S,
};

/// One route, or one member of a neighbour set.
#[derive(Debug, Clone, Copy, PartialEq, Eq)]
pub struct Carriage {
    /// The number of its block, from 0.
    pub block: usize,
    /// The command that has it, 11 to 14.
    pub kind: u8,
    pub source: u8,
    pub receiver: u8,
    /// All of its servers but the receiver. If one of them is faulty, what arrives is
    /// the message table's byte of the carriage's number.
    pub senders: u8,
}

/// Every carriage of `plan`, which must be accepted for some card.
pub fn carriages(plan: &[u8]) -> Vec<Carriage> {
    let kinds = [BLOCK, ROUTE_TO_S, ROUTE_WITHIN_S, ROUTE_FROM_S, NEIGHBOURS];
    let mut carriages = Vec::new();
    let mut openings = 0;
    for place in places(plan, &kinds) {
        let kind = plan[place];
        match kind {
            BLOCK => openings += 1,
            NEIGHBOURS => {
                let (k, neighbours) = (plan[place + 1], plan[place + 2]);
                carriages.extend(members(neighbours).map(|neighbour| Carriage {
                    block: openings - 1,
                    kind: NEIGHBOURS,
                    source: neighbour,
                    receiver: k,
                    senders: singleton(neighbour),
                }));
            }
            _ => {
                let operand = &plan[place + 1..place + 1 + ROUTE_OPERAND];
                let filled = operand.iter().position(|&byte| byte == FILL);
                let (senders, receiver) = operand.split_at(filled.unwrap_or(ROUTE_OPERAND) - 1);
                carriages.push(Carriage {
                    block: openings - 1,
                    kind,
                    source: senders[0],
                    receiver: receiver[0],
                    senders: senders
                        .iter()
                        .fold(0, |set, &sender| set | singleton(sender)),
                });
            }
        }
    }
    carriages
}

#[cfg(test)]
mod tests {
    use super::*;
    use crate::cards::good_card;
    use crate::plans::{plan, END};
    use crate::rng::Rng;
    use reference::check_plan;

    #[test]
    fn there_are_as_many_as_the_plan_check_says() {
        let mut rng = Rng::new(1);
        for (n, f) in [(2, 0), (5, 0), (8, 0), (4, 1), (6, 1), (7, 2)] {
            let card = good_card(&mut rng, n, f).unwrap();
            let plan = plan(&mut rng, &card).unwrap();
            let totals = check_plan(&card, &plan).unwrap();
            let carriages = carriages(&plan);
            assert_eq!(carriages.len(), totals.carriages);
            assert_eq!(carriages.last().unwrap().block, totals.blocks - 1);
            // No block is without one: V - F has two servers at least. In a block the kinds
            // ascend.
            let next_to = |pair: &[Carriage]| match pair[1].block - pair[0].block {
                0 => pair[0].kind <= pair[1].kind,
                further => further == 1,
            };
            assert!(carriages.windows(2).all(next_to));
            for carriage in carriages {
                assert_ne!(carriage.senders & singleton(carriage.source), 0);
                assert_eq!(carriage.senders & singleton(carriage.receiver), 0);
            }
        }
    }

    #[test]
    fn routes_and_members_of_neighbour_sets_have_numbers_in_one_row() {
        let plan = [
            &[BLOCK, 0x00, 0x01, 0x01][..],
            &[ROUTE_FROM_S, 0, 1, 2, FILL, FILL, FILL, FILL, FILL],
            &[BLOCK, 0x04, 0x01, 0x01],
            &[NEIGHBOURS, 2, 0b1010],
            &[END],
        ];
        let carriage = |block, kind, source, receiver, senders| Carriage {
            block,
            kind,
            source,
            receiver,
            senders,
        };
        let expected = [
            carriage(0, ROUTE_FROM_S, 0, 2, 0b0011),
            carriage(1, NEIGHBOURS, 1, 2, 0b0010),
            carriage(1, NEIGHBOURS, 3, 2, 0b1000),
        ];
        assert_eq!(carriages(&plan.concat()), expected);
    }
}
