//! Near plans compared, and how near they came.

use crate::plans::{self, Compared};
use generate::{damaged_plan, near_plans, Makeshift, NearPlan, Rng, DAMAGES};
use reference::Refusal;
use std::fmt::{self, Arguments, Display, Formatter};

/// The number of the refusal of an N.
const OF_AN_N: u8 = 11;

/// What was tried, and how near it came. All near plans but the good ones are for networks with
/// a bad split.
#[derive(Debug, Clone, Default)]
pub struct Tally {
    /// Cards by n and f, those without a bad split and those with one.
    pub cards: [[[usize; 2]; 3]; 9],
    /// The near plans for networks without a bad split.
    pub good: plans::Tally,
    /// Near plans as they are.
    pub near: plans::Tally,
    /// The same damaged: each once anywhere, and once in an N that it passes, if there is one.
    pub damaged: plans::Tally,
    /// Those damaged anywhere that are refused as they are without the damage.
    pub as_before: usize,
    /// How many blocks each near plan passes before it is refused.
    pub passed: Vec<usize>,
    /// Near plans in which one block alone is against the rules.
    pub in_one_block: usize,
    /// Near plans in which all is against the rules in one way.
    pub in_one_way: usize,
    /// How often each makeshift is what a near plan is refused for.
    pub refused_for: [usize; Makeshift::ALL.len()],
}

impl Tally {
    pub fn good_cards(&self) -> usize {
        self.cards.iter().flatten().map(|[good, _]| good).sum()
    }

    pub fn bad_cards(&self) -> usize {
        self.cards.iter().flatten().map(|[_, bad]| bad).sum()
    }

    /// How many near plans pass at least so many blocks.
    pub fn passing(&self, blocks: usize) -> usize {
        let passing = self.passed.iter().filter(|&&passed| passed >= blocks);
        passing.count()
    }

    /// The makeshifts that near plans are refused for fewer than `times` times, but for those
    /// that no near plan is ever refused for.
    pub fn seldom(&self, times: usize) -> Vec<&'static str> {
        let makeshifts = Makeshift::ALL.iter().zip(self.refused_for);
        let seldom = makeshifts.filter(|(way, count)| way.may_come_first() && *count < times);
        seldom.map(|(way, _)| way.name()).collect()
    }

    /// Draws near plans for the network on `card` and asks library and reference about them:
    /// about one if it has no bad split, and else about `times` of them, each as it is and
    /// damaged. A refused card is passed over.
    ///
    /// Panics if the two differ; if the plan for a network without a bad split is refused, or
    /// any other is accepted; or if a near plan is refused elsewhere than in the first block
    /// that cannot be had. `made_by` then says how to get the card again.
    pub(super) fn compare(&mut self, rng: &mut Rng, card: &[u8], times: usize, made_by: Arguments) {
        let Ok(split) = agreement::split_test(card) else {
            return;
        };
        // The card is sound, so these are its n and f.
        let (n, f) = (usize::from(card[1]), usize::from(card[2]));
        self.cards[n][f][usize::from(split.is_some())] += 1;
        if split.is_none() {
            let [near] = &near_plans(rng, card, 1)[..] else {
                panic!("no near plan: {made_by}");
            };
            return self.accepted(card, near, made_by);
        }
        for (number, near) in near_plans(rng, card, times).iter().enumerate() {
            let made_by = format_args!("{made_by}, near plan {number}");
            let refusal = self.refused_as_it_is(card, near, made_by);
            let anywhere = damaged_plan(rng, card, &near.plan);
            let again = self.refused_damaged(card, &anywhere, made_by);
            self.as_before += usize::from(again == refusal);
            if let Some(in_an_n) = with_an_n_damaged(rng, card, near) {
                self.refused_damaged(card, &in_an_n, made_by);
            }
        }
    }

    /// Asks about the near plan for a network without a bad split.
    fn accepted(&mut self, card: &[u8], near: &NearPlan, made_by: Arguments) {
        let answer = self.good.compare(card, &near.plan, made_by);
        let blocks = answer.map(|totals| totals.blocks);
        assert_eq!(blocks, Ok(near.blocks), "{made_by}");
        assert_eq!(near.gaps, [], "{made_by}");
    }

    /// Asks about a near plan as it is, counts how near it came and hands the refusal back.
    fn refused_as_it_is(&mut self, card: &[u8], near: &NearPlan, made_by: Arguments) -> Refusal {
        let answer = self.near.compare(card, &near.plan, made_by);
        let Err(refusal @ Refusal::Plan { number, place }) = answer else {
            panic!("the plan is not refused, but {answer:?}: {made_by}");
        };
        let Some(gap) = near.gaps.first() else {
            panic!("every block can be had: {made_by}");
        };
        assert!(
            gap.brings(number, place),
            "refused {number} at {place}, but this comes first: {gap:?}, {made_by}"
        );
        self.passed.push(gap.before);
        self.in_one_block += usize::from(near.gaps.len() == 1);
        self.in_one_way += usize::from(near.is_of_one_kind());
        let makeshift = Makeshift::ALL.iter().position(|&way| way == gap.first);
        self.refused_for[makeshift.expect("one of all")] += 1;
        refusal
    }

    /// Asks about a near plan that was damaged, and hands the refusal back.
    fn refused_damaged(&mut self, card: &[u8], plan: &[u8], made_by: Arguments) -> Refusal {
        let made_by = format_args!("{made_by}, damaged");
        match self.damaged.compare(card, plan, made_by) {
            Err(refusal @ Refusal::Plan { .. }) => refusal,
            other => panic!("the plan is not refused, but {other:?}: {made_by}"),
        }
    }
}

/// The near plan with one N damaged of those that it passes, if it passes any. As it is it
/// passes every N that it comes to, so that without this 11 would hardly be met.
fn with_an_n_damaged(rng: &mut Rng, card: &[u8], near: &NearPlan) -> Option<Vec<u8>> {
    let (passed, rest) = near.plan.split_at(near.gaps.first()?.part.start);
    let of_an_n = DAMAGES.iter().filter(|way| way.meant == Some(OF_AN_N));
    let way = of_an_n.clone().nth(rng.below(of_an_n.count()))?;
    let damaged = way.apply(rng, card, passed)?;
    Some([&damaged, rest].concat())
}

impl Display for Tally {
    fn fmt(&self, out: &mut Formatter) -> fmt::Result {
        writeln!(
            out,
            "{} cards with a bad split, {} without and as many near plans accepted",
            self.bad_cards(),
            self.good_cards()
        )?;
        writeln!(
            out,
            "  {} near plans refused, 7 to 11: {:?}; {} damaged ones, 2 and 3: {:?}, 7 to 11: {:?}, {} as before",
            self.near.plans(),
            &self.near.plan_refused[7..],
            self.damaged.plans(),
            &self.damaged.plan_refused[2..4],
            &self.damaged.plan_refused[7..],
            self.as_before
        )?;
        const BLOCKS: [usize; 6] = [1, 5, 10, 50, 100, 500];
        writeln!(
            out,
            "  blocks passed: at least {BLOCKS:?} by {:?}; {} against the rules in one block, {} in one way",
            BLOCKS.map(|blocks| self.passing(blocks)),
            self.in_one_block,
            self.in_one_way
        )?;
        let makeshifts = Makeshift::ALL.iter().zip(self.refused_for);
        for (way, count) in makeshifts.filter(|(way, _)| way.may_come_first()) {
            writeln!(out, "    {:<31} {count:>6}", way.name())?;
        }
        Ok(())
    }
}
