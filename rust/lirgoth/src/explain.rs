//! A site in words: can its offices agree, is its plan accepted, what does each show?

use crate::answer::Answer;
use crate::apart::apart;
use crate::names::Names;
use crate::refused;
use crate::site::{Run, Site, Unreadable};
use crate::words::{accepted, at_most, bit, can_agree, counted, hearing, taking_away, wanted, SO};
use agreement::{Network, Quick, Split};

/// Answers the three questions in turn, as far as the site's files go.
pub fn explain(site: &Site) -> Result<Answer, Unreadable> {
    let card = site.card()?;
    let mut answer = Answer::default();
    let network = match agreement::read_card(&card) {
        Ok(network) => network,
        Err(refusal) => {
            answer.line(&refused::card(refusal, &card));
            return Ok(answer.refused());
        }
    };
    let (names, note) = site.names(&network);
    answer.notes.extend(note);
    answer.line(&size(&network, &card));
    // A site with a link that has no return is turned back, and nothing is said of the rule.
    if let Ok(quick) = agreement::quick_test(&card) {
        answer.text(&by_the_older_rule(&network, &names, quick));
    }

    match agreement::split_test(&card) {
        Ok(None) => answer.line(&format!("no bad split: {}", can_agree(&network))),
        Ok(Some(split)) => {
            answer.text(&why_split(&network, &names, split));
            return Ok(answer.refused());
        }
        Err(refusal) => {
            answer.line(&refused::card(refusal, &card));
            return Ok(answer.refused());
        }
    }

    let plan = match site.plan() {
        Ok(plan) => plan,
        Err(missing) => return Ok(answer.unreadable(missing)),
    };
    match agreement::check_plan(&card, &plan) {
        Ok(totals) => answer.line(&accepted(totals)),
        Err(refusal) => {
            answer.line(&refused::plan(refusal, &network, &names, &plan));
            return Ok(answer.refused());
        }
    }

    let run = match site.run(&network) {
        Ok(run) => run,
        Err(Unreadable(why)) => {
            let why = format!("{why}; `lirgoth drill` shows runs without it");
            return Ok(answer.unreadable(Unreadable(why)));
        }
    };
    let mut lent = [0; 8];
    match agreement::run(&card, &plan, &run.inputs, run.faulty, &run.table, &mut lent) {
        Ok(_) => {
            answer.text(&shown(&network, &names, &run, &lent));
            Ok(answer)
        }
        Err(refusal) => {
            answer.line(&refused::run(refusal, &network, &names, &run));
            Ok(answer.refused())
        }
    }
}

/// `5 offices, at most 1 may fail, 15 links`, and how often the card gives one of these
/// again: ` (3 given again)`.
fn size(network: &Network, card: &[u8]) -> String {
    let links: usize = network.rows.iter().map(|row| row.len()).sum();
    // Head and links have three bytes each, the end has one.
    let given = card.len() / 3 - 1;
    let again = match given - links {
        0 => String::new(),
        again => format!(" ({again} given again)"),
    };
    format!(
        "{} offices, {}, {}{again}",
        network.n,
        at_most(network.f),
        counted(links, "link")
    )
}

/// The two numbers of the older rule for two-way sites and what it says, and which offices
/// leave the rest apart when they are taken away.
fn by_the_older_rule(network: &Network, names: &Names, quick: Quick) -> String {
    let Quick { holds, n, least } = quick;
    let (offices, to_take) = wanted(network.f);
    let few = (n < offices).then_some("there are too few offices");
    let soon = (least < to_take).then_some("the rest falls apart too soon");
    let short: Vec<&str> = few.into_iter().chain(soon).collect();
    let said = match holds {
        true => "holds".to_string(),
        false => format!("fails, as {}", short.join(" and ")),
    };
    let why = match apart(network) {
        Some(apart) => taking_away(&apart, names),
        None => format!(
            "no offices leave the rest apart, as every two are linked: \
             the rule counts this as {least}, one less than there are offices"
        ),
    };
    format!(
        "two-way site, by the older rule: {n} offices (at least {offices} wanted), \
         {least} must be taken away before the rest falls apart (at least {to_take} wanted): \
         the rule {said}\n  {why}\n"
    )
}

/// Why no plan can make the two sides of a bad split agree.
pub fn why_split(network: &Network, names: &Names, split: Split) -> String {
    let Split { f, l, c, r } = split;
    let mut text = format!(
        "bad split (F {f}, L {l}, C {c}, R {r}): {} and {} could be split\n",
        names.offices(l),
        names.offices(r),
    );
    for (letter, side) in [('L', l), ('R', r)] {
        text += &format!("  {letter}: {}\n", hearing(side, network, names, &split));
    }
    text + "  " + SO + "\n"
}

/// What each office entered and what it shows after the run.
pub fn shown(network: &Network, names: &Names, run: &Run, lent: &[u8; 8]) -> String {
    let mut text = String::new();
    for office in network.servers() {
        let line = match lent[usize::from(office)] {
            shown @ 0..=1 => format!(
                "{} entered {} and shows {}",
                names.office(office),
                bit(run.inputs[usize::from(office)]),
                bit(shown)
            ),
            _ => format!("{} fails", names.office(office)),
        };
        text += &line;
        text.push('\n');
    }
    text
}

#[cfg(test)]
mod tests {
    use super::*;
    use crate::chart::{self, Chart};

    /// What is said of the older rule on the site of this chart.
    fn told(text: &str) -> String {
        let Chart { network, names } = chart::read(text.as_bytes()).expect("no mistake");
        let quick = agreement::quick_test(&chart::card(&network)).expect("each link has a return");
        by_the_older_rule(&network, &names, quick)
    }

    #[test]
    fn the_number_that_falls_short_is_named() {
        let said = |chart: &str| {
            let told = told(chart);
            let (_, said) = told.split_once(" wanted): the rule ").expect(chart);
            said.lines().next().unwrap_or_default().to_string()
        };
        assert_eq!(said("offices 4\nmay fail 0\n0 <-> 1\n1 <-> 2, 3"), "holds");
        assert_eq!(
            said("offices 4\nmay fail 1\n0 <-> 1\n1 <-> 2, 3"),
            "fails, as the rest falls apart too soon"
        );
        assert_eq!(
            said("offices 3\nmay fail 1\n0 <-> 1, 2\n1 <-> 2"),
            "fails, as there are too few offices and the rest falls apart too soon"
        );
        let six = "offices 6\nmay fail 2\n0 <-> 1, 2, 3, 4, 5\n1 <-> 2, 3, 4, 5\n\
                   2 <-> 3, 4, 5\n3 <-> 4, 5\n4 <-> 5";
        assert_eq!(said(six), "fails, as there are too few offices");
    }

    #[test]
    fn offices_that_leave_the_rest_apart_are_named() {
        assert_eq!(
            told("offices Geneva, Oslo, Lima, Pusan\nmay fail 0\nOslo <-> Geneva, Lima\nLima <-> Pusan"),
            "two-way site, by the older rule: 4 offices (at least 1 wanted), \
             1 must be taken away before the rest falls apart (at least 1 wanted): the rule holds\n  \
             taking away office 1 (Oslo) leaves office 0 (Geneva) apart from offices 2 (Lima), 3 (Pusan)\n"
        );
        assert_eq!(
            told("offices Oslo, 1, 2\nmay fail 0\n1 <-> 2"),
            "two-way site, by the older rule: 3 offices (at least 1 wanted), \
             0 must be taken away before the rest falls apart (at least 1 wanted): \
             the rule fails, as the rest falls apart too soon\n  \
             the offices are apart as they are: office 0 (Oslo) from offices 1 2\n"
        );
        assert_eq!(
            told("offices 3\nmay fail 0\n0 <-> 1, 2\n1 <-> 2"),
            "two-way site, by the older rule: 3 offices (at least 1 wanted), \
             2 must be taken away before the rest falls apart (at least 1 wanted): the rule holds\n  \
             no offices leave the rest apart, as every two are linked: \
             the rule counts this as 2, one less than there are offices\n"
        );
    }
}
