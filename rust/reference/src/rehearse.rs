//! What the program `rehearse` prints.

use crate::card::{read_card, MAX_SERVERS};
use crate::plan::Totals;
use crate::refusal::Refusal;
use crate::run::run;
use crate::sets::contains;

/// None of the three files may have more bytes than this.
const FILE_LIMIT: usize = 65_536;

/// Answers with the text that `rehearse` prints for the files `network.card`,
/// `network.plan` and `run.in`, `None` standing for a file that is not there.
///
/// `run.in` holds the faulty set, then the n inputs, then the message table. Every
/// line of the text ends in a newline.
pub fn rehearse(card: Option<&[u8]>, plan: Option<&[u8]>, run_in: Option<&[u8]>) -> String {
    let files = [card, plan, run_in].map(Option::unwrap_or_default);
    if files.iter().any(|file| file.len() > FILE_LIMIT) {
        return "too long\n".to_string();
    }
    let [card, plan, run_in] = files;
    rehearse_files(card, plan, run_in).unwrap_or_else(refusal_line)
}

/// The lines of a rehearsal that is not turned back.
fn rehearse_files(card: &[u8], plan: &[u8], run_in: &[u8]) -> Result<String, Refusal> {
    // Only the card says where in run.in the inputs end.
    let n = read_card(card)?.n;
    let (&faulty, rest) = run_in.split_first().unwrap_or((&0, &[]));
    let (inputs, table) = rest.split_at(rest.len().min(usize::from(n)));
    let mut decided = [0; MAX_SERVERS];
    let totals = run(card, plan, inputs, faulty, table, &mut decided)?;
    Ok(decision_lines(totals, faulty, &decided[..usize::from(n)]))
}

fn decision_lines(totals: Totals, faulty: u8, decided: &[u8]) -> String {
    let Totals { blocks, carriages } = totals;
    let mut text = format!("blocks {blocks} carriages {carriages}\n");
    for (server, bit) in (0u8..).zip(decided) {
        let word = if contains(faulty, server) {
            "faulty".to_string()
        } else {
            bit.to_string()
        };
        text.push_str(&format!("server {server} decided {word}\n"));
    }
    text
}

fn refusal_line(refusal: Refusal) -> String {
    match refusal {
        Refusal::Card { number, place } => format!("refused card {number} {place}\n"),
        Refusal::Plan { number, place } => format!("refused plan {number} {place}\n"),
        Refusal::Call { number } => format!("refused call {number}\n"),
    }
}

#[cfg(test)]
mod tests {
    use super::*;
    use crate::sample::{complete_card, direct_plan, Quorum, P1_CARD, P5_PLAN};

    fn p5_with(run_in: Option<&[u8]>) -> String {
        rehearse(Some(&P1_CARD), Some(&P5_PLAN), run_in)
    }

    #[test]
    fn p7_prints_exactly() {
        let lines = "blocks 1 carriages 1\nserver 0 decided 1\nserver 1 decided 1\n";
        assert_eq!(p5_with(Some(&[0, 1, 0])), lines);
        assert_eq!(p5_with(Some(&[0, 1, 0, 0, 0, 7])), lines, "with a table");
    }

    #[test]
    fn a_faulty_server_is_named_so() {
        let card = complete_card(4, 1);
        let plan = direct_plan(4, 1, Quorum::InsideA);
        let text = rehearse(Some(&card), Some(&plan), Some(&[0b0100, 1, 1, 0, 1]));
        let mut lines = text.lines();
        let carriages = crate::check_plan(&card, &plan).unwrap().carriages;
        assert_eq!(
            lines.next(),
            Some(&*format!("blocks 19 carriages {carriages}"))
        );
        assert_eq!(lines.next(), Some("server 0 decided 1"));
        assert_eq!(lines.next(), Some("server 1 decided 1"));
        assert_eq!(lines.next(), Some("server 2 decided faulty"));
        assert_eq!(lines.next(), Some("server 3 decided 1"));
        assert_eq!(lines.next(), None);
        assert!(text.ends_with("1\n"));
    }

    #[test]
    fn silence_decides_otherwise_than_255() {
        // Worked out in the run's test of that name.
        let card = complete_card(4, 1);
        let plan = direct_plan(4, 1, Quorum::InsideA);
        let decided = |table: &[u8]| -> Vec<String> {
            let run_in = [&[0b1000, 1, 1, 0, 1], table].concat();
            let text = rehearse(Some(&card), Some(&plan), Some(&run_in));
            text.lines().skip(1).map(str::to_string).collect()
        };
        let lines = |bit: u8| {
            let sound = (0..3).map(|server| format!("server {server} decided {bit}"));
            let faulty = "server 3 decided faulty".to_string();
            sound.chain([faulty]).collect::<Vec<_>>()
        };
        assert_eq!(decided(&[]), lines(0));
        assert_eq!(decided(&[0; 1_000]), lines(0));
        assert_eq!(decided(&[255; 1_000]), lines(1));
    }

    #[test]
    fn refusals_print_one_line() {
        assert_eq!(rehearse(None, None, None), "refused card 2 0\n");
        assert_eq!(
            rehearse(Some(&[]), Some(&P5_PLAN), Some(&[])),
            "refused card 2 0\n"
        );
        assert_eq!(rehearse(Some(&P1_CARD), None, None), "refused plan 2 0\n");
        let mut p6 = P5_PLAN;
        p6[2] = 0x02;
        assert_eq!(
            rehearse(Some(&P1_CARD), Some(&p6), None),
            "refused plan 7 4\n"
        );
        assert_eq!(p5_with(Some(&[0, 1, 2])), "refused call 12\n");
        assert_eq!(p5_with(Some(&[1, 1, 0])), "refused call 13\n");
    }

    #[test]
    fn short_run_in_is_call_12() {
        assert_eq!(p5_with(None), "refused call 12\n");
        assert_eq!(p5_with(Some(&[])), "refused call 12\n");
        assert_eq!(p5_with(Some(&[0])), "refused call 12\n");
        assert_eq!(p5_with(Some(&[0, 1])), "refused call 12\n");
        assert_eq!(p5_with(Some(&[255])), "refused call 12\n", "12 before 13");
    }

    #[test]
    fn too_long_comes_before_anything_is_checked() {
        let long = vec![0; FILE_LIMIT + 1];
        let just = vec![0; FILE_LIMIT];
        assert_eq!(rehearse(Some(&long), None, None), "too long\n");
        assert_eq!(rehearse(None, Some(&long), None), "too long\n");
        assert_eq!(rehearse(None, None, Some(&long)), "too long\n");
        assert_eq!(rehearse(Some(&just), None, None), "refused card 1 0\n");
        assert_eq!(
            rehearse(Some(&P1_CARD), Some(&just), None),
            "refused plan 2 0\n"
        );
        let mut run_in = just;
        run_in[1] = 1;
        let lines = "blocks 1 carriages 1\nserver 0 decided 1\nserver 1 decided 1\n";
        assert_eq!(p5_with(Some(&run_in)), lines);
        run_in.push(0);
        assert_eq!(p5_with(Some(&run_in)), "too long\n");
    }
}
