//! Link charts: a network as an installer writes it down.
//!
//! ```text
//! # Dry-bulk desk
//! offices Geneva, Oslo, Lima, Pusan, Dakar
//! may fail 1
//! Geneva <-> Lima
//! Geneva -> Pusan, Dakar
//! ```
//!
//! A chart is read whole: every mistake is named with its line, so that an installer
//! mends them in one go.

use crate::names::Names;
use crate::words::counted;
use agreement::{Network, ServerSet};
use std::fmt::{self, Display, Formatter};

/// A network with the names of its offices.
#[derive(Debug, Clone, PartialEq, Eq)]
pub struct Chart {
    pub network: Network,
    pub names: Names,
}

/// What is wrong in one line of a chart. Lines count from 1; a line that is missing is
/// looked for after the last one.
#[derive(Debug, Clone, PartialEq, Eq)]
pub struct Mistake {
    pub line: usize,
    pub what: String,
}

impl Display for Mistake {
    fn fmt(&self, out: &mut Formatter) -> fmt::Result {
        write!(out, "line {}: {}", self.line, self.what)
    }
}

/// A name has room in the picture up to this many characters.
const NAME_LIMIT: usize = 24;
/// A card can hold networks of these sizes.
const FEWEST: usize = 2;
const MOST: usize = 8;
const MOST_FAILING: u8 = 2;

/// The chart that the bytes of a file stand for, or all its mistakes.
pub fn read(bytes: &[u8]) -> Result<Chart, Vec<Mistake>> {
    let mut reader = Reader::default();
    let text = bytes.strip_prefix(b"\xEF\xBB\xBF").unwrap_or(bytes);
    let lines = text.split(|&byte| byte == b'\n');
    let mut last = 0;
    for (index, line) in lines.enumerate() {
        last = index + 1;
        reader.at = last;
        match std::str::from_utf8(line) {
            Ok(line) => reader.line(line),
            Err(_) => reader.mistake("this is no text in UTF-8"),
        }
    }
    reader.at = last;
    reader.finish()
}

/// What was read so far.
#[derive(Default)]
struct Reader {
    at: usize,
    offices: Option<Vec<Option<String>>>,
    failing: Option<u8>,
    /// The links given so far, those of twin cables more than once.
    links: Vec<(u8, u8)>,
    mistakes: Vec<Mistake>,
}

impl Reader {
    fn mistake(&mut self, what: impl Into<String>) {
        let (line, what) = (self.at, what.into());
        self.mistakes.push(Mistake { line, what });
    }

    fn line(&mut self, line: &str) {
        let line = line.split('#').next().unwrap_or_default().trim();
        if line.is_empty() {
            return;
        }
        // A link first: an office may be named after a keyword.
        if let Some((sources, both_ways, receivers)) = arrow(line) {
            self.links(sources, both_ways, receivers);
        } else if let Some(rest) = after_word(line, "offices") {
            self.offices(rest);
        } else if let Some(rest) = after_word(line, "may fail") {
            self.failing(rest);
        } else {
            self.mistake(format!(
                "\"{line}\" is no line of a chart: it has lines \"offices 5\", \"may fail 1\", \
                 \"0 -> 1\", \"1 <-> 2\" and comments after #"
            ));
        }
    }

    fn offices(&mut self, rest: &str) {
        if self.offices.is_some() {
            return self.mistake("the offices are given already");
        }
        let names = match rest.parse::<usize>() {
            Ok(count) => vec![None; count.min(MOST + 1)],
            Err(_) => self.names(rest),
        };
        if !(FEWEST..=MOST).contains(&names.len()) {
            let count = counted(rest.parse().unwrap_or(names.len()), "office");
            self.mistake(format!("{count}: there can be {FEWEST} to {MOST}"));
        }
        self.offices = Some(names);
    }

    /// Names with commas between them. A number stands for an office without a name,
    /// and has to be its own.
    fn names(&mut self, rest: &str) -> Vec<Option<String>> {
        let mut names: Vec<Option<String>> = Vec::new();
        for (office, name) in rest.split(',').map(str::trim).enumerate() {
            if is_number(name) {
                if name.parse() != Ok(office) {
                    self.mistake(format!("\"{name}\" stands where office {office} is named"));
                }
                names.push(None);
                continue;
            }
            if name.is_empty() {
                self.mistake(format!("the name of office {office} is empty"));
            }
            if name.chars().count() > NAME_LIMIT {
                self.mistake(format!("\"{name}\" is longer than {NAME_LIMIT} characters"));
            }
            if name.chars().any(char::is_control) {
                self.mistake(format!(
                    "the name of office {office} has a character that cannot be shown"
                ));
            }
            if names.iter().flatten().any(|earlier| earlier == name) {
                self.mistake(format!("two offices are named \"{name}\""));
            }
            names.push(Some(name.to_string()));
        }
        names
    }

    fn failing(&mut self, rest: &str) {
        if self.failing.is_some() {
            return self.mistake("how many may fail is given already");
        }
        match rest.parse() {
            Ok(count @ 0..=MOST_FAILING) => self.failing = Some(count),
            _ => {
                self.mistake(format!("\"{rest}\": 0 to {MOST_FAILING} offices may fail"));
                // It is given, if wrongly, and need not be missed at the end.
                self.failing = Some(0);
            }
        }
    }

    fn links(&mut self, source: &str, both_ways: bool, receivers: &str) {
        if self.offices.is_none() {
            return self.mistake("the line with the offices comes before the links");
        }
        let Some(source) = self.office(source) else {
            return;
        };
        for receiver in receivers.split(',') {
            let Some(receiver) = self.office(receiver.trim()) else {
                continue;
            };
            self.link(source, receiver);
            if both_ways && source != receiver {
                self.link(receiver, source);
            }
        }
    }

    fn link(&mut self, source: u8, receiver: u8) {
        if source == receiver {
            return self.mistake(format!("a link from office {source} to itself"));
        }
        self.links.push((source, receiver));
    }

    /// The office of that name or number.
    fn office(&mut self, called: &str) -> Option<u8> {
        let offices = self.offices.as_deref().unwrap_or_default();
        let named = |name: &Option<String>| name.as_deref() == Some(called);
        let found = match called.parse::<usize>() {
            Ok(number) => (number < offices.len()).then_some(number),
            Err(_) => offices.iter().position(named),
        };
        if found.is_none() {
            let last = offices.len().saturating_sub(1);
            self.mistake(format!(
                "there is no office \"{called}\": offices are 0 to {last}, or their names"
            ));
        }
        found.map(|office| office as u8)
    }

    fn finish(mut self) -> Result<Chart, Vec<Mistake>> {
        if self.offices.is_none() {
            self.mistake("the line with the offices is missing, such as \"offices 5\"");
        }
        if self.failing.is_none() {
            self.mistake("the line that says how many may fail is missing, such as \"may fail 1\"");
        }
        match (self.offices, self.failing) {
            (Some(offices), Some(f)) if self.mistakes.is_empty() => {
                let mut rows = [ServerSet::EMPTY; 8];
                for (source, receiver) in self.links {
                    let row = &mut rows[usize::from(source)];
                    *row = *row | [receiver].into_iter().collect();
                }
                let n = offices.len() as u8;
                let network = Network { n, f, rows };
                Ok(Chart {
                    network,
                    names: Names::new(offices),
                })
            }
            _ => Err(self.mistakes),
        }
    }
}

/// What stands on either side of an arrow, and whether it goes both ways.
fn arrow(line: &str) -> Option<(&str, bool, &str)> {
    let at = line.find("->")?;
    let (left, right) = (&line[..at], line[at + 2..].trim());
    match left.strip_suffix('<') {
        Some(left) => Some((left.trim(), true, right)),
        None => Some((left.trim(), false, right)),
    }
}

/// What follows `word` and a space.
fn after_word<'a>(line: &'a str, word: &str) -> Option<&'a str> {
    let rest = line.strip_prefix(word)?;
    rest.starts_with(char::is_whitespace).then(|| rest.trim())
}

fn is_number(text: &str) -> bool {
    !text.is_empty() && text.bytes().all(|byte| byte.is_ascii_digit())
}

/// The chart of a network, with each link that has a return as one line.
pub fn written(chart: &Chart) -> String {
    let Chart { network, names } = chart;
    let mut text = format!(
        "offices {}\nmay fail {}\n",
        offices_line(network, names),
        network.f
    );
    for u in network.servers() {
        for v in network.rows[usize::from(u)] {
            match network.linked(v, u) {
                true if u < v => text += &format!("{} <-> {}\n", names.called(u), names.called(v)),
                true => {}
                false => text += &format!("{} -> {}\n", names.called(u), names.called(v)),
            }
        }
    }
    text
}

fn offices_line(network: &Network, names: &Names) -> String {
    let servers = network.servers();
    if servers.iter().all(|office| names.name(office).is_none()) {
        return network.n.to_string();
    }
    let called: Vec<String> = servers.iter().map(|office| names.called(office)).collect();
    called.join(", ")
}

/// The card of a network: 01 n f, its links ascending, 03.
pub fn card(network: &Network) -> Vec<u8> {
    let mut card = vec![0x01, network.n, network.f];
    for u in network.servers() {
        for v in network.rows[usize::from(u)] {
            card.extend([0x02, u, v]);
        }
    }
    card.push(0x03);
    card
}

#[cfg(test)]
mod tests {
    use super::*;
    use generate::{network_card, Rng};

    fn mistakes(text: &str) -> Vec<String> {
        let mistakes = read(text.as_bytes()).expect_err(text);
        mistakes.iter().map(Mistake::to_string).collect()
    }

    #[test]
    fn a_chart_is_read_with_names_lists_and_comments() {
        let text = "# desk\r\n\r\noffices Geneva, Hong Kong, 2 # three\r\nmay fail 1\r\n\
                    Geneva <-> Hong Kong\r\n2 -> Geneva, 1\r\n";
        let chart = read(text.as_bytes()).expect("no mistake");
        assert_eq!((chart.network.n, chart.network.f), (3, 1));
        assert_eq!(
            chart.network.rows.map(ServerSet::bits),
            [2, 1, 3, 0, 0, 0, 0, 0]
        );
        assert_eq!(chart.names.name(1), Some("Hong Kong"));
        assert_eq!(chart.names.name(2), None);
        assert_eq!(
            card(&chart.network),
            [1, 3, 1, 2, 0, 1, 2, 1, 0, 2, 2, 0, 2, 2, 1, 3]
        );
        let marked = [b"\xEF\xBB\xBF", text.as_bytes()].concat();
        assert_eq!(read(&marked), Ok(chart));
    }

    #[test]
    fn every_mistake_is_named_by_its_line() {
        let text = "offices 3\nmay fail 3\n0 -> 3\n1 -> 1\n0 <-> 1\n1 -> 0\nOslo -> 1\n0 - 1\nmay fail 1\noffices 4\n";
        let found = mistakes(text);
        let expected = [
            "line 2: \"3\": 0 to 2 offices may fail",
            "line 3: there is no office \"3\": offices are 0 to 2, or their names",
            "line 4: a link from office 1 to itself",
            "line 7: there is no office \"Oslo\": offices are 0 to 2, or their names",
            "line 8: \"0 - 1\" is no line of a chart: it has lines \"offices 5\", \"may fail 1\", \
             \"0 -> 1\", \"1 <-> 2\" and comments after #",
            "line 9: how many may fail is given already",
            "line 10: the offices are given already",
        ];
        assert_eq!(found, expected);
    }

    #[test]
    fn twin_cables_are_one_link_and_one_command_of_the_card() {
        let with = |links: &str| {
            let text = format!("offices 3\nmay fail 0\n{links}");
            read(text.as_bytes()).expect(links)
        };
        let once = with("0 <-> 1\n1 -> 2\n");
        for twins in [
            "0 -> 1\n1 -> 2\n0 -> 1\n1 -> 0\n1 -> 2\n",
            "0 <-> 1, 1\n1 -> 2, 0, 2\n",
            &"0 <-> 1\n1 -> 2\n".repeat(1_000),
        ] {
            let chart = with(twins);
            assert_eq!(chart, once);
            assert_eq!(card(&chart.network), card(&once.network));
        }
        let self_link = mistakes("offices 2\nmay fail 0\n0 -> 1, 1, 0\n");
        assert_eq!(self_link, ["line 3: a link from office 0 to itself"]);
    }

    #[test]
    fn offices_that_cannot_be_are_mistakes() {
        let with = |offices: &str| mistakes(&format!("offices {offices}\nmay fail 0"));
        assert_eq!(with("1"), ["line 1: 1 office: there can be 2 to 8"]);
        assert_eq!(with("9"), ["line 1: 9 offices: there can be 2 to 8"]);
        assert_eq!(
            with("99999999999"),
            ["line 1: 99,999,999,999 offices: there can be 2 to 8"]
        );
        assert_eq!(
            with("Oslo, Oslo"),
            ["line 1: two offices are named \"Oslo\""]
        );
        assert_eq!(
            with("Oslo, 0"),
            ["line 1: \"0\" stands where office 1 is named"]
        );
        assert_eq!(
            with("Oslo,,Lima"),
            ["line 1: the name of office 1 is empty"]
        );
        let long = "a".repeat(NAME_LIMIT + 1);
        let expected = format!("line 1: \"{long}\" is longer than 24 characters");
        assert_eq!(with(&format!("{long}, Oslo")), [expected]);
    }

    #[test]
    fn what_is_missing_is_said_at_the_end() {
        assert_eq!(
            mistakes(""),
            [
                "line 1: the line with the offices is missing, such as \"offices 5\"",
                "line 1: the line that says how many may fail is missing, such as \"may fail 1\"",
            ]
        );
        assert_eq!(
            mistakes("0 -> 1\noffices 2\nmay fail 0\n"),
            ["line 1: the line with the offices comes before the links"]
        );
        let no_text = read(b"offices 2\nmay fail 0\n\xFF\n").expect_err("no text");
        assert_eq!(no_text[0].to_string(), "line 3: this is no text in UTF-8");
    }

    #[test]
    fn a_network_comes_back_from_its_chart_and_from_its_card() {
        let mut rng = Rng::new(1);
        for n in 2..=8 {
            for f in 0..=2 {
                let given = network_card(&mut rng, n, f);
                let network = agreement::read_card(&given).expect("a sound card");
                let named =
                    (0..n).map(|office| (office % 3 > 0).then(|| format!("Office No. {office}")));
                for names in [Names::default(), Names::new(named.collect())] {
                    let chart = Chart { network, names };
                    let again = read(written(&chart).as_bytes()).expect("no mistake");
                    assert_eq!(again.network, network);
                    let names_of = |chart: &Chart| {
                        let names =
                            (0..n).map(|office| chart.names.name(office).map(str::to_string));
                        names.collect::<Vec<_>>()
                    };
                    assert_eq!(names_of(&again), names_of(&chart));
                }
                assert_eq!(agreement::read_card(&card(&network)), Ok(network));
            }
        }
    }
}
