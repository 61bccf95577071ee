//! Words that several verbs use.

use crate::apart::Apart;
use crate::names::Names;
use agreement::{Network, ServerSet, Split, Totals};

/// `at most 1 may fail`.
pub fn at_most(f: u8) -> String {
    match f {
        0 => "none may fail".to_string(),
        _ => format!("at most {f} may fail"),
    }
}

/// What holds of a network without a bad split.
pub fn can_agree(network: &Network) -> &'static str {
    match network.f {
        0 => "the offices can agree, as long as none of them fails",
        1 => "the offices can agree, whichever one of them fails",
        _ => "the offices can agree, whichever two of them fail",
    }
}

/// What an accepted plan has.
pub fn accepted(totals: Totals) -> String {
    format!(
        "plan accepted: {} and {}",
        counted(totals.blocks, "block"),
        counted(totals.carriages, "carriage")
    )
}

/// Why `side`, the L or the R of a bad split, has nothing from outside that it could rely on.
pub fn hearing(side: ServerSet, network: &Network, names: &Names, split: &Split) -> String {
    let heard = network.incoming(side) - split.f;
    let (hear, they, them) = match side.len() {
        1 => ("hears", "it", "it"),
        _ => ("hear", "they", "them"),
    };
    // Those that they hear fail in place of F: no more than f may fail at a time.
    let (leaving_out, instead) = match split.f.is_empty() {
        true => ("", ""),
        false => ("leaving out F, ", " instead of F"),
    };
    let offices = names.offices(side);
    if heard.is_empty() {
        return format!(
            "{leaving_out}{offices} {hear} none of the others, so nothing from outside can put {them} right"
        );
    }
    let heard = names.offices(heard);
    let f = if network.f == 1 { "one" } else { "two" };
    format!(
        "{leaving_out}{offices} {hear}, of all others, only {heard}: no more than the {f} that may fail{instead}, \
         so that all {they} {hear} from outside may be false"
    )
}

/// What follows from a bad split.
pub const SO: &str = "so L could show open while R shows closed, and no plan can help";

/// How many offices the older rule for two-way sites wants, and how many of them to be
/// taken away before the rest falls apart. No network with fewer offices can agree, two-way
/// or not.
pub fn wanted(f: u8) -> (u8, u8) {
    (3 * f + 1, 2 * f + 1)
}

/// Which offices leave the rest apart when they are taken away.
pub fn taking_away(apart: &Apart, names: &Names) -> String {
    let [one, other] = [apart.one, apart.other].map(|part| names.offices(part));
    if apart.taken.is_empty() {
        return format!("the offices are apart as they are: {one} from {other}");
    }
    let taken = names.offices(apart.taken);
    format!("taking away {taken} leaves {one} apart from {other}")
}

/// A whole sentence from its words.
pub fn sentence(words: &str) -> String {
    capital(words) + "."
}

/// `words` with a capital at the beginning.
pub fn capital(words: &str) -> String {
    let mut letters = words.chars();
    match letters.next() {
        Some(first) => first.to_uppercase().chain(letters).collect(),
        None => String::new(),
    }
}

/// What a bit stands for.
pub fn bit(bit: u8) -> &'static str {
    match bit {
        0 => "open",
        _ => "closed",
    }
}

/// `1 block`, `1,499 blocks`.
pub fn counted(count: usize, what: &str) -> String {
    match count {
        1 => format!("1 {what}"),
        _ => format!("{} {what}s", grouped(count)),
    }
}

/// A number with a comma before each three digits.
pub fn grouped(number: usize) -> String {
    let digits = number.to_string();
    let mut text = String::new();
    for (index, digit) in digits.chars().enumerate() {
        if index > 0 && (digits.len() - index).is_multiple_of(3) {
            text.push(',');
        }
        text.push(digit);
    }
    text
}

/// `first`, `second`, `third` for 0, 1 and 2.
pub fn ordinal(index: usize) -> String {
    match index {
        0 => "first".to_string(),
        1 => "second".to_string(),
        2 => "third".to_string(),
        _ => format!("{}th", index + 1),
    }
}

#[cfg(test)]
mod tests {
    use super::*;

    #[test]
    fn offices_that_are_taken_away_are_told_with_the_two_parts() {
        let told = |sets: [u8; 3], names: &Names| {
            let [taken, one, other] = sets.map(ServerSet::from_bits);
            taking_away(&Apart { taken, one, other }, names)
        };
        let called = ["Geneva", "Oslo", "Lima", "Pusan", "Dakar"];
        let called = Names::new(called.map(|name| Some(name.to_string())).to_vec());
        assert_eq!(
            told([0b110, 0b1, 0b1_1000], &called),
            "taking away offices 1 (Oslo), 2 (Lima) leaves office 0 (Geneva) apart from \
             offices 3 (Pusan), 4 (Dakar)"
        );
        assert_eq!(
            told([0b1, 0b10, 0b100], &Names::default()),
            "taking away office 0 leaves office 1 apart from office 2"
        );
        assert_eq!(
            told([0, 0b11, 0b100], &Names::default()),
            "the offices are apart as they are: offices 0 1 from office 2"
        );
    }

    #[test]
    fn numbers_are_written_in_groups_of_three() {
        let numbers = [0, 7, 512, 1_024, 65_536, 1_048_577];
        let written = ["0", "7", "512", "1,024", "65,536", "1,048,577"];
        assert_eq!(numbers.map(grouped), written);
        assert_eq!(counted(1, "run"), "1 run");
        assert_eq!(counted(14_464, "run"), "14,464 runs");
    }
}
