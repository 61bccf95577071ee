//! Texts: what a name may hold, how wide a line is, where it breaks, and how XML writes it.

/// Size of the names and of the legend: 11 points where a picture is printed on A4.
pub const SIZE: f64 = 15.0;

/// Stands for a character that cannot be written.
const REPLACEMENT: char = '\u{fffd}';
/// A space at which no line breaks.
const NO_BREAK: char = '\u{a0}';
/// What stands between these two is ordered by itself, and does not turn the text around it.
const ISOLATE: char = '\u{2068}';
const END_OF_ISOLATE: char = '\u{2069}';

/// `name` with its words one space apart and without characters that XML cannot hold, or `None`
/// where nothing is left. Marks that turn the direction of a text are taken out too, since they
/// would turn what follows the name.
pub fn clean(name: &str) -> Option<String> {
    let kept = name.chars().filter(|c| !turns_text(*c));
    let written: String = kept
        .map(|c| if is_written(c) { c } else { REPLACEMENT })
        .collect();
    let words: Vec<&str> = written.split_whitespace().collect();
    (!words.is_empty()).then(|| words.join(" "))
}

fn turns_text(c: char) -> bool {
    matches!(c, '\u{202a}'..='\u{202e}' | '\u{2066}'..='\u{2069}')
}

fn is_written(c: char) -> bool {
    c.is_whitespace() || !(c.is_control() || matches!(c, '\u{fffe}' | '\u{ffff}'))
}

/// A clean name as it stands in a sentence: it keeps to one line, and one that is written from
/// right to left leaves the order of the numbers around it alone.
pub fn in_prose(name: &str) -> String {
    let name: String = name
        .chars()
        .map(|c| if c == ' ' { NO_BREAK } else { c })
        .collect();
    if name.chars().any(runs_right_to_left) {
        format!("{ISOLATE}{name}{END_OF_ISOLATE}")
    } else {
        name
    }
}

/// Hebrew, Arabic and the other scripts in the blocks that Unicode keeps for this direction.
fn runs_right_to_left(c: char) -> bool {
    matches!(c,
        '\u{590}'..='\u{8ff}'
        | '\u{fb1d}'..='\u{fdff}'
        | '\u{fe70}'..='\u{fefc}'
        | '\u{10800}'..='\u{10fff}'
        | '\u{1e800}'..='\u{1efff}')
}

/// How wide `text` is at most, in the usual sans-serif fonts.
pub fn width(text: &str, size: f64) -> f64 {
    text.chars().map(ems).sum::<f64>() * size
}

/// How wide a character is at most, in parts of the font size. The figures are rounded up from
/// DejaVu Sans and Verdana, the widest of the fonts that viewers take for `sans-serif`.
fn ems(c: char) -> f64 {
    match c {
        ' ' | NO_BREAK | '\'' | ',' | '.' | 'f' | 'i' | 'j' | 'l' => 0.37,
        '!' | '"' | '(' | ')' | '-' | '/' | ':' | ';' | '[' | '\\' | ']' | '|' => 0.46,
        'I' | 'J' | 'r' | 't' => 0.46,
        '%' | '@' | 'W' | 'm' => 1.08,
        '0'..='9' | 'a'..='v' | 'x'..='z' => 0.65,
        ' '..='~' => 0.87,
        // The other letters of Europe, small ones first.
        _ if BROAD.contains(c) => 1.05,
        'ß'..='ž' | 'ά'..='ώ' | 'а'..='џ' if c.is_lowercase() => 0.71,
        '\u{a1}'..='\u{17f}' | '\u{370}'..='\u{52f}' => 1.2,
        // Hebrew and Arabic.
        '\u{590}'..='\u{6ff}' => 1.25,
        // Signs of East Asia fill a square.
        '\u{2e80}'..='\u{9fff}' | '\u{ac00}'..='\u{d7a3}' => 1.0,
        // Long dashes, a Burmese vowel, cuneiform, and an Arabic sentence in one sign.
        '\u{2e3a}' | '\u{2e3b}' | '\u{102a}' | '\u{12000}'..='\u{1254f}' => 4.0,
        '\u{fdfd}' => 12.0,
        // Of the rest, a few signs made of several are the widest.
        _ => 1.8,
    }
}

/// Small letters that are as broad as an m.
const BROAD: &str = "æœŉŵωώжмфшщыюљњ";

/// Breaks `text` at spaces into lines of at most `room`; a word that is wider gets a line of its own.
pub fn wrap(text: &str, size: f64, room: f64) -> Vec<String> {
    let mut lines: Vec<String> = Vec::new();
    for word in words(text) {
        match lines.last_mut() {
            Some(line) if width(&format!("{line} {word}"), size) <= room => {
                line.push(' ');
                line.push_str(&word);
            }
            _ => lines.push(word),
        }
    }
    lines
}

/// The words of `text`; a bracket stays with the word before it, as a name does with its number.
fn words(text: &str) -> Vec<String> {
    let mut words: Vec<String> = Vec::new();
    for word in text.split(' ') {
        match words.last_mut() {
            Some(before) if word.starts_with('(') => {
                before.push(' ');
                before.push_str(word);
            }
            _ => words.push(word.to_string()),
        }
    }
    words
}

/// `text` as it stands between two tags.
pub fn escape(text: &str) -> String {
    text.replace('&', "&amp;")
        .replace('<', "&lt;")
        .replace('>', "&gt;")
}

#[cfg(test)]
mod tests {
    use super::*;

    #[test]
    fn names_are_cleaned() {
        assert_eq!(clean("  Port \t of\nSpain "), Some("Port of Spain".into()));
        assert_eq!(
            clean("a\u{0}b\u{1b}\u{ffff}"),
            Some("a\u{fffd}b\u{fffd}\u{fffd}".into())
        );
        assert_eq!(clean("\u{202e}abc\u{2069}"), Some("abc".into()));
        assert_eq!(clean(" \u{202e}\n"), None);
    }

    #[test]
    fn names_in_prose_keep_together_and_to_themselves() {
        assert_eq!(in_prose("New York"), "New\u{a0}York");
        assert_eq!(in_prose("תל אביב"), "\u{2068}תל\u{a0}אביב\u{2069}");
    }

    #[test]
    fn lines_break_at_spaces_where_they_must() {
        // Ten signs of 0.65 fill a line of 6.5 ems.
        let lines = |text| wrap(text, 10.0, 65.0);
        assert_eq!(lines(""), [""]);
        assert_eq!(lines("aaaaaaaaaa"), ["aaaaaaaaaa"]);
        assert_eq!(lines("aaaa aaaa aaaa"), ["aaaa aaaa", "aaaa"]);
        assert_eq!(
            lines("a aaaaaaaaaaaaaaaa a"),
            ["a", "aaaaaaaaaaaaaaaa", "a"]
        );
        assert_eq!(lines("aaa aaaa 1 (aa) a"), ["aaa aaaa", "1 (aa) a"]);
        assert_eq!(lines("aaaaaaa\u{a0}aaaaaaa"), ["aaaaaaa\u{a0}aaaaaaa"]);
    }

    #[test]
    fn what_means_something_in_xml_is_escaped() {
        assert_eq!(escape("<a & b>"), "&lt;a &amp; b&gt;");
    }
}
