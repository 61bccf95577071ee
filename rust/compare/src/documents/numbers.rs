//! Numbers and sets as the documents write them.

use agreement::ServerSet;
use std::ops::Range;

/// With a comma after each thousand: `1,024`.
pub fn grouped(number: usize) -> String {
    let digits = number.to_string();
    let mut text = String::new();
    for (index, digit) in digits.chars().enumerate() {
        if index > 0 && (digits.len() - index).is_multiple_of(3) {
            text.push(',');
        }
        text.push(digit);
    }
    text
}

/// The number that decimal digits stand for, with commas or without.
pub fn number(text: &str) -> Option<usize> {
    let value = text.replace(',', "").parse().ok()?;
    (text == grouped(value) || text == value.to_string()).then_some(value)
}

/// In words: `seven`.
pub fn word(number: usize) -> &'static str {
    const WORDS: [&str; 13] = [
        "no", "one", "two", "three", "four", "five", "six", "seven", "eight", "nine", "ten",
        "eleven", "twelve",
    ];
    WORDS[number]
}

/// With a capital: `Seven`.
pub fn capital(word: &str) -> String {
    let (first, rest) = word.split_at(1);
    first.to_uppercase() + rest
}

/// Which one of a row, from 0: `first`.
pub fn ordinal(index: usize) -> &'static str {
    const WORDS: [&str; 8] = [
        "first", "second", "third", "fourth", "fifth", "sixth", "seventh", "eighth",
    ];
    WORDS[index]
}

/// Bytes with a space between them: 0E 10.
pub fn hexadecimal(bytes: &[u8]) -> String {
    let bytes: Vec<String> = bytes.iter().map(|byte| format!("{byte:02X}")).collect();
    bytes.join(" ")
}

/// Bytes between backticks: `0E 10`.
pub fn quoted(bytes: &[u8]) -> String {
    format!("`{}`", hexadecimal(bytes))
}

/// A set as its byte: `0E`.
pub fn byte(set: ServerSet) -> String {
    quoted(&[set.bits()])
}

/// A set by its members: `{1, 2}`.
pub fn members(set: ServerSet) -> String {
    format!("{{{}}}", row(set))
}

/// The items with commas between them: `0, 1, 2`.
pub fn row<T: ToString>(items: impl IntoIterator<Item = T>) -> String {
    let items: Vec<String> = items.into_iter().map(|item| item.to_string()).collect();
    items.join(", ")
}

/// The same with an `and` before the last.
pub fn listed<T: ToString>(items: impl IntoIterator<Item = T>) -> String {
    let items: Vec<String> = items.into_iter().map(|item| item.to_string()).collect();
    match &items[..] {
        [some @ .., last] if !some.is_empty() => format!("{} and {last}", row(some)),
        _ => items.concat(),
    }
}

/// The places of the numbers in a line: decimal ones, whole with their commas, and bytes
/// of two hexadecimal digits. Digits within a name, as in `step1-is`, are no number.
pub fn numbers(line: &str) -> Vec<Range<usize>> {
    let mut found: Vec<Range<usize>> = Vec::new();
    for word in words(line) {
        let text = &line[word.clone()];
        match found.last_mut() {
            Some(before) if is_thousands(line, before, &word) => before.end = word.end,
            _ if is_decimal(text) || is_byte(text) => found.push(word),
            _ => {}
        }
    }
    found
}

/// The places of the words of a line: letters, digits and `_`.
fn words(line: &str) -> Vec<Range<usize>> {
    let mut found: Vec<Range<usize>> = Vec::new();
    for (place, character) in line.char_indices() {
        if !(character.is_ascii_alphanumeric() || character == '_') {
            continue;
        }
        match found.last_mut() {
            Some(word) if word.end == place => word.end += 1,
            _ => found.push(place..place + 1),
        }
    }
    found
}

/// Whether `word` goes on with the number before it, after a comma.
fn is_thousands(line: &str, before: &Range<usize>, word: &Range<usize>) -> bool {
    let [first, comma, next] =
        [before.clone(), before.end..word.start, word.clone()].map(|range| &line[range]);
    comma == "," && next.len() == 3 && is_decimal(next) && first.starts_with(|c| c != '0')
}

fn is_decimal(text: &str) -> bool {
    text.bytes().all(|digit| digit.is_ascii_digit())
}

/// Of the words without a digit only `FF` is a byte: `BC` is a name.
fn is_byte(text: &str) -> bool {
    let digits = text
        .bytes()
        .all(|digit| b"0123456789ABCDEF".contains(&digit));
    let is_name = text.bytes().all(|digit| digit.is_ascii_alphabetic());
    text.len() == 2 && digits && (!is_name || text == "FF")
}

/// The number after this one, written in the same way.
pub fn next(text: &str) -> String {
    match number(text) {
        Some(value) if text.contains(',') => grouped(value + 1),
        Some(value) => (value + 1).to_string(),
        None => match u8::from_str_radix(text, 16) {
            Ok(value) => format!("{:02X}", value.wrapping_add(1)),
            Err(_) => panic!("no number: {text}"),
        },
    }
}
