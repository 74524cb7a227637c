//! Numbers and words in messages.

use std::ops::RangeInclusive;

const MOST_SHOWN: usize = 40;

/// A number with a comma between thousands.
pub fn grouped(number: u64) -> String {
    let digits = number.to_string();
    let mut text = String::new();
    for (at, digit) in digits.chars().enumerate() {
        if at > 0 && (digits.len() - at).is_multiple_of(3) {
            text.push(',');
        }
        text.push(digit);
    }
    text
}

/// A number of things, in the plural where there is not one of them.
pub fn count(number: usize, thing: &str) -> String {
    let end = if number == 1 { "" } else { "s" };
    format!("{} {thing}{end}", grouped(number as u64))
}

/// A word of somebody else, cut where it is long, with nothing in it that moves a terminal's cursor.
pub fn shown(word: &str) -> String {
    let mut text: String = word
        .chars()
        .take(MOST_SHOWN)
        .flat_map(|letter| match letter.is_control() {
            true => letter.escape_default().collect(),
            false => vec![letter],
        })
        .collect();
    if word.chars().nth(MOST_SHOWN).is_some() {
        text += "...";
    }
    text
}

/// A whole number of a range, in digits alone.
pub fn number(word: &str, range: &RangeInclusive<u32>) -> Option<u32> {
    let digits = !word.is_empty() && word.bytes().all(|byte| byte.is_ascii_digit());
    let number = word.parse().ok()?;
    (digits && range.contains(&number)).then_some(number)
}

/// What is said of a word that is no number of the range.
pub fn no_number(word: &str, range: &RangeInclusive<u32>) -> String {
    let [low, high] = [range.start(), range.end()].map(|end| grouped((*end).into()));
    let word = match word {
        "" => "nothing".to_string(),
        _ => shown(word),
    };
    format!("a number from {low} to {high} is expected, not {word}")
}

/// The word of a list that a mistyped one most likely stands for.
pub fn nearest<'a>(word: &str, list: impl Iterator<Item = &'a str>) -> Option<&'a str> {
    let near = list.map(|known| (distance(word, known), known)).min()?;
    let most = 1 + near.1.len() / 3;
    (near.0 <= most.min(3)).then_some(near.1)
}

/// How many letters are to be put in, taken out or changed to make one word the other.
fn distance(one: &str, other: &str) -> usize {
    let other: Vec<char> = other.chars().collect();
    let mut row: Vec<usize> = (0..=other.len()).collect();
    for (at, letter) in one.chars().take(2 * MOST_SHOWN).enumerate() {
        let mut corner = row[0];
        row[0] = at + 1;
        for (before, known) in other.iter().enumerate() {
            let change = corner + usize::from(letter != *known);
            corner = row[before + 1];
            row[before + 1] = change.min(corner + 1).min(row[before] + 1);
        }
    }
    row[other.len()]
}
