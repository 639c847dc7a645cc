//! The words of rows: how a line is parted, and what layers read and write alike.

use std::alloc::Global;
use std::str;
use std::test::Fail;

/// A row's kind, what it gives, and what it wants.
pub fn parted(row: &str) -> (&str, &str, &str) {
    let (rest, wanted) = row.rsplit_once('|').unwrap_or((row, ""));
    let (kind, given) = rest.split_once('|').unwrap_or((rest, ""));
    (kind, given, wanted)
}

/// The first word, and what stands behind it.
pub fn two(given: &str) -> (&str, &str) {
    given.split_once(' ').unwrap_or((given, ""))
}

/// The first field, and what stands behind it: fields stand between `|`.
pub fn first_field(fields: &str) -> (&str, &str) {
    fields.split_once('|').unwrap_or((fields, ""))
}

/// The first call of a list, and those behind it.
pub fn first_call(given: &str) -> (&str, &str) {
    given.split_once(" / ").unwrap_or((given, ""))
}

/// The bytes of hex digits.
pub fn bytes_of(alloc: Global, digits: &str) -> Result<Vec<u8>, Fail> {
    let mut bytes = Vec::new(alloc);
    let mut high = 0u8;
    for (place, digit) in digits.as_bytes().iter().enumerate() {
        let low = value_of(*digit);
        if place % 2 == 1 {
            bytes.push(high.wrapping_mul(16) | low)?;
        }
        high = low;
    }
    Ok(bytes)
}

/// The value of a hex digit.
fn value_of(digit: u8) -> u8 {
    match digit {
        b'0'..=b'9' => digit - b'0',
        b'a'..=b'f' => digit - b'a' + 10,
        _ => 0,
    }
}

/// The hex digits of bytes.
pub fn hex_of(alloc: Global, bytes: &[u8]) -> Result<String, Fail> {
    Ok(hex::encode(alloc, bytes)?)
}

/// Adds the hex digits of bytes.
pub fn put_bytes(answer: &mut String, bytes: &[u8]) -> Result<(), Fail> {
    for byte in bytes {
        write!(answer, "{byte:02x}")?;
    }
    Ok(())
}

/// Bytes as a text in quotes.
pub fn quoted(alloc: Global, bytes: &[u8]) -> Result<String, Fail> {
    let text = str::from_utf8(bytes).unwrap_or("no text");
    Ok(format!(in alloc; "{text:?}")?)
}

/// A number, or 0.
pub fn number(word: &str) -> u64 {
    word.parse().unwrap_or(0)
}

/// A size, or 0.
pub fn size(word: &str) -> usize {
    word.parse().unwrap_or(0)
}

/// Numbers with commas between them; what is no number is left out, as `-` for none.
pub fn numbers_of(alloc: Global, text: &str) -> Result<Vec<u64>, Fail> {
    let mut numbers = Vec::new(alloc);
    for word in text.split(',') {
        if let Ok(number) = word.parse() {
            numbers.push(number)?;
        }
    }
    Ok(numbers)
}

/// The words of a line, about single blanks.
pub fn words_of(alloc: Global, line: &str) -> Result<Vec<String>, Fail> {
    let mut words = Vec::new(alloc);
    for word in line.split(' ') {
        words.push(word.to_string(alloc)?)?;
    }
    Ok(words)
}

/// The lines about `;`, with a line end behind each.
pub fn text_of(alloc: Global, lines: &str) -> Result<String, Fail> {
    let mut text = String::new(alloc);
    if !lines.is_empty() {
        for line in lines.split(';') {
            text.push_str(line)?;
            text.push('\n')?;
        }
    }
    Ok(text)
}

/// Adds an answer to those before it.
pub fn put_answer(answers: &mut String, answer: &str) -> Result<(), Fail> {
    if !answers.is_empty() {
        answers.push_str(" / ")?;
    }
    answers.push_str(answer)?;
    Ok(())
}

/// An answer without the blanks at its end.
pub fn trimmed(alloc: Global, answer: Result<String, Fail>) -> Result<String, Fail> {
    Ok(answer?.as_str().trim_end().to_string(alloc)?)
}
