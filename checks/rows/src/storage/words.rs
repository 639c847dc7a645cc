//! The texts of a row.

use std::alloc::Global;
use std::test::Fail;

/// What stands in front of the first mark, and what behind it.
pub fn parted_at<'a>(text: &'a str, mark: &str) -> (&'a str, &'a str) {
    text.split_once(mark).unwrap_or((text, ""))
}

/// A text, in which the pictures of a line feed, a carriage return and a tab stand for these.
pub fn text_of(alloc: Global, given: &str) -> Result<String, Fail> {
    let mut text = String::new(alloc);
    for letter in given.chars() {
        text.push(pictured(letter))?;
    }
    Ok(text)
}

fn pictured(letter: char) -> char {
    match letter {
        '␊' => '\n',
        '␍' => '\r',
        '␉' => '\t',
        other => other,
    }
}
