//! Streams that come in pieces (RFC 1035 4.2.2).

use crate::row::{bytes_of, hex_of};
use dns_frames::Frames;
use std::alloc::Global;
use std::test::Fail;

/// What comes of a stream's pieces: behind each `,` the messages that are whole then, with a `;` behind each; and how many
/// bytes are left at the end.
pub fn stream(alloc: Global, given: &str) -> Result<String, Fail> {
    let mut frames = Frames::new(alloc);
    let mut messages = String::new(alloc);
    for piece in given.split_whitespace() {
        let bytes = bytes_of(alloc, piece)?;
        frames.feed(bytes.as_slice())?;
        put_messages(alloc, &mut frames, &mut messages)?;
    }
    Ok(format!(in alloc; "{messages} {}", frames.rest())?)
}

/// Adds the messages that are whole.
fn put_messages(alloc: Global, frames: &mut Frames, messages: &mut String) -> Result<(), Fail> {
    messages.push(',')?;
    for _ in 0..u64::MAX {
        match frames.next()? {
            Some(message) => put_message(alloc, message.as_slice(), messages)?,
            None => break,
        }
    }
    Ok(())
}

fn put_message(alloc: Global, message: &[u8], messages: &mut String) -> Result<(), Fail> {
    let digits = hex_of(alloc, message)?;
    messages.push_str(digits.as_str())?;
    messages.push(';')?;
    Ok(())
}
