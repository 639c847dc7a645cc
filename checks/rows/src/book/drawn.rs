//! Lists of events that are drawn from a seed.

use crate::row::{hex_of, number, two};
use dns_generator::{MAX_COUNT, loaded};
use dns_server_core::Event;
use std::alloc::Global;
use std::test::Fail;

/// The events of so many messages that are drawn from a seed, as the lines of an event text have them: `SEED COUNT`.
pub fn drawn(alloc: Global, given: &str) -> Result<String, Fail> {
    let (seed, count) = two(given);
    let count = number(count);
    if count > u64::from(MAX_COUNT) {
        return Ok("too many".to_string(alloc)?);
    }
    let events = loaded(alloc, number(seed), count as u32)?;
    let mut answers = String::new(alloc);
    for event in &events {
        put_event(alloc, event, &mut answers)?;
    }
    Ok(answers)
}

/// A connection, its bytes, or a datagram, each with a `;` behind it.
fn put_event(alloc: Global, event: &Event, answers: &mut String) -> Result<(), Fail> {
    match event {
        Event::Accepted {
            at,
            conn,
            peer,
            limit,
        } => write!(
            answers,
            "A {at} {conn} {:?} {} {limit};",
            peer.ip, peer.port
        )?,
        Event::Bytes { at, conn, piece } => {
            let digits = hex_of(alloc, piece.as_slice())?;
            write!(answers, "B {at} {conn} {digits};")?;
        }
        Event::Datagram { at, peer, bytes } => {
            let digits = hex_of(alloc, bytes.as_slice())?;
            write!(answers, "D {at} {:?} {} {digits};", peer.ip, peer.port)?;
        }
        _ => answers.push_str("another event;")?,
    }
    Ok(())
}
