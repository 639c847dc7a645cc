//! Messages, questions and records that stand in bytes (RFC 1035 4.1).

use crate::row::{bytes_of, hex_of, size, two};
use dns_query::{Query, read_query};
use dns_wire::{Message, Question, Record, read_one_question, read_record};
use std::alloc::Global;
use std::test::Fail;

/// The bytes that the message is written as, or why there is none.
pub fn message(alloc: Global, given: &str) -> Result<String, Fail> {
    let bytes = bytes_of(alloc, given)?;
    match Message::from_vec(alloc, bytes.as_slice()) {
        Ok(message) => written(alloc, &message),
        Err(fault) => Ok(format!(in alloc; "{fault:?}")?),
    }
}

fn written(alloc: Global, message: &Message) -> Result<String, Fail> {
    let bytes = message.to_vec(alloc)?;
    hex_of(alloc, bytes.as_slice())
}

/// The only question of the message.
pub fn question(alloc: Global, given: &str) -> Result<String, Fail> {
    let bytes = bytes_of(alloc, given)?;
    match read_one_question(alloc, bytes.as_slice())? {
        Some(question) => asked(alloc, &question),
        None => Ok("none".to_string(alloc)?),
    }
}

fn asked(alloc: Global, question: &Question) -> Result<String, Fail> {
    Ok(format!(in alloc;
        "{:?} {} {}",
        question.name, question.qtype, question.qclass
    )?)
}

/// The place behind the record that stands at a place of the bytes, the record in wire form with no pointer, and its data.
pub fn record(alloc: Global, given: &str) -> Result<String, Fail> {
    let (place, digits) = two(given);
    let bytes = bytes_of(alloc, digits)?;
    match read_record(alloc, bytes.as_slice(), size(place))? {
        Some((record, end)) => record_text(alloc, &record, end),
        None => Ok("none".to_string(alloc)?),
    }
}

fn record_text(alloc: Global, record: &Record, end: usize) -> Result<String, Fail> {
    let bytes = record.to_vec(alloc)?;
    let digits = hex_of(alloc, bytes.as_slice())?;
    Ok(format!(in alloc; "{end} {digits} {:?}", record.rdata)?)
}

/// What a query says that is looked at in place: its id, its name as it stands in the message, type and class, and what its OPT says.
pub fn plain_query(alloc: Global, given: &str) -> Result<String, Fail> {
    let bytes = bytes_of(alloc, given)?;
    match read_query(bytes.as_slice()) {
        Some(query) => query_text(alloc, &query),
        None => Ok("none".to_string(alloc)?),
    }
}

fn query_text(alloc: Global, query: &Query<'_>) -> Result<String, Fail> {
    let name = hex_of(alloc, query.name.as_wire())?;
    let mut text = format!(in alloc;
        "{:04x} {name} {} {}",
        query.header.id, query.qtype, query.qclass
    )?;
    if let Some(edns) = &query.edns {
        write!(text, " {} {}", edns.payload, edns.dnssec_ok)?;
    }
    Ok(text)
}
