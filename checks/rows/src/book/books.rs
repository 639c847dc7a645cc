//! Messages that a book settles: the ids of replies over QUIC, the counters behind messages, updates in the journal or nowhere, and
//! replies in the caller's buffer.

use crate::book::asks::ask_of;
use crate::book::zones::book;
use crate::row::{first_call, hex_of, put_answer, two};
use dns_book::{AccessControl, Book, IpNet, Settled};
use dns_io::{Ip, Protocol};
use dns_keeper::MemoryKeeper;
use dns_server_core::RequestHandler;
use std::alloc::Global;
use std::test::Fail;

/// What calls of a book answer: `BOOK / CALL / ..`.
pub fn calls(alloc: Global, given: &str) -> Result<String, Fail> {
    let (made, calls) = first_call(given);
    let mut book = book(alloc, made)?;
    answers_to(alloc, &mut book, calls)
}

fn answers_to(alloc: Global, book: &mut Book<MemoryKeeper>, calls: &str) -> Result<String, Fail> {
    let mut answers = String::new(alloc);
    for call in calls.split(" / ") {
        put_answer(&mut answers, answer_to(alloc, book, call)?.as_str())?;
    }
    Ok(answers)
}

/// `ask HEX`, `head PROTOCOL HEX`, `send HEX`, `shut HEX` or `count COUNTER LABEL`: an update that is asked for has its reply told, with the
/// rows, the receipt and the serial; of a query the first four bytes of the reply; and what is sent, also from a source that is shut out,
/// is counted.
fn answer_to(alloc: Global, book: &mut Book<MemoryKeeper>, call: &str) -> Result<String, Fail> {
    let (word, rest) = two(call);
    match word {
        "ask" => ask(alloc, book, rest),
        "head" => head(alloc, book, rest),
        "count" => count(alloc, book, rest),
        _ => send(alloc, book, word == "shut", rest),
    }
}

fn ask(alloc: Global, book: &mut Book<MemoryKeeper>, digits: &str) -> Result<String, Fail> {
    let settled = settle(alloc, book, Protocol::Udp, false, digits)?;
    let reply = reply_of(alloc, &settled)?;
    Ok(format!(in alloc;
        "{reply} {} {:?} {}",
        settled.length,
        settled.receipt,
        book.serial()
    )?)
}

/// The first four bytes of the reply: its id and flags (RFC 9250 4.2.1; RFC 1035 4.1.1).
fn head(alloc: Global, book: &mut Book<MemoryKeeper>, words: &str) -> Result<String, Fail> {
    let (protocol, digits) = two(words);
    let settled = settle(alloc, book, protocol_of(protocol), false, digits)?;
    let reply = reply_of(alloc, &settled)?;
    Ok(reply.as_str().get(..8).unwrap_or("").to_string(alloc)?)
}

fn send(
    alloc: Global,
    book: &mut Book<MemoryKeeper>,
    is_shut: bool,
    digits: &str,
) -> Result<String, Fail> {
    settle(alloc, book, Protocol::Udp, is_shut, digits)?;
    Ok("sent".to_string(alloc)?)
}

/// The count of a label, which may be empty.
fn count(alloc: Global, book: &Book<MemoryKeeper>, words: &str) -> Result<String, Fail> {
    let (name, label) = two(words);
    Ok(format!(in alloc; "{:?}", book.counts().get(name, label))?)
}

/// The protocol of this name.
pub fn protocol_of(name: &str) -> Protocol {
    match name {
        "tcp" => Protocol::Tcp,
        "tls" => Protocol::Tls,
        "https" => Protocol::Https,
        "quic" => Protocol::Quic,
        "h3" => Protocol::H3,
        _ => Protocol::Udp,
    }
}

fn reply_of(alloc: Global, settled: &Settled) -> Result<String, Fail> {
    match &settled.reply {
        Some(reply) => hex_of(alloc, reply.as_slice()),
        None => Ok("none".to_string(alloc)?),
    }
}

/// Settles a message, over networks of which none or every one of IPv4 is shut out.
fn settle(
    alloc: Global,
    book: &mut Book<MemoryKeeper>,
    protocol: Protocol,
    is_shut: bool,
    digits: &str,
) -> Result<Settled, Fail> {
    let access = access_of(alloc, is_shut)?;
    let ask = ask_of(alloc, protocol, digits)?;
    Ok(book.settle(&access, &ask)?)
}

fn access_of(alloc: Global, is_shut: bool) -> Result<AccessControl, Fail> {
    let mut denied = Vec::new(alloc);
    if is_shut {
        denied.push(IpNet::new(Ip::V4(0), 0).ok_or("no network")?)?;
    }
    Ok(AccessControl::from_networks(denied, Vec::new(alloc)))
}

/// What goes into a buffer that has the bytes `before`, with what is told of each message: whether a reply is owed, and how many rows the
/// journal then has. `BOOK / framed HEX / plain HEX ..`
pub fn buffer(alloc: Global, given: &str) -> Result<String, Fail> {
    let (made, calls) = first_call(given);
    let mut book = book(alloc, made)?;
    let mut out = Vec::from_slice(alloc, b"before")?;
    put_into(alloc, &mut book, calls, &mut out)
}

fn put_into<T: RequestHandler>(
    alloc: Global,
    handler: &mut T,
    calls: &str,
    out: &mut Vec<u8>,
) -> Result<String, Fail> {
    let mut answers = String::new(alloc);
    for call in calls.split(" / ") {
        put_answer(
            &mut answers,
            handle_into(alloc, handler, call, out)?.as_str(),
        )?;
    }
    Ok(answers)
}

fn handle_into<T: RequestHandler>(
    alloc: Global,
    handler: &mut T,
    call: &str,
    out: &mut Vec<u8>,
) -> Result<String, Fail> {
    let (word, digits) = two(call);
    let ask = ask_of(alloc, Protocol::Tcp, digits)?;
    let access = AccessControl::new(alloc);
    let into = handler.handle_into(&access, &ask.lent(), out, word == "framed")?;
    let digits = hex_of(alloc, out.as_slice())?;
    Ok(format!(in alloc; "{} {} {digits}", into.is_owed, into.length)?)
}
