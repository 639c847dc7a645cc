//! What no line of the program shows: a server that is handed several lists of events, and one that was stopped.

use crate::book::access::nets_of;
use crate::book::zones::book;
use crate::row::{bytes_of, first_call, hex_of, number, put_answer, two};
use dns_book::Book;
use dns_io::{Ip, Octets, Peer};
use dns_keeper::MemoryKeeper;
use dns_server_core::{Event, Out, RunFault, Server};
use std::alloc::Global;
use std::test::Fail;

/// How lists of events are served, the replies, and how many connections are open then. The lists stand about ` / `, and the events of a
/// list about `, `.
pub fn lists(alloc: Global, given: &str) -> Result<String, Fail> {
    let mut server = Server::new(alloc, book(alloc, "one no 0 0")?);
    let mut answers = String::new(alloc);
    put_lists(alloc, &mut server, given, &mut answers)?;
    Ok(answers)
}

/// The same of a server that has networks: `DENIED ALLOWED / LIST / LIST ..`.
pub fn lists_by(alloc: Global, given: &str) -> Result<String, Fail> {
    let (nets, lists) = first_call(given);
    let (denied, allowed) = two(nets);
    let (denied, allowed) = (nets_of(alloc, denied)?, nets_of(alloc, allowed)?);
    let mut server = Server::with_access(alloc, book(alloc, "one no 0 0")?, denied, allowed);
    let mut answers = String::new(alloc);
    put_lists(alloc, &mut server, lists, &mut answers)?;
    Ok(answers)
}

/// What a server answers behind a list that ends with a stop, to a list without events and then to another one: `LIST / LIST`, as above.
pub fn stopped(alloc: Global, given: &str) -> Result<String, Fail> {
    let (first, last) = first_call(given);
    let mut server = Server::new(alloc, book(alloc, "one no 0 0")?);
    let mut outs = Vec::new(alloc);
    let mut answers = String::new(alloc);
    put_answer(&mut answers, served(alloc, &mut server, first, &mut outs)?)?;
    let events = events_of(alloc, last)?;
    put_answer(
        &mut answers,
        asked_again(alloc, &mut server, &events, &mut outs),
    )?;
    Ok(answers)
}

/// What a server answers to a list without events, and to one more, where it answered that it was stopped.
fn asked_again(
    alloc: Global,
    server: &mut Server<Book<MemoryKeeper>>,
    events: &Vec<Event>,
    outs: &mut Vec<Out>,
) -> &'static str {
    let none = Vec::new(alloc);
    if !server.valid_events(&none) {
        return "not valid";
    }
    match server.run_events(&none, outs) {
        Err(RunFault::Stopped) => match server.run_events(events, outs) {
            Err(RunFault::Stopped) => "stopped / stopped",
            _ => "stopped / served",
        },
        _ => "served",
    }
}

fn put_lists(
    alloc: Global,
    server: &mut Server<Book<MemoryKeeper>>,
    lists: &str,
    answers: &mut String,
) -> Result<(), Fail> {
    let mut outs = Vec::new(alloc);
    for list in lists.split(" / ") {
        put_answer(answers, served(alloc, server, list, &mut outs)?)?;
    }
    put_replies(alloc, outs.as_slice(), answers)?;
    write!(answers, " / {} open", server.open_count())?;
    Ok(())
}

/// How a list is served.
fn served(
    alloc: Global,
    server: &mut Server<Book<MemoryKeeper>>,
    list: &str,
    outs: &mut Vec<Out>,
) -> Result<&'static str, Fail> {
    let events = events_of(alloc, list)?;
    if !server.valid_events(&events) {
        return Ok("not valid");
    }
    match server.run_events(&events, outs) {
        Ok(()) => Ok("served"),
        Err(RunFault::Stopped) => Ok("stopped"),
        Err(_) => Ok("out of memory"),
    }
}

fn events_of(alloc: Global, list: &str) -> Result<Vec<Event>, Fail> {
    let mut events = Vec::new(alloc);
    for words in list.split(", ") {
        put_event(alloc, words, &mut events)?;
    }
    Ok(events)
}

/// `accepted AT LIMIT` or `bytes AT HEX` of connection 1, `tick AT` or `stop AT`; or nothing.
fn put_event(alloc: Global, words: &str, events: &mut Vec<Event>) -> Result<(), Fail> {
    let (kind, rest) = two(words);
    let (at, rest) = two(rest);
    let at = number(at);
    match kind {
        "accepted" => events.push(accepted(at, number(rest)))?,
        "bytes" => events.push(bytes(alloc, at, rest)?)?,
        "tick" => events.push(Event::Tick { at })?,
        "stop" => events.push(Event::Stop { at })?,
        _ => {}
    }
    Ok(())
}

fn accepted(at: u64, limit: u64) -> Event {
    Event::Accepted {
        at,
        conn: 1,
        peer: Peer {
            ip: Ip::V4(0x7f00_0001),
            port: 5300,
        },
        limit,
    }
}

fn bytes(alloc: Global, at: u64, digits: &str) -> Result<Event, Fail> {
    Ok(Event::Bytes {
        at,
        conn: 1,
        piece: Octets::from_vec(bytes_of(alloc, digits)?),
    })
}

fn put_replies(alloc: Global, outs: &[Out], answers: &mut String) -> Result<(), Fail> {
    for out in outs {
        let digits = hex_of(alloc, out.bytes.as_slice())?;
        write!(answers, " / {:?} {digits}", out.to)?;
    }
    Ok(())
}
