//! Edges, names, messages, frames, networks, connections, ports, counts and the ticket world.
//!
//! The bytes of messages and names were assembled by hand from the RFCs: RFC 1035 3.1, 4.1 and 5.1 (names, header, question,
//! record, compression), 3.3 and 3.4 (data), RFC 3596 2.2 (AAAA), RFC 2782 (SRV), RFC 3597 3 (unknown types), RFC 6891 6.1 (OPT), RFC 4035 3
//! (AD and CD), RFC 2136 2 (updates), RFC 7873 4 (a client's cookie). The lists of tickets are what checks/ticket_model.py prints, and two worked ones in front.
//!
//! The kinds of rows stand in the order of `answer_of`, each told at its function. Blanks at the end of an answer count for nothing.

mod connections;
mod counts;
mod frames;
mod messages;
mod names;
mod networks;
mod ports;
mod replies;
mod sources;
mod tickets;

use crate::row::trimmed;
use std::alloc::Global;
use std::test::Fail;

/// What comes of a row.
pub fn answer_to(rt: &HostRuntime, alloc: Global, kind: &str, given: &str) -> Result<String, Fail> {
    trimmed(alloc, answer_of(rt, alloc, kind, given))
}

fn answer_of(rt: &HostRuntime, alloc: Global, kind: &str, given: &str) -> Result<String, Fail> {
    match kind {
        "message" => messages::message(alloc, given),
        "question" => messages::question(alloc, given),
        "record" => messages::record(alloc, given),
        "plain_query" => messages::plain_query(alloc, given),
        "empty_record" => replies::empty(alloc, given),
        "record_size" => replies::record_size(alloc, given),
        "query" => replies::query(alloc),
        "message_size" => replies::message_size(alloc, given),
        "reply" => replies::reply(alloc, given),
        "same_data" => replies::same_data(alloc, given),
        "doubled" => replies::doubled(alloc),
        "joined" => replies::joined(alloc, given),
        "name" => names::name(alloc, given),
        "labels" => names::labels(alloc, given),
        "apart" => names::apart(alloc, given),
        "compared" => names::compared(alloc, given),
        "name_at" => names::name_at(alloc, given),
        "faulty_reads" => sources::faulty_reads(alloc),
        "faulty_writes" => sources::faulty_writes(alloc),
        "faulty_flushes" => sources::faulty_flushes(alloc),
        "file" => sources::file(alloc, given),
        "missing_file" => sources::missing_file(alloc),
        "write" => sources::write(alloc, given),
        "write_to_slice" => sources::write_to_slice(alloc, given),
        "source" => sources::source(alloc, given),
        "to_end" => sources::to_end(alloc, given),
        "sink" => sources::sink(alloc, given),
        "readings" => sources::readings(alloc, given),
        "clock" => sources::clock(alloc),
        "now" => sources::now(rt, given),
        "stream" => frames::stream(alloc, given),
        "crowd_in_memory" => connections::crowd(alloc),
        "streams_in_memory" => networks::streams(alloc),
        "datagrams_in_memory" => networks::datagrams(alloc),
        "socket_over_network" => networks::socket(alloc),
        "socket" => ports::socket(alloc),
        "listener" => ports::listener(alloc, given),
        "hub" => ports::hub(alloc),
        "counter" => counts::counter(alloc, given),
        "counted" => counts::counted(alloc, given),
        "directions" => counts::directions(alloc),
        "tickets" => tickets::tickets(alloc, given),
        _ => Ok("no such kind".to_string(alloc)?),
    }
}
