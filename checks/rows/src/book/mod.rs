//! Keepers, the book, connections, lists of events, the book that threads share, and one request by each way over a network.

mod access;
mod asks;
mod books;
mod connections;
mod drawn;
mod four;
mod gateway;
mod journals;
mod keepers;
mod limits;
mod passes;
mod readings;
mod responses;
mod scribe;
mod servers;
mod two_seats;
mod zones;

use std::alloc::Global;
use std::sync::Wait;
use std::test::Fail;
use std::thread::Threads;

/// What comes of a row.
pub fn answer_to<R: Threads + Wait + Sync>(
    rt: &R,
    alloc: Global,
    kind: &str,
    given: &str,
) -> Result<String, Fail> {
    match kind {
        "four" => four::four(rt, alloc, given),
        "seats" => two_seats::seats(rt, alloc, given),
        _ => settled_by_one(alloc, kind, given),
    }
}

/// What comes of a row that needs one thread alone.
fn settled_by_one(alloc: Global, kind: &str, given: &str) -> Result<String, Fail> {
    match kind {
        "keeper" => keepers::calls(alloc, given),
        "open" => journals::open(alloc, given),
        "reopen" => journals::reopen(alloc, given),
        "book" => books::calls(alloc, given),
        "buffer" => books::buffer(alloc, given),
        "stream" => connections::stream(alloc, given),
        "book_stream" => connections::book_stream(alloc, given),
        "many" => connections::many(alloc, given),
        "cut" => connections::cut(alloc, given),
        "limit" => limits::limit(alloc, given),
        "response" => responses::response(alloc, given),
        "access" => access::access(alloc, given),
        "lists" => servers::lists(alloc, given),
        "lists_by" => servers::lists_by(alloc, given),
        "stopped" => servers::stopped(alloc, given),
        "drawn" => drawn::drawn(alloc, given),
        _ => gateway::answer_to(alloc, kind, given),
    }
}
