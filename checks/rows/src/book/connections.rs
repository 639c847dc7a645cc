//! One connection, however its bytes come. What is expected is written down by hand from RFC 1035 4.2.2.

use crate::book::readings::Readings;
use crate::book::scribe::Scribe;
use crate::book::zones::book;
use crate::row::{bytes_of, hex_of, number, numbers_of, size, two};
use dns_edges::{MemorySink, MemorySource, Source};
use dns_io::{IoFault, Ip, Octets, Peer};
use dns_requests::{ServeFault, serve_connection};
use dns_server_core::{AccessControl, RequestHandler};
use std::alloc::Global;
use std::test::Fail;

/// The other end.
const PEER: Peer = Peer {
    ip: Ip::V4(0x7f00_0001),
    port: 5300,
};

/// How a connection is served: `ROOM WRITES LIMIT READS READINGS`. So many bytes a write takes at most, these writes fail, for so many
/// milliseconds it may stay without a whole message, so often it is read, and these are the readings of the clock.
fn served<T: RequestHandler, S: Source>(
    alloc: Global,
    handler: &mut T,
    source: &mut S,
    words: &str,
) -> Result<String, Fail> {
    let (room, rest) = two(words);
    let (writes, rest) = two(rest);
    let (limit, rest) = two(rest);
    let (reads, readings) = two(rest);
    let mut sink = MemorySink::new(alloc, size(room).max(1), numbers_of(alloc, writes)?);
    let mut clock = Readings::of(alloc, readings)?;
    let answer = serve_connection(
        alloc,
        handler,
        &AccessControl::new(alloc),
        source,
        &mut sink,
        &mut clock,
        PEER,
        number(limit).min(100_000),
        number(reads).min(100_000),
    );
    told(alloc, &answer, sink.taken())
}

/// An answer, and what was written.
fn told(alloc: Global, answer: &Result<u64, ServeFault>, taken: &Octets) -> Result<String, Fail> {
    let taken = hex_of(alloc, taken.as_slice())?;
    match answer {
        Ok(count) => Ok(format!(in alloc; "{count} {taken}")?),
        Err(fault) => Ok(format!(in alloc; "{fault} {taken}")?),
    }
}

/// What a scribe's connection writes, and how many messages it was handed: `HEX STEP READS` and how it is served. The bytes come, at most
/// so many in a read, and these reads fail.
pub fn stream(alloc: Global, given: &str) -> Result<String, Fail> {
    let (digits, rest) = two(given);
    let (step, rest) = two(rest);
    let (reads, rest) = two(rest);
    let mut source = source_of(alloc, digits, step, reads)?;
    scribed(alloc, &mut source, rest)
}

fn source_of(alloc: Global, digits: &str, step: &str, reads: &str) -> Result<MemorySource, Fail> {
    let bytes = Octets::from_vec(bytes_of(alloc, digits)?);
    Ok(MemorySource::new(bytes, size(step).max(1), numbers_of(alloc, reads)?))
}

fn scribed<S: Source>(alloc: Global, source: &mut S, words: &str) -> Result<String, Fail> {
    let mut scribe = Scribe { messages: 0, alloc };
    let answer = served(alloc, &mut scribe, source, words)?;
    Ok(format!(in alloc; "{answer} {}", scribe.messages)?)
}

/// The same of a book.
pub fn book_stream(alloc: Global, given: &str) -> Result<String, Fail> {
    let (digits, rest) = two(given);
    let (step, rest) = two(rest);
    let (reads, rest) = two(rest);
    let mut source = source_of(alloc, digits, step, reads)?;
    let mut book = book(alloc, "seven yes 0 0")?;
    let answer = served(alloc, &mut book, &mut source, rest)?;
    Ok(answer)
}

/// How a book's connection ends over which these bytes come so many times, and how many bytes were written: `COUNT HEX STEP READS` and how it
/// is served.
pub fn many(alloc: Global, given: &str) -> Result<String, Fail> {
    let (count, rest) = two(given);
    let (digits, rest) = two(rest);
    let (step, rest) = two(rest);
    let (reads, rest) = two(rest);
    let bytes = repeated(alloc, number(count), bytes_of(alloc, digits)?.as_slice())?;
    let mut source = MemorySource::new(bytes, size(step).max(1), numbers_of(alloc, reads)?);
    let mut book = book(alloc, "seven yes 0 0")?;
    let told = served(alloc, &mut book, &mut source, rest)?;
    let (answer, taken) = told.as_str().rsplit_once(' ').unwrap_or(("", ""));
    Ok(format!(in alloc; "{answer} {}", taken.len() / 2)?)
}

/// These bytes, so many times.
fn repeated(alloc: Global, count: u64, bytes: &[u8]) -> Result<Octets, Fail> {
    let mut all = Octets::new(alloc);
    for _copy in 0..count {
        all.append(bytes)?;
    }
    Ok(all)
}

/// Bytes that come in at most three reads, cut at two places.
#[derive(Drop)]
struct Cuts {
    left: &'static [u8],
    sizes: [usize; 2],
    reads: usize,
}

impl Source for Cuts {
    ghost source = { ? };

    fn read(&mut self, room: &mut [u8]) -> Result<usize, IoFault> {
        let size = match self.sizes.get(self.reads) {
            Some(size) => *size,
            None => self.left.len(),
        };
        let count = size.max(1).min(self.left.len()).min(room.len());
        let (piece, left) = self.left.split_at(count);
        room[..count].copy_from_slice(piece);
        self.left = left;
        self.reads = self.reads.saturating_add(1);
        Ok(count)
    }
}

/// Two bytes, no bytes, and one byte.
const STREAM: &[u8] = b"\0\x02ab\0\0\0\x01c";

/// The same of the scribe where two bytes, no bytes and one byte come, cut at two places: their sizes, and how it is served.
pub fn cut(alloc: Global, given: &str) -> Result<String, Fail> {
    let (first, rest) = two(given);
    let (second, rest) = two(rest);
    let mut source = Cuts {
        left: STREAM,
        sizes: [size(first), size(second)],
        reads: 0,
    };
    scribed(alloc, &mut source, rest)
}
