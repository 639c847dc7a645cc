//! One message on a stream of QUIC (RFC 9250 4.2 and 4.3).

use crate::book::gateway::book::{PEER, book};
use crate::book::gateway::echo::Echo;
use crate::row::{bytes_of, first_field, numbers_of, put_bytes};
use dns_io::Octets;
use dns_net::{MemoryRecv, MemorySend, NetError, QuicStream};
use dns_server_core::{AccessControl, RequestHandler, Settled};
use std::alloc::Global;
use std::test::Fail;

/// What comes of a message that a book settles: `BYTES|FAILING SENDS|FAILING READS`.
pub fn by_book(alloc: Global, fields: &str, answer: &mut String) -> Result<(), Fail> {
    let mut book = book(alloc)?;
    settle(alloc, &mut book, fields, answer)
}

/// What comes of a message that is given back, and what its handler saw.
pub fn by_echo(alloc: Global, fields: &str, answer: &mut String) -> Result<(), Fail> {
    let mut echo = Echo::new(alloc);
    settle(alloc, &mut echo, fields, answer)?;
    echo.tell(answer)
}

/// A stream with these bytes to receive, with the numbers of the calls of its halves that fail.
fn stream_of(alloc: Global, fields: &str) -> Result<QuicStream<MemorySend, MemoryRecv>, Fail> {
    let (digits, rest) = first_field(fields);
    let (sends, reads) = first_field(rest);
    let bytes = Octets::from_vec(bytes_of(alloc, digits)?);
    let recv = MemoryRecv::new(alloc, bytes, 7, numbers_of(alloc, reads)?);
    let send = MemorySend::new(alloc, 0, numbers_of(alloc, sends)?);
    Ok(QuicStream::new(send, recv))
}

/// Settles the message on a stream at the moment 7, and tells what the sending half took, and how it was ended.
fn settle<T: RequestHandler>(
    alloc: Global,
    handler: &mut T,
    fields: &str,
    answer: &mut String,
) -> Result<(), Fail> {
    let mut stream = stream_of(alloc, fields)?;
    let access = AccessControl::new(alloc);
    let settled = dns_gateway::settle_quic(alloc, handler, &access, &mut stream, PEER, 7);
    put_settled(settled, answer)?;
    put_half(stream.sending_half(), answer)
}

/// Adds the length of the message that was settled, and whether a reply is owed to it; or why none was.
fn put_settled(settled: Result<Settled, NetError>, answer: &mut String) -> Result<(), Fail> {
    match settled {
        Ok(settled) => Ok(write!(answer, "{} {} ", settled.length, settled.reply.is_some())?),
        Err(fault) => Ok(write!(answer, "{fault} ")?),
    }
}

/// Adds what a sending half took, and how it was ended.
fn put_half(send: &MemorySend, answer: &mut String) -> Result<(), Fail> {
    put_bytes(answer, send.taken().as_slice())?;
    Ok(write!(answer, "{:?}", send.ends())?)
}
