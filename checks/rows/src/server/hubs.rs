//! Hubs in memory, and ports at which messages arrive.

use crate::row::{bytes_of, hex_of, numbers_of, two};
use dns_edges::{MemoryClock, MemorySink, MemorySource};
use dns_io::{Ip, Octets, Peer};
use dns_ports::{Accepted, MemoryHub, MemoryTcp, MemoryUdp};
use std::alloc::Global;
use std::test::Fail;

/// A connection over objects in memory.
pub type Connection = Accepted<MemorySource, MemorySink, MemoryClock>;

/// The other end.
pub const PEER: Peer = Peer {
    ip: Ip::V4(0x7f00_0001),
    port: 5300,
};

/// A hub of which these openings fail: `OPENINGS HUB`. It has a `socket HEX` at which this message arrives, a `failing` socket,
/// `listeners HEX HEX` to each of which a connection comes that brings one, or nothing.
pub fn hub_of(alloc: Global, words: &str) -> Result<MemoryHub, Fail> {
    let (openings, words) = two(words);
    let (kind, messages) = two(words);
    let sockets = sockets(alloc, kind, messages)?;
    let listeners = listeners(alloc, kind, messages)?;
    let openings = numbers_of(alloc, openings)?;
    Ok(MemoryHub::new(alloc, sockets, listeners, openings))
}

fn sockets(alloc: Global, kind: &str, message: &str) -> Result<Vec<MemoryUdp>, Fail> {
    let mut sockets = Vec::new(alloc);
    match kind {
        "socket" => sockets.push(socket(alloc, message)?)?,
        "failing" => sockets.push(failing_socket(alloc, message)?)?,
        _ => {}
    }
    Ok(sockets)
}

fn listeners(alloc: Global, kind: &str, messages: &str) -> Result<Vec<MemoryTcp>, Fail> {
    let (first, second) = two(messages);
    let mut listeners = Vec::new(alloc);
    if kind != "listeners" {
        return Ok(listeners);
    }
    listeners.push(listener(alloc, 40, first)?)?;
    listeners.push(listener(alloc, 40, second)?)?;
    Ok(listeners)
}

/// A socket at which a message arrives, or nothing.
pub fn socket(alloc: Global, digits: &str) -> Result<MemoryUdp, Fail> {
    let mut arriving = Vec::new(alloc);
    if digits.is_empty() {
        return Ok(MemoryUdp::new(alloc, arriving, Vec::new(alloc), Vec::new(alloc)));
    }
    let bytes = bytes_of(alloc, digits)?;
    if bytes.len() > 65_535 {
        return Err(Fail::from("too long"));
    }
    arriving.push((Octets::from_vec(bytes), PEER, 5))?;
    Ok(MemoryUdp::new(alloc, arriving, Vec::new(alloc), Vec::new(alloc)))
}

/// A socket at which two messages arrive, and of which these receives and these answers fail: `RECEIVES ANSWERS HEX HEX`.
pub fn failing_socket(alloc: Global, words: &str) -> Result<MemoryUdp, Fail> {
    let (receives, rest) = two(words);
    let (answers, messages) = two(rest);
    let (first, second) = two(messages);
    let first = datagram(alloc, first)?;
    let second = datagram(alloc, second)?;
    let arriving = vec![in alloc; (first, PEER, 5), (second, PEER, 6)]?;
    let receives = numbers_of(alloc, receives)?;
    Ok(MemoryUdp::new(alloc, arriving, receives, numbers_of(alloc, answers)?))
}

/// The bytes of a datagram.
fn datagram(alloc: Global, digits: &str) -> Result<Octets, Fail> {
    let bytes = bytes_of(alloc, digits)?;
    if bytes.len() > 65_535 {
        return Err(Fail::from("too long"));
    }
    Ok(Octets::from_vec(bytes))
}

/// A listener to which a connection comes that brings these bytes, so many in a read.
pub fn listener(alloc: Global, step: usize, digits: &str) -> Result<MemoryTcp, Fail> {
    let connection = connection(alloc, step, PEER, digits)?;
    Ok(MemoryTcp::new(alloc, vec![in alloc; connection]?, Vec::new(alloc)))
}

/// A listener to which two connections come that bring these bytes, and of which these accepts fail: `ACCEPTS HEX HEX`.
pub fn failing_listener(alloc: Global, words: &str) -> Result<MemoryTcp, Fail> {
    let (accepts, rest) = two(words);
    let (first, second) = two(rest);
    let first = connection(alloc, 9, PEER, first)?;
    let second = connection(alloc, 9, PEER, second)?;
    let coming = vec![in alloc; first, second]?;
    Ok(MemoryTcp::new(alloc, coming, numbers_of(alloc, accepts)?))
}

/// A connection from this peer that brings these bytes, so many in a read.
pub fn connection(
    alloc: Global,
    step: usize,
    peer: Peer,
    digits: &str,
) -> Result<Connection, Fail> {
    let bytes = Octets::from_vec(bytes_of(alloc, digits)?);
    Ok(Accepted {
        input: MemorySource::new(bytes, step.max(1), Vec::new(alloc)),
        output: MemorySink::new(alloc, 1000, Vec::new(alloc)),
        time: MemoryClock::new(Vec::new(alloc)),
        peer,
    })
}

/// How many sockets and listeners there are, and what they took, but for so many bytes at the front of a message.
pub fn put_taken(
    alloc: Global,
    sockets: &Vec<MemoryUdp>,
    listeners: &Vec<MemoryTcp>,
    skipped: usize,
    answers: &mut String,
) -> Result<(), Fail> {
    write!(answers, "{} {}", sockets.len(), listeners.len())?;
    for socket in sockets {
        put_datagrams(alloc, socket, skipped, answers)?;
    }
    for listener in listeners {
        put_replies(alloc, listener, skipped, answers)?;
    }
    Ok(())
}

/// The replies that a socket took, and where each goes.
fn put_datagrams(
    alloc: Global,
    socket: &MemoryUdp,
    skipped: usize,
    answers: &mut String,
) -> Result<(), Fail> {
    for (bytes, to) in socket.taken() {
        let digits = hex_of(alloc, bytes.as_slice().get(skipped..).unwrap_or(&[]))?;
        write!(answers, " / {to:?} {digits}")?;
    }
    Ok(())
}

/// What the connections of a listener took: a length, and the reply.
fn put_replies(
    alloc: Global,
    listener: &MemoryTcp,
    skipped: usize,
    answers: &mut String,
) -> Result<(), Fail> {
    for connection in listener.ended() {
        let (length, reply) = parts(connection.output.taken().as_slice());
        let length = hex_of(alloc, length)?;
        let digits = hex_of(alloc, reply.get(skipped..).unwrap_or(&[]))?;
        write!(answers, " / {length} {digits}")?;
    }
    Ok(())
}

/// The two bytes of a length, and what stands behind them.
fn parts(taken: &[u8]) -> (&[u8], &[u8]) {
    taken.split_at(taken.len().min(2))
}
