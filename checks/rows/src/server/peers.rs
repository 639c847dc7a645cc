//! A listener to which connections come from peers of their own, and what came of each.

use crate::row::{put_bytes, two};
use crate::server::hubs::{Connection, connection};
use crate::server::threads::{how_ended, register, server};
use dns_edges::{MemoryClock, MemorySink, MemorySource, Source};
use dns_io::{IoFault, Ip, Peer};
use dns_ports::TcpPort;
use dns_words::address_of;
use std::alloc::Global;
use std::collections::VecDeque;
use std::sync::Wait;
use std::test::Fail;
use std::thread::Threads;

/// The most bytes that a connection brings: one read gives them all.
const MOST: usize = 100;

/// A listener that gives away the connections that it got back, so that what stands unread in them can be read.
#[derive(Drop)]
pub struct PeersListener {
    coming: VecDeque<Connection>,
    ended: Vec<Connection>,
    lent: usize,
}

impl PeersListener {
    /// A listener to which these connections come, in order.
    pub fn new(alloc: Global, coming: Vec<Connection>) -> PeersListener {
        PeersListener {
            coming: VecDeque::from_vec(coming),
            ended: Vec::new(alloc),
            lent: 0,
        }
    }

    /// The connections that it got back, in order.
    pub fn into_ended(self) -> Vec<Connection> {
        self.ended
    }
}

impl TcpPort for PeersListener {
    type In = MemorySource;

    type Out = MemorySink;

    type Time = MemoryClock;

    ghost told = { ? };

    fn accept(&mut self) -> Result<Option<Connection>, IoFault> {
        let Some(lent) = self.lent.checked_add(1) else {
            return Err(IoFault::OutOfMemory);
        };
        if self.ended.reserve(lent).is_err() {
            return Err(IoFault::OutOfMemory);
        }
        let Some(connection) = self.coming.pop_front() else {
            return Ok(None);
        };
        self.lent = lent;
        Ok(Some(connection))
    }

    fn done(&mut self, connection: Connection) {
        let _is_kept = self.ended.push(connection);
        self.lent -= 1;
    }
}

/// How the worker of a listener ends to which these connections come, `IP:PORT HEX` about ` / `, and what came of each, in the order in
/// which they were handed back: its peer, what stands unread of what it brought, and what it was answered, `-` where that is nothing.
pub fn peers<R: Threads + Wait + Sync>(rt: &R, alloc: Global, given: &str) -> Result<String, Fail> {
    let mut server = server(alloc)?;
    let listener = PeersListener::new(alloc, all_coming(alloc, given)?);
    register(&mut server, listener)?;
    let mut answers = how_ended(alloc, server.block_until_done(rt))?;
    for listener in server.listeners() {
        put_ended(listener, &mut answers)?;
    }
    Ok(answers)
}

/// The connections that are to come.
fn all_coming(alloc: Global, given: &str) -> Result<Vec<Connection>, Fail> {
    let mut all = Vec::new(alloc);
    for words in given.split(" / ") {
        let (peer, digits) = two(words);
        let Some(peer) = address_of(peer.as_bytes()) else {
            return Err(Fail::from("no peer"));
        };
        all.push(connection(alloc, MOST, peer, digits)?)?;
    }
    Ok(all)
}

fn put_ended(listener: PeersListener, answers: &mut String) -> Result<(), Fail> {
    for mut connection in listener.into_ended() {
        put_connection(&mut connection, answers)?;
    }
    Ok(())
}

/// Adds what came of a connection.
fn put_connection(connection: &mut Connection, answers: &mut String) -> Result<(), Fail> {
    let mut room = [0; MOST];
    let count = connection.input.read(&mut room).unwrap_or(0);
    answers.push_str(" / ")?;
    put_peer(&connection.peer, answers)?;
    put_piece(room.get(..count).unwrap_or(&[]), answers)?;
    put_piece(connection.output.taken().as_slice(), answers)
}

/// Adds a peer, as it is given.
fn put_peer(peer: &Peer, answers: &mut String) -> Result<(), Fail> {
    match peer.ip {
        Ip::V4(address) => put_bytes(answers, &address.to_be_bytes())?,
        Ip::V6(address) => put_bytes(answers, &address.to_be_bytes())?,
    }
    write!(answers, ":{}", peer.port)?;
    Ok(())
}

/// Adds the hex digits of bytes behind a blank, or `-` for none.
fn put_piece(bytes: &[u8], answers: &mut String) -> Result<(), Fail> {
    answers.push(' ')?;
    if bytes.is_empty() {
        answers.push('-')?;
        return Ok(());
    }
    put_bytes(answers, bytes)
}
