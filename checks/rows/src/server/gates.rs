//! Listeners whose connections wait for one another: two connections, each of which reads on only when the other has got a reply.

use crate::server::hubs::PEER;
use dns_edges::{MemoryClock, Sink, Source};
use dns_io::{IoFault, Octets, OutOfMemory};
use dns_ports::{Accepted, TcpPort};
use std::alloc::Global;
use std::sync::{Arc, Mutex, MutexGuard};
use std::thread;

/// How often a read looks at the gate before it fails.
const TURNS: u32 = 1_000_000;

/// How many replies a connection got, under a lock.
pub type Gate = Arc<Mutex<u64>, Global>;

/// A gate of a connection that got no reply yet.
pub fn gate(alloc: Global) -> Result<Gate, OutOfMemory> {
    Ok(Arc::new(alloc, Mutex::new(0))?)
}

/// Takes the gate's lock as soon as it is free, unless it is held for many tries.
fn taken(gate: &Gate) -> Option<MutexGuard<'_, u64>> {
    for _ in 0..TURNS {
        if let Some(replies) = gate.try_lock() {
            return Some(replies);
        }
        thread::yield_now();
    }
    None
}

/// How many replies its connection got. It takes the gate's lock and gives it back.
pub fn replies(gate: &Gate) -> u64 {
    match taken(gate) {
        Some(replies) => *replies,
        None => 0,
    }
}

/// Counts a reply. It takes the gate's lock and gives it back.
fn count(gate: &Gate) {
    if let Some(mut replies) = taken(gate) {
        *replies = replies.saturating_add(1);
    }
}

/// Whether the connection of a gate gets a reply before many turns have gone by, each of which takes the lock and gives it back.
fn opens(gate: &Gate) -> bool {
    for _ in 0..TURNS {
        if replies(gate) > 0 {
            return true;
        }
        thread::yield_now();
    }
    false
}

/// What a connection brings: a first piece, and a second one when the other connection has a reply.
#[derive(Drop)]
pub struct GatedInput {
    first: Octets,
    second: Octets,
    reads: u64,
    other: Gate,
    faults: u64,
}

/// Puts the front of a piece into the room.
fn put(piece: &[u8], room: &mut [u8]) -> usize {
    let count = piece.len().min(room.len());
    let (front, _) = piece.split_at(count);
    let (place, _) = room.split_at_mut(count);
    place.copy_from_slice(front);
    count
}

impl Source for GatedInput {
    ghost source = { ? };

    fn read(&mut self, room: &mut [u8]) -> Result<usize, IoFault> {
        self.reads = self.reads.saturating_add(1);
        if self.reads == 1 {
            return Ok(put(self.first.as_slice(), room));
        }
        if self.reads > 2 {
            return Ok(0);
        }
        if opens(&self.other) {
            return Ok(put(self.second.as_slice(), room));
        }
        self.faults = self.faults.saturating_add(1);
        Err(IoFault::Failed)
    }
}

/// What takes a connection's replies: each write is one.
#[derive(Drop)]
pub struct GatedOutput {
    own: Gate,
}

impl Sink for GatedOutput {
    ghost sink = { ? };

    fn write(&mut self, bytes: &[u8]) -> Result<usize, IoFault> {
        count(&self.own);
        Ok(bytes.len())
    }

    fn flush(&mut self) -> Result<(), IoFault> {
        Ok(())
    }
}

/// A listener to which one connection comes.
#[derive(Drop)]
pub struct GatedListener {
    coming: Option<Accepted<GatedInput, GatedOutput, MemoryClock>>,
    lent: u64,
}

impl GatedListener {
    /// A listener to which a connection comes that brings these pieces, the second when the other connection has a reply.
    pub fn new(
        alloc: Global,
        first: &[u8],
        second: &[u8],
        own: &Gate,
        other: &Gate,
    ) -> Result<GatedListener, OutOfMemory> {
        let input = GatedInput {
            first: Octets::from_slice(alloc, first)?,
            second: Octets::from_slice(alloc, second)?,
            reads: 0,
            other: Arc::try_clone(other)?,
            faults: 0,
        };
        let output = GatedOutput {
            own: Arc::try_clone(own)?,
        };
        Ok(GatedListener {
            coming: Some(Accepted {
                input,
                output,
                time: MemoryClock::new(Vec::new(alloc)),
                peer: PEER,
            }),
            lent: 0,
        })
    }
}

impl TcpPort for GatedListener {
    type In = GatedInput;

    type Out = GatedOutput;

    type Time = MemoryClock;

    ghost told = { ? };

    fn accept(
        &mut self,
    ) -> Result<Option<Accepted<GatedInput, GatedOutput, MemoryClock>>, IoFault> {
        let Some(lent) = self.lent.checked_add(1) else {
            return Err(IoFault::OutOfMemory);
        };
        let Some(connection) = self.coming.take() else {
            return Ok(None);
        };
        self.lent = lent;
        Ok(Some(connection))
    }

    fn done(&mut self, connection: Accepted<GatedInput, GatedOutput, MemoryClock>) {
        let _ended = connection;
        self.lent -= 1;
    }
}
