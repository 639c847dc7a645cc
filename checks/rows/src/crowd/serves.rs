//! The program's top call over objects in memory: the words of `serve`, over a hub with a socket and a crowd of connections.

use crate::crowd::comings::{PEER, all_coming};
use crate::crowd::crowds::put_crowd;
use crate::crowd::zones::ZONE;
use crate::row::{bytes_of, numbers_of, put_bytes, quoted, two, words_of};
use dns_crowd::{MemoryCrowd, may_come};
use dns_crowd_server::MemoryCrowdHub;
use dns_edges::{MemoryClock, MemorySink, MemorySource};
use dns_io::Octets;
use dns_keeper::MemoryKeeper;
use dns_ports::MemoryUdp;
use dns_serve::Ended;
use dns_serve::run::run;
use std::alloc::Global;
use std::rt::Clock;
use std::sync::Wait;
use std::test::Fail;
use std::thread::Threads;

/// How a run ends, what it writes, how many sockets and crowds its hub got back, and what these took and closed:
/// `OPENINGS NEXTS SENDS / WORDS / HEX / COMING / ..`. These openings fail, and these calls of the crowd; a datagram of these bytes arrives at
/// the socket, and none for `-`.
pub fn serve<R: Threads + Wait + Clock + Sync>(
    rt: &R,
    alloc: Global,
    given: &str,
) -> Result<String, Fail> {
    let (calls, rest) = given.split_once(" / ").unwrap_or((given, ""));
    let (words, rest) = rest.split_once(" / ").unwrap_or((rest, ""));
    let (message, coming) = rest.split_once(" / ").unwrap_or((rest, ""));
    let (openings, calls) = two(calls);
    let Some(crowd) = crowd_of(alloc, calls, coming)? else {
        return Ok("may not come".to_string(alloc)?);
    };
    let sockets = sockets_of(alloc, message)?;
    let crowds = one(alloc, crowd)?;
    let openings = numbers_of(alloc, openings)?;
    let mut hub = MemoryCrowdHub::new(alloc, sockets, crowds, openings);
    let mut out = MemorySink::new(alloc, 1_000, Vec::new(alloc));
    let Ended { status, keeper: _ } = run(
        rt,
        alloc,
        &words_of(alloc, words)?,
        &mut source(alloc, ZONE)?,
        &mut source(alloc, b"")?,
        MemoryKeeper::new(alloc),
        &mut hub,
        &mut MemoryClock::new(Vec::new(alloc)),
        &mut out,
    );
    let written = quoted(alloc, out.flushed())?;
    let mut text = format!(in alloc; "{} / {written} / ", status.number())?;
    put_taken(&mut text, &hub)?;
    Ok(text)
}

/// A crowd to which this comes, where it may.
fn crowd_of(alloc: Global, calls: &str, coming: &str) -> Result<Option<MemoryCrowd>, Fail> {
    let (nexts, sends) = two(calls);
    let coming = all_coming(alloc, coming)?;
    if !may_come(coming.as_slice()) {
        return Ok(None);
    }
    let nexts = numbers_of(alloc, nexts)?;
    let sends = numbers_of(alloc, sends)?;
    Ok(Some(MemoryCrowd::new(alloc, coming, nexts, sends)))
}

/// One crowd.
fn one(alloc: Global, crowd: MemoryCrowd) -> Result<Vec<MemoryCrowd>, Fail> {
    let mut crowds = Vec::new(alloc);
    crowds.push(crowd)?;
    Ok(crowds)
}

/// A socket at which a datagram of these bytes arrives, or none.
fn sockets_of(alloc: Global, digits: &str) -> Result<Vec<MemoryUdp>, Fail> {
    let mut sockets = Vec::new(alloc);
    if digits == "-" {
        return Ok(sockets);
    }
    let bytes = bytes_of(alloc, digits)?;
    if bytes.len() > 65_535 {
        return Err(Fail::from("too long"));
    }
    let mut arriving = Vec::new(alloc);
    arriving.push((Octets::from_vec(bytes), PEER, 5))?;
    sockets.push(MemoryUdp::new(alloc, arriving, Vec::new(alloc), Vec::new(alloc)))?;
    Ok(sockets)
}

/// A source of these bytes.
fn source(alloc: Global, bytes: &[u8]) -> Result<MemorySource, Fail> {
    let bytes = Octets::from_slice(alloc, bytes)?;
    Ok(MemorySource::new(bytes, 1_000, Vec::new(alloc)))
}

/// How many sockets and crowds came back, the replies that the sockets took, and what the crowds took and closed.
fn put_taken(text: &mut String, hub: &MemoryCrowdHub) -> Result<(), Fail> {
    write!(
        text,
        "{} {}",
        hub.closed_sockets().len(),
        hub.closed_crowds().len()
    )?;
    for socket in hub.closed_sockets() {
        for (bytes, _to) in socket.taken() {
            text.push_str(" / datagram ")?;
            put_bytes(text, bytes.as_slice())?;
        }
    }
    for crowd in hub.closed_crowds() {
        put_crowd(text, crowd)?;
    }
    Ok(())
}
