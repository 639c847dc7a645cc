//! Ports in memory, whose calls fail by their numbers.

use dns_edges::{MemoryClock, MemorySink, MemorySource, Source};
use dns_io::{IoFault, Ip, Octets, OutOfMemory, Peer};
use dns_ports::{Accepted, Hub, MemoryHub, MemoryTcp, MemoryUdp, StopToken, TcpPort, UdpPort};
use std::alloc::Global;
use std::test::Fail;

/// The other end.
const PEER: Peer = Peer {
    ip: Ip::V4(0x7f00_0001),
    port: 5300,
};

/// What four receives give of a socket at which one datagram of three bytes arrives, and two answers; then what it took, and its faults. The
/// second receive and the first answer fail.
pub fn socket(alloc: Global) -> Result<String, Fail> {
    let arriving = vec![in alloc; (Octets::from_slice(alloc, b"ask")?, PEER, 5)]?;
    let receives = Vec::from_slice(alloc, &[2])?;
    let answers = Vec::from_slice(alloc, &[1])?;
    let mut port = MemoryUdp::new(alloc, arriving, receives, answers);
    told_socket(alloc, &mut port)
}

fn told_socket(alloc: Global, port: &mut MemoryUdp) -> Result<String, Fail> {
    let mut room = vec![in alloc; 0u8; 65_535]?;
    let receives = [
        received(port, &mut room),
        received(port, &mut room),
        received(port, &mut room),
        received(port, &mut room),
    ];
    let answers = [port.answer(PEER, b"lost"), port.answer(PEER, b"reply")];
    Ok(format!(in alloc;
        "{receives:?} {answers:?} {:?} {}",
        port.taken(),
        port.faults()
    )?)
}

/// What a receive gave: the length, or none at the end.
fn received<P: UdpPort>(port: &mut P, room: &mut Vec<u8>) -> Result<Option<usize>, IoFault> {
    if room.len() < 65_535 {
        return Ok(None);
    }
    match port.receive(room.as_mut_slice()) {
        Ok(Some(arrived)) => Ok(Some(arrived.len)),
        Ok(None) => Ok(None),
        Err(fault) => Err(fault),
    }
}

/// What three accepts give of a listener to which one connection comes; then how many were handed back, and its faults. The first
/// accept fails.
pub fn listener(alloc: Global, text: &str) -> Result<String, Fail> {
    let arriving = vec![in alloc; connection_of(alloc, text.as_bytes())?]?;
    let mut port = MemoryTcp::new(alloc, arriving, Vec::from_slice(alloc, &[1])?);
    let accepts = [
        read_once(&mut port),
        read_once(&mut port),
        read_once(&mut port),
    ];
    let ended = port.ended().len();
    Ok(format!(in alloc; "{accepts:?} {ended} {}", port.faults())?)
}

/// A connection of these bytes.
fn connection_of(
    alloc: Global,
    bytes: &[u8],
) -> Result<Accepted<MemorySource, MemorySink, MemoryClock>, OutOfMemory> {
    Ok(Accepted {
        input: MemorySource::new(Octets::from_slice(alloc, bytes)?, 9, Vec::new(alloc)),
        output: MemorySink::new(alloc, 9, Vec::new(alloc)),
        time: MemoryClock::new(Vec::new(alloc)),
        peer: PEER,
    })
}

/// Accepts a connection, reads from it once, and hands it back; tells what was read, or none at the end.
fn read_once<P: TcpPort>(port: &mut P) -> Result<Option<usize>, IoFault> {
    match port.accept() {
        Ok(Some(mut connection)) => {
            let count = connection.input.read(&mut [0; 4]);
            port.done(connection);
            Ok(Some(count?))
        }
        Ok(None) => Ok(None),
        Err(fault) => Err(fault),
    }
}

/// Whether three openings of a socket by a hub without ports pass, of which the second fails; how many listeners of three workers it
/// then gives; and how many openings, closed sockets and closed listeners it counts, when one was closed.
pub fn hub(alloc: Global) -> Result<String, Fail> {
    let stop = StopToken::new(alloc)?;
    let openings = Vec::from_slice(alloc, &[2])?;
    let mut hub = MemoryHub::new(alloc, Vec::new(alloc), Vec::new(alloc), openings);
    let opened = [
        open_and_close(&mut hub, &stop),
        open_and_close(&mut hub, &stop),
        open_and_close(&mut hub, &stop),
    ];
    let listeners = open_and_close_one(&mut hub, &stop);
    told_hub(alloc, &hub, opened, listeners)
}

/// Opens and closes a socket; whether it could.
fn open_and_close<H: Hub>(hub: &mut H, stop: &StopToken) -> bool {
    match hub.open_udp(PEER, stop) {
        Ok(port) => {
            hub.close_udp(port);
            true
        }
        Err(_) => false,
    }
}

/// Opens three listeners and closes one; how many there are then.
fn open_and_close_one<H: Hub>(hub: &mut H, stop: &StopToken) -> usize {
    match hub.open_tcp(PEER, 5, 3, stop) {
        Ok(mut ports) => {
            let count = ports.len();
            if let Some(port) = ports.pop() {
                hub.close_tcp(port);
            }
            count
        }
        Err(_) => 0,
    }
}

fn told_hub(
    alloc: Global,
    hub: &MemoryHub,
    opened: [bool; 3],
    listeners: usize,
) -> Result<String, Fail> {
    Ok(format!(in alloc;
        "{opened:?} {listeners} {} {} {}",
        hub.openings().len(),
        hub.closed_udp().len(),
        hub.closed_tcp().len()
    )?)
}
