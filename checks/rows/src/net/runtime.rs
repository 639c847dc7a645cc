//! The traits of a runtime, by one in memory.

use crate::net::steps::{Steps, all_steps};
use crate::net::words::{put, show};
use crate::row::{first_field, numbers_of, put_bytes};
use dns_edges::{MemorySink, MemorySource, Sink, Source};
use dns_io::{IoFault, Ip, Octets, Peer};
use dns_runtime::{
    DnsTcpStream, DnsUdpSocket, LastTask, MemorySocket, MemoryTime, RuntimeProvider, Spawn, Time,
};
use dns_transport::Address;
use std::alloc::Global;
use std::collections::LinkedList;
use std::test::Fail;

/// Who sends here.
const HERE: Peer = Peer {
    ip: Ip::V4(0xc000_0201),
    port: 53,
};

/// A socket to which datagrams of these bytes come, parted by blanks, the numbers of its calls that fail, and its steps.
pub fn socket(alloc: Global, fields: &str, answer: &mut String) -> Result<(), Fail> {
    let (datagrams, fields) = first_field(fields);
    let (failing, steps) = first_field(fields);
    let coming = datagrams_of(alloc, datagrams)?;
    let mut socket = MemorySocket::new(alloc, coming, numbers_of(alloc, failing)?);
    all_steps(alloc, &mut socket, steps, answer)
}

/// Datagrams of these bytes.
fn datagrams_of(alloc: Global, words: &str) -> Result<LinkedList<(Octets, Peer)>, Fail> {
    let mut coming = LinkedList::new(alloc);
    for word in words.split(' ') {
        let bytes = Octets::from_slice(alloc, word.as_bytes())?;
        coming.push_back((bytes, HERE))?;
    }
    Ok(coming)
}

/// Receives into room for three bytes, sends, or tells what was sent.
impl Steps for MemorySocket {
    fn step(
        &mut self,
        _alloc: Global,
        word: &str,
        with: &str,
        answer: &mut String,
    ) -> Result<(), Fail> {
        match word {
            "receive" => receive(self, answer),
            "send" => put(answer, self.send_to(with.as_bytes(), HERE)),
            _ => put_sent(self.sent(), answer),
        }
    }
}

fn receive(socket: &mut MemorySocket, answer: &mut String) -> Result<(), Fail> {
    let mut room = [0u8; 3];
    match socket.recv_from(&mut room) {
        Ok((count, from)) => put_came(&room, count, from, answer),
        Err(fault) => put(answer, fault),
    }
}

/// Adds so many bytes of the room, how many there are, and who sent them.
fn put_came(room: &[u8], count: usize, from: Peer, answer: &mut String) -> Result<(), Fail> {
    put_bytes(answer, room.get(..count).unwrap_or(&[]))?;
    Ok(write!(answer, " {count} {}", Address(from))?)
}

/// Adds each datagram that was sent, and its receiver.
fn put_sent(sent: &[(Octets, Peer)], answer: &mut String) -> Result<(), Fail> {
    for (bytes, to) in sent {
        put_bytes(answer, bytes.as_slice())?;
        answer.push(' ')?;
        show(answer, Address(*to))?;
    }
    Ok(())
}

/// A connection over memory.
#[derive(Drop)]
struct MemoryConnection {
    source: MemorySource,
    sink: MemorySink,
}

impl Source for MemoryConnection {
    ghost source = { ? };

    fn read(&mut self, room: &mut [u8]) -> Result<usize, IoFault> {
        self.source.read(room)
    }
}

impl Sink for MemoryConnection {
    ghost sink = { ? };

    fn write(&mut self, bytes: &[u8]) -> Result<usize, IoFault> {
        self.sink.write(bytes)
    }

    fn flush(&mut self) -> Result<(), IoFault> {
        self.sink.flush()
    }
}

impl DnsTcpStream for MemoryConnection {}

/// A runtime whose connections have the byte 7 to read, and whose sockets hear nothing. It never fails but for want of memory.
#[derive(Drop)]
struct MemoryRuntime {
    alloc: Global,
}

impl RuntimeProvider for MemoryRuntime {
    type Handle = LastTask<u64>;

    type Timer = MemoryTime;

    type Udp = MemorySocket;

    type Tcp = MemoryConnection;

    ghost runtime = { ? };

    fn create_handle(&self) -> LastTask<u64> {
        LastTask { last: None }
    }

    fn connect_tcp(
        &mut self,
        _server: Peer,
        _bind: Option<Peer>,
        _limit: Option<u64>,
    ) -> Result<MemoryConnection, IoFault> {
        let bytes = Octets::from_slice(self.alloc, &[7])?;
        Ok(MemoryConnection {
            source: MemorySource::new(bytes, 1, Vec::new(self.alloc)),
            sink: MemorySink::new(self.alloc, 1, Vec::new(self.alloc)),
        })
    }

    fn bind_udp(&mut self, _local: Peer, _server: Peer) -> Result<MemorySocket, IoFault> {
        let none = LinkedList::new(self.alloc);
        Ok(MemorySocket::new(self.alloc, none, Vec::new(self.alloc)))
    }
}

/// Uses any runtime: a connection, and a socket.
fn use_runtime<P: RuntimeProvider>(provider: &mut P, server: Peer) -> Result<usize, IoFault>
where
    P::Tcp: Drop,
    P::Udp: Drop,
{
    let mut connection = provider.connect_tcp(server, None, Some(5))?;
    let count = use_connection(&mut connection)?;
    let _socket = provider.bind_udp(server, server)?;
    Ok(count)
}

/// Reads a byte of a connection, and writes it back.
fn use_connection<C: DnsTcpStream>(connection: &mut C) -> Result<usize, IoFault> {
    let mut room = [0u8; 4];
    let count = connection.read(&mut room)?;
    connection.write(&room)?;
    connection.flush()?;
    Ok(count)
}

/// The bytes that a runtime's connection gave, the last of two tasks that were handed over, and a time.
pub fn runtime(alloc: Global, answer: &mut String) -> Result<(), Fail> {
    let mut provider = MemoryRuntime { alloc };
    let count = use_runtime(&mut provider, HERE);
    let mut handle = provider.create_handle();
    handle.spawn_bg(4);
    handle.spawn_bg(5);
    let timer = MemoryTime {
        seconds: 1_700_000_000,
    };
    put(answer, (count, handle.last, timer.current_time()))
}
