//! Networks in memory, each of whose calls has the answer that was laid down for it.

use dns_io::{IoFault, Ip, Peer};
use dns_network::{
    Answer, Datagrams, MemoryNetwork, Network, Reading, Ready, Refused, Streams, Watch, Why,
};
use dns_ports::{Arrived, Socket, StopToken, UdpPort};
use std::alloc::Global;
use std::net::{IpAddr, Ipv4Addr, SocketAddr};
use std::test::Fail;

/// The peer 192.0.2.1 at this port.
fn peer(port: u16) -> SocketAddr {
    SocketAddr::new(IpAddr::V4(Ipv4Addr::from_bits(0xc000_0201)), port)
}

/// What the calls give of a network of connections: a look, a wait, what is ready, two accepts, a watch, three reads, four writes, a
/// shutdown and a read at the end. Some are refused, the last write for want of an answer that is one to a write. Then what was taken, and
/// what a reading of the clocks and a look give where no answer is left.
pub fn streams(alloc: Global) -> Result<String, Fail> {
    let mut network = MemoryNetwork::new(alloc, stream_answers(alloc)?);
    let mut room = [0u8; 4];
    let waited = (
        network.look(),
        network.wait(100),
        network.ready(0),
        network.ready(1),
    );
    let wanting = match network.accept(1) {
        Ok((stream, _whom)) => {
            network.cease();
            network.close(stream, Why::Ceased);
            return Err(Fail::from("one was accepted"));
        }
        Err(refused) => refused,
    };
    let (mut stream, whom) = network.accept(2)?;
    let watched = network.watch(&mut stream, Watch::ToRead);
    let reads = [
        network.read(&mut stream, &mut room),
        network.read(&mut stream, &mut room),
        network.read(&mut stream, &mut room),
    ];
    let writes = [
        network.write(&mut stream, b"12345"),
        network.write(&mut stream, b"345"),
        network.write(&mut stream, b"345"),
        network.write(&mut stream, b"6"),
    ];
    let shut = network.shut(&mut stream);
    let end = network.read(&mut stream, &mut room);
    network.close(stream, Why::Ended);
    let left = (network.answers_left(), network.now(), network.look());
    Ok(format!(in alloc;
        "{waited:?} {wanting:?} {whom:?} {watched:?} {reads:?} {room:?} {writes:?} {shut:?} {end:?} {:?} {left:?}",
        network.pieces()
    )?)
}

/// The answers for that.
fn stream_answers(alloc: Global) -> Result<Vec<Answer>, Fail> {
    Ok(vec![in alloc;
        Answer::Token(false),
        Answer::Ready(Vec::from_slice(alloc, &[Ready::Comes])?),
        Answer::Refused(Refused::Wanting),
        Answer::Comes(peer(53)),
        Answer::Done,
        Answer::Refused(Refused::Interrupted),
        Answer::Bytes(Vec::from_slice(alloc, b"abcdef")?),
        Answer::Bytes(Vec::from_slice(alloc, b"xy")?),
        Answer::Takes(2),
        Answer::Refused(Refused::NotYet),
        Answer::Takes(9),
        Answer::Done,
        Answer::Refused(Refused::Gone),
        Answer::Bytes(Vec::new(alloc)),
    ]?)
}

/// What the calls give of a network of datagrams: two readings of the clocks, three receives and three sendings, of which one each is
/// refused; then what was taken.
pub fn datagrams(alloc: Global) -> Result<String, Fail> {
    let reading = Reading { ticks: 7, wall: 9 };
    let answers = vec![in alloc;
        Answer::Clocks(reading),
        Answer::Refused(Refused::Useless),
        Answer::Refused(Refused::NotYet),
        Answer::Datagram(Vec::from_slice(alloc, b"ask")?, peer(1)),
        Answer::Datagram(Vec::from_slice(alloc, b"longer")?, peer(2)),
        Answer::Takes(100),
        Answer::Refused(Refused::TooLong),
        Answer::Takes(0),
    ]?;
    let mut network = MemoryNetwork::new(alloc, answers);
    let mut room = [0u8; 4];
    let clocks = [network.now(), network.now()];
    let receives = [
        network.receive(&mut room),
        network.receive(&mut room),
        network.receive(&mut room),
    ];
    let sends = [
        network.send(peer(1), b"reply"),
        network.send(peer(2), b"too long"),
        network.send(peer(2), b"none"),
    ];
    Ok(format!(in alloc;
        "{clocks:?} {receives:?} {room:?} {sends:?} {:?}",
        network.pieces()
    )?)
}

/// What a socket makes of a network of datagrams: three receives, of which the first passes over two refusals, the second comes at the moment of
/// the first since the clock cannot be read, and the third finds the token stopped; and three answers, one to each of two peers and one that is
/// refused. The second is made again, and then cut. Then the count of its faults.
pub fn socket(alloc: Global) -> Result<String, Fail> {
    let network = MemoryNetwork::new(alloc, socket_answers(alloc)?);
    let mut socket = Socket::over(network, false, StopToken::new(alloc)?);
    let mut room = vec![in alloc; 0u8; 65_535]?;
    let first = heard(&mut socket, &mut room);
    let second = heard(&mut socket, &mut room);
    let answers = [
        socket.answer(asker(2), b"reply"),
        socket.answer(asker(1), b"longer"),
        socket.answer(asker(1), b"reply"),
    ];
    let third = heard(&mut socket, &mut room);
    Ok(format!(in alloc;
        "{first:?} {second:?} {answers:?} {third:?} {}",
        socket.faults()
    )?)
}

/// The answers for that.
fn socket_answers(alloc: Global) -> Result<Vec<Answer>, Fail> {
    Ok(vec![in alloc;
        Answer::Token(false),
        Answer::Refused(Refused::NotYet),
        Answer::Token(false),
        Answer::Refused(Refused::Gone),
        Answer::Token(false),
        Answer::Datagram(Vec::from_slice(alloc, b"ask")?, peer(1)),
        Answer::Clocks(Reading { ticks: 7, wall: 9 }),
        Answer::Token(false),
        Answer::Datagram(Vec::from_slice(alloc, b"more")?, peer(2)),
        Answer::Refused(Refused::Useless),
        Answer::Takes(100),
        Answer::Refused(Refused::Interrupted),
        Answer::Takes(2),
        Answer::Refused(Refused::Wanting),
        Answer::Token(true),
    ]?)
}

/// The same peer, as ports name it.
fn asker(port: u16) -> Peer {
    Peer {
        ip: Ip::V4(0xc000_0201),
        port,
    }
}

/// What a receive gave: how many bytes, from which port, and at which moment.
fn heard(
    socket: &mut Socket<MemoryNetwork>,
    room: &mut Vec<u8>,
) -> Result<Option<(usize, u16, u64)>, IoFault> {
    if room.len() < 65_535 {
        return Ok(None);
    }
    match socket.receive(room.as_mut_slice())? {
        Some(Arrived { len, from, at }) => Ok(Some((len, from.port, at))),
        None => Ok(None),
    }
}
