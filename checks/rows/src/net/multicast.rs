//! Multicast DNS.

use crate::net::steps::{Steps, all_steps};
use crate::net::words::show;
use crate::row::{first_field, numbers_of};
use dns_io::{Ip, Octets, Peer};
use dns_multicast::{
    MdnsClientStream, MdnsQueryType, MdnsStream, MemoryPackets, Packet, mdns_port,
};
use dns_transport::{Address, NetError, Poll};
use std::alloc::Global;
use std::collections::LinkedList;
use std::test::Fail;

type Stream = MdnsStream<MemoryPackets, MemoryPackets>;

type Client = MdnsClientStream<MemoryPackets, MemoryPackets>;

/// The way to take part of this name.
fn kind_of(word: &str) -> MdnsQueryType {
    match word {
        "one_shot" => MdnsQueryType::OneShot,
        "continuous" => MdnsQueryType::Continuous,
        "one_shot_join" => MdnsQueryType::OneShotJoin,
        _ => MdnsQueryType::Passive,
    }
}

/// Who takes part in this way: as a sender, from port 5353, as one who joins, and from the port that the number 100,000 chooses.
pub fn part(word: &str, answer: &mut String) -> Result<(), Fail> {
    let kind = kind_of(word);
    let (sender, bound, joins) = (kind.sender(), kind.bind_on_5353(), kind.join_multicast());
    let port = mdns_port(kind, 100_000);
    Ok(write!(answer, "{sender} {bound} {joins} {port:?}")?)
}

/// A source, if there is to be one, of packets of these bytes, `BYTES/FAILING/PENDING`: the numbers of the calls that fail, or find
/// nothing yet.
fn source_if(alloc: Global, is_there: bool, word: &str) -> Result<Option<MemoryPackets>, Fail> {
    match is_there {
        true => Ok(Some(source_of(alloc, word)?)),
        false => Ok(None),
    }
}

fn source_of(alloc: Global, word: &str) -> Result<MemoryPackets, Fail> {
    let (bytes, calls) = word.split_once('/').unwrap_or((word, ""));
    let (failing, pending) = calls.split_once('/').unwrap_or((calls, ""));
    let packets = packets_of(alloc, bytes.as_bytes())?;
    let failing = numbers_of(alloc, failing)?;
    Ok(MemoryPackets::new(packets, failing, numbers_of(alloc, pending)?))
}

/// Packets of one byte each from 192.0.2.1.
fn packets_of(alloc: Global, bytes: &[u8]) -> Result<LinkedList<Packet>, Fail> {
    let mut packets = LinkedList::new(alloc);
    for byte in bytes {
        let bytes = Octets::from_slice(alloc, &[*byte])?;
        packets.push_back(packet_of(bytes))?;
    }
    Ok(packets)
}

fn packet_of(bytes: Octets) -> Packet {
    Packet {
        bytes,
        from: Peer {
            ip: Ip::V4(0xc000_0201),
            port: 5353,
        },
    }
}

/// An address, `VERSION:DIGITS:PORT`, with the digits in hex.
pub fn peer_of(word: &str) -> Peer {
    let (version, rest) = word.split_once(':').unwrap_or((word, ""));
    let (digits, port) = rest.split_once(':').unwrap_or((rest, ""));
    let ip = match version {
        "v6" => Ip::V6(u128::from_str_radix(digits, 16).unwrap_or(0)),
        _ => Ip::V4(u32::from_str_radix(digits, 16).unwrap_or(0)),
    };
    let port = port.parse().unwrap_or(0);
    Peer { ip, port }
}

/// What is done with a stream of the group at this address: `ADDRESS|KIND|DATAGRAMS|GROUP|STEPS`; or why there is none.
pub fn group(alloc: Global, fields: &str, answer: &mut String) -> Result<(), Fail> {
    let (setup, steps) = fields.rsplit_once('|').unwrap_or((fields, ""));
    match stream_of(alloc, setup)? {
        Ok(mut stream) => all_steps(alloc, &mut stream, steps, answer),
        Err(fault) => show(answer, fault),
    }
}

fn stream_of(alloc: Global, setup: &str) -> Result<Result<Stream, NetError>, Fail> {
    let (address, rest) = first_field(setup);
    let (kind, sources) = first_field(rest);
    let kind = kind_of(kind);
    let (one, other) = first_field(sources);
    let datagrams = source_if(alloc, kind.sender(), one)?;
    let group = source_if(alloc, kind.join_multicast(), other)?;
    Ok(match address {
        "ipv4" => MdnsStream::new_ipv4(kind, Some(1), datagrams, group),
        "ipv6" => MdnsStream::new_ipv6(kind, None, datagrams, group),
        _ => MdnsStream::new(peer_of(address), kind, None, datagrams, group),
    })
}

impl Steps for Stream {
    fn step(
        &mut self,
        _alloc: Global,
        word: &str,
        _with: &str,
        answer: &mut String,
    ) -> Result<(), Fail> {
        match word {
            "address" => show(answer, Address(self.multicast_addr())),
            _ => put_heard(self.poll_next(), answer),
        }
    }
}

/// Adds the byte of a packet, or a word: nothing yet, a fault, or the end.
fn put_heard(
    heard: Poll<Option<Result<Packet, NetError>>>,
    answer: &mut String,
) -> Result<(), Fail> {
    match heard {
        Poll::Pending => Ok(answer.push_str("nothing yet")?),
        Poll::Ready(None) => Ok(answer.push_str("end")?),
        Poll::Ready(Some(Ok(packet))) => put_packet(&packet, answer),
        Poll::Ready(Some(Err(fault))) => show(answer, fault),
    }
}

fn put_packet(packet: &Packet, answer: &mut String) -> Result<(), Fail> {
    for byte in packet.bytes.as_slice() {
        answer.push(char::from(*byte))?;
    }
    Ok(())
}

/// The same of a client.
pub fn group_client(alloc: Global, fields: &str, answer: &mut String) -> Result<(), Fail> {
    let (setup, steps) = fields.rsplit_once('|').unwrap_or((fields, ""));
    match client_of(alloc, setup)? {
        Ok(mut client) => all_steps(alloc, &mut client, steps, answer),
        Err(fault) => show(answer, fault),
    }
}

fn client_of(alloc: Global, setup: &str) -> Result<Result<Client, NetError>, Fail> {
    let (address, rest) = first_field(setup);
    let (kind, sources) = first_field(rest);
    let kind = kind_of(kind);
    let (one, other) = first_field(sources);
    let datagrams = source_if(alloc, kind.sender(), one)?;
    let group = source_if(alloc, kind.join_multicast(), other)?;
    Ok(match address {
        "ipv4" => MdnsClientStream::new_ipv4(kind, None, datagrams, group),
        "ipv6" => MdnsClientStream::new_ipv6(kind, None, datagrams, group),
        _ => MdnsClientStream::new(peer_of(address), kind, None, datagrams, group),
    })
}

impl Steps for Client {
    fn step(
        &mut self,
        _alloc: Global,
        word: &str,
        _with: &str,
        answer: &mut String,
    ) -> Result<(), Fail> {
        match word {
            "address" => show(answer, Address(self.name_server_addr())),
            _ => put_heard(self.poll_next(), answer),
        }
    }
}
