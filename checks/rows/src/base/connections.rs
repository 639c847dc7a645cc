//! A crowd of connections over a network in memory.

use dns_connections::{Crowd, OpenPlaces};
use dns_network::{Answer, MemoryNetwork, Reading, Ready, Refused};
use dns_readiness::Came;
use std::alloc::Global;
use std::net::{IpAddr, Ipv4Addr, SocketAddr};
use std::test::Fail;

/// What a crowd gives, one thing at a time, of which a connection comes, sends three bytes, is handed five of which its peer takes two and then
/// three, and ends; then what was taken of it, and how many answers are left.
pub fn crowd(alloc: Global) -> Result<String, Fail> {
    let places = OpenPlaces::new(alloc, 2)?;
    let network = MemoryNetwork::new(alloc, answers(alloc)?);
    let mut crowd = Crowd::new(alloc, network, 0, places);
    let told = told(alloc, &mut crowd);
    let network = crowd.end();
    Ok(format!(in alloc;
        "{} {:?} {}",
        told?,
        network.pieces(),
        network.answers_left()
    )?)
}

/// What it gives, and its counts.
fn told(alloc: Global, crowd: &mut Crowd<MemoryNetwork>) -> Result<String, Fail> {
    let mut room = Vec::from_elem(alloc, 0u8, 65_535)?;
    let first = given(crowd, room.as_mut_slice())?;
    let second = given(crowd, room.as_mut_slice())?;
    crowd.send(0, b"12345")?;
    let third = given(crowd, room.as_mut_slice())?;
    let fourth = given(crowd, room.as_mut_slice())?;
    let end = given(crowd, room.as_mut_slice())?;
    crowd.promise();
    let counts = (crowd.faults(), crowd.wants(), crowd.is_full(0));
    Ok(format!(in alloc; "{first:?} {second:?} {third:?} {fourth:?} {end:?} {counts:?}")?)
}

/// What comes next.
fn given(crowd: &mut Crowd<MemoryNetwork>, room: &mut [u8]) -> Result<Option<Came>, Fail> {
    Ok(crowd.next(room)?)
}

/// The answers for that, in the order of the calls.
fn answers(alloc: Global) -> Result<Vec<Answer>, Fail> {
    let peer = SocketAddr::new(IpAddr::V4(Ipv4Addr::from_bits(0xc000_0201)), 53);
    Ok(vec![in alloc;
        Answer::Clocks(at(1_000)),
        Answer::Comes(peer),
        Answer::Done,
        Answer::Refused(Refused::NotYet),
        Answer::Token(false),
        Answer::Ready(Vec::from_slice(alloc, &[ready(false)])?),
        Answer::Clocks(at(1_010)),
        Answer::Bytes(Vec::from_slice(alloc, b"abc")?),
        Answer::Takes(2),
        Answer::Done,
        Answer::Token(false),
        Answer::Ready(Vec::from_slice(alloc, &[ready(false)])?),
        Answer::Clocks(at(1_120)),
        Answer::Takes(9),
        Answer::Done,
        Answer::Refused(Refused::NotYet),
        Answer::Token(false),
        Answer::Ready(Vec::from_slice(alloc, &[ready(true)])?),
        Answer::Clocks(at(1_130)),
        Answer::Bytes(Vec::new(alloc)),
        Answer::Token(true),
    ]?)
}

/// That the connection is ready.
fn ready(last: bool) -> Ready {
    Ready::Stream { number: 0, last }
}

/// Both clocks.
fn at(ticks: u64) -> Reading {
    Reading {
        ticks,
        wall: ticks + 4_000,
    }
}
