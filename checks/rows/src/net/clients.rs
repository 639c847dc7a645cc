//! Clients over QUIC, and the streams that the other side opens.

use crate::net::halves::{send_of, taking};
use crate::net::quic::put_received;
use crate::net::steps::{Steps, all_steps};
use crate::net::words::{put, say, show};
use crate::row::{bytes_of, first_field, numbers_of, put_bytes};
use dns_io::{Ip, Octets, Peer};
use dns_name::Name;
use dns_quic::{
    MemoryRecv, MemorySend, MemoryStreams, QuicClientStream, QuicStream, QuicStreams, StreamCall,
};
use dns_transport::NetError;
use dns_wire::{Data, Message, Record};
use std::alloc::Global;
use std::collections::LinkedList;
use std::test::Fail;

/// The query for www.example.com A.
const QUERY: &[u8] = b"\x12\x34\x01\x00\0\x01\0\0\0\0\0\0\x03www\x07example\x03com\0\0\x01\0\x01";

/// The reply to it from the example zone behind its length.
const REPLY: &[u8] =
    b"\0\x40\0\0\x85\0\0\x01\0\x01\0\0\0\0\x03www\x07example\x03com\0\0\x01\0\x01\x03www\x07example\x03com\0\0\x01\0\x01\0\0\x0e\x10\0\x04\xc0\0\x02\x01";

/// The query.
pub fn query(alloc: Global) -> Result<Message, Fail> {
    Ok(Message::from_vec(alloc, QUERY)?)
}

/// The query with an additional record whose data takes as many bytes as a message may have.
pub fn long_query(alloc: Global) -> Result<Message, Fail> {
    let mut message = query(alloc)?;
    let bytes = vec![in alloc; 7u8; 65535]?;
    message.additional.push(Record {
        name: Name::root(alloc),
        rtype: 65280,
        class: 1,
        ttl: 0,
        rdata: Data::Opaque(Octets::from_vec(bytes)),
    })?;
    Ok(message)
}

/// What comes on a stream: the reply, with the numbers of the reads that fail; or these bytes, behind `of `.
fn coming(alloc: Global, words: &str) -> Result<MemoryRecv, Fail> {
    match words.split_once("of ") {
        Some((_, digits)) => {
            let bytes = bytes_of(alloc, digits)?;
            taking(alloc, bytes.as_slice(), 7, "")
        }
        None => taking(alloc, REPLY, 7, words),
    }
}

/// One stream, with the numbers of the calls of its sending half that fail, and what comes on it.
fn streams_of(
    alloc: Global,
    sends: &str,
    reads: &str,
) -> Result<LinkedList<(MemorySend, MemoryRecv)>, Fail> {
    let send = send_of(alloc, 0, sends)?;
    let recv = coming(alloc, reads)?;
    let mut streams = LinkedList::new(alloc);
    streams.push_back((send, recv))?;
    Ok(streams)
}

/// A client with this stream and a limit of five seconds, and the numbers of the openings that fail and that are late.
fn client_of(
    alloc: Global,
    streams: LinkedList<(MemorySend, MemoryRecv)>,
    calls: &str,
) -> Result<QuicClientStream<MemoryStreams>, Fail> {
    let (failing, late) = first_field(calls);
    let failing = numbers_of(alloc, failing)?;
    let late = numbers_of(alloc, late)?;
    let none = LinkedList::new(alloc);
    let opener = MemoryStreams::new(alloc, streams, none, failing, late, Vec::new(alloc));
    let mut builder = QuicClientStream::<MemoryStreams>::builder();
    builder.request_timeout(5000);
    let address = Peer {
        ip: Ip::V4(0xc000_0201),
        port: 853,
    };
    Ok(builder.build(opener, address, String::from_str(alloc, "ns.example.com")?))
}

/// What is done with a client: `FAILING SENDS|WHAT COMES|FAILING OPENINGS|LATE OPENINGS|STEPS`.
pub fn quic_client(alloc: Global, fields: &str, answer: &mut String) -> Result<(), Fail> {
    let (setup, steps) = fields.rsplit_once('|').unwrap_or((fields, ""));
    let (sends, rest) = first_field(setup);
    let (reads, calls) = first_field(rest);
    let mut client = client_of(alloc, streams_of(alloc, sends, reads)?, calls)?;
    all_steps(alloc, &mut client, steps, answer)
}

impl Steps for QuicClientStream<MemoryStreams> {
    fn step(
        &mut self,
        alloc: Global,
        word: &str,
        _with: &str,
        answer: &mut String,
    ) -> Result<(), Fail> {
        match word {
            "send" => {
                let query = query(alloc)?;
                say(answer, self.send_message(alloc, &query), "a message")
            }
            "ask" => {
                let query = query(alloc)?;
                put_received(alloc, self.send_message(alloc, &query), answer)
            }
            "long" => {
                let query = long_query(alloc)?;
                put_received(alloc, self.send_message(alloc, &query), answer)
            }
            "poll" => put(answer, self.poll_next()),
            "shut" => {
                self.shutdown();
                put(answer, self.is_shutdown())
            }
            "show" => show(answer, &*self),
            _ => tell(self.opener(), word, answer),
        }
    }
}

/// Tells what a connection tells.
fn tell(opener: &MemoryStreams, word: &str, answer: &mut String) -> Result<(), Fail> {
    match word {
        "calls" => put(answer, opener.calls().len()),
        "closed" => put(answer, opener.closed()),
        "told" => put_calls(opener.calls(), answer),
        _ => put(answer, opener.faults()),
    }
}

/// Adds each call: the limit of an opening, or what the sending half of a stream took, and how it was ended.
fn put_calls(
    calls: &[StreamCall<MemorySend, MemoryRecv>],
    answer: &mut String,
) -> Result<(), Fail> {
    for call in calls {
        match call {
            StreamCall::Opened(limit) => put(answer, *limit)?,
            StreamCall::Returned(send, _) => put_half(send, answer)?,
        }
    }
    Ok(())
}

pub fn put_half(send: &MemorySend, answer: &mut String) -> Result<(), Fail> {
    put_bytes(answer, send.taken().as_slice())?;
    put(answer, send.ends())
}

/// The streams that the other side opens, of whose acceptings these fail.
pub fn accepted(alloc: Global, fields: &str, answer: &mut String) -> Result<(), Fail> {
    let (failing, steps) = first_field(fields);
    let coming = streams_of(alloc, "", "")?;
    let failing = numbers_of(alloc, failing)?;
    let none = LinkedList::new(alloc);
    let opener = MemoryStreams::new(
        alloc,
        none,
        coming,
        Vec::new(alloc),
        Vec::new(alloc),
        failing,
    );
    let mut streams = QuicStreams::new(opener);
    all_steps(alloc, &mut streams, steps, answer)
}

impl Steps for QuicStreams<MemoryStreams> {
    fn step(
        &mut self,
        alloc: Global,
        word: &str,
        _with: &str,
        answer: &mut String,
    ) -> Result<(), Fail> {
        match word {
            "next" => put_next(alloc, self.next(), answer),
            _ => put(answer, self.opener().faults()),
        }
    }
}

/// Adds the message of a stream, or why there is none.
fn put_next(
    alloc: Global,
    next: Option<Result<QuicStream<MemorySend, MemoryRecv>, NetError>>,
    answer: &mut String,
) -> Result<(), Fail> {
    match next {
        None => Ok(answer.push_str("end")?),
        Some(Err(fault)) => show(answer, fault),
        Some(Ok(mut stream)) => put_received(alloc, stream.receive(alloc), answer),
    }
}
