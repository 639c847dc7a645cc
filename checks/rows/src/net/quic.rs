//! Streams of QUIC.

use crate::net::halves::{send_of, taking};
use crate::net::steps::{Steps, all_steps};
use crate::net::words::{put, say, show};
use crate::row::{bytes_of, first_field, put_bytes, size};
use dns_io::Octets;
use dns_quic::{BodyStream, DoqErrorCode, MemoryRecv, MemorySend, QuicStream};
use dns_transport::{BodyPieces, NetError};
use dns_wire::Message;
use std::alloc::Global;
use std::test::Fail;

/// A stream over halves in memory.
type Stream = QuicStream<MemorySend, MemoryRecv>;

/// The code that a number names, and its number.
pub fn code(word: &str, answer: &mut String) -> Result<(), Fail> {
    let code = code_of(word);
    Ok(write!(answer, "{code:?} {}", u64::from(code))?)
}

fn code_of(word: &str) -> DoqErrorCode {
    DoqErrorCode::from(word.parse::<u64>().unwrap_or(0))
}

/// A stream with bytes to receive, at most so many at once, and the numbers of the calls of its halves that fail:
/// `BYTES|STEP|FAILING SENDS|FAILING READS`.
fn stream_of(alloc: Global, setup: &str) -> Result<Stream, Fail> {
    let (digits, rest) = first_field(setup);
    let (step, rest) = first_field(rest);
    let (sends, reads) = first_field(rest);
    let send = send_of(alloc, 1, sends)?;
    let recv = recv_of(alloc, digits, step, reads)?;
    Ok(QuicStream::new(send, recv))
}

pub fn recv_of(alloc: Global, digits: &str, step: &str, failing: &str) -> Result<MemoryRecv, Fail> {
    let bytes = bytes_of(alloc, digits)?;
    taking(alloc, bytes.as_slice(), size(step).max(1), failing)
}

/// What is done with a stream.
pub fn stream(alloc: Global, fields: &str, answer: &mut String) -> Result<(), Fail> {
    let (setup, steps) = fields.rsplit_once('|').unwrap_or((fields, ""));
    let mut stream = stream_of(alloc, setup)?;
    all_steps(alloc, &mut stream, steps, answer)
}

impl Steps for Stream {
    fn step(
        &mut self,
        alloc: Global,
        word: &str,
        with: &str,
        answer: &mut String,
    ) -> Result<(), Fail> {
        match word {
            "take" => put_taken(self.receive_bytes(alloc), answer),
            "receive" => put_received(alloc, self.receive(alloc), answer),
            "send" => say(answer, self.send_bytes(with.as_bytes()), "sent"),
            "many" => send_many(alloc, self, size(with), answer),
            "finish" => say(answer, self.finish(), "finished"),
            "reset" => say(answer, self.reset(code_of(with)), "reset"),
            "stop" => say(answer, self.stop(code_of(with)), "stopped"),
            _ => tell(self, word, answer),
        }
    }
}

/// Tells what the halves of a stream tell.
fn tell(stream: &Stream, word: &str, answer: &mut String) -> Result<(), Fail> {
    match word {
        "taken" => put_bytes(answer, stream.sending_half().taken().as_slice()),
        "length" => put(answer, stream.sending_half().taken().len()),
        "ends" => put(answer, stream.sending_half().ends()),
        "stops" => put(answer, stream.receiving_half().stops()),
        _ => put(answer, stream.sending_half().faults()),
    }
}

pub fn put_taken(taken: Result<Octets, NetError>, answer: &mut String) -> Result<(), Fail> {
    match taken {
        Ok(bytes) => put_bytes(answer, bytes.as_slice()),
        Err(fault) => show(answer, fault),
    }
}

/// Adds the bytes of a message that was received, or why there is none.
pub fn put_received(
    alloc: Global,
    received: Result<Message, NetError>,
    answer: &mut String,
) -> Result<(), Fail> {
    match received {
        Ok(message) => put_message(alloc, &message, answer),
        Err(NetError::Proto(_)) => Ok(answer.push_str("no message")?),
        Err(fault) => show(answer, fault),
    }
}

fn put_message(alloc: Global, message: &Message, answer: &mut String) -> Result<(), Fail> {
    let bytes = message.to_vec(alloc)?;
    put_bytes(answer, bytes.as_slice())
}

/// Sends so many bytes.
fn send_many(
    alloc: Global,
    stream: &mut Stream,
    count: usize,
    answer: &mut String,
) -> Result<(), Fail> {
    let long = vec![in alloc; 7u8; count]?;
    say(answer, stream.send_bytes(long.as_slice()), "sent")
}

/// What is done with a stream, and then with its receiving half, once the two are parted; between them, how many calls of the
/// sending half failed.
pub fn halves(alloc: Global, fields: &str, answer: &mut String) -> Result<(), Fail> {
    let (fields, last_steps) = fields.rsplit_once('|').unwrap_or((fields, ""));
    let (setup, steps) = fields.rsplit_once('|').unwrap_or((fields, ""));
    let mut stream = stream_of(alloc, setup)?;
    all_steps(alloc, &mut stream, steps, answer)?;
    let (send, mut recv) = stream.into_halves();
    write!(answer, ", {}", send.faults())?;
    all_steps(alloc, &mut recv, last_steps, answer)
}

/// What is done with a receiving half as a body: `BYTES|STEP|FAILING|STEPS`.
pub fn half_body(alloc: Global, fields: &str, answer: &mut String) -> Result<(), Fail> {
    let (digits, rest) = first_field(fields);
    let (step, rest) = first_field(rest);
    let (failing, steps) = first_field(rest);
    let mut body = BodyStream::from(recv_of(alloc, digits, step, failing)?);
    all_steps(alloc, &mut body, steps, answer)
}

impl Steps for BodyStream<MemoryRecv> {
    fn step(
        &mut self,
        _alloc: Global,
        word: &str,
        _with: &str,
        answer: &mut String,
    ) -> Result<(), Fail> {
        match word {
            "next" => put(answer, self.next()),
            _ => put(answer, self.half().faults()),
        }
    }
}

/// What a message is as it is sent and received.
pub fn message(alloc: Global, fields: &str, answer: &mut String) -> Result<(), Fail> {
    let (digits, steps) = first_field(fields);
    let bytes = bytes_of(alloc, digits)?;
    let mut message = Message::from_vec(alloc, bytes.as_slice())?;
    all_steps(alloc, &mut message, steps, answer)
}

/// Passes a message on, as a reply or as it is.
impl Steps for Message {
    fn step(
        &mut self,
        alloc: Global,
        word: &str,
        _with: &str,
        answer: &mut String,
    ) -> Result<(), Fail> {
        self.header.qr = word == "reply";
        *self = passed_on(alloc, self)?;
        put_message(alloc, self, answer)
    }
}

/// What is received of a message that is sent.
fn passed_on(alloc: Global, message: &Message) -> Result<Message, Fail> {
    let mut here = stream_of(alloc, "")?;
    here.send(alloc, message)?;
    received(alloc, here.sending_half().taken().as_slice())
}

/// The message behind its length in these bytes.
fn received(alloc: Global, bytes: &[u8]) -> Result<Message, Fail> {
    let recv = taking(alloc, bytes, 5, "")?;
    let mut there = QuicStream::new(send_of(alloc, 1, "")?, recv);
    Ok(there.receive(alloc)?)
}
