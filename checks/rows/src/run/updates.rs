//! Scripts of updates, the messages that they mean, and their exchange with a server that is in memory (RFC 2136 2).

use crate::row::{
    bytes_of, hex_of, number, numbers_of, put_answer, put_bytes, quoted, size, text_of, two,
    words_of,
};
use dns_edges::{MemorySink, MemorySource, Sink, Source, count_wants, read_to_end};
use dns_io::{IoFault, Octets};
use dns_name::Name;
use dns_update_client::{Sending, nsupdate, read_entry, read_script, submit};
use dns_wire::{Message, Record, Records};
use std::alloc::Global;
use std::test::Fail;

/// The record that a text stands for below an origin, in hex digits, or why it stands for none: `ORIGIN TTL TEXT`. A TTL of `-` is none.
pub fn entry(alloc: Global, given: &str) -> Result<String, Fail> {
    let (origin, given) = two(given);
    let (ttl, text) = two(given);
    let origin = Name::parse(alloc, origin)?;
    match read_entry(alloc, text.as_bytes(), &origin, ttl.parse().ok()) {
        Ok(one) => digits_of(alloc, &one),
        Err(fault) => Ok(format!(in alloc; "{fault:?}")?),
    }
}

fn digits_of(alloc: Global, one: &Record) -> Result<String, Fail> {
    let bytes = one.to_vec(alloc)?;
    hex_of(alloc, bytes.as_slice())
}

/// What the lines of a script send, or why they are none: of each sending the labels of its zone, its prerequisites behind `?`, and its
/// changes behind `+`, in hex digits.
pub fn script(alloc: Global, given: &str) -> Result<String, Fail> {
    let text = text_of(alloc, given)?;
    let mut answer = String::new(alloc);
    match read_script(alloc, text.as_str().as_bytes()) {
        Ok(script) => {
            for sending in script.as_slice() {
                put_sending(alloc, &mut answer, sending)?;
            }
        }
        Err(fault) => write!(answer, "{fault:?}")?,
    }
    Ok(answer)
}

fn put_sending(alloc: Global, answer: &mut String, sending: &Sending) -> Result<(), Fail> {
    put_bytes(answer, sending.zone.as_wire())?;
    put_records(alloc, answer, '?', &sending.prerequisites)?;
    put_records(alloc, answer, '+', &sending.changes)?;
    answer.push(';')?;
    Ok(())
}

/// Adds records, each behind a blank and a mark.
fn put_records(
    alloc: Global,
    answer: &mut String,
    mark: char,
    records: &Records,
) -> Result<(), Fail> {
    for one in records.as_slice() {
        write!(answer, " {mark}{}", digits_of(alloc, one)?)?;
    }
    Ok(())
}

/// The messages that a script means, in hex digits: `ID LINES`, the id of the first one and the lines of the script.
pub fn messages(alloc: Global, given: &str) -> Result<String, Fail> {
    let mut answers = String::new(alloc);
    for message in meant(alloc, given)?.as_slice() {
        let bytes = message.to_vec(alloc)?;
        put_answer(&mut answers, hex_of(alloc, bytes.as_slice())?.as_str())?;
    }
    Ok(answers)
}

fn meant(alloc: Global, given: &str) -> Result<Vec<Message>, Fail> {
    let (id, lines) = two(given);
    let text = text_of(alloc, lines)?;
    let script = read_script(alloc, text.as_str().as_bytes())?;
    Ok(script.messages(alloc, id.parse().unwrap_or(0))?)
}

/// What comes of sending the messages of a script, `INPUT STEP READS WRITES FLUSHES ID LINES`: these bytes come from the server, so many at
/// a read or a write, and these reads, writes and flushes fail. The codes of the replies, or why there are none; how many bytes were taken
/// to be sent, those that were handed on, and those that still come.
pub fn submitted(alloc: Global, given: &str) -> Result<String, Fail> {
    let (digits, given) = two(given);
    let (step, given) = two(given);
    let (reads, given) = two(given);
    let step = size(step).max(1);
    let bytes = Octets::from_vec(bytes_of(alloc, digits)?);
    let mut input = MemorySource::new(bytes, step, numbers_of(alloc, reads)?);
    let (writes, given) = two(given);
    let (flushes, given) = two(given);
    let (writes, flushes) = (numbers_of(alloc, writes)?, numbers_of(alloc, flushes)?);
    let mut output = MemorySink::with_failing_flushes(alloc, step, writes, flushes);
    let mut answer = exchanged(alloc, given, &mut input, &mut output)?;
    write!(answer, " {} ", output.taken().len())?;
    put_bytes(&mut answer, output.flushed())?;
    put_left(alloc, &mut answer, &mut input)?;
    Ok(answer)
}

/// Adds what a source has left, behind a slash.
fn put_left(alloc: Global, answer: &mut String, input: &mut MemorySource) -> Result<(), Fail> {
    match read_to_end(alloc, input, 65_536) {
        Ok(bytes) => {
            answer.push('/')?;
            put_bytes(answer, bytes.as_slice())
        }
        Err(_) => Err(Fail::from("the rest is not read")),
    }
}

/// The codes of the replies to the messages of a script, or why there are none.
fn exchanged<R: Source, W: Sink>(
    alloc: Global,
    given: &str,
    input: &mut R,
    output: &mut W,
) -> Result<String, Fail> {
    let messages = meant(alloc, given)?;
    let mut answer = String::new(alloc);
    match submit(alloc, &messages, input, output) {
        Ok(codes) => {
            for code in codes.as_slice() {
                write!(answer, "{code};")?;
            }
        }
        Err(fault) => write!(answer, "{fault:?};")?,
    }
    Ok(answer)
}

/// The same where each read of what comes from the server wants memory, or each write: `PLACE ID LINES`.
pub fn wanted(alloc: Global, given: &str) -> Result<String, Fail> {
    let (place, given) = two(given);
    if place == "write" {
        let mut input = MemorySource::new(Octets::new(alloc), 1, Vec::new(alloc));
        return exchanged(alloc, given, &mut input, &mut Wanting { wants: 0 });
    }
    let mut output = MemorySink::new(alloc, 512, Vec::new(alloc));
    exchanged(alloc, given, &mut Wanting { wants: 0 }, &mut output)
}

/// What comes of sending one message that adds a record so many times, where no reply comes, and how many bytes were taken to be sent.
pub fn large(alloc: Global, given: &str) -> Result<String, Fail> {
    let mut script = "1 zone example.com.".to_string(alloc)?;
    for _ in 0..number(given) {
        script.push_str(";add a.example.com. 60 A 192.0.2.1")?;
    }
    script.push_str(";send")?;
    let mut input = MemorySource::new(Octets::new(alloc), 1, Vec::new(alloc));
    let mut output = MemorySink::new(alloc, 512, Vec::new(alloc));
    let mut answer = exchanged(alloc, script.as_str(), &mut input, &mut output)?;
    write!(answer, " {}", output.taken().len())?;
    Ok(answer)
}

/// How the client ends, and what it writes: `INPUT READS ID LINES`. These bytes come from the server, and these reads of the script fail.
pub fn client(alloc: Global, given: &str) -> Result<String, Fail> {
    let mut out = MemorySink::new(alloc, 512, Vec::new(alloc));
    let status = status_of(alloc, given, &mut out)?;
    Ok(format!(in alloc; "{status} {}", quoted(alloc, out.flushed())?)?)
}

/// How it ends where each write of its output wants memory.
pub fn wanting_client(alloc: Global, given: &str) -> Result<String, Fail> {
    let status = status_of(alloc, given, &mut Wanting { wants: 0 })?;
    Ok(status.to_string(alloc)?)
}

fn status_of<O: Sink>(alloc: Global, given: &str, out: &mut O) -> Result<u8, Fail> {
    let (digits, given) = two(given);
    let (reads, given) = two(given);
    let (id, lines) = two(given);
    let words = format!(in alloc; "--server=7f000001:1 --id={id}")?;
    let words = words_of(alloc, words.as_str())?;
    let text = text_of(alloc, lines)?;
    let text = Octets::from_slice(alloc, text.as_str().as_bytes())?;
    let mut script = MemorySource::new(text, 50, numbers_of(alloc, reads)?);
    let bytes = Octets::from_vec(bytes_of(alloc, digits)?);
    let mut input = MemorySource::new(bytes, 512, Vec::new(alloc));
    let mut output = MemorySink::new(alloc, 512, Vec::new(alloc));
    let status = nsupdate(alloc, &words, &mut script, &mut input, &mut output, out);
    Ok(status.number())
}

/// A source and a sink that want memory for each read and each write.
#[derive(Drop)]
struct Wanting {
    wants: u64,
}

impl Source for Wanting {
    ghost source = { ? };

    fn read(&mut self, _room: &mut [u8]) -> Result<usize, IoFault> {
        Err(IoFault::OutOfMemory)
    }
}

impl Sink for Wanting {
    ghost sink = { ? };

    fn write(&mut self, _bytes: &[u8]) -> Result<usize, IoFault> {
        count_wants(Err(IoFault::OutOfMemory), &mut self.wants)
    }

    fn flush(&mut self) -> Result<(), IoFault> {
        Ok(())
    }
}
