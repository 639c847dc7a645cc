//! Records, queries and replies that are written, as long as may be or cut (RFC 1035 4.1 and 4.2.1).

use crate::row::{hex_of, size, two};
use dns_io::Octets;
use dns_name::Name;
use dns_wire::{Data, Edns, Header, Message, Question, Questions, Record, Records, Reply, Texts};
use std::alloc::Global;
use std::test::Fail;

/// The bytes of a record without data, of this name and type.
pub fn empty(alloc: Global, given: &str) -> Result<String, Fail> {
    let (name, rtype) = two(given);
    let record = Record {
        name: Name::parse(alloc, name)?,
        rtype: rtype.parse().unwrap_or(0),
        class: 1,
        ttl: 0,
        rdata: Data::Empty,
    };
    let bytes = record.to_vec(alloc)?;
    hex_of(alloc, bytes.as_slice())
}

/// The length of a record with so many bytes of data, or why it is not written.
pub fn record_size(alloc: Global, given: &str) -> Result<String, Fail> {
    let record = opaque(alloc, size(given))?;
    match record.to_vec(alloc) {
        Ok(bytes) => Ok(bytes.len().to_string(alloc)?),
        Err(fault) => Ok(format!(in alloc; "{fault:?}")?),
    }
}

/// The bytes of a query without additional records.
pub fn query(alloc: Global) -> Result<String, Fail> {
    let message = message_of(alloc, Records::new(alloc))?;
    let bytes = message.to_vec(alloc)?;
    hex_of(alloc, bytes.as_slice())
}

/// The length of a message with additional records of so many bytes of data, or why there is none.
pub fn message_size(alloc: Global, given: &str) -> Result<String, Fail> {
    let additional = opaque_records(alloc, given)?;
    let message = message_of(alloc, additional)?;
    match message.to_vec(alloc) {
        Ok(bytes) => Ok(bytes.len().to_string(alloc)?),
        Err(fault) => Ok(format!(in alloc; "{fault:?}")?),
    }
}

fn opaque_records(alloc: Global, given: &str) -> Result<Records, Fail> {
    let mut records = Records::new(alloc);
    for word in given.split(' ') {
        records.push(opaque(alloc, size(word))?)?;
    }
    Ok(records)
}

/// A record of the root, with this many bytes of data after its first 11.
fn opaque(alloc: Global, size: usize) -> Result<Record, Fail> {
    let bytes = vec![in alloc; 0u8; size]?;
    Ok(Record {
        name: Name::root(alloc),
        rtype: 65280,
        class: 1,
        ttl: 0,
        rdata: Data::Opaque(Octets::from_vec(bytes)),
    })
}

fn message_of(alloc: Global, additional: Records) -> Result<Message, Fail> {
    Ok(Message {
        header: Header::read(b"\x12\x34\x01\0\0\0\0\0\0\0\0\0").ok_or("no header")?,
        questions: questions_of(alloc)?,
        answers: Records::new(alloc),
        authority: Records::new(alloc),
        additional,
        edns: None,
    })
}

fn questions_of(alloc: Global) -> Result<Questions, Fail> {
    let mut questions = Questions::new(alloc);
    questions.push(question_for(Name::parse(alloc, "www.example.com")?))?;
    Ok(questions)
}

fn question_for(name: Name) -> Question {
    Question {
        name,
        qtype: 1,
        qclass: 1,
    }
}

/// The first 12 bytes and the length of a reply of 40 addresses under this limit, with an OPT of this payload, if any; and whether
/// it is the same when it is read and written again.
pub fn reply(alloc: Global, given: &str) -> Result<String, Fail> {
    let (limit, payload) = two(given);
    let written = addresses(alloc, payload)?.encode(alloc, limit.parse().unwrap_or(512).max(512))?;
    reply_text(alloc, written.as_slice())
}

fn reply_text(alloc: Global, written: &[u8]) -> Result<String, Fail> {
    let head = hex_of(alloc, written.get(..12).unwrap_or(&[]))?;
    let stands = stands_again(alloc, written)?;
    Ok(format!(in alloc; "{head} {} {stands}", written.len())?)
}

/// Whether the message that stands in the bytes is written as these bytes.
fn stands_again(alloc: Global, written: &[u8]) -> Result<bool, Fail> {
    let message = Message::from_vec(alloc, written)?;
    let again = message.to_vec(alloc)?;
    Ok(again.as_slice() == written)
}

fn addresses(alloc: Global, payload: &str) -> Result<Reply, Fail> {
    let big = Name::parse(alloc, "big.example.com")?;
    let answers = hosts(alloc, &big)?;
    Ok(Reply {
        id: 0x1234,
        opcode: 0,
        aa: true,
        rd: true,
        cd: false,
        code: 0,
        question: Some(question_for(big)),
        answers,
        authority: Records::new(alloc),
        additional: Records::new(alloc),
        edns: edns_of(payload),
    })
}

fn edns_of(payload: &str) -> Option<Edns> {
    match payload.parse() {
        Ok(payload) => Some(Edns {
            payload,
            extended: 0,
            version: 0,
            dnssec_ok: false,
        }),
        Err(_) => None,
    }
}

fn hosts(alloc: Global, owner: &Name) -> Result<Records, Fail> {
    let mut records = Records::new(alloc);
    for host in 1..41 {
        records.push(address(owner.clone()?, host))?;
    }
    Ok(records)
}

fn address(name: Name, host: u8) -> Record {
    Record {
        name,
        rtype: 1,
        class: 1,
        ttl: 3600,
        rdata: Data::A(0xc000_0200 + u32::from(host)),
    }
}

/// Whether a text as data is the same as its copy, and the same as no data.
pub fn same_data(alloc: Global, text: &str) -> Result<String, Fail> {
    let mut texts = Texts::new(alloc);
    if text.len() < 256 {
        texts.push(text.as_bytes())?;
    }
    compared(alloc, &Data::Txt(texts))
}

fn compared(alloc: Global, data: &Data) -> Result<String, Fail> {
    let copy = data.copy()?;
    Ok(format!(in alloc;
        "{} {}",
        data.same_data(&copy),
        data.same_data(&Data::Empty)
    )?)
}

/// How many records there are when a list of one is followed by its copy.
pub fn doubled(alloc: Global) -> Result<String, Fail> {
    let mut records = Records::new(alloc);
    records.push(opaque(alloc, 1)?)?;
    let copy = records.copy()?;
    records.append(copy)?;
    Ok(records.len().to_string(alloc)?)
}

/// The bytes of a copy of two words, one behind the other.
pub fn joined(alloc: Global, given: &str) -> Result<String, Fail> {
    let (first, second) = two(given);
    let mut bytes = Octets::from_slice(alloc, first.as_bytes())?;
    bytes.append(second.as_bytes())?;
    let copy = bytes.copy()?.into_vec();
    hex_of(alloc, copy.as_slice())
}
