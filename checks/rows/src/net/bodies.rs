//! Bodies in pieces (RFC 8484).

use crate::net::quic::put_taken;
use crate::net::steps::{Steps, all_steps};
use crate::net::words::{put, show};
use crate::row::{first_field, numbers_of, size};
use bytes::Bytes;
use dns_io::{IoFault, Octets};
use dns_net::{BodyPieces, MemoryBody, NetError, fetch_body};
use std::alloc::Global;
use std::collections::LinkedList;
use std::test::Fail;

/// What is done with a body: `LENGTHS|FAILING CALLS|STEPS`.
pub fn body(alloc: Global, fields: &str, answer: &mut String) -> Result<(), Fail> {
    let (lengths, rest) = first_field(fields);
    let (failing, steps) = first_field(rest);
    let mut body = body_of(alloc, lengths, failing)?;
    all_steps(alloc, &mut body, steps, answer)
}

/// A body of pieces of these lengths, parted by blanks, with the numbers of its calls that fail; `*COUNT` stands for so many pieces
/// of one byte.
pub fn body_of(alloc: Global, lengths: &str, failing: &str) -> Result<MemoryBody, Fail> {
    let mut pieces = LinkedList::new(alloc);
    for word in lengths.split(' ') {
        match word.split_once('*') {
            Some((_, count)) => add_single(&mut pieces, size(count))?,
            None => add_piece(alloc, &mut pieces, word)?,
        }
    }
    Ok(MemoryBody::new(pieces, numbers_of(alloc, failing)?))
}

/// Adds a piece of this length, where it is a number.
fn add_piece(alloc: Global, pieces: &mut LinkedList<Bytes>, word: &str) -> Result<(), Fail> {
    if let Ok(length) = word.parse::<usize>() {
        let bytes = vec![in alloc; 7u8; length]?;
        pieces.push_back(Bytes::from_vec(bytes)?)?;
    }
    Ok(())
}

/// Adds so many pieces of one byte.
fn add_single(pieces: &mut LinkedList<Bytes>, count: usize) -> Result<(), Fail> {
    for _ in 0..count {
        pieces.push_back(Bytes::from_static(b"\x07"))?;
    }
    Ok(())
}

/// Fetches the rest, where its length may be said, takes the next piece, or tells whether there were faults.
impl Steps for MemoryBody {
    fn step(
        &mut self,
        alloc: Global,
        word: &str,
        with: &str,
        answer: &mut String,
    ) -> Result<(), Fail> {
        match word {
            "fetch" => put_fetched(fetch_body(alloc, self, with.parse().ok()), answer),
            "bytes" => put_taken(fetch_body(alloc, self, with.parse().ok()), answer),
            "next" => put_piece(self.next(), answer),
            _ => put(answer, self.has_faults()),
        }
    }
}

/// Adds how many bytes a body has, or why there is none.
fn put_fetched(fetched: Result<Octets, NetError>, answer: &mut String) -> Result<(), Fail> {
    match fetched {
        Ok(bytes) => put(answer, bytes.len()),
        Err(fault) => show(answer, fault),
    }
}

/// Adds how many bytes a piece has, or that there is none.
fn put_piece(piece: Result<Option<Bytes>, IoFault>, answer: &mut String) -> Result<(), Fail> {
    match piece {
        Ok(Some(piece)) => put(answer, piece.len()),
        Ok(None) => Ok(answer.push_str("end")?),
        Err(fault) => show(answer, fault),
    }
}

/// What comes of a body of so many bytes, wherever it is cut in two.
pub fn cut(alloc: Global, fields: &str, answer: &mut String) -> Result<(), Fail> {
    let (count, places) = first_field(fields);
    let mut whole = Bytes::from_vec(vec![in alloc; 7u8; size(count)]?)?;
    all_steps(alloc, &mut whole, places, answer)
}

/// Cuts it in two at a place, and fetches it.
impl Steps for Bytes {
    fn step(
        &mut self,
        alloc: Global,
        word: &str,
        _with: &str,
        answer: &mut String,
    ) -> Result<(), Fail> {
        let mut body = cut_at(alloc, self, size(word).min(self.len()))?;
        put_fetched(fetch_body(alloc, &mut body, None), answer)
    }
}

fn cut_at(alloc: Global, whole: &Bytes, place: usize) -> Result<MemoryBody, Fail> {
    let mut pieces = LinkedList::new(alloc);
    pieces.push_back(whole.slice(..place)?)?;
    pieces.push_back(whole.slice(place..)?)?;
    Ok(MemoryBody::new(pieces, Vec::new(alloc)))
}

/// The reply to a query for www.example.com A from the example zone.
const REPLY: &[u8] =
    b"\0\0\x85\0\0\x01\0\x01\0\0\0\0\x03www\x07example\x03com\0\0\x01\0\x01\x03www\x07example\x03com\0\0\x01\0\x01\0\0\x0e\x10\0\x04\xc0\0\x02\x01";

/// The reply in pieces of this many bytes, the last of which may be shorter, with the numbers of its calls that fail.
pub fn reply_in_pieces(alloc: Global, size: usize, failing: &str) -> Result<MemoryBody, Fail> {
    let mut pieces = LinkedList::new(alloc);
    for piece in REPLY.chunks(size) {
        pieces.push_back(Bytes::copy_from_slice(alloc, piece)?)?;
    }
    Ok(MemoryBody::new(pieces, numbers_of(alloc, failing)?))
}

/// What is done with the reply in pieces of so many bytes.
pub fn reply(alloc: Global, fields: &str, answer: &mut String) -> Result<(), Fail> {
    let (step, steps) = first_field(fields);
    let mut body = reply_in_pieces(alloc, size(step).max(1), "")?;
    all_steps(alloc, &mut body, steps, answer)
}
