//! Four threads send the same updates, each of which can be made once.

use crate::book::asks::ask;
use crate::book::passes::last_of;
use crate::book::zones::book;
use dns_book::{AccessControl, Ask, Settled};
use dns_io::{Octets, Protocol};
use dns_keeper::MemoryKeeper;
use dns_ticket_lock::{Pass, TicketBook};
use std::alloc::Global;
use std::sync::Wait;
use std::test::Fail;
use std::thread::{Threads, join};

/// How many updates each thread sends.
const UPDATES: u32 = 2_000;

/// The address of www.example.com in the zone, as a number: 192.0.2.1.
const FIRST_ADDRESS: u32 = 0xc000_0201;

/// An update of www.example.com where it has the address behind these bytes (RFC 2136 2.4.2).
const WHERE_IT_HAS: &[u8] =
    b"\x12\x34\x28\0\0\x01\0\x01\0\x02\0\0\x07example\x03com\0\0\x06\0\x01\x03www\xc0\x0c\0\x01\0\x01\0\0\0\0\0\x04";

/// The address behind these bytes is deleted (RFC 2136 2.5.4).
const DELETED: &[u8] = b"\x03www\xc0\x0c\0\x01\0\xfe\0\0\0\0\0\x04";

/// The address behind these bytes is added (RFC 2136 2.5.1).
const ADDED: &[u8] = b"\x03www\xc0\x0c\0\x01\0\x01\0\0\x0e\x10\0\x04";

/// The update with this number, which is below 2,000: where www.example.com has the address with this number, it gets the next one
/// in its place. So each update can be made once, after the one before it.
fn next_address(alloc: Global, number: u32) -> Option<Ask> {
    let old = FIRST_ADDRESS.wrapping_add(number).to_be_bytes();
    let new = FIRST_ADDRESS
        .wrapping_add(number)
        .wrapping_add(1)
        .to_be_bytes();
    let parts = [
        WHERE_IT_HAS,
        old.as_slice(),
        DELETED,
        old.as_slice(),
        ADDED,
        new.as_slice(),
    ];
    let bytes = parts.concat(alloc).ok()?;
    ask(Octets::from_vec(bytes), Protocol::Udp)
}

/// Whether an update was told NoError.
fn has_no_error(settled: &Settled) -> bool {
    match &settled.reply {
        Some(reply) => match reply.as_slice() {
            [_, _, _, code, ..] => *code == 0,
            _ => false,
        },
        None => false,
    }
}

/// Whether the update with this number was made.
fn made<R: Wait>(
    rt: &R,
    alloc: Global,
    book: &TicketBook<MemoryKeeper>,
    pass: &mut Pass,
    number: u32,
) -> Option<bool> {
    let ask = next_address(alloc, number)?;
    let settled = book
        .settle(rt, pass, &AccessControl::new(alloc), &ask)
        .ok()?;
    Some(has_no_error(&settled))
}

/// Which updates were made by a pass that sends each.
fn all_made<R: Wait>(
    rt: &R,
    alloc: Global,
    book: &TicketBook<MemoryKeeper>,
    mut pass: Pass,
) -> Option<Vec<bool>> {
    let mut which = Vec::new(alloc);
    for number in 0..UPDATES {
        let one = made(rt, alloc, book, &mut pass, number)?;
        which.push(one).ok()?;
    }
    Some(which)
}

/// The same for two passes at once.
fn two_made<R: Threads + Wait + Sync>(
    rt: &R,
    alloc: Global,
    book: &TicketBook<MemoryKeeper>,
    passes: (Pass, Pass),
) -> Option<(Vec<bool>, Vec<bool>)> {
    let (first, second) = passes;
    let (one, two) = join(
        rt,
        || -> Option<Vec<bool>> { all_made(rt, alloc, book, first) },
        || -> Option<Vec<bool>> { all_made(rt, alloc, book, second) },
    );
    Some((one?, two?))
}

/// Two passes of a book.
fn two_of(book: &TicketBook<MemoryKeeper>, passes: &mut Vec<Pass>) -> Option<(Pass, Pass)> {
    let one = last_of(book, passes)?;
    let two = last_of(book, passes)?;
    Some((one, two))
}

/// Which updates four threads made.
fn four_made<R: Threads + Wait + Sync>(
    rt: &R,
    alloc: Global,
    book: &TicketBook<MemoryKeeper>,
    mut passes: Vec<Pass>,
) -> Option<((Vec<bool>, Vec<bool>), (Vec<bool>, Vec<bool>))> {
    let one = two_of(book, &mut passes)?;
    let two = two_of(book, &mut passes)?;
    let (one, two) = join(
        rt,
        || -> Option<(Vec<bool>, Vec<bool>)> { two_made(rt, alloc, book, one) },
        || -> Option<(Vec<bool>, Vec<bool>)> { two_made(rt, alloc, book, two) },
    );
    Some((one?, two?))
}

/// How many of the lists say so at this place.
fn count_at(lists: [&Vec<bool>; 4], place: usize) -> u32 {
    let mut count = 0u32;
    for list in lists {
        if list.get(place) == Some(&true) {
            count = count.saturating_add(1);
        }
    }
    count
}

/// Whether each update was made by just one of four threads, over a book that is opened so.
pub fn four<R: Threads + Wait + Sync>(rt: &R, alloc: Global, given: &str) -> Result<String, Fail> {
    let Ok((shared, passes)) = TicketBook::new(alloc, book(alloc, given)?, 4) else {
        return Err(Fail::from("no memory"));
    };
    match four_made(rt, alloc, &shared, passes) {
        Some(((a, b), (c, d))) => counts(alloc, [&a, &b, &c, &d]),
        None => Ok("not all were sent".to_string(alloc)?),
    }
}

/// How many updates one of the threads made alone.
fn counts(alloc: Global, lists: [&Vec<bool>; 4]) -> Result<String, Fail> {
    let mut count = 0u32;
    for place in 0..UPDATES as usize {
        if count_at(lists, place) == 1 {
            count = count.saturating_add(1);
        }
    }
    Ok(format!(in alloc; "{count} of {UPDATES}")?)
}
