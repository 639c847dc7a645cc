//! One pass settles an update, and another sees it.

use crate::book::asks::ask_of;
use crate::book::passes::last_of;
use crate::book::zones::book;
use crate::row::{hex_of, put_answer, two};
use dns_book::{AccessControl, Settled};
use dns_io::Protocol;
use dns_keeper::MemoryKeeper;
use dns_ticket_lock::{Pass, TicketBook};
use std::alloc::Global;
use std::sync::Wait;
use std::test::Fail;

/// What is told of one message: the receipt, the length of the journal and the last six bytes of the reply.
fn settled<R: Wait>(
    rt: &R,
    alloc: Global,
    book: &TicketBook<MemoryKeeper>,
    pass: &mut Pass,
    digits: &str,
) -> Result<String, Fail> {
    let ask = ask_of(alloc, Protocol::Udp, digits)?;
    let settled = book.settle(rt, pass, &AccessControl::new(alloc), &ask)?;
    told(alloc, &settled)
}

/// Both passes again.
fn both(mut passes: Vec<Pass>, first: Pass, second: Pass) -> Option<Vec<Pass>> {
    let Ok(()) = passes.push(first) else {
        return None;
    };
    let Ok(()) = passes.push(second) else {
        return None;
    };
    Some(passes)
}

/// The first pass settles an update, and the second a query. Gives the passes back, and what is told of both messages.
fn play<R: Wait>(
    rt: &R,
    alloc: Global,
    book: &TicketBook<MemoryKeeper>,
    mut passes: Vec<Pass>,
    messages: &str,
) -> Result<(Vec<Pass>, String), Fail> {
    let (update, query) = two(messages);
    let mut second = last_of(book, &mut passes).ok_or("no pass")?;
    let mut first = last_of(book, &mut passes).ok_or("no pass")?;
    let mut answers = settled(rt, alloc, book, &mut first, update)?;
    put_answer(
        &mut answers,
        settled(rt, alloc, book, &mut second, query)?.as_str(),
    )?;
    let passes = both(passes, first, second).ok_or("no memory")?;
    Ok((passes, answers))
}

/// What is told of an update and then of a query, each on its own pass, over a book of seven records; and the length of the journal when the
/// book is whole again. `UPDATE QUERY`
pub fn seats<R: Wait>(rt: &R, alloc: Global, given: &str) -> Result<String, Fail> {
    let Ok((shared, passes)) = TicketBook::new(alloc, book(alloc, "seven yes 0 0")?, 2) else {
        return Err(Fail::from("no memory"));
    };
    let (passes, answers) = play(rt, alloc, &shared, passes, given)?;
    let length = shared.close(passes).journal_len();
    Ok(format!(in alloc; "{answers} / {length}")?)
}

fn told(alloc: Global, settled: &Settled) -> Result<String, Fail> {
    let end = end_of(alloc, settled)?;
    Ok(format!(in alloc; "{:?} {} {end}", settled.receipt, settled.length)?)
}

/// The last six bytes of the reply.
fn end_of(alloc: Global, settled: &Settled) -> Result<String, Fail> {
    match &settled.reply {
        Some(reply) => match reply.as_slice() {
            [.., a, b, c, d, e, f] => hex_of(alloc, &[*a, *b, *c, *d, *e, *f]),
            _ => Ok("short".to_string(alloc)?),
        },
        None => Ok("none".to_string(alloc)?),
    }
}
