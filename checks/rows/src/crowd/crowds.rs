//! Crowds of connections, whatever comes over them. What is expected is written down by hand from RFC 1035 4.2.2 and RFC 7766 6.2.

use crate::crowd::comings::all_coming;
use crate::crowd::scribe::Scribe;
use crate::crowd::zones::book_of;
use crate::row::{numbers_of, put_bytes, two};
use dns_crowd::{MemoryCrowd, may_come, serve_crowd};
use dns_io::IoFault;
use dns_server_core::{AccessControl, RequestHandler};
use std::alloc::Global;
use std::sync::Wait;
use std::test::Fail;

/// What a scribe's crowd was handed, and which connections it closed: `NEXTS SENDS / COMING / ..`. These calls for what comes next fail, and
/// these sendings.
pub fn crowd<R: Wait>(rt: &R, alloc: Global, given: &str) -> Result<String, Fail> {
    let mut scribe = Scribe { messages: 0, alloc };
    let told = served(rt, alloc, &mut scribe, given)?;
    Ok(format!(in alloc; "{told}, {} messages", scribe.messages)?)
}

/// The same of a book.
pub fn book<R: Wait>(rt: &R, alloc: Global, given: &str) -> Result<String, Fail> {
    let mut book = book_of(alloc)?;
    served(rt, alloc, &mut book, given)
}

fn served<R: Wait, H: RequestHandler>(
    rt: &R,
    alloc: Global,
    handler: &mut H,
    given: &str,
) -> Result<String, Fail> {
    let (calls, rest) = given.split_once(" / ").unwrap_or((given, ""));
    let (nexts, sends) = two(calls);
    let coming = all_coming(alloc, rest)?;
    if !may_come(coming.as_slice()) {
        return Ok("may not come".to_string(alloc)?);
    }
    let nexts = numbers_of(alloc, nexts)?;
    let mut crowd = MemoryCrowd::new(alloc, coming, nexts, numbers_of(alloc, sends)?);
    let answer = serve_crowd(rt, alloc, handler, &AccessControl::new(alloc), &mut crowd);
    told(alloc, answer, &crowd)
}

/// How a worker ended, and what its crowd took and closed.
fn told(alloc: Global, answer: Result<(), IoFault>, crowd: &MemoryCrowd) -> Result<String, Fail> {
    let mut text = match answer {
        Ok(()) => "Ok".to_string(alloc)?,
        Err(fault) => format!(in alloc; "{fault:?}")?,
    };
    put_crowd(&mut text, crowd)?;
    Ok(text)
}

/// The writings that a crowd took, each with the number of its connection, the connections that it closed, and how many calls of it failed.
pub fn put_crowd(text: &mut String, crowd: &MemoryCrowd) -> Result<(), Fail> {
    for (conn, bytes) in crowd.taken() {
        write!(text, " / {conn} ")?;
        put_bytes(text, bytes.as_slice())?;
    }
    text.push_str(" / closed")?;
    for conn in crowd.closed() {
        write!(text, " {conn}")?;
    }
    write!(text, ", {} faults", crowd.faults())?;
    Ok(())
}
