//! Two listeners, whose connections are served at the same time (RFC 7766 6.2.1): neither ends without the other.

use crate::server::gates::{Gate, GatedListener, gate, replies};
use crate::server::threads::{Server, register, server};
use std::alloc::Global;
use std::sync::Wait;
use std::test::Fail;
use std::thread::Threads;

/// The query for www.example.com A behind its length, in two halves.
const FRONT: &[u8] = b"\0\x21\x12\x34\x01\0\0\x01\0\0\0\0\0\0\x03www\x07";

const REST: &[u8] = b"example\x03com\0\0\x01\0\x01";

const WHOLE: &[u8] =
    b"\0\x21\x12\x34\x01\0\0\x01\0\0\0\0\0\0\x03www\x07example\x03com\0\0\x01\0\x01";

/// Registers both: the first connection brings the half of a message, and the rest when the second has a reply; the second brings a
/// message, and another when the first has its reply.
fn register_both(
    alloc: Global,
    server: &mut Server<GatedListener>,
    first: &Gate,
    second: &Gate,
) -> Result<(), Fail> {
    register(
        server,
        GatedListener::new(alloc, FRONT, REST, first, second)?,
    )?;
    register(
        server,
        GatedListener::new(alloc, WHOLE, WHOLE, second, first)?,
    )
}

/// Whether the workers end well, and how many replies each connection got: all three are taken. A body that serves the two one after the
/// other fails it in either order.
pub fn at_once<R: Threads + Wait + Sync>(rt: &R, alloc: Global) -> Result<String, Fail> {
    let first = gate(alloc)?;
    let second = gate(alloc)?;
    let mut server = server(alloc)?;
    register_both(alloc, &mut server, &first, &second)?;
    let is_served = server.block_until_done(rt).is_ok();
    Ok(format!(in alloc; "{is_served} {} {}", replies(&first), replies(&second))?)
}
