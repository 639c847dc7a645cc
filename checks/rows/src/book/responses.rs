//! Replies that are sent one by one. What is expected is written down by hand from RFC 1035 4.1.

use crate::book::books::protocol_of;
use crate::row::{hex_of, numbers_of, size, two};
use dns_edges::MemorySink;
use dns_io::{Ip, Peer};
use dns_requests::{ResponseHandle, ResponseHandler};
use dns_wire::{Edns, Records, Reply};
use std::alloc::Global;
use std::test::Fail;

/// Where the replies go.
const PEER: Peer = Peer {
    ip: Ip::V4(0x7f00_0001),
    port: 5300,
};

/// BADVERS with the id 0x1234, to a query with an OPT (RFC 6891 6.1.3).
fn reply(alloc: Global) -> Reply {
    Reply {
        id: 0x1234,
        opcode: 0,
        aa: false,
        rd: true,
        cd: false,
        code: 16,
        question: None,
        answers: Records::new(alloc),
        authority: Records::new(alloc),
        additional: Records::new(alloc),
        edns: Some(Edns {
            payload: 1232,
            extended: 1,
            version: 0,
            dnssec_ok: false,
        }),
    }
}

/// What is told of the reply over this protocol, where it goes, and its bytes: `PROTOCOL ROOM WRITES`. So many bytes a write takes at most,
/// and these writes fail.
pub fn response(alloc: Global, given: &str) -> Result<String, Fail> {
    let (protocol, rest) = two(given);
    let (room, writes) = two(rest);
    let sink = MemorySink::new(alloc, size(room).max(1), numbers_of(alloc, writes)?);
    let mut handle = ResponseHandle::new(PEER, sink, protocol_of(protocol));
    let info = handle.send_response(alloc, &reply(alloc), 512);
    let dst = handle.dst();
    let digits = hex_of(alloc, handle.into_sink().taken().as_slice())?;
    Ok(format!(in alloc; "{info:?} {dst:?} {digits}")?)
}
