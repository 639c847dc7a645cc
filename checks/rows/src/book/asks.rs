//! Messages that came from the host itself at the moment 0.

use crate::row::bytes_of;
use dns_book::Ask;
use dns_io::{Ip, Octets, Peer, Protocol};
use std::alloc::Global;
use std::test::Fail;

/// A message of these bytes, if they are not too many.
pub fn ask(bytes: Octets, protocol: Protocol) -> Option<Ask> {
    if bytes.len() > 65_535 {
        return None;
    }
    Some(Ask {
        bytes,
        source: Peer {
            ip: Ip::V4(0x7f00_0001),
            port: 53,
        },
        protocol,
        at: 0,
        client: 0,
    })
}

/// The message of these digits.
pub fn ask_of(alloc: Global, protocol: Protocol, digits: &str) -> Result<Ask, Fail> {
    let bytes = Octets::from_vec(bytes_of(alloc, digits)?);
    match ask(bytes, protocol) {
        Some(ask) => Ok(ask),
        None => Err(Fail::from("too long")),
    }
}
