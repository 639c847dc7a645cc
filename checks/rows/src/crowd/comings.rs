//! What is to come to a crowd, in words.

use crate::row::{bytes_of, number, two};
use dns_crowd::Coming;
use dns_io::{Ip, Octets, Peer};
use std::alloc::Global;
use std::test::Fail;

/// The other end, and one that is not answered: nothing can be sent to port 0.
pub const PEER: Peer = Peer {
    ip: Ip::V4(0x7f00_0001),
    port: 5300,
};

const UNSAFE: Peer = Peer {
    ip: Ip::V4(0x7f00_0001),
    port: 0,
};

/// What comes, about ` / `, in order: `AT accept NUMBER LIMIT`, `AT unsafe NUMBER LIMIT`, `AT bytes NUMBER HEX`, `AT many NUMBER COUNT HEX`,
/// `AT end NUMBER` and `AT tick`.
pub fn all_coming(alloc: Global, given: &str) -> Result<Vec<Coming>, Fail> {
    let mut all = Vec::new(alloc);
    for words in given.split(" / ") {
        all.push(coming(alloc, words)?)?;
    }
    Ok(all)
}

/// One that comes.
fn coming(alloc: Global, words: &str) -> Result<Coming, Fail> {
    let (at, rest) = two(words);
    let (kind, rest) = two(rest);
    let (conn, rest) = two(rest);
    let at = number(at);
    let conn = connection(conn);
    match kind {
        "accept" => Ok(Coming::Accepted {
            at,
            conn,
            peer: PEER,
            limit: number(rest),
        }),
        "unsafe" => Ok(Coming::Accepted {
            at,
            conn,
            peer: UNSAFE,
            limit: number(rest),
        }),
        "bytes" => Ok(Coming::Bytes {
            at,
            conn,
            piece: repeated(alloc, 1, rest)?,
        }),
        "many" => {
            let (count, digits) = two(rest);
            Ok(Coming::Bytes {
                at,
                conn,
                piece: repeated(alloc, number(count), digits)?,
            })
        }
        "end" => Ok(Coming::Ended { at, conn }),
        _ => Ok(Coming::Tick { at }),
    }
}

/// The number of a connection, or 0.
fn connection(word: &str) -> u32 {
    word.parse().unwrap_or(0)
}

/// The bytes of hex digits, so many times.
fn repeated(alloc: Global, count: u64, digits: &str) -> Result<Octets, Fail> {
    let bytes = bytes_of(alloc, digits)?;
    let mut all = Octets::new(alloc);
    for _copy in 0..count {
        all.append(bytes.as_slice())?;
    }
    Ok(all)
}
