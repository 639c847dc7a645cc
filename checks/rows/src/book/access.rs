//! Networks whose sources are shut out, and networks whose sources are let in.

use crate::row::{bytes_of, number, two};
use dns_book::{AccessControl, IpNet};
use dns_io::Ip;
use std::alloc::Global;
use std::test::Fail;

/// Whether each source is let in: `DENIED ALLOWED SOURCES`, with commas between them. An address is its hex digits, a network has `/PREFIX`
/// behind them, and `-` stands for no network.
pub fn access(alloc: Global, given: &str) -> Result<String, Fail> {
    let (denied, rest) = two(given);
    let (allowed, sources) = two(rest);
    let mut control = AccessControl::new(alloc);
    control.insert_deny(&nets_of(alloc, denied)?)?;
    control.insert_allow(&nets_of(alloc, allowed)?)?;
    let mut answer = String::new(alloc);
    for source in sources.split(',') {
        let sign = if control.allow(&ip_of(alloc, source)?) {
            '+'
        } else {
            '-'
        };
        answer.push(sign)?;
    }
    Ok(answer)
}

/// The networks about commas, or none.
pub fn nets_of(alloc: Global, words: &str) -> Result<Vec<IpNet>, Fail> {
    let mut nets = Vec::new(alloc);
    for word in words.split(',') {
        if let Some((address, prefix)) = word.split_once('/') {
            match IpNet::new(ip_of(alloc, address)?, number(prefix) as u8) {
                Some(net) => nets.push(net)?,
                None => return Err(Fail::from("no such network")),
            }
        }
    }
    Ok(nets)
}

/// The address with these hex digits: eight of IPv4, or 32 of IPv6.
fn ip_of(alloc: Global, digits: &str) -> Result<Ip, Fail> {
    let bytes = bytes_of(alloc, digits)?;
    let mut value = 0u128;
    for byte in bytes.as_slice() {
        value = value << 8 | u128::from(*byte);
    }
    if bytes.len() == 4 {
        Ok(Ip::V4(value as u32))
    } else {
        Ok(Ip::V6(value))
    }
}
