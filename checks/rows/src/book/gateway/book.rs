//! The book that is served, and who asks.

use dns_book::Book;
use dns_io::{Ip, Peer};
use dns_keeper::MemoryKeeper;
use dns_name::Name;
use dns_name::name_laws::folded_names;
use dns_zone::read_zone;
use std::alloc::Global;
use std::test::Fail;

/// Who asks.
pub const PEER: Peer = Peer {
    ip: Ip::V4(0x7f00_0001),
    port: 5300,
};

const ZONE: &str =
    "example.com. 3600 IN SOA ns.example.com. hostmaster.example.com. 7 3600 600 86400 300
example.com. 3600 IN NS ns.example.com.
ns.example.com. 3600 IN A 192.0.2.53
www.example.com. 3600 IN A 192.0.2.1
";

/// The origin.
fn origin(alloc: Global) -> Result<Name, Fail> {
    folded_names();
    Ok(Name::parse(alloc, "example.com.")?.folded(alloc)?)
}

/// A book that was begun on a journal without rows.
pub fn book(alloc: Global) -> Result<Book<MemoryKeeper>, Fail> {
    let origin = origin(alloc)?;
    let zone = read_zone(alloc, ZONE.as_bytes(), &origin)?;
    let keeper = MemoryKeeper::failing(alloc, Vec::new(alloc), Vec::new(alloc));
    let opened = Book::open(alloc, keeper, origin, true, 0, Some(zone));
    Ok(opened.ok().ok_or("no book")?)
}
