//! A book of a small zone.

use dns_book::Book;
use dns_keeper::MemoryKeeper;
use dns_name::Name;
use dns_zone::read_zone;
use std::alloc::Global;
use std::test::Fail;

/// A host of one address.
pub const ZONE: &[u8] =
    b"example.com. 3600 IN SOA ns.example.com. hostmaster.example.com. 7 3600 600 86400 300
www.example.com. 3600 IN A 192.0.2.1
";

/// A book that is begun with the zone, and lets no updates in.
pub fn book_of(alloc: Global) -> Result<Book<MemoryKeeper>, Fail> {
    let keeper = MemoryKeeper::failing(alloc, Vec::new(alloc), Vec::new(alloc));
    let origin = Name::parse(alloc, "example.com.")?;
    let zone = read_zone(alloc, ZONE, &origin)?;
    match Book::open(alloc, keeper, origin, false, 0, Some(zone)) {
        Ok(book) => Ok(book),
        Err(_) => Err(Fail::from("not opened")),
    }
}
