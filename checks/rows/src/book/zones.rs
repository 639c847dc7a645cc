//! Zones, and the books and keepers that begin with them.

use crate::row::{numbers_of, two};
use dns_book::Book;
use dns_keeper::MemoryKeeper;
use dns_name::Name;
use dns_zone::read_zone;
use std::alloc::Global;
use std::test::Fail;

/// Seven records.
const SEVEN: &[u8] =
    b"example.com. 3600 IN SOA ns.example.com. hostmaster.example.com. 7 3600 600 86400 300
example.com. 3600 IN NS ns.example.com.
ns.example.com. 3600 IN A 192.0.2.53
www.example.com. 3600 IN A 192.0.2.1
alias.example.com. 3600 IN CNAME www.example.com.
*.wild.example.com. 3600 IN TXT \"w\"
sub.example.com. 3600 IN NS ns.sub.example.com.
";

/// A host of two addresses.
const THREE: &[u8] =
    b"example.com. 3600 IN SOA ns.example.com. hostmaster.example.com. 7 3600 600 86400 300
www.example.com. 3600 IN A 192.0.2.1
www.example.com. 3600 IN A 192.0.2.2
";

/// A host of one.
const TWO: &[u8] =
    b"example.com. 3600 IN SOA ns.example.com. hostmaster.example.com. 7 3600 600 86400 300
www.example.com. 3600 IN A 192.0.2.1
";

/// An SOA alone.
const ONE: &[u8] =
    b"example.com. 3600 IN SOA ns.example.com. hostmaster.example.com. 7 3600 600 86400 300\n";

/// A zone `z.`
const Z: &[u8] = b"z. 5 IN SOA z. z. 7 1 2 3 4
a.z. 5 IN A 192.0.2.1
";

/// The origin and the text of the zone of this name.
pub fn zone_of(name: &str) -> (&'static str, &'static [u8]) {
    match name {
        "z" => ("z.", Z),
        "one" => ("example.com.", ONE),
        "two" => ("example.com.", TWO),
        "three" => ("example.com.", THREE),
        _ => ("example.com.", SEVEN),
    }
}

/// A keeper without rows, of which these appends and these reads fail: `APPENDS READS`.
pub fn keeper(alloc: Global, words: &str) -> Result<MemoryKeeper, Fail> {
    let (appends, reads) = two(words);
    let appends = numbers_of(alloc, appends)?;
    Ok(MemoryKeeper::failing(alloc, appends, numbers_of(alloc, reads)?))
}

/// A book that is begun with the zone of this name on a keeper without rows, and may let updates in: `ZONE yes|no APPENDS READS`.
pub fn book(alloc: Global, words: &str) -> Result<Book<MemoryKeeper>, Fail> {
    let (zone, rest) = two(words);
    let (updates, calls) = two(rest);
    book_over(alloc, keeper(alloc, calls)?, zone, updates == "yes")
}

fn book_over(
    alloc: Global,
    keeper: MemoryKeeper,
    zone: &str,
    updates: bool,
) -> Result<Book<MemoryKeeper>, Fail> {
    let (origin, text) = zone_of(zone);
    let origin = Name::parse(alloc, origin)?;
    let zone = read_zone(alloc, text, &origin)?;
    match Book::open(alloc, keeper, origin, updates, 0, Some(zone)) {
        Ok(book) => Ok(book),
        Err(_) => Err(Fail::from("not opened")),
    }
}
