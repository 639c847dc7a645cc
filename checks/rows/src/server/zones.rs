//! A zone, and the books and keepers that begin with it.

use crate::row::{numbers_of, two};
use dns_book::Book;
use dns_keeper::MemoryKeeper;
use dns_name::Name;
use dns_zone::read_zone;
use std::alloc::Global;
use std::test::Fail;

/// Seven records.
pub const SEVEN: &[u8] =
    b"example.com. 3600 IN SOA ns.example.com. hostmaster.example.com. 7 3600 600 86400 300
example.com. 3600 IN NS ns.example.com.
ns.example.com. 3600 IN A 192.0.2.53
www.example.com. 3600 IN A 192.0.2.1
alias.example.com. 3600 IN CNAME www.example.com.
*.wild.example.com. 3600 IN TXT \"w\"
sub.example.com. 3600 IN NS ns.sub.example.com.
";

/// A keeper without rows, of which these appends and these reads fail: `APPENDS READS`.
pub fn keeper(alloc: Global, words: &str) -> Result<MemoryKeeper, Fail> {
    let (appends, reads) = two(words);
    let appends = numbers_of(alloc, appends)?;
    Ok(MemoryKeeper::failing(alloc, appends, numbers_of(alloc, reads)?))
}

/// A book that is begun with the seven records on a keeper without rows, and lets no update in.
pub fn book(alloc: Global) -> Result<Book<MemoryKeeper>, Fail> {
    let keeper = MemoryKeeper::failing(alloc, Vec::new(alloc), Vec::new(alloc));
    let origin = Name::parse(alloc, "example.com.")?;
    let zone = read_zone(alloc, SEVEN, &origin)?;
    match Book::open(alloc, keeper, origin, false, 0, Some(zone)) {
        Ok(book) => Ok(book),
        Err(_) => Err(Fail::from("not opened")),
    }
}
