//! A run of a command over a list of events.

use crate::row::{quoted, text_of, words_of};
use dns_command::Ended;
use dns_command::run_list::run_list;
use dns_edges::{MemoryClock, MemorySink, MemorySource};
use dns_io::Octets;
use dns_keeper::Keeper;
use std::alloc::Global;
use std::test::Fail;

/// A zone text with these records, of which the first has this serial.
fn zone_of(alloc: Global, serial: &str) -> Result<String, Fail> {
    Ok(format!(in alloc;
        "example.com. 3600 IN SOA ns.example.com. hostmaster.example.com. {serial} 3600 600 86400 300
example.com. 3600 IN NS ns.example.com.
ns.example.com. 3600 IN A 192.0.2.53
www.example.com. 3600 IN A 192.0.2.1
alias.example.com. 3600 IN CNAME www.example.com.
*.wild.example.com. 3600 IN TXT \"w\"
sub.example.com. 3600 IN NS ns.sub.example.com.
"
    )?)
}

/// Runs what a line says over a keeper, which is handed back: `SERIAL WORDS: LINES`. The zone text has seven records and this serial, and the
/// event text these lines, parted by `;`. Adds how it ended and what it wrote.
pub fn run_line<K: Keeper + Drop>(
    alloc: Global,
    line: &str,
    keeper: K,
    answers: &mut String,
) -> Result<K, Fail> {
    let (head, lines) = line.split_once(": ").unwrap_or((line, ""));
    let (serial, words) = head.split_once(' ').unwrap_or((head, ""));
    let words = words_of(alloc, words)?;
    let mut zone = source(alloc, zone_of(alloc, serial)?.as_str())?;
    let mut events = source(alloc, text_of(alloc, lines)?.as_str())?;
    let mut out = MemorySink::new(alloc, 65_536, Vec::new(alloc));
    let mut clock = MemoryClock::new(Vec::new(alloc));
    let Ended { status, keeper } = run_list(
        alloc,
        &words,
        &mut zone,
        &mut events,
        keeper,
        &mut clock,
        &mut out,
    );
    let output = quoted(alloc, out.flushed())?;
    write!(answers, "{} {output};", status.number())?;
    match keeper {
        Some(keeper) => Ok(keeper),
        None => Err(Fail::from("no keeper")),
    }
}

/// A source of this text.
fn source(alloc: Global, text: &str) -> Result<MemorySource, Fail> {
    let bytes = Octets::from_slice(alloc, text.as_bytes())?;
    Ok(MemorySource::new(bytes, 65_536, Vec::new(alloc)))
}
