//! The objects of a run: its words, a zone text of seven records, an event text, and its output.

use crate::row::{numbers_of, quoted, text_of, two, words_of};
use crate::server::zones::SEVEN;
use dns_edges::{MemorySink, MemorySource, Source};
use dns_io::Octets;
use std::alloc::Global;
use std::test::Fail;

/// The objects of a run.
#[derive(Drop)]
pub struct Objects {
    pub words: Vec<String>,
    pub zone: MemorySource,
    pub events: MemorySource,
    pub out: MemorySink,
}

/// The objects of a run: `ZONE EVENTS WRITES/WORDS/LINES`. These reads of the zone text, these of the event text, and these writes, of at
/// most 7 bytes each, fail; and the event text has these lines.
pub fn made(alloc: Global, given: &str) -> Result<Objects, Fail> {
    let (head, rest) = given.split_once('/').unwrap_or((given, ""));
    let (words, lines) = rest.split_once('/').unwrap_or((rest, ""));
    let (zone, head) = two(head);
    let (events, writes) = two(head);
    Ok(Objects {
        words: words_of(alloc, words)?,
        zone: source(alloc, SEVEN, zone)?,
        events: source(alloc, text_of(alloc, lines)?.as_str().as_bytes(), events)?,
        out: MemorySink::new(alloc, 7, numbers_of(alloc, writes)?),
    })
}

/// A source of this text, 50 bytes in a read; these reads fail.
fn source(alloc: Global, text: &[u8], reads: &str) -> Result<MemorySource, Fail> {
    let bytes = Octets::from_slice(alloc, text)?;
    Ok(MemorySource::new(bytes, 50, numbers_of(alloc, reads)?))
}

/// What was `taken`, or what was flushed.
pub fn quoted_output(alloc: Global, told: &str, out: &MemorySink) -> Result<String, Fail> {
    match told {
        "taken" => quoted(alloc, out.taken().as_slice()),
        _ => quoted(alloc, out.flushed()),
    }
}

/// What one read of a source gives that has room for 85 bytes.
pub fn quoted_left(alloc: Global, source: &mut MemorySource) -> Result<String, Fail> {
    let mut room = [0; 85];
    let count = source.read(&mut room).unwrap_or(0);
    quoted(alloc, room.get(..count).unwrap_or(&[]))
}
