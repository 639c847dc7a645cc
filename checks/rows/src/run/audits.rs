//! Audits of journals whose connections are in memory, and of keepers with rows and batches of their own.

use crate::row::{first_call, number, quoted, text_of, two, words_of};
use crate::run::journals::empty_journal;
use crate::run::keepers::{eight_rows, nine_rows};
use crate::run::runs::run_line;
use dns_audit::audit;
use dns_edges::{MemoryClock, MemorySink};
use dns_keeper::{Keeper, MemoryKeeper};
use dns_name::Name;
use dns_wire::{Data, Record, Records};
use dns_zone::{Zone, read_zone};
use std::alloc::Global;
use std::test::Fail;

/// What comes of audits of a journal, one after the other: `MAKING / WORDS / WORDS ..`. MAKING is the line of the run that makes its rows, and
/// WORDS are those of an audit. Behind `into ` they are of one of the other journal, which is without rows at first.
pub fn audit_journal(alloc: Global, given: &str) -> Result<String, Fail> {
    let (making, steps) = first_call(given);
    let mut answers = String::new(alloc);
    let mut journal = run_line(alloc, making, empty_journal(alloc)?, &mut answers)?;
    let mut into = empty_journal(alloc)?;
    for step in steps.split(" / ") {
        match step.strip_prefix("into ") {
            Some(words) => audit_alone(alloc, words, &mut into, &mut answers)?,
            None => audit_line(alloc, step, &mut journal, &mut into, &mut answers)?,
        }
    }
    Ok(answers)
}

/// What comes of audits of a keeper that has eight rows, of which one may lack its last byte: `ROW / MAKING / WORDS / WORDS ..`, where ROW is the
/// id of the row.
pub fn audit_rows(alloc: Global, given: &str) -> Result<String, Fail> {
    let (cut, lines) = first_call(given);
    let (making, steps) = first_call(lines);
    audit_keeper(alloc, steps, eight_rows(alloc, making, cut)?)
}

/// What comes of audits of a keeper that has nine rows, with a batch of the first eight, and one behind the last: `MAKING / WORDS / WORDS ..`.
pub fn audit_parts(alloc: Global, given: &str) -> Result<String, Fail> {
    let (making, steps) = first_call(given);
    audit_keeper(alloc, steps, nine_rows(alloc, making)?)
}

/// A zone behind an addition, which stays as it is itself: `NAME HOST / ORIGIN LINE;LINE ..`, where an address record for 192.0.2.HOST is added.
pub fn applied(alloc: Global, given: &str) -> Result<String, Fail> {
    let (addition, text) = first_call(given);
    let (owner, host) = two(addition);
    let zone = zone_of(alloc, text)?;
    let mut updates = Records::new(alloc);
    updates.push(Record {
        name: Name::parse(alloc, owner)?,
        rtype: 1,
        class: 1,
        ttl: 60,
        rdata: Data::A(0xc000_0200 + number(host) as u32),
    })?;
    let (batch, serial) = zone.batch(alloc, &updates)?;
    let after = zone.applied(alloc, &batch, serial)?;
    Ok(format!(in alloc;
        "{} {}",
        zone.len(),
        quoted(alloc, dns_printed::zone_text(alloc, &after)?.as_slice())?
    )?)
}

/// The zone that a text is: `ORIGIN LINE;LINE ..`.
fn zone_of(alloc: Global, given: &str) -> Result<Zone, Fail> {
    let (origin, lines) = two(given);
    let text = text_of(alloc, lines)?;
    let origin = Name::parse(alloc, origin)?;
    Ok(read_zone(alloc, text.as_str().as_bytes(), &origin)?)
}

/// A zone as text, by both calls that print one whole: `ORIGIN LINE;LINE ..`, the lines of its text.
pub fn printed(alloc: Global, given: &str) -> Result<String, Fail> {
    let zone = zone_of(alloc, given)?;
    let printed = dns_printed::zone_text(alloc, &zone)?;
    let audited = dns_audit::zone_text(alloc, &zone)?;
    let mut answer = quoted(alloc, printed.as_slice())?;
    if printed.as_slice() != audited.as_slice() {
        write!(answer, " {}", quoted(alloc, audited.as_slice())?)?;
    }
    Ok(answer)
}

/// What comes of audits of a keeper, and its count of faults.
fn audit_keeper(alloc: Global, steps: &str, mut keeper: MemoryKeeper) -> Result<String, Fail> {
    let mut answers = String::new(alloc);
    for words in steps.split(" / ") {
        audit_alone(alloc, words, &mut keeper, &mut answers)?;
    }
    write!(answers, "{}", keeper.fault_count())?;
    Ok(answers)
}

/// Audits a journal, with another one that is without rows.
fn audit_alone<K: Keeper>(
    alloc: Global,
    words: &str,
    keeper: &mut K,
    answers: &mut String,
) -> Result<(), Fail> {
    let mut into = MemoryKeeper::new(alloc);
    audit_line(alloc, words, keeper, &mut into, answers)
}

/// Audits a journal by the words of a line. Adds how it ended and what it wrote.
fn audit_line<K: Keeper, L: Keeper>(
    alloc: Global,
    words: &str,
    keeper: &mut K,
    into: &mut L,
    answers: &mut String,
) -> Result<(), Fail> {
    let words = words_of(alloc, words)?;
    let mut out = MemorySink::new(alloc, 65_536, Vec::new(alloc));
    let mut clock = MemoryClock::new(Vec::new(alloc));
    let status = audit(alloc, &words, keeper, into, &mut clock, &mut out);
    let output = quoted(alloc, out.flushed())?;
    write!(answers, "{} {output};", status.number())?;
    Ok(())
}
