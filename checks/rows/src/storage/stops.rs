//! A journal whose files stop at each of their calls in turn.

use crate::storage::journals::{record, record_count, records_of};
use dns_journal::{CURRENT_VERSION, Journal};
use dns_wire::{Record, Records};
use sqlite::{Alter, Connection, FileStore, Files, Options};
use sqlite_disk::{Disk, Fuse, Memory};
use std::alloc::Global;
use std::test::Fail;

/// How many steps are done on files that stop after more and more calls, up to all three: whatever the call at which both files stop,
/// what was answered Ok is there, and what was not is there whole or not at all. Else what is left at some call.
pub fn stops(alloc: Global) -> Result<String, Fail> {
    let eight = records_of(alloc, 8)?;
    let one = record(alloc, 9)?;
    steps_until_done(alloc, &eight, &one)
}

fn steps_until_done(alloc: Global, eight: &Records, one: &Record) -> Result<String, Fail> {
    let mut done = 0;
    for calls in 0u64..100 {
        if done < 3 {
            let (steps, version, count) = stopped(alloc, calls, eight, one)?;
            if !may_be_left(steps, version, count) {
                return Ok(format!(in alloc; "{calls} calls: {steps} {version} {count}")?);
            }
            done = steps;
        }
    }
    Ok(done.to_string(alloc)?)
}

/// How many steps are done on files that stop after so many calls, and the version and the number of records that are left.
fn stopped(
    alloc: Global,
    calls: u64,
    eight: &Records,
    one: &Record,
) -> Result<(u32, i64, u32), Fail> {
    let (done, files) = lived_on(alloc, calls, eight, one)?;
    let (version, count) = left_in(alloc, &files)?;
    Ok((done, version, count))
}

/// How many steps are done on files that stop after so many calls, and the files.
fn lived_on(
    alloc: Global,
    calls: u64,
    eight: &Records,
    one: &Record,
) -> Result<(u32, Files<Fuse<Memory>>), Fail> {
    let files = Files {
        log: Fuse::new(Memory::new(alloc), calls),
        db: Fuse::new(Memory::new(alloc), calls),
    };
    match Connection::open_files(alloc, files, Options::new(7)) {
        Ok(conn) => match Journal::new(alloc, conn) {
            Ok(journal) => Ok(lived_through(journal, eight, one)),
            Err(_error) => Err(Fail::from("no journal")),
        },
        Err((_error, left)) => Ok((0, left.into_files())),
    }
}

/// How many steps of a journal's life are done, and its files.
fn lived_through(
    mut journal: Journal<FileStore<Fuse<Memory>>>,
    eight: &Records,
    one: &Record,
) -> (u32, Files<Fuse<Memory>>) {
    let done = lived(&mut journal, eight, one);
    (done, journal.into_conn().into_store().close())
}

/// How many steps of a journal's life are done: its tables, a batch of eight records, one of one.
fn lived<S: Alter>(journal: &mut Journal<S>, eight: &Records, one: &Record) -> u32 {
    if journal.schema_up().is_err() {
        return 0;
    }
    if journal.insert_records(0, 7, 0, eight).is_err() {
        return 1;
    }
    if journal.insert_record(8, 0, one).is_err() {
        return 2;
    }
    3
}

/// The version that files open with, and the number of records.
fn left_in(alloc: Global, files: &Files<Fuse<Memory>>) -> Result<(i64, u32), Fail> {
    let log = copied(alloc, files.log.inner())?;
    let db = copied(alloc, files.db.inner())?;
    let mut journal = reopened(alloc, log, db)?;
    counted(&mut journal)
}

fn copied(alloc: Global, from: &Memory) -> Result<Memory, Fail> {
    let mut copy = Memory::new(alloc);
    if from.bytes().is_empty() {
        return Ok(copy);
    }
    match copy.write_at(0, from.bytes()) {
        Ok(_) => Ok(copy),
        Err(_) => Err(Fail::from("no copy")),
    }
}

/// A journal over these files.
fn reopened(alloc: Global, log: Memory, db: Memory) -> Result<Journal<FileStore<Memory>>, Fail> {
    match Connection::open_files(alloc, Files { log, db }, Options::new(9)) {
        Ok(conn) => Ok(Journal::new(alloc, conn)?),
        Err(_) => Err(Fail::from("no connection")),
    }
}

fn counted(journal: &mut Journal<FileStore<Memory>>) -> Result<(i64, u32), Fail> {
    let version = journal.schema_version();
    if version != CURRENT_VERSION {
        return Ok((version, 0));
    }
    Ok((version, record_count(journal)?))
}

/// What may be left after so many steps: all of these, and of the next one nothing or the whole.
fn may_be_left(done: u32, version: i64, count: u32) -> bool {
    match done {
        0 => count == 0 && (version == -1 || version == CURRENT_VERSION),
        1 => version == CURRENT_VERSION && (count == 0 || count == 8),
        2 => version == CURRENT_VERSION && (count == 8 || count == 9),
        _ => version == CURRENT_VERSION && count == 9,
    }
}
