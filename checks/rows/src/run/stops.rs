//! A journal whose files stop at each of their calls in turn: from its tables, or those of an earlier version, through its opening to an
//! update.

use crate::row::first_call;
use crate::run::runs::run_line;
use dns_journal::{CURRENT_VERSION, Journal};
use sqlite::{Alter, Connection, FileStore, Files, Options};
use sqlite_disk::{Disk, Fuse, Memory};
use std::alloc::Global;
use std::test::Fail;

/// How a zone is begun whose serial no journal here has.
const READ: &str = "99 events example.com.";

/// What is read back of a journal without rows, of its opening, and of the opening and an update.
const NOTHING: &str = "0: 0 \"serial 99\\njournal_len 8\\nopen 0\\n\";";

const OPENING: &str = "8: 0 \"serial 7\\njournal_len 8\\nopen 0\\n\";";

const UPDATED: &str = "9: 0 \"serial 8\\njournal_len 9\\nopen 0\\n\";";

/// How many steps are done on files that stop after more and more calls, up to all three: the tables, the opening, an update. Whatever the
/// call at which both files stop, what was done is there, and of the next step nothing or the whole, and it is read back: else what is left
/// at some call. `VERSION / RUN`: the version of the tables that stand there with eight rows, or 0 for none, and the line of the run that
/// opens the journal and brings the update.
pub fn stops(alloc: Global, given: &str) -> Result<String, Fail> {
    let (version, line) = first_call(given);
    if version == "1" {
        return steps_until_done(alloc, &earlier(alloc)?, line, true);
    }
    let none = Files {
        log: Memory::new(alloc),
        db: Memory::new(alloc),
    };
    steps_until_done(alloc, &none, line, false)
}

fn steps_until_done(
    alloc: Global,
    start: &Files<Memory>,
    line: &str,
    has_rows: bool,
) -> Result<String, Fail> {
    let mut done = 0;
    for calls in 0u64..1000 {
        if done < 3 {
            let (steps, left) = stopped(alloc, start, calls, line)?;
            if !may_be_left(steps, left.as_str(), has_rows) {
                return Ok(format!(in alloc; "{calls} calls: {steps} {left}")?);
            }
            done = steps;
        }
    }
    Ok(done.to_string(alloc)?)
}

/// The files of a journal at version 1, with the eight rows of an opening.
fn earlier(alloc: Global) -> Result<Files<Memory>, Fail> {
    let mut journal = journal_over(alloc, Memory::new(alloc), Memory::new(alloc))?;
    let _version = journal.schema_up()?;
    let mut unread = String::new(alloc);
    let journal = run_line(alloc, "7 events example.com.", journal, &mut unread)?;
    let mut conn = journal.into_conn();
    for statement in ["DROP TABLE batches", "UPDATE tdns_schema SET version = 1"] {
        if conn.execute(statement, &[]).is_err() {
            return Err(Fail::from("the statement is refused"));
        }
    }
    Ok(conn.into_store().close())
}

/// How many steps are done on copies of these files that stop after so many calls, and what is left then.
fn stopped(
    alloc: Global,
    start: &Files<Memory>,
    calls: u64,
    line: &str,
) -> Result<(u32, String), Fail> {
    let log = copied(alloc, &start.log)?;
    let db = copied(alloc, &start.db)?;
    let (steps, files) = lived_on(alloc, log, db, calls, line)?;
    Ok((steps, left_in(alloc, &files)?))
}

/// How many steps are done on files that stop after so many calls, and the files.
fn lived_on(
    alloc: Global,
    log: Memory,
    db: Memory,
    calls: u64,
    line: &str,
) -> Result<(u32, Files<Fuse<Memory>>), Fail> {
    let files = Files {
        log: Fuse::new(log, calls),
        db: Fuse::new(db, calls),
    };
    match Connection::open_files(alloc, files, Options::new(7)) {
        Ok(conn) => match Journal::new(alloc, conn) {
            Ok(journal) => lived_through(alloc, journal, line),
            Err(_error) => Err(Fail::from("no journal")),
        },
        Err((_error, left)) => Ok((0, left.into_files())),
    }
}

/// How many steps of a journal's life are done, and its files.
fn lived_through(
    alloc: Global,
    mut journal: Journal<FileStore<Fuse<Memory>>>,
    line: &str,
) -> Result<(u32, Files<Fuse<Memory>>), Fail> {
    if journal.schema_up().is_err() {
        return Ok((0, journal.into_conn().into_store().close()));
    }
    let mut answers = String::new(alloc);
    let journal = run_line(alloc, line, journal, &mut answers)?;
    Ok((
        steps_of(answers.as_str()),
        journal.into_conn().into_store().close(),
    ))
}

/// How many steps were done where the tables were made and a run answered this: it opened the journal if it ended well, and did the update if
/// the reply has no error.
fn steps_of(answers: &str) -> u32 {
    if !answers.starts_with("0 ") {
        return 1;
    }
    if !answers.contains("1234a800") {
        return 2;
    }
    3
}

/// What is left in files: the version, and at the current one the number of rows, and what a run reads back.
fn left_in(alloc: Global, files: &Files<Fuse<Memory>>) -> Result<String, Fail> {
    let log = copied(alloc, files.log.inner())?;
    let db = copied(alloc, files.db.inner())?;
    let mut journal = journal_over(alloc, log, db)?;
    let version = journal.schema_version();
    if version != CURRENT_VERSION {
        return Ok(version.to_string(alloc)?);
    }
    let mut answers = format!(in alloc; "{}: ", row_count(&mut journal)?)?;
    let _journal = run_line(alloc, READ, journal, &mut answers)?;
    Ok(answers)
}

/// How many records a journal has.
fn row_count<S: Alter>(journal: &mut Journal<S>) -> Result<u32, Fail> {
    let mut records = journal.iter()?;
    for count in 0u32..100 {
        if records.next().is_none() {
            return Ok(count);
        }
    }
    Ok(100)
}

fn copied(alloc: Global, from: &Memory) -> Result<Memory, Fail> {
    let mut copy = Memory::new(alloc);
    if from.bytes().is_empty() {
        return Ok(copy);
    }
    match copy.write_at(0, from.bytes()) {
        Ok(_) => Ok(copy),
        Err(_) => Err(Fail::from("no copy")),
    }
}

/// A journal over these files.
fn journal_over(
    alloc: Global,
    log: Memory,
    db: Memory,
) -> Result<Journal<FileStore<Memory>>, Fail> {
    match Connection::open_files(alloc, Files { log, db }, Options::new(9)) {
        Ok(conn) => Ok(Journal::new(alloc, conn)?),
        Err(_) => Err(Fail::from("no connection")),
    }
}

/// What may be left after so many steps: all of these, and of the next one nothing or the whole.
fn may_be_left(steps: u32, left: &str, has_rows: bool) -> bool {
    match (steps, has_rows) {
        (0, false) => left == "-1" || left == NOTHING,
        (0, true) => left == "1" || left == OPENING,
        (1, false) => left == NOTHING || left == OPENING,
        (1, true) => left == OPENING,
        (2, _) => left == OPENING || left == UPDATED,
        _ => left == UPDATED,
    }
}
