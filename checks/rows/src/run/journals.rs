//! Runs over a journal whose connection is in memory.

use crate::run::runs::run_line;
use dns_journal::Journal;
use sqlite::{Connection, MemStore};
use std::alloc::Global;
use std::test::Fail;

/// What comes of runs, one after the other, over one journal, which is without tables at first: `STEP / STEP ..`. A step is a line of a run, or
/// `sql STATEMENT`, which is executed on the journal's connection. `iter` tells why not all of its records can be had, if so.
pub fn journal(alloc: Global, given: &str) -> Result<String, Fail> {
    let mut answers = String::new(alloc);
    let mut journal = empty_journal(alloc)?;
    for step in given.split(" / ") {
        journal = stepped(alloc, journal, step, &mut answers)?;
    }
    Ok(answers)
}

/// The journal after a step.
fn stepped(
    alloc: Global,
    mut journal: Journal<MemStore>,
    step: &str,
    answers: &mut String,
) -> Result<Journal<MemStore>, Fail> {
    if let Some(statement) = step.strip_prefix("sql ") {
        return after(alloc, journal, statement);
    }
    if step == "iter" {
        put_refusal(&mut journal, answers)?;
        return Ok(journal);
    }
    run_line(alloc, step, journal, answers)
}

/// Adds why not all records of a journal can be had, if so.
fn put_refusal(journal: &mut Journal<MemStore>, answers: &mut String) -> Result<(), Fail> {
    match journal.iter() {
        Ok(_) => write!(answers, "read;")?,
        Err(error) => write!(answers, "{error:?};")?,
    }
    Ok(())
}

/// A journal over a new connection in memory, at the current version.
pub fn empty_journal(alloc: Global) -> Result<Journal<MemStore>, Fail> {
    match Connection::open_in_memory(alloc) {
        Ok(conn) => journal_over(alloc, conn),
        Err(_) => Err(Fail::from("no connection")),
    }
}

fn journal_over(alloc: Global, conn: Connection<MemStore>) -> Result<Journal<MemStore>, Fail> {
    let mut journal = Journal::new(alloc, conn)?;
    let _version = journal.schema_up()?;
    Ok(journal)
}

/// The journal after a statement on its connection.
fn after(
    alloc: Global,
    journal: Journal<MemStore>,
    statement: &str,
) -> Result<Journal<MemStore>, Fail> {
    let mut conn = journal.into_conn();
    if conn.execute(statement, &[]).is_err() {
        return Err(Fail::from("the statement is refused"));
    }
    journal_over(alloc, conn)
}
