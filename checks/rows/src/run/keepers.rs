//! Runs over keepers in memory that begin with rows and batches of their own.

use crate::row::first_call;
use crate::run::runs::run_line;
use dns_io::Octets;
use dns_keeper::{BatchRow, Keeper, MemoryKeeper, Row};
use std::alloc::Global;
use std::test::Fail;

/// What comes of a run over a keeper that has eight rows, of which one may lack its last byte: `ROW / MAKING / RUN`, where ROW is the id of
/// the row, MAKING the line of the run that makes the rows, and RUN the one that is told.
pub fn rows(alloc: Global, given: &str) -> Result<String, Fail> {
    let (cut, lines) = first_call(given);
    let (making, line) = first_call(lines);
    told(alloc, eight_rows(alloc, making, cut)?, line)
}

/// What comes of a run over a keeper that has nine rows, with a batch of the first eight, and one behind the last: `MAKING / RUN`.
pub fn parts(alloc: Global, given: &str) -> Result<String, Fail> {
    let (making, line) = first_call(given);
    told(alloc, nine_rows(alloc, making)?, line)
}

/// A keeper of the first eight rows that a run makes, of which the one with this id lacks its last byte.
pub fn eight_rows(alloc: Global, making: &str, cut: &str) -> Result<MemoryKeeper, Fail> {
    let mut made = made(alloc, making)?;
    keeper_of(alloc, &mut made, cut.parse().unwrap_or(0), false)
}

/// A keeper of the nine rows that a run makes, with a batch of the first eight, and one behind the last.
pub fn nine_rows(alloc: Global, making: &str) -> Result<MemoryKeeper, Fail> {
    let mut made = made(alloc, making)?;
    keeper_of(alloc, &mut made, 0, true)
}

/// A keeper after the run that makes its rows.
fn made(alloc: Global, line: &str) -> Result<MemoryKeeper, Fail> {
    let mut unread = String::new(alloc);
    run_line(alloc, line, MemoryKeeper::new(alloc), &mut unread)
}

/// What comes of a run over a keeper, and the keeper's count of faults.
fn told(alloc: Global, keeper: MemoryKeeper, line: &str) -> Result<String, Fail> {
    let mut answers = String::new(alloc);
    let keeper = run_line(alloc, line, keeper, &mut answers)?;
    write!(answers, "{}", keeper.fault_count())?;
    Ok(answers)
}

/// The row with this id; where it is the one to be cut, without its last byte.
fn row(alloc: Global, keeper: &mut MemoryKeeper, id: i64, cut: i64) -> Result<Row, Fail> {
    let Ok(Some(found)) = keeper.row_from(id) else {
        return Err(Fail::from("no such row"));
    };
    let mut bytes = found.bytes.into_vec();
    if id == cut {
        bytes.pop();
    }
    Ok(Row {
        id,
        client: found.client,
        serial: found.serial,
        stamp: found.stamp,
        bytes: Octets::from_vec(bytes),
    })
}

/// A keeper of the rows with the ids from 1 to 8, the batches of which are their runs; or of nine, with a batch of the first eight, and one
/// behind the last.
fn keeper_of(
    alloc: Global,
    made: &mut MemoryKeeper,
    cut: i64,
    has_nine: bool,
) -> Result<MemoryKeeper, Fail> {
    let mut rows = vec![in alloc;
        row(alloc, made, 1, cut)?,
        row(alloc, made, 2, cut)?,
        row(alloc, made, 3, cut)?,
        row(alloc, made, 4, cut)?,
        row(alloc, made, 5, cut)?,
        row(alloc, made, 6, cut)?,
        row(alloc, made, 7, cut)?,
        row(alloc, made, 8, cut)?,
    ]?;
    if !has_nine {
        return Ok(MemoryKeeper::from_rows(alloc, rows)?);
    }
    rows.push(row(alloc, made, 9, cut)?)?;
    let first = BatchRow { first: 1, count: 8 };
    let last = BatchRow {
        first: 10,
        count: 1,
    };
    let batches = vec![in alloc; first, last]?;
    Ok(MemoryKeeper::from_parts(alloc, rows, batches))
}
