//! Journals over a connection in memory: their tables, their rows, batches and records, more of them than are read at a time, rows that are
//! damaged or missing, and statements that are refused.

use crate::row::bytes_of;
use crate::storage::words::parted_at;
use dns_journal::{BatchRow, Journal, KeepFault, Keeper, PersistenceError, RecoveryKind, Row};
use dns_name::{Name, ProtoError};
use dns_wire::{Data, Record, Records, read_record};
use sqlite::{Alter, Connection, MemStore};
use std::alloc::Global;
use std::fmt::Debug;
use std::test::Fail;

/// The stamp of the moment 0.
const EPOCH: &str = "1970-01-01 00:00:00.000";

/// What comes of calls on a journal that is without tables at first, each answer with a `;` behind it. Between them statements,
/// parted by ` && `, may be executed on its connection.
pub fn journal(alloc: Global, given: &str) -> Result<String, Fail> {
    let mut told = String::new(alloc);
    let mut journal = empty_journal(alloc)?;
    for call in given.split(';') {
        let (kind, words) = parted_at(call, " ");
        if kind == "sql" {
            journal = after(alloc, journal, words)?;
        } else {
            tell(alloc, &mut journal, kind, words, &mut told)?;
        }
    }
    Ok(told)
}

/// A journal over a new connection in memory, without tables.
fn empty_journal(alloc: Global) -> Result<Journal<MemStore>, Fail> {
    match Connection::open_in_memory(alloc) {
        Ok(conn) => journal_over(alloc, conn),
        Err(_) => Err(Fail::from("no connection")),
    }
}

fn journal_over(alloc: Global, conn: Connection<MemStore>) -> Result<Journal<MemStore>, Fail> {
    Ok(Journal::new(alloc, conn)?)
}

/// The journal after statements on its connection.
fn after(
    alloc: Global,
    journal: Journal<MemStore>,
    statements: &str,
) -> Result<Journal<MemStore>, Fail> {
    let mut conn = journal.into_conn();
    for statement in statements.split(" && ") {
        if conn.execute(statement, &[]).is_err() {
            return Err(Fail::from("the statement is refused"));
        }
    }
    journal_over(alloc, conn)
}

/// Makes a call, and adds what comes of it.
fn tell(
    alloc: Global,
    journal: &mut Journal<MemStore>,
    kind: &str,
    words: &str,
    told: &mut String,
) -> Result<(), Fail> {
    match kind {
        "version" => put(&journal.schema_version(), told),
        "faults" => put(&journal.fault_count(), told),
        "count" => put(&record_count(journal), told),
        "rows" => put(&row_count(journal, words), told),
        "row" => tell_row(alloc, journal.row_from(id_of(words)), told),
        "batch" => tell_batch(journal.batch_from(id_of(words)), told),
        "record" => tell_record(journal.select_record(id_of(words)), told),
        "next" => tell_record(journal.try_next(id_of(words)), told),
        _ => change(alloc, journal, kind, words, told),
    }
}

/// Makes a call that changes the journal, and adds what comes of it.
fn change(
    alloc: Global,
    journal: &mut Journal<MemStore>,
    kind: &str,
    words: &str,
    told: &mut String,
) -> Result<(), Fail> {
    match kind {
        "up" => put(&journal.schema_up(), told),
        "add" => put(&add(alloc, journal, words)?, told),
        "one" => put(&one(alloc, journal, words)?, told),
        "append" => put(&append(alloc, journal)?, told),
        "insert" => put(&insert(alloc, journal, words)?, told),
        _ => Err(Fail::from("no such call")),
    }
}

/// Adds an answer.
fn put<T: Debug>(answer: &T, told: &mut String) -> Result<(), Fail> {
    write!(told, "{answer:?};")?;
    Ok(())
}

fn id_of(word: &str) -> i64 {
    word.parse().unwrap_or(0)
}

/// Adds the row that was found.
fn tell_row(
    alloc: Global,
    found: Result<Option<Row>, KeepFault>,
    told: &mut String,
) -> Result<(), Fail> {
    match found {
        Ok(Some(row)) => put_row(alloc, &row, told),
        Ok(None) => Ok(told.push_str("none;")?),
        Err(fault) => put(&fault, told),
    }
}

/// Adds the batch that was found.
fn tell_batch(found: Result<Option<BatchRow>, KeepFault>, told: &mut String) -> Result<(), Fail> {
    match found {
        Ok(Some(batch)) => Ok(write!(told, "{} {};", batch.first, batch.count)?),
        Ok(None) => Ok(told.push_str("none;")?),
        Err(fault) => put(&fault, told),
    }
}

fn put_row(alloc: Global, row: &Row, told: &mut String) -> Result<(), Fail> {
    let stamp = String::from_utf8_lossy(alloc, row.stamp.as_slice())?;
    write!(told, "{} {} {} {stamp};", row.id, row.client, row.serial)?;
    Ok(())
}

/// Adds the record that was found, by its id and its data.
fn tell_record(
    found: Result<Option<(i64, Record)>, PersistenceError>,
    told: &mut String,
) -> Result<(), Fail> {
    match found {
        Ok(Some((id, record))) => Ok(write!(told, "{id} {:?};", record.rdata)?),
        Ok(None) => Ok(told.push_str("none;")?),
        Err(fault) => put(&fault, told),
    }
}

/// The number of records, below 100.
pub fn record_count<S: Alter>(journal: &mut Journal<S>) -> Result<u32, PersistenceError> {
    let mut records = journal.iter()?;
    for count in 0u32..100 {
        if records.next().is_none() {
            return Ok(count);
        }
    }
    Ok(100)
}

/// How many of the ids from one on up to another have a row of their own of client 0, serial 7 and moment 0.
fn row_count(journal: &mut Journal<MemStore>, words: &str) -> u32 {
    let (first, last) = parted_at(words, " ");
    let mut count: u32 = 0;
    for id in id_of(first)..=id_of(last) {
        if has_row(journal, id) {
            count = count.saturating_add(1);
        }
    }
    count
}

fn has_row(journal: &mut Journal<MemStore>, id: i64) -> bool {
    match journal.row_from(id) {
        Ok(Some(row)) => {
            row.id == id
                && row.client == 0
                && row.serial == 7
                && row.stamp.as_slice() == EPOCH.as_bytes()
        }
        _ => false,
    }
}

/// Adds a record of this address, with the serial 8 and the moment 0.
fn add(
    alloc: Global,
    journal: &mut Journal<MemStore>,
    address: &str,
) -> Result<Result<(), PersistenceError>, Fail> {
    let one = record(alloc, address.parse().unwrap_or(0))?;
    Ok(journal.insert_record(8, 0, &one))
}

/// Adds the record that these bytes are, with a serial at a moment: `SERIAL MOMENT HEX`.
fn one(
    alloc: Global,
    journal: &mut Journal<MemStore>,
    words: &str,
) -> Result<Result<(), PersistenceError>, Fail> {
    let (serial, words) = parted_at(words, " ");
    let (moment, digits) = parted_at(words, " ");
    let bytes = bytes_of(alloc, digits)?;
    let Some((one, _end)) = read_record(alloc, bytes.as_slice(), 0)? else {
        return Err(Fail::from("no record"));
    };
    Ok(journal.insert_record(
        serial.parse().unwrap_or(0),
        moment.parse::<u64>().unwrap_or(0) % 0x8000_0000_0000,
        &one,
    ))
}

/// Appends two records of client 7, with the serial 9, at a moment.
fn append(alloc: Global, journal: &mut Journal<MemStore>) -> Result<Result<(), KeepFault>, Fail> {
    let two = two_records(alloc)?;
    Ok(journal.append(7, 9, 1700000000123, &two))
}

/// Inserts records of a client, with a serial, at a moment; their addresses are the numbers from 1 on to the last one.
fn insert(
    alloc: Global,
    journal: &mut Journal<MemStore>,
    words: &str,
) -> Result<Result<(), PersistenceError>, Fail> {
    let (client, words) = parted_at(words, " ");
    let (serial, words) = parted_at(words, " ");
    let (moment, count) = parted_at(words, " ");
    let records = records_of(alloc, count.parse().unwrap_or(0))?;
    Ok(journal.insert_records(
        client.parse().unwrap_or(0),
        serial.parse().unwrap_or(0),
        moment.parse::<u64>().unwrap_or(0) % 0x8000_0000_0000,
        &records,
    ))
}

/// The record a. A of an address, with the TTL 5.
pub fn record(alloc: Global, address: u32) -> Result<Record, ProtoError> {
    Ok(Record {
        name: Name::parse(alloc, "a.")?,
        rtype: 1,
        class: 1,
        ttl: 5,
        rdata: Data::A(address),
    })
}

fn two_records(alloc: Global) -> Result<Records, ProtoError> {
    let mut two = Records::new(alloc);
    two.push(record(alloc, 2)?)?;
    two.push(record(alloc, 3)?)?;
    Ok(two)
}

/// Records of the addresses from 1 on to this one.
pub fn records_of(alloc: Global, last: u32) -> Result<Records, ProtoError> {
    let mut records = Records::new(alloc);
    for address in 1..=last {
        records.push(record(alloc, address)?)?;
    }
    Ok(records)
}

/// A refusal in words.
pub fn refusal(alloc: Global, kind: &str) -> Result<String, Fail> {
    let error = match kind {
        "SchemaVersion" => PersistenceError::Recovery(RecoveryKind::SchemaVersion),
        "NoRecord" => PersistenceError::Recovery(RecoveryKind::NoRecord),
        "WrongInsertCount" => PersistenceError::WrongInsertCount { got: 1, expect: 2 },
        "DataTooLong" => PersistenceError::Proto(ProtoError::DataTooLong(65536)),
        "NameLong" => PersistenceError::Proto(ProtoError::NameLong),
        "Sqlite" => PersistenceError::Sqlite,
        "Timeout" => PersistenceError::Timeout,
        _ => PersistenceError::OutOfMemory,
    };
    Ok(format!(in alloc; "{error}")?)
}
