//! Appends, look-ups of rows and batches, and failing calls. The bytes of a row are written down by hand from RFC 1035 4.1.3.

use crate::book::zones::keeper;
use crate::row::{first_call, hex_of, put_answer, two};
use dns_io::Octets;
use dns_keeper::{BatchRow, Keeper, MemoryKeeper, Row};
use dns_name::Name;
use dns_wire::{Data, Record, Records};
use std::alloc::Global;
use std::str;
use std::test::Fail;

/// The moment of each append, in milliseconds.
const MOMENT: u64 = 1_700_000_000_000;

/// Its stamp.
const STAMP: &[u8] = b"2023-11-14 22:13:20.000";

/// What calls of a keeper answer: `KEEPER / CALL / ..`, where the keeper is `full`, `two` or `met`, or tells which calls fail.
pub fn calls(alloc: Global, given: &str) -> Result<String, Fail> {
    let (made, calls) = first_call(given);
    let mut keeper = match made {
        "full" => nearly_full(alloc)?,
        "two" => two_rows(alloc)?,
        "met" => met(alloc)?,
        _ => keeper(alloc, made)?,
    };
    answers_to(alloc, &mut keeper, calls)
}

fn answers_to(alloc: Global, keeper: &mut MemoryKeeper, calls: &str) -> Result<String, Fail> {
    let mut answers = String::new(alloc);
    for call in calls.split(" / ") {
        put_answer(&mut answers, answer_to(alloc, keeper, call)?.as_str())?;
    }
    Ok(answers)
}

/// A row of client 3.
fn row(alloc: Global, id: i64, serial: i64) -> Result<Row, Fail> {
    Ok(Row {
        id,
        client: 3,
        serial,
        stamp: Octets::from_slice(alloc, STAMP)?,
        bytes: record(alloc, 7)?.to_vec(alloc)?,
    })
}

/// A keeper of one row, which has the last id but one.
fn nearly_full(alloc: Global) -> Result<MemoryKeeper, Fail> {
    let row = row(alloc, i64::MAX - 1, 9)?;
    Ok(MemoryKeeper::from_rows(alloc, vec![in alloc; row]?)?)
}

/// A keeper of two rows, with a serial each.
fn two_rows(alloc: Global) -> Result<MemoryKeeper, Fail> {
    let first = row(alloc, 1, 7)?;
    let second = row(alloc, 2, 8)?;
    Ok(MemoryKeeper::from_rows(alloc, vec![in alloc; first, second]?)?)
}

/// A keeper of one row, with a batch that begins behind it.
fn met(alloc: Global) -> Result<MemoryKeeper, Fail> {
    let rows = vec![in alloc; row(alloc, 1, 7)?]?;
    let batches = vec![in alloc; BatchRow { first: 2, count: 4 }]?;
    Ok(MemoryKeeper::from_parts(alloc, rows, batches))
}

/// `append`, `row FROM`, `batch FROM` or `faults`.
fn answer_to(alloc: Global, keeper: &mut MemoryKeeper, call: &str) -> Result<String, Fail> {
    let (word, from) = two(call);
    match word {
        "append" => append(alloc, keeper),
        "row" => row_from(alloc, keeper, from.parse().unwrap_or(0)),
        "batch" => batch_from(alloc, keeper, from.parse().unwrap_or(0)),
        _ => Ok(format!(in alloc; "{}", keeper.fault_count())?),
    }
}

/// What an append of two records answers, which come from client 3 and make the serial 9.
fn append(alloc: Global, keeper: &mut MemoryKeeper) -> Result<String, Fail> {
    let records = batch(alloc)?;
    let answer = keeper.append(3, 9, MOMENT, &records);
    Ok(format!(in alloc; "{answer:?}")?)
}

/// `a. 5 IN A 0.0.0.1` and `a. 5 IN A 0.0.0.2`.
fn batch(alloc: Global) -> Result<Records, Fail> {
    let mut records = Records::new(alloc);
    records.push(record(alloc, 1)?)?;
    records.push(record(alloc, 2)?)?;
    Ok(records)
}

fn record(alloc: Global, address: u32) -> Result<Record, Fail> {
    Ok(Record {
        name: Name::parse(alloc, "a.")?,
        rtype: 1,
        class: 1,
        ttl: 5,
        rdata: Data::A(address),
    })
}

/// The least row from an id on.
fn row_from(alloc: Global, keeper: &mut MemoryKeeper, from: i64) -> Result<String, Fail> {
    match keeper.row_from(from) {
        Ok(Some(row)) => row_text(alloc, &row),
        Ok(None) => Ok("none".to_string(alloc)?),
        Err(fault) => Ok(format!(in alloc; "{fault:?}")?),
    }
}

/// The batch of least first id from an id on.
fn batch_from(alloc: Global, keeper: &mut MemoryKeeper, from: i64) -> Result<String, Fail> {
    match keeper.batch_from(from) {
        Ok(Some(batch)) => Ok(format!(in alloc; "{} {}", batch.first, batch.count)?),
        Ok(None) => Ok("none".to_string(alloc)?),
        Err(fault) => Ok(format!(in alloc; "{fault:?}")?),
    }
}

/// The id, the client, the serial, the stamp and the bytes.
fn row_text(alloc: Global, row: &Row) -> Result<String, Fail> {
    let stamp = str::from_utf8(row.stamp.as_slice()).unwrap_or("no text");
    let bytes = hex_of(alloc, row.bytes.as_slice())?;
    Ok(format!(in alloc; "{} {} {} {stamp} {bytes}", row.id, row.client, row.serial)?)
}
