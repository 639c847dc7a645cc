//! Journals that are opened. The bytes of rows are written down by hand from RFC 1035 4.1.3.

use crate::book::zones::book;
use crate::row::{bytes_of, put_answer, two};
use dns_book::{Book, OpenFault};
use dns_io::Octets;
use dns_keeper::{MemoryKeeper, Row};
use dns_name::Name;
use std::alloc::Global;
use std::test::Fail;

/// The serial, the length and the faults of a journal of the zone `Z.` that has three rows of these bytes, or none; or why it is refused.
pub fn open(alloc: Global, given: &str) -> Result<String, Fail> {
    let keeper = match given {
        "" => MemoryKeeper::new(alloc),
        _ => three_rows(alloc, given)?,
    };
    let origin = Name::parse(alloc, "Z.")?;
    match Book::open(alloc, keeper, origin, true, 0, None) {
        Ok(book) => book_text(alloc, &book),
        Err(fault) => fault_text(alloc, &fault),
    }
}

fn three_rows(alloc: Global, words: &str) -> Result<MemoryKeeper, Fail> {
    let (first, rest) = two(words);
    let (second, third) = two(rest);
    let first = row(alloc, 1, first)?;
    let second = row(alloc, 2, second)?;
    let third = row(alloc, 3, third)?;
    Ok(MemoryKeeper::from_rows(alloc, vec![in alloc; first, second, third]?)?)
}

/// A row of serial 9.
fn row(alloc: Global, id: i64, digits: &str) -> Result<Row, Fail> {
    Ok(Row {
        id,
        client: 0,
        serial: 9,
        stamp: Octets::new(alloc),
        bytes: Octets::from_vec(bytes_of(alloc, digits)?),
    })
}

/// A journal that was begun so is opened by its rows, twice: the serial, the length and the keeper's faults, or why it is not read.
pub fn reopen(alloc: Global, given: &str) -> Result<String, Fail> {
    let keeper = book(alloc, given)?.into_keeper();
    let mut answers = String::new(alloc);
    let keeper = put_opened(alloc, keeper, &mut answers)?;
    put_opened(alloc, keeper, &mut answers)?;
    Ok(answers)
}

fn put_opened(
    alloc: Global,
    keeper: MemoryKeeper,
    answers: &mut String,
) -> Result<MemoryKeeper, Fail> {
    let origin = Name::parse(alloc, "z.")?;
    match Book::open(alloc, keeper, origin, false, 0, None) {
        Ok(book) => put_book(alloc, book, answers),
        Err(fault) => put_fault(alloc, fault, answers),
    }
}

fn put_book(
    alloc: Global,
    book: Book<MemoryKeeper>,
    answers: &mut String,
) -> Result<MemoryKeeper, Fail> {
    let text = book_text(alloc, &book);
    let keeper = book.into_keeper();
    put_answer(answers, text?.as_str())?;
    Ok(keeper)
}

fn put_fault(
    alloc: Global,
    fault: OpenFault<MemoryKeeper>,
    answers: &mut String,
) -> Result<MemoryKeeper, Fail> {
    put_answer(answers, fault_text(alloc, &fault)?.as_str())?;
    Ok(fault.keeper)
}

/// The serial, the length and the keeper's faults.
fn book_text(alloc: Global, book: &Book<MemoryKeeper>) -> Result<String, Fail> {
    let (serial, length, faults) = (book.serial(), book.journal_len(), book.fault_count());
    Ok(format!(in alloc; "{serial} {length} {faults}")?)
}

fn fault_text(alloc: Global, fault: &OpenFault<MemoryKeeper>) -> Result<String, Fail> {
    Ok(format!(in alloc; "{:?}", fault.kind)?)
}
