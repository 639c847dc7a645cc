//! Halves of streams in memory.

use crate::net::steps::Steps;
use crate::net::words::put;
use crate::row::{numbers_of, put_bytes};
use dns_io::{IoFault, Octets};
use dns_quic::{MemoryRecv, MemorySend, RecvHalf};
use std::alloc::Global;
use std::test::Fail;

/// A sending half, with the numbers of its calls that fail; a write that fails takes at most `partly` bytes.
pub fn send_of(alloc: Global, partly: usize, failing: &str) -> Result<MemorySend, Fail> {
    Ok(MemorySend::new(alloc, partly, numbers_of(alloc, failing)?))
}

/// A receiving half of these bytes, of which a read gives at most `step`, with the numbers of its calls that fail.
pub fn taking(alloc: Global, bytes: &[u8], step: usize, failing: &str) -> Result<MemoryRecv, Fail> {
    let bytes = Octets::from_slice(alloc, bytes)?;
    Ok(MemoryRecv::new(alloc, bytes, step, numbers_of(alloc, failing)?))
}

/// Reads at most nine bytes, or tells the codes with which it was stopped, or how many calls failed.
impl Steps for MemoryRecv {
    fn step(
        &mut self,
        _alloc: Global,
        word: &str,
        _with: &str,
        answer: &mut String,
    ) -> Result<(), Fail> {
        match word {
            "read" => put_read(self.read(9), answer),
            "stops" => put(answer, self.stops()),
            _ => put(answer, self.faults()),
        }
    }
}

fn put_read(read: Result<Option<Octets>, IoFault>, answer: &mut String) -> Result<(), Fail> {
    match read {
        Ok(Some(bytes)) => put_bytes(answer, bytes.as_slice()),
        Ok(None) => Ok(answer.push_str("end")?),
        Err(fault) => put(answer, fault),
    }
}
