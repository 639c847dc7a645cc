//! One query on a connection, byte by byte (RFC 1035 4.2.2).

use crate::book::gateway::book::{PEER, book};
use crate::row::{bytes_of, first_field, numbers_of, put_bytes};
use dns_edges::{MemoryClock, MemorySink, MemorySource};
use dns_io::Octets;
use dns_requests::{ServeFault, serve_connection};
use dns_server_core::AccessControl;
use std::alloc::Global;
use std::test::Fail;

/// What comes of bytes on a connection, one in a read, and what goes out: `BYTES|READS|FAILING READS|FAILING WRITES`.
pub fn served(alloc: Global, fields: &str, answer: &mut String) -> Result<(), Fail> {
    let (digits, rest) = first_field(fields);
    let (reads, rest) = first_field(rest);
    let (failing_reads, failing_writes) = first_field(rest);
    let bytes = Octets::from_vec(bytes_of(alloc, digits)?);
    let mut source = MemorySource::new(bytes, 1, numbers_of(alloc, failing_reads)?);
    let mut sink = MemorySink::new(alloc, 1000, numbers_of(alloc, failing_writes)?);
    let served = serve(alloc, &mut source, &mut sink, reads)?;
    write!(answer, "{served:?} ")?;
    put_bytes(answer, sink.taken().as_slice())
}

/// Serves a connection by a book, without a limit, at the moment 7, by at most so many reads.
fn serve(
    alloc: Global,
    source: &mut MemorySource,
    sink: &mut MemorySink,
    reads: &str,
) -> Result<Result<u64, ServeFault>, Fail> {
    let mut book = book(alloc)?;
    let access = AccessControl::new(alloc);
    let mut clock = MemoryClock::new(Vec::from_slice(alloc, &[7])?);
    let reads = reads.parse::<u64>().unwrap_or(0).min(100);
    Ok(serve_connection(
        alloc, &mut book, &access, source, sink, &mut clock, PEER, 0, reads,
    ))
}
