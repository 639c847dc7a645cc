//! The library's top call, and the server of threads.

mod gates;
mod hubs;
mod objects;
mod peers;
mod runs;
mod threads;
mod two_listeners;
mod zones;

use std::alloc::Global;
use std::sync::Wait;
use std::test::Fail;
use std::thread::Threads;

/// What comes of a row.
pub fn answer_to<R: Threads + Wait + Sync>(
    rt: &R,
    alloc: Global,
    kind: &str,
    given: &str,
) -> Result<String, Fail> {
    match kind {
        "once" => runs::once(rt, alloc, given),
        "twice" => runs::twice(rt, alloc, given),
        "serve" => runs::serve(rt, alloc, given),
        "workers" => threads::workers(rt, alloc, given),
        "failing_calls" => threads::failing_calls(rt, alloc, given),
        "failing_accepts" => threads::failing_accepts(rt, alloc, given),
        "peers" => peers::peers(rt, alloc, given),
        "version" => Ok(dns_server::version().to_string(alloc)?),
        "at_once" => two_listeners::at_once(rt, alloc),
        _ => Ok("no such kind".to_string(alloc)?),
    }
}
