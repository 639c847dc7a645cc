//! Crowds of connections in memory, served by one worker, and the program's top call.

mod comings;
mod crowds;
mod scribe;
mod serves;
mod zones;

use std::alloc::Global;
use std::rt::Clock;
use std::sync::Wait;
use std::test::Fail;
use std::thread::Threads;

/// What comes of a row.
pub fn answer_to<R: Threads + Wait + Clock + Sync>(
    rt: &R,
    alloc: Global,
    kind: &str,
    given: &str,
) -> Result<String, Fail> {
    match kind {
        "crowd" => crowds::crowd(rt, alloc, given),
        "book" => crowds::book(rt, alloc, given),
        "serve" => serves::serve(rt, alloc, given),
        _ => Ok("no such kind".to_string(alloc)?),
    }
}
