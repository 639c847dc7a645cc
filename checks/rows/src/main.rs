//! Rows from the specifications, each tried on the compiled libraries by their public calls. The word of the command line names a layer of the
//! house, whose module below has its kinds of rows; a row is a line of standard input, `KIND|GIVEN|WANTED`: what is called, what it is given, and
//! the answer that is due. A line that begins with `#` says what the rows below it show.
//!
//! For each row the program writes `passed KIND`, or `failed` with the row, and the answer behind it on a line of its own.

mod base;
mod book;
mod crowd;
mod net;
mod row;
mod run;
mod server;
mod storage;

use crate::row::parted;
use std::rt::Clock;
use std::sync::Wait;
use std::test::Fail;
use std::thread::Threads;
use std::{env, io};

fn main(rt: HostRuntime) -> Result<(), Fail> {
    let layer = layer(&rt)?;
    let text = io::read_to_string(rt.alloc(), rt.reader())?;
    for row in text.as_str().lines() {
        if !row.starts_with('#') {
            tell(&rt, &rt, layer.as_str(), row)?;
        }
    }
    Ok(())
}

/// The word of the command line.
fn layer(rt: &HostRuntime) -> Result<String, Fail> {
    match env::args(rt)?.nth(1) {
        Some(word) => Ok(word),
        None => Err(Fail::from("no layer is named")),
    }
}

/// Writes what became of a row.
fn tell<R: Threads + Wait + Clock + Sync>(
    host: &HostRuntime,
    rt: &R,
    layer: &str,
    row: &str,
) -> Result<(), Fail> {
    let (kind, given, wanted) = parted(row);
    let answer = answer_to(host, rt, layer, kind, given)?;
    if answer.as_str() == wanted {
        println!(host; "passed {kind}")?;
    } else {
        println!(host; "failed {row}\n  {answer}")?;
    }
    Ok(())
}

/// What comes of a row of a layer.
fn answer_to<R: Threads + Wait + Clock + Sync>(
    host: &HostRuntime,
    rt: &R,
    layer: &str,
    kind: &str,
    given: &str,
) -> Result<String, Fail> {
    let alloc = host.alloc();
    match layer {
        "base" => base::answer_to(host, alloc, kind, given),
        "storage" => storage::answer_to(alloc, kind, given),
        "net" => net::answer_to(alloc, kind, given),
        "book" => book::answer_to(rt, alloc, kind, given),
        "server" => server::answer_to(rt, alloc, kind, given),
        "crowd" => crowd::answer_to(rt, alloc, kind, given),
        "run" => run::answer_to(alloc, kind, given),
        _ => Ok("no such layer".to_string(alloc)?),
    }
}
