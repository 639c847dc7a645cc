//! Runs of the library's top call over objects in memory: over a journal that fails, over texts that are not read to their end, over an output
//! that is not taken whole; and the words of `serve` over a hub.

use crate::row::two;
use crate::server::hubs::{hub_of, put_taken};
use crate::server::objects::{Objects, made, quoted_left, quoted_output};
use crate::server::zones::keeper;
use dns_command::{Ended, Status};
use dns_edges::{MemoryClock, MemorySink};
use dns_keeper::{Keeper, MemoryKeeper};
use dns_listeners::run::run;
use dns_ports::MemoryHub;
use std::alloc::Global;
use std::sync::Wait;
use std::test::Fail;
use std::thread::Threads;

/// What is told of a run over a journal: `ROWS APPENDS LOOKS/TOLD` and the objects of the run. It is how it ended with what it wrote, the
/// keeper's faults, whether the journal then has a row with the number of its rows, and one with the next.
pub fn once<R: Threads + Wait + Sync>(rt: &R, alloc: Global, given: &str) -> Result<String, Fail> {
    let (head, given) = given.split_once('/').unwrap_or((given, ""));
    let (rows, calls) = two(head);
    let mut answers = String::new(alloc);
    let mut keeper = run_over(rt, alloc, keeper(alloc, calls)?, given, &mut answers)?;
    put_rows(&mut keeper, rows.parse().unwrap_or(0), &mut answers)?;
    Ok(answers)
}

/// The same of two such runs, one after the other.
pub fn twice<R: Threads + Wait + Sync>(rt: &R, alloc: Global, given: &str) -> Result<String, Fail> {
    let (head, given) = given.split_once('/').unwrap_or((given, ""));
    let (rows, calls) = two(head);
    let mut answers = String::new(alloc);
    let keeper = run_over(rt, alloc, keeper(alloc, calls)?, given, &mut answers)?;
    let mut keeper = run_over(rt, alloc, keeper, given, &mut answers)?;
    put_rows(&mut keeper, rows.parse().unwrap_or(0), &mut answers)?;
    Ok(answers)
}

/// Tells how a run ended and what it wrote: what was `flushed`, what was `taken`, or what was flushed and the event text that is `left`.
fn run_over<R: Threads + Wait + Sync>(
    rt: &R,
    alloc: Global,
    keeper: MemoryKeeper,
    given: &str,
    answers: &mut String,
) -> Result<MemoryKeeper, Fail> {
    let (told, given) = given.split_once('/').unwrap_or((given, ""));
    let mut objects = made(alloc, given)?;
    let Ended { status, keeper } = ended_without_ports(rt, alloc, &mut objects, keeper);
    put_ended(alloc, status, told, &mut objects, answers)?;
    match keeper {
        Some(keeper) => Ok(keeper),
        None => Err(Fail::from("no keeper")),
    }
}

fn ended_without_ports<R: Threads + Wait + Sync>(
    rt: &R,
    alloc: Global,
    objects: &mut Objects,
    keeper: MemoryKeeper,
) -> Ended<MemoryKeeper> {
    let mut hub = MemoryHub::new(alloc, Vec::new(alloc), Vec::new(alloc), Vec::new(alloc));
    ended(rt, alloc, objects, keeper, &mut hub)
}

fn ended<R: Threads + Wait + Sync>(
    rt: &R,
    alloc: Global,
    objects: &mut Objects,
    keeper: MemoryKeeper,
    hub: &mut MemoryHub,
) -> Ended<MemoryKeeper> {
    run(
        rt,
        alloc,
        &objects.words,
        &mut objects.zone,
        &mut objects.events,
        keeper,
        hub,
        &mut MemoryClock::new(Vec::new(alloc)),
        &mut objects.out,
    )
}

fn put_ended(
    alloc: Global,
    status: Status,
    told: &str,
    objects: &mut Objects,
    answers: &mut String,
) -> Result<(), Fail> {
    let output = quoted_output(alloc, told, &objects.out)?;
    write!(answers, "{status:?} / {output} / ")?;
    if told == "left" {
        let left = quoted_left(alloc, &mut objects.events)?;
        write!(answers, "{left} / ")?;
    }
    Ok(())
}

/// How a run ends over a hub, what it writes, how many sockets and listeners the hub got back, and what these took, without the ids:
/// `OPENINGS HUB/` and the objects of the run.
pub fn serve<R: Threads + Wait + Sync>(rt: &R, alloc: Global, given: &str) -> Result<String, Fail> {
    let (hub, given) = given.split_once('/').unwrap_or((given, ""));
    let mut hub = hub_of(alloc, hub)?;
    let mut objects = made(alloc, given)?;
    let status = served(rt, alloc, &mut objects, &mut hub);
    served_text(alloc, status, &objects.out, &hub)
}

fn served<R: Threads + Wait + Sync>(
    rt: &R,
    alloc: Global,
    objects: &mut Objects,
    hub: &mut MemoryHub,
) -> Status {
    ended(rt, alloc, objects, MemoryKeeper::new(alloc), hub).status
}

fn served_text(
    alloc: Global,
    status: Status,
    out: &MemorySink,
    hub: &MemoryHub,
) -> Result<String, Fail> {
    let output = quoted_output(alloc, "flushed", out)?;
    let mut answers = format!(in alloc; "{} / {output} / ", status.number())?;
    put_taken(alloc, hub.closed_udp(), hub.closed_tcp(), 2, &mut answers)?;
    Ok(answers)
}

/// The keeper's faults, whether the journal has a row from this id on, and one from the next.
fn put_rows(keeper: &mut MemoryKeeper, last: i64, answers: &mut String) -> Result<(), Fail> {
    let faults = keeper.fault_count();
    let has = has_row(keeper, last);
    let more = has_row(keeper, last.saturating_add(1));
    write!(answers, "{faults} {has} {more}")?;
    Ok(())
}

fn has_row(keeper: &mut MemoryKeeper, id: i64) -> &'static str {
    match keeper.row_from(id) {
        Ok(Some(_)) => "yes",
        Ok(None) => "no",
        Err(_) => "not read",
    }
}
