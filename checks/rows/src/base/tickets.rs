//! Lists of steps of the ticket world.

use crate::row::size;
use dns_io::Octets;
use dns_keeper::Row;
use dns_ticket_world::{Rows, Step, TicketWorld};
use std::alloc::Global;
use std::test::Fail;

/// The world that is left after a list of steps, if each is answered as its last letter says.
pub fn tickets(alloc: Global, given: &str) -> Result<String, Fail> {
    let (start, steps) = given.split_once(';').unwrap_or((given, ""));
    let (seats, rows) = start.split_once(' ').unwrap_or((start, ""));
    let rows = batch(alloc, 9, 1, size(rows))?;
    let seats = seat(seats);
    if seats < 1 || seats > 1024 || !rows.are_numbered(0) {
        return Ok("no start".to_string(alloc)?);
    }
    let mut world = TicketWorld::start(alloc, seats, rows.into_vec())?;
    for word in steps.split(' ') {
        let step = step_of(alloc, word)?;
        if world.apply(&step)? != word.ends_with('+') {
            return Ok(word.to_string(alloc)?);
        }
    }
    left(alloc, &world)
}

/// The step of a word.
fn step_of(alloc: Global, word: &str) -> Result<Step, Fail> {
    let mut parts = word.split('.');
    let kind = parts.next().unwrap_or("");
    let seat = seat(parts.next().unwrap_or(""));
    match kind {
        "D" => Ok(Step::Draw { seat }),
        "L" => Ok(Step::Look { seat }),
        "T" => Ok(Step::Take { seat }),
        "G" => Ok(Step::Give { seat }),
        "P" => Ok(Step::Pass { seat }),
        "S" => Ok(Step::Split { seat }),
        "J" => Ok(joined(seat, word)),
        "C" => counted(alloc, seat, word),
        _ => Err(Fail::from("another kind")),
    }
}

fn joined(one: u32, word: &str) -> Step {
    Step::Join {
        seat: one,
        other: seat(word.split('.').nth(2).unwrap_or("")),
    }
}

fn counted(alloc: Global, seat: u32, word: &str) -> Result<Step, Fail> {
    let mut parts = word.split('.').skip(2);
    let client = size(parts.next().unwrap_or(""));
    let first = size(parts.next().unwrap_or(""));
    let rows = size(parts.next().unwrap_or(""));
    Ok(Step::Count {
        seat,
        batch: batch(alloc, client, first, rows)?,
        faults: size(parts.next().unwrap_or("")) as u64,
    })
}

/// So many rows of a client, with the ids from this one on.
fn batch(alloc: Global, client: usize, first: usize, count: usize) -> Result<Rows, Fail> {
    let mut rows = Vec::new(alloc);
    for i in 0..count {
        rows.push(Row {
            id: first.saturating_add(i).try_into().unwrap_or(0),
            client: client.try_into().unwrap_or(0),
            serial: 1,
            stamp: Octets::new(alloc),
            bytes: Octets::new(alloc),
        })?;
    }
    Ok(Rows::from_vec(rows))
}

/// The numbers of the world that is left; behind those of the seats none, unless a seat that was not made has seen a row.
fn left(alloc: Global, world: &TicketWorld) -> Result<String, Fail> {
    let mut numbers = format!(in alloc;
        "{} {} {} {} {}",
        world.next(),
        world.serving(),
        u8::from(world.is_home()),
        world.rows().len(),
        world.faults()
    )?;
    let seats = u32::try_from(world.seat_count()).unwrap_or(0);
    for number in 1..=seats.saturating_add(1) {
        let seen = world.seen_len(number);
        if number <= seats || seen > 0 {
            write!(numbers, " {seen}")?;
        }
    }
    Ok(numbers)
}

fn seat(word: &str) -> u32 {
    word.parse().unwrap_or(0)
}
