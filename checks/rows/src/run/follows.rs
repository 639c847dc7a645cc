//! Feeds of journals, and followers of them, on journals that are in memory.

use crate::row::{bytes_of, first_call, number, put_bytes, quoted, size, two, words_of};
use crate::run::journals::empty_journal;
use crate::run::keepers::nine_rows;
use crate::run::runs::run_line;
use dns_edges::{MemoryClock, MemorySink, MemorySource};
use dns_follow::{Follower, Replicated, feed, follow, replicate};
use dns_io::Octets;
use dns_keeper::{BatchRow, Keeper, MemoryKeeper, Row};
use dns_name::Name;
use std::alloc::Global;
use std::test::Fail;

/// The words of a feed from the first row on.
const WHOLE: &str = "feed example.com. 1";

/// The words of a follower.
const FOLLOW: &str = "follow example.com.";

/// What comes of feeding and following a journal: `MAKING / STEP / STEP ..`. MAKING is the line of the run that makes its rows. A step is the
/// words of a feed, which tells its bytes; or `frames` and numbers of frames of the whole feed, from 1, which a follower is given whose
/// journal is empty at first: `9/20` for the first 20 bytes of the ninth one. `more` gives them to the follower's journal of the step before.
pub fn follow_journal(alloc: Global, given: &str) -> Result<String, Fail> {
    let (making, steps) = first_call(given);
    let mut answers = String::new(alloc);
    let journal = run_line(alloc, making, empty_journal(alloc)?, &mut answers)?;
    follow_steps(alloc, steps, journal, answers)
}

/// The same of a keeper that has nine rows, with a batch of the first eight, and one behind the last.
pub fn follow_parts(alloc: Global, given: &str) -> Result<String, Fail> {
    let (making, steps) = first_call(given);
    follow_steps(alloc, steps, nine_rows(alloc, making)?, String::new(alloc))
}

/// What a feed of a journal tells from a row on, by the call alone: `MAKING / ROW`. How many rows they are, and their frames; or why it ended.
pub fn fed(alloc: Global, given: &str) -> Result<String, Fail> {
    let (making, row) = first_call(given);
    let mut answers = String::new(alloc);
    let mut journal = run_line(alloc, making, empty_journal(alloc)?, &mut answers)?;
    let mut out = MemorySink::new(alloc, 65_536, Vec::new(alloc));
    match feed(alloc, &mut journal, number(row).max(1), &mut out) {
        Ok(count) => write!(answers, "{count} ")?,
        Err(fault) => write!(answers, "{fault} ")?,
    }
    put_bytes(&mut answers, out.flushed())?;
    Ok(answers)
}

fn follow_steps<K: Keeper + Drop>(
    alloc: Global,
    steps: &str,
    journal: K,
    mut answers: String,
) -> Result<String, Fail> {
    let mut unread = String::new(alloc);
    let (feed, mut journal) = run(alloc, WHOLE, Vec::new(alloc), journal, &mut unread)?;
    let mut follower = MemoryKeeper::new(alloc);
    for step in steps.split(" / ") {
        let (kind, numbers) = two(step);
        if kind == "feed" {
            let (bytes, back) = run(alloc, step, Vec::new(alloc), journal, &mut answers)?;
            journal = back;
            put_bytes(&mut answers, bytes.as_slice())?;
            write!(answers, ";")?;
        } else {
            if kind == "frames" {
                follower = MemoryKeeper::new(alloc);
            }
            let input = chosen(alloc, feed.as_slice(), numbers)?;
            let (line, back) = run(alloc, FOLLOW, input, follower, &mut answers)?;
            follower = back;
            write!(answers, "{};", quoted(alloc, line.as_slice())?)?;
        }
    }
    Ok(answers)
}

/// Does what the words of a line say to a journal, with this input. Adds how it ended, and gives what it wrote and the journal.
fn run<K: Keeper + Drop>(
    alloc: Global,
    line: &str,
    input: Vec<u8>,
    keeper: K,
    answers: &mut String,
) -> Result<(Vec<u8>, K), Fail> {
    let words = words_of(alloc, line)?;
    let mut input = MemorySource::new(Octets::from_vec(input), 65_536, Vec::new(alloc));
    let mut clock = MemoryClock::new(Vec::new(alloc));
    let mut out = MemorySink::new(alloc, 65_536, Vec::new(alloc));
    let Replicated { status, keeper } = replicate(
        alloc, &words, keeper, &mut input, &mut clock, &mut out,
    );
    write!(answers, "{} ", status.number())?;
    Ok((Vec::from_slice(alloc, out.flushed())?, keeper))
}

/// These frames of a feed, one behind the other.
fn chosen(alloc: Global, feed: &[u8], numbers: &str) -> Result<Vec<u8>, Fail> {
    let mut bytes = Vec::new(alloc);
    for word in numbers.split(' ') {
        match word.split_once('/') {
            Some((index, most)) => {
                let frame = frame(feed, number(index));
                let most = size(most);
                let front = if most <= frame.len() {
                    frame.split_at(most).0
                } else {
                    frame
                };
                bytes.extend_from_slice(front)?;
            }
            None => bytes.extend_from_slice(frame(feed, number(word)))?,
        }
    }
    Ok(bytes)
}

/// The frame of a feed with this number, from 1, or nothing.
fn frame(feed: &[u8], wanted: u64) -> &[u8] {
    let mut left = feed;
    for index in 1..=wanted {
        let [high, low, ..] = left else {
            return left;
        };
        let length = 2 + *high as usize * 256 + *low as usize;
        if left.len() < length {
            return left;
        }
        let (front, behind) = left.split_at(length);
        if index == wanted {
            return front;
        }
        left = behind;
    }
    left
}

/// What a follower without rows answers to the payload of a frame, in hex digits.
pub fn take(alloc: Global, given: &str) -> Result<String, Fail> {
    let mut follower = new_follower(alloc)?;
    let payload = bytes_of(alloc, given)?;
    let mut answer = String::new(alloc);
    match follower.take(payload.as_slice(), 0) {
        Ok(taken) => write!(answer, "{taken:?}")?,
        Err(fault) => write!(answer, "{fault:?}")?,
    }
    Ok(answer)
}

/// What comes of following an input of these bytes, which gives so many of them at a read, with so many reads: `READS STEP HEX`.
pub fn turns(alloc: Global, given: &str) -> Result<String, Fail> {
    let (reads, given) = two(given);
    let (step, digits) = two(given);
    let mut follower = new_follower(alloc)?;
    let (reads, step) = (number(reads), size(step));
    if step == 0 || reads > 1000 {
        return Ok("no such step".to_string(alloc)?);
    }
    let mut input = MemorySource::new(
        Octets::from_vec(bytes_of(alloc, digits)?),
        step,
        Vec::new(alloc),
    );
    let mut clock = MemoryClock::new(Vec::new(alloc));
    let mut answer = String::new(alloc);
    match follow(alloc, &mut follower, &mut input, &mut clock, reads) {
        Ok(count) => write!(answer, "{count}")?,
        Err(fault) => write!(answer, "{fault:?}")?,
    }
    Ok(answer)
}

fn new_follower(alloc: Global) -> Result<Follower<MemoryKeeper>, Fail> {
    match Follower::open(
        alloc,
        MemoryKeeper::new(alloc),
        Name::parse(alloc, "example.com.")?,
    ) {
        Ok(follower) => Ok(follower),
        Err(_) => Err(Fail::from("no follower")),
    }
}

/// How the whole feed of one row of so many bytes ends, and how many bytes it has.
pub fn long(alloc: Global, given: &str) -> Result<String, Fail> {
    let mut bytes = Vec::new(alloc);
    for _ in 0..number(given) {
        bytes.push(0)?;
    }
    let row = Row {
        id: 1,
        client: 0,
        serial: 7,
        stamp: Octets::new(alloc),
        bytes: Octets::from_vec(bytes),
    };
    let batch = BatchRow { first: 1, count: 1 };
    let keeper = MemoryKeeper::from_parts(alloc, vec![in alloc; row]?, vec![in alloc; batch]?);
    let mut answer = String::new(alloc);
    let (bytes, _) = run(alloc, WHOLE, Vec::new(alloc), keeper, &mut answer)?;
    write!(answer, "{}", bytes.len())?;
    Ok(answer)
}
