//! Streams under a limit.

use crate::row::{number, put_answer, two};
use dns_requests::{PollStream, TimeoutFault, TimeoutStream};
use dns_transport::Poll;
use std::alloc::Global;
use std::test::Fail;

/// A stream that is played from a text: a digit is an item, `x` a fault, `.` nothing yet, and behind its last sign it is at its end.
#[derive(Drop)]
struct Script {
    signs: String,
    place: usize,
}

impl PollStream for Script {
    type Item = u8;

    type Fault = u8;

    ghost polls = { ? };

    fn poll_next(&mut self, _now: u64) -> Poll<Option<Result<u8, u8>>> {
        let sign = self.signs.as_str().as_bytes().get(self.place).copied();
        self.place = self.place.saturating_add(1);
        match sign {
            None => Poll::Ready(None),
            Some(b'.') => Poll::Pending,
            Some(b'x') => Poll::Ready(Some(Err(b'x'))),
            Some(digit) => Poll::Ready(Some(Ok(digit))),
        }
    }
}

/// What a stream under a limit answers at each of these moments: `LIMIT SIGNS MOMENTS`.
pub fn limit(alloc: Global, given: &str) -> Result<String, Fail> {
    let (limit, rest) = two(given);
    let (signs, moments) = two(rest);
    let script = Script {
        signs: signs.to_string(alloc)?,
        place: 0,
    };
    let mut stream = TimeoutStream::new(script, number(limit).min(1_000_000));
    answers_at(alloc, &mut stream, moments)
}

fn answers_at(
    alloc: Global,
    stream: &mut TimeoutStream<Script>,
    moments: &str,
) -> Result<String, Fail> {
    let mut answers = String::new(alloc);
    for moment in moments.split(' ') {
        put_answer(
            &mut answers,
            answer_at(alloc, stream, number(moment))?.as_str(),
        )?;
    }
    Ok(answers)
}

/// What it answers at a moment.
fn answer_at(alloc: Global, stream: &mut TimeoutStream<Script>, now: u64) -> Result<String, Fail> {
    let text = match stream.poll(now) {
        Poll::Pending => format!(in alloc; ".")?,
        Poll::Ready(None) => format!(in alloc; "end")?,
        Poll::Ready(Some(Ok(item))) => format!(in alloc; "{item}")?,
        Poll::Ready(Some(Err(fault))) => fault_text(alloc, &fault)?,
    };
    Ok(text)
}

fn fault_text(alloc: Global, fault: &TimeoutFault<u8>) -> Result<String, Fail> {
    match fault {
        TimeoutFault::Stream(fault) => Ok(format!(in alloc; "fault {fault}")?),
        TimeoutFault::TimedOut { since, limit, at } => {
            Ok(format!(in alloc; "late {since} {limit} {at}")?)
        }
    }
}
