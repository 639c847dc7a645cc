//! The counters by their names and labels, each label with its code. The names, labels and codes were written down by hand
//! from the registries of DNS parameters (RFC 6895).

use crate::row::two;
use dns_counts::{Asked, Counts, Direction, Pairs, Replied};
use dns_io::Protocol;
use dns_wire::Header;
use std::alloc::Global;
use std::test::Fail;

/// What the counter of this name and this label shows before any message.
pub fn counter(alloc: Global, given: &str) -> Result<String, Fail> {
    let (name, label) = two(given);
    let counts = Counts::new();
    Ok(format!(in alloc; "{:?}", counts.get(name, label))?)
}

/// What a counter shows at each of its labels, as soon as a message with the label's code was counted.
pub fn counted(alloc: Global, given: &str) -> Result<String, Fail> {
    let (name, words) = two(given);
    let mut counts = Counts::new();
    let mut shown = String::new(alloc);
    for word in words.split(' ') {
        let (label, code) = word.split_once('=').unwrap_or((word, ""));
        record(alloc, &mut counts, name, code.parse().unwrap_or(0))?;
        write!(shown, "{:?} ", counts.get(name, label))?;
    }
    Ok(shown)
}

/// Counts a message with this code, which is of the kind that the counter of this name tells apart.
fn record(alloc: Global, counts: &mut Counts, name: &str, code: u16) -> Result<(), Fail> {
    let (opcode, reply, rtype, class) = kind_of(name, code);
    let replied = replied(alloc, reply, rtype, class)?;
    counts.record(&asked(opcode, rtype, class), &replied);
    Ok(())
}

/// The opcode, the response code, the type and the class, of which one is this code.
fn kind_of(name: &str, code: u16) -> (u8, u16, u16, u16) {
    match name {
        "hickory_request_record_types_total" | "hickory_response_record_types_total" => {
            (0, 0, code, 1)
        }
        "hickory_request_dns_classes_total" | "hickory_response_dns_classes_total" => {
            (0, 0, 1, code)
        }
        "hickory_request_operations_total" => ((code % 16) as u8, 23, 1, 1),
        _ => (0, code, 1, 1),
    }
}

/// A query with RD and this opcode, over UDP, for this type and class.
fn asked(opcode: u8, rtype: u16, class: u16) -> Asked {
    Asked {
        protocol: Protocol::Udp,
        header: Header {
            id: 0x1234,
            qr: false,
            opcode,
            aa: false,
            tc: false,
            rd: true,
            ra: false,
            ad: false,
            cd: false,
            code: 0,
            questions: 1,
            answers: 0,
            authority: 0,
            additional: 0,
        },
        question: Some((rtype, class)),
    }
}

/// A reply with this code, and one answer of this type and class.
fn replied(alloc: Global, code: u16, rtype: u16, class: u16) -> Result<Replied, Fail> {
    Ok(Replied {
        code,
        flags: 0x8500,
        answers: Pairs::from_vec([(rtype, class)].to_vec(alloc)?),
    })
}

/// The words for the two directions.
pub fn directions(alloc: Global) -> Result<String, Fail> {
    let (request, response) = (Direction::Request, Direction::Response);
    Ok(format!(in alloc; "{request} {response}")?)
}
