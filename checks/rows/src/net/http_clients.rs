//! Clients over HTTP, on a link in memory.

use crate::net::bodies::{body_of, reply_in_pieces};
use crate::net::clients::{long_query, query};
use crate::net::header_objects::Refuses;
use crate::net::multicast::peer_of;
use crate::net::quic::put_received;
use crate::net::requests::put_field;
use crate::net::steps::part;
use crate::net::words::{put, say, show};
use crate::row::{first_field, numbers_of, put_bytes};
use dns_io::Octets;
use dns_net::{H3ClientStream, HttpsClientStream, LinkCall, MemoryBody, MemoryLink};
use http::response::Parts;
use http::{Request, Response, StatusCode};
use std::alloc::Global;
use std::collections::LinkedList;
use std::test::Fail;

/// The head of a response: `STATUS|CONTENT-TYPE|CONTENT-LENGTH`.
fn head_of(alloc: Global, status: u16, fields: &str) -> Result<Parts, Fail> {
    let (kind, length) = first_field(fields);
    let mut head = Parts::new(alloc);
    head.status = StatusCode::from_u16(status)?;
    put_field(alloc, &mut head.headers, http::header::CONTENT_TYPE, kind)?;
    put_field(
        alloc,
        &mut head.headers,
        http::header::CONTENT_LENGTH,
        length,
    )?;
    Ok(head)
}

/// The body of a response: the reply in pieces of 20 bytes, with the number of its call that fails; or pieces of these lengths, behind
/// `of `.
fn response_body(alloc: Global, words: &str) -> Result<MemoryBody, Fail> {
    match words.split_once("of ") {
        Some((_, lengths)) => body_of(alloc, lengths, ""),
        None => reply_in_pieces(alloc, 20, words),
    }
}

/// A response with this status, head and body; none where the status is no number.
fn responses_of(
    alloc: Global,
    status: &str,
    fields: &str,
) -> Result<LinkedList<Response<MemoryBody>>, Fail> {
    let (head, body) = fields.rsplit_once('|').unwrap_or((fields, ""));
    let mut responses = LinkedList::new(alloc);
    if let Ok(status) = status.parse() {
        let head = head_of(alloc, status, head)?;
        let body = response_body(alloc, body)?;
        responses.push_back(Response::from_parts(head, body))?;
    }
    Ok(responses)
}

/// A link: `STATUS|CONTENT-TYPE|CONTENT-LENGTH|BODY|FAILING EXCHANGES|LATE EXCHANGES`.
fn link_of(alloc: Global, setup: &str) -> Result<MemoryLink, Fail> {
    let (setup, late) = setup.rsplit_once('|').unwrap_or((setup, ""));
    let (setup, failing) = setup.rsplit_once('|').unwrap_or((setup, ""));
    let (status, fields) = first_field(setup);
    let failing = numbers_of(alloc, failing)?;
    let late = numbers_of(alloc, late)?;
    Ok(MemoryLink::new(alloc, responses_of(alloc, status, fields)?, failing, late))
}

fn text(alloc: Global, text: &str) -> Result<String, Fail> {
    Ok(String::from_str(alloc, text)?)
}

/// What is done with a client over HTTP/2 with a limit of five seconds: `LINK|OBJECT|STEPS`, where the object that sets header fields
/// refuses each request, as `late` or `failed`, or is `-`. The answers are parted by `, `.
pub fn https_client(alloc: Global, fields: &str, answer: &mut String) -> Result<(), Fail> {
    let (fields, steps) = fields.rsplit_once('|').unwrap_or((fields, ""));
    let (setup, object) = fields.rsplit_once('|').unwrap_or((fields, ""));
    let query = query(alloc)?;
    let name = text(alloc, "ns.example.com")?;
    let path = text(alloc, "/dns-query")?;
    let mut builder = HttpsClientStream::builder(link_of(alloc, setup)?);
    builder.request_timeout(5000);
    if object != "-" {
        builder.set_headers(Box::new(
            alloc,
            Refuses {
                is_late: object == "late",
            },
        )?);
    }
    let mut client = builder.build(name, path);
    for word in steps.split(' ') {
        part(answer)?;
        let told = match word {
            "send" => say(answer, client.send_message(alloc, &query), "a message"),
            "ask" => put_received(alloc, client.send_message(alloc, &query), answer),
            "long" => {
                let query = long_query(alloc)?;
                put_received(alloc, client.send_message(alloc, &query), answer)
            }
            "poll" => put(answer, client.poll_next()),
            "is_shut" => put(answer, client.is_shutdown()),
            "shut" => {
                client.shutdown();
                put(answer, client.is_shutdown())
            }
            _ => tell(client.link(), word, answer),
        };
        told?;
    }
    Ok(())
}

/// The same over HTTP/3 to this address: `ADDRESS|LINK|OBJECT|STEPS`.
pub fn h3_client(alloc: Global, fields: &str, answer: &mut String) -> Result<(), Fail> {
    let (address, fields) = first_field(fields);
    let (fields, steps) = fields.rsplit_once('|').unwrap_or((fields, ""));
    let (setup, object) = fields.rsplit_once('|').unwrap_or((fields, ""));
    let query = query(alloc)?;
    let name = text(alloc, "ns.example.com")?;
    let path = text(alloc, "/dns-query")?;
    let mut builder = H3ClientStream::builder(link_of(alloc, setup)?);
    builder.request_timeout(5000);
    if object != "-" {
        builder.set_headers(Box::new(
            alloc,
            Refuses {
                is_late: object == "late",
            },
        )?);
    }
    let mut client = builder.build(peer_of(address), name, path);
    for word in steps.split(' ') {
        part(answer)?;
        let told = match word {
            "send" => say(answer, client.send_message(alloc, &query), "a message"),
            "ask" => put_received(alloc, client.send_message(alloc, &query), answer),
            "long" => {
                let query = long_query(alloc)?;
                put_received(alloc, client.send_message(alloc, &query), answer)
            }
            "poll" => put(answer, client.poll_next()),
            "show" => show(answer, &client),
            "shut" => {
                client.shutdown();
                put(answer, client.is_shutdown())
            }
            _ => tell(client.link(), word, answer),
        };
        told?;
    }
    Ok(())
}

/// Tells what a link tells.
fn tell(link: &MemoryLink, word: &str, answer: &mut String) -> Result<(), Fail> {
    match word {
        "calls" => put(answer, link.calls().len()),
        "told" => put_calls(link.calls(), answer),
        _ => put(answer, link.faults()),
    }
}

/// Adds each call: a request, and its limit, or that a body came back.
fn put_calls(calls: &[LinkCall<MemoryBody>], answer: &mut String) -> Result<(), Fail> {
    for call in calls {
        match call {
            LinkCall::Exchanged(request, limit) => put_request(request, *limit, answer)?,
            LinkCall::Returned(_) => answer.push_str(" returned")?,
        }
    }
    Ok(())
}

fn put_request(
    request: &Request<Octets>,
    limit: Option<u64>,
    answer: &mut String,
) -> Result<(), Fail> {
    write!(answer, "{:?} {limit:?} ", request.version())?;
    put_bytes(answer, request.body().as_slice())
}
