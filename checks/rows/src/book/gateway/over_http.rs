//! One message in a request over HTTP (RFC 8484 4.1 and 4.2).

use crate::book::gateway::book::{PEER, book};
use crate::book::gateway::echo::Echo;
use crate::row::{bytes_of, first_field, numbers_of, put_bytes};
use bytes::Bytes;
use dns_io::Octets;
use dns_net::{MemoryBody, NetError, RequestContext, Version};
use dns_server_core::{AccessControl, RequestHandler};
use http::request::Parts;
use http::{HeaderValue, Method, Request, Response, Uri};
use std::alloc::Global;
use std::collections::LinkedList;
use std::test::Fail;

/// What comes of a request that a book settles: `VERSION|BYTES|FAILING CALLS|LENGTH|PATH`.
pub fn by_book(alloc: Global, fields: &str, answer: &mut String) -> Result<(), Fail> {
    let mut book = book(alloc)?;
    settle(alloc, &mut book, fields, answer)
}

/// What comes of a request whose message is given back, and what its handler saw.
pub fn by_echo(alloc: Global, fields: &str, answer: &mut String) -> Result<(), Fail> {
    let mut echo = Echo::new(alloc);
    settle(alloc, &mut echo, fields, answer)?;
    echo.tell(answer)
}

/// What comes of a GET that a book settles, whose body fails where it is read: `VERSION|TARGET`.
pub fn got_by_book(alloc: Global, fields: &str, answer: &mut String) -> Result<(), Fail> {
    let (version, target) = first_field(fields);
    let mut book = book(alloc)?;
    let version = version_of(version);
    let body = body_of(alloc, "6162", "1")?;
    let mut request = Request::from_parts(get(alloc, version, target)?, body);
    settle_request(alloc, &mut book, version, &mut request, answer)
}

/// The head of a GET of this target, with the Accept of messages and no Content-Type.
fn get(alloc: Global, version: Version, target: &str) -> Result<Parts, Fail> {
    let mut head = Parts::new(alloc);
    head.method = Method::GET;
    head.version = version.http();
    head.uri = Uri::from_str(alloc, target)?;
    let accept = HeaderValue::from_bytes(alloc, b"application/dns-message".as_slice())?;
    head.headers.insert(http::header::ACCEPT, accept)?;
    Ok(head)
}

/// A body of one piece of these bytes, with the numbers of its calls that fail.
fn body_of(alloc: Global, digits: &str, failing: &str) -> Result<MemoryBody, Fail> {
    let piece = Bytes::from_vec(bytes_of(alloc, digits)?)?;
    let mut pieces = LinkedList::new(alloc);
    pieces.push_back(piece)?;
    Ok(MemoryBody::new(pieces, numbers_of(alloc, failing)?))
}

/// The version of this name.
fn version_of(word: &str) -> Version {
    match word {
        "h3" => Version::Http3,
        _ => Version::Http2,
    }
}

/// The head of a request for ns.example.com, this path and a message of this length.
fn head_of(alloc: Global, version: Version, length: &str, path: &str) -> Result<Request<()>, Fail> {
    let server_name = String::from_str(alloc, "ns.example.com")?;
    let context = RequestContext {
        version,
        server_name,
        query_path: String::from_str(alloc, path)?,
        set_headers: None,
    };
    Ok(context.build(alloc, length.parse().unwrap_or(0))?)
}

/// A request with a body: `BYTES|FAILING CALLS|LENGTH|PATH`.
fn request_of(alloc: Global, version: Version, fields: &str) -> Result<Request<MemoryBody>, Fail> {
    let (digits, rest) = first_field(fields);
    let (failing, rest) = first_field(rest);
    let (length, path) = first_field(rest);
    let (head, ()) = head_of(alloc, version, length, path)?.into_parts();
    Ok(Request::from_parts(head, body_of(alloc, digits, failing)?))
}

/// Settles a POST to ns.example.com.
fn settle<T: RequestHandler>(
    alloc: Global,
    handler: &mut T,
    fields: &str,
    answer: &mut String,
) -> Result<(), Fail> {
    let (version, rest) = first_field(fields);
    let version = version_of(version);
    let mut request = request_of(alloc, version, rest)?;
    settle_request(alloc, handler, version, &mut request, answer)
}

/// Settles a request to ns.example.com at the moment 7.
fn settle_request<T: RequestHandler>(
    alloc: Global,
    handler: &mut T,
    version: Version,
    request: &mut Request<MemoryBody>,
    answer: &mut String,
) -> Result<(), Fail> {
    let access = AccessControl::new(alloc);
    let settled = dns_gateway::settle_http(
        alloc,
        handler,
        &access,
        version,
        Some("ns.example.com"),
        "/dns-query",
        request,
        PEER,
        7,
    );
    put_settled(settled, answer)
}

/// Adds the head of a response and its message, or that there is none, or why.
fn put_settled(
    settled: Result<Option<(Response<()>, Octets)>, NetError>,
    answer: &mut String,
) -> Result<(), Fail> {
    match settled {
        Ok(Some((response, reply))) => put_response(&response, reply.as_slice(), answer),
        Ok(None) => Ok(answer.push_str("no reply")?),
        Err(fault) => Ok(write!(answer, "{fault}")?),
    }
}

/// Adds the status of a response, what it says of its message, and the message.
fn put_response(response: &Response<()>, reply: &[u8], answer: &mut String) -> Result<(), Fail> {
    write!(answer, "{} ", response.status().as_u16())?;
    write!(
        answer,
        "{:?} ",
        response.headers().get(http::header::CONTENT_LENGTH)
    )?;
    write!(
        answer,
        "{:?} ",
        response.headers().get(http::header::CONTENT_TYPE)
    )?;
    put_bytes(answer, reply)
}
