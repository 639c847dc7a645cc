//! Which requests are let in, what their message is, and how they are built (RFC 8484, RFC 9110).

use crate::net::bodies::body_of;
use crate::net::header_objects::TestHeader;
use crate::net::quic::put_taken;
use crate::net::steps::all_steps;
use crate::net::words::{put, say, show};
use crate::row::{first_field, size};
use dns_net::{MemoryBody, RequestContext, SetHeaders, Version, message_from, response, verify};
use http::request::Parts;
use http::{HeaderMap, HeaderName, HeaderValue, Method, Request, Response, Uri};
use std::alloc::Global;
use std::test::Fail;

/// Puts a header field, where its value is not `-`.
pub fn put_field(
    alloc: Global,
    headers: &mut HeaderMap<HeaderValue>,
    name: HeaderName,
    value: &str,
) -> Result<(), Fail> {
    if value != "-" {
        headers.insert(name, HeaderValue::from_bytes(alloc, value.as_bytes())?)?;
    }
    Ok(())
}

/// The version of this name.
pub fn version_of(word: &str) -> Version {
    match word {
        "h3" => Version::Http3,
        _ => Version::Http2,
    }
}

/// A host to ask for, where one is given.
fn host_of(word: &str) -> Option<&str> {
    match word {
        "-" => None,
        host => Some(host),
    }
}

/// The head of a POST by HTTP/2: `TARGET|CONTENT-TYPE|ACCEPT`.
fn post(alloc: Global, fields: &str) -> Result<Parts, Fail> {
    let (target, rest) = first_field(fields);
    let (kind, accept) = first_field(rest);
    let mut head = Parts::new(alloc);
    head.method = Method::POST;
    head.version = http::Version::HTTP_2;
    head.uri = Uri::from_str(alloc, target)?;
    put_field(alloc, &mut head.headers, http::header::CONTENT_TYPE, kind)?;
    put_field(alloc, &mut head.headers, http::header::ACCEPT, accept)?;
    Ok(head)
}

/// Whether a request is let in: `VERSION|HOST|TARGET|CONTENT-TYPE|ACCEPT`.
pub fn verified(alloc: Global, fields: &str, answer: &mut String) -> Result<(), Fail> {
    let (version, rest) = first_field(fields);
    let (host, rest) = first_field(rest);
    let request = Request::from_parts(post(alloc, rest)?, ());
    let verdict = verify(version_of(version), host_of(host), "/dns-query", &request);
    say(answer, verdict, "let in")
}

/// The head of a request by this method to the usual target with this Content-Length.
fn asked(alloc: Global, method: &str, length: &str) -> Result<Parts, Fail> {
    let mut head = post(
        alloc,
        "https://ns.example.com/dns-query|application/dns-message|application/dns-message",
    )?;
    match method {
        "GET" => head.method = Method::GET,
        "PUT" => head.method = Method::PUT,
        _ => {}
    }
    put_field(
        alloc,
        &mut head.headers,
        http::header::CONTENT_LENGTH,
        length,
    )?;
    Ok(head)
}

/// What comes of a request, and of its body then: `METHOD|CONTENT-LENGTH|LENGTHS OF PIECES|STEPS`.
pub fn taken(alloc: Global, fields: &str, answer: &mut String) -> Result<(), Fail> {
    let (method, rest) = first_field(fields);
    let (length, rest) = first_field(rest);
    let (lengths, steps) = first_field(rest);
    let body = body_of(alloc, lengths, "")?;
    let mut request = Request::from_parts(asked(alloc, method, length)?, body);
    take(alloc, &mut request, answer)?;
    all_steps(alloc, request.body_mut(), steps, answer)
}

fn take(alloc: Global, request: &mut Request<MemoryBody>, answer: &mut String) -> Result<(), Fail> {
    let message = message_from(alloc, Version::Http2, None, "/dns-query", request);
    say(answer, message, "taken")
}

/// The message of a GET whose body has five bytes, and what comes of that body then: `TARGET|CONTENT-LENGTH|STEPS`.
pub fn got(alloc: Global, fields: &str, answer: &mut String) -> Result<(), Fail> {
    let (target, rest) = first_field(fields);
    let (length, steps) = first_field(rest);
    let mut head = asked(alloc, "GET", length)?;
    head.uri = Uri::from_str(alloc, target)?;
    head.headers.remove(http::header::CONTENT_TYPE);
    let mut request = Request::from_parts(head, body_of(alloc, "5", "")?);
    let message = message_from(alloc, Version::Http2, None, "/dns-query", &mut request);
    put_taken(message, answer)?;
    all_steps(alloc, request.body_mut(), steps, answer)
}

/// What the requests of a client have in common: `VERSION|NAME|PATH`.
pub fn context_of(alloc: Global, fields: &str) -> Result<RequestContext, Fail> {
    let (version, rest) = first_field(fields);
    let (name, path) = first_field(rest);
    let server_name = String::from_str(alloc, name)?;
    Ok(RequestContext {
        version: version_of(version),
        server_name,
        query_path: String::from_str(alloc, path)?,
        set_headers: None,
    })
}

/// Whether a request is built.
pub fn built(alloc: Global, fields: &str, answer: &mut String) -> Result<(), Fail> {
    let context = context_of(alloc, fields)?;
    say(answer, context.build(alloc, 512), "built")
}

/// Whether a built request is let in: `VERSION|NAME|PATH`.
pub fn let_in(alloc: Global, fields: &str, answer: &mut String) -> Result<(), Fail> {
    let context = context_of(alloc, fields)?;
    match context.build(alloc, 512) {
        Ok(request) => put_verdict(context.version, &request, answer),
        Err(fault) => show(answer, fault),
    }
}

/// The same where an object sets a header field.
pub fn let_in_with_header(alloc: Global, fields: &str, answer: &mut String) -> Result<(), Fail> {
    let object: Box<dyn SetHeaders> = Box::new(alloc, TestHeader)?;
    let mut context = context_of(alloc, fields)?;
    context.set_headers = Some(object);
    match context.build(alloc, 512) {
        Ok(request) => put_verdict(context.version, &request, answer),
        Err(fault) => show(answer, fault),
    }
}

/// Adds whether a request is let in, and the value of the header field that an object may set.
fn put_verdict(version: Version, request: &Request<()>, answer: &mut String) -> Result<(), Fail> {
    let verdict = verify(version, Some("ns.example.com"), "/dns-query", request);
    say(answer, verdict, "let in ")?;
    put(answer, request.headers().get("test-header"))
}

/// The message of a request that is built for one of so many bytes, with a body of pieces of these lengths.
pub fn posted(alloc: Global, fields: &str, answer: &mut String) -> Result<(), Fail> {
    let (count, lengths) = first_field(fields);
    let context = context_of(alloc, "h2|ns.example.com|/dns-query")?;
    let (head, ()) = context.build(alloc, size(count))?.into_parts();
    let mut request = Request::from_parts(head, body_of(alloc, lengths, "")?);
    let message = message_from(
        alloc,
        Version::Http2,
        Some("ns.example.com"),
        "/dns-query",
        &mut request,
    );
    put_taken(message, answer)
}

/// The head of a response with a message of so many bytes.
pub fn responded(alloc: Global, fields: &str, answer: &mut String) -> Result<(), Fail> {
    let (version, count) = first_field(fields);
    match response(alloc, version_of(version), size(count)) {
        Ok(response) => put_head(&response, answer),
        Err(fault) => put(answer, fault),
    }
}

pub fn put_head(response: &Response<()>, answer: &mut String) -> Result<(), Fail> {
    write!(
        answer,
        "{} {:?} ",
        response.status().as_u16(),
        response.version()
    )?;
    put(answer, response.headers().get(http::header::CONTENT_LENGTH))?;
    put(answer, response.headers().get(http::header::CONTENT_TYPE))
}
