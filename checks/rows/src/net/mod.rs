//! What goes over a network, by the libraries dns_runtime, dns_quic, dns_multicast and dns_net: rows `KIND|FIELD|..|WANTED`. What is wanted is
//! written down by hand from RFC 6762, RFC 8484, RFC 9110 and RFC 9250.

mod bodies;
mod clients;
mod halves;
mod header_objects;
mod http_clients;
mod multicast;
mod quic;
mod requests;
mod runtime;
mod steps;
mod words;

use std::alloc::Global;
use std::test::Fail;

/// What comes of a row, whose fields stand between `|`.
pub fn answer_to(alloc: Global, kind: &str, fields: &str) -> Result<String, Fail> {
    let mut answer = String::new(alloc);
    put_answer(alloc, kind, fields, &mut answer)?;
    Ok(answer)
}

fn put_answer(alloc: Global, kind: &str, fields: &str, answer: &mut String) -> Result<(), Fail> {
    match kind {
        "socket" => runtime::socket(alloc, fields, answer),
        "runtime" => runtime::runtime(alloc, answer),
        "part" => multicast::part(fields, answer),
        "group" => multicast::group(alloc, fields, answer),
        "group_client" => multicast::group_client(alloc, fields, answer),
        "code" => quic::code(fields, answer),
        "stream" => quic::stream(alloc, fields, answer),
        "halves" => quic::halves(alloc, fields, answer),
        "half_body" => quic::half_body(alloc, fields, answer),
        "message" => quic::message(alloc, fields, answer),
        "quic_client" => clients::quic_client(alloc, fields, answer),
        "accepted" => clients::accepted(alloc, fields, answer),
        "https_client" => http_clients::https_client(alloc, fields, answer),
        "h3_client" => http_clients::h3_client(alloc, fields, answer),
        "body" => bodies::body(alloc, fields, answer),
        "cut" => bodies::cut(alloc, fields, answer),
        "reply" => bodies::reply(alloc, fields, answer),
        "verify" => requests::verified(alloc, fields, answer),
        "take" => requests::taken(alloc, fields, answer),
        "get" => requests::got(alloc, fields, answer),
        "build" => requests::built(alloc, fields, answer),
        "let_in" => requests::let_in(alloc, fields, answer),
        "let_in_with_header" => requests::let_in_with_header(alloc, fields, answer),
        "post" => requests::posted(alloc, fields, answer),
        "response" => requests::responded(alloc, fields, answer),
        _ => Ok(answer.push_str("no such kind")?),
    }
}
