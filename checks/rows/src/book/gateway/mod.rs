//! One request end to end: by a connection, a stream of QUIC, and HTTP.

mod book;
mod echo;
mod over_http;
mod over_quic;
mod over_tcp;

use std::alloc::Global;
use std::test::Fail;

/// What comes of a row, whose fields stand between `|`.
pub fn answer_to(alloc: Global, kind: &str, fields: &str) -> Result<String, Fail> {
    let mut answer = String::new(alloc);
    put_answer(alloc, kind, fields, &mut answer)?;
    Ok(answer)
}

fn put_answer(alloc: Global, kind: &str, fields: &str, answer: &mut String) -> Result<(), Fail> {
    match kind {
        "tcp" => over_tcp::served(alloc, fields, answer),
        "quic_book" => over_quic::by_book(alloc, fields, answer),
        "quic_echo" => over_quic::by_echo(alloc, fields, answer),
        "http_book" => over_http::by_book(alloc, fields, answer),
        "http_echo" => over_http::by_echo(alloc, fields, answer),
        "http_get" => over_http::got_by_book(alloc, fields, answer),
        _ => Ok(answer.push_str("no such kind")?),
    }
}
