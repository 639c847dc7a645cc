//! A server of threads, with two seats.

use crate::row::two;
use crate::server::hubs::{failing_listener, failing_socket, listener, put_taken, socket};
use crate::server::zones::book;
use dns_book::AccessControl;
use dns_keeper::MemoryKeeper;
use dns_ports::{MemoryTcp, MemoryUdp, TcpPort};
use dns_server::{RegisterFault, ThreadServer};
use dns_transport::NetError;
use std::alloc::Global;
use std::sync::Wait;
use std::test::Fail;
use std::thread::Threads;

/// A server of sockets in memory and of these listeners.
pub type Server<T> = ThreadServer<MemoryKeeper, MemoryUdp, T>;

/// A server with two seats, over a zone of seven records.
pub fn server<T: TcpPort + Drop>(alloc: Global) -> Result<Server<T>, Fail> {
    let book = book(alloc)?;
    match ThreadServer::new(alloc, book, AccessControl::new(alloc), 2) {
        Ok(server) => Ok(server),
        Err(_) => Err(Fail::from("no server")),
    }
}

/// Registers a listener whose connections have no limit.
pub fn register<T: TcpPort + Drop>(server: &mut Server<T>, listener: T) -> Result<(), Fail> {
    match server.register_listener(listener, 0, 512) {
        Ok(()) => Ok(()),
        Err(_) => Err(Fail::from("no listener")),
    }
}

/// What a socket at which a message arrives, and a listener to which a connection brings one behind its length, are answered, each by a
/// worker of its own; there is no seat for a third. The token stops once, for all that hold it. `MESSAGE FRAME`
///
/// It is whether there is no seat, whether the workers end well, how many sockets and listeners there are, what these took, whether the
/// token has stopped, whether the server is shut down, and the length of the journal.
pub fn workers<R: Threads + Wait + Sync>(
    rt: &R,
    alloc: Global,
    given: &str,
) -> Result<String, Fail> {
    let mut server = server(alloc)?;
    let mut answers = String::new(alloc);
    put_worked(rt, alloc, &mut server, given, &mut answers)?;
    let length = server.into_book().journal_len();
    write!(answers, " / {length}")?;
    Ok(answers)
}

fn put_worked<R: Threads + Wait + Sync>(
    rt: &R,
    alloc: Global,
    server: &mut Server<MemoryTcp>,
    given: &str,
    answers: &mut String,
) -> Result<(), Fail> {
    let is_full = prepare(alloc, server, given)?;
    write!(answers, "{is_full} ")?;
    put_served(rt, alloc, server, answers)
}

/// Registers a socket and a listener; whether there is then no seat for a third.
fn prepare(alloc: Global, server: &mut Server<MemoryTcp>, given: &str) -> Result<bool, Fail> {
    let (message, frame) = two(given);
    if is_refused(server, socket(alloc, message)?) {
        return Err(Fail::from("no socket"));
    }
    register(server, listener(alloc, 9, frame)?)?;
    Ok(is_refused(server, socket(alloc, "")?))
}

/// Whether a socket is refused, since there is no seat for it.
fn is_refused(server: &mut Server<MemoryTcp>, socket: MemoryUdp) -> bool {
    match server.register_socket(socket) {
        Err(RegisterFault::Full(_)) => true,
        _ => false,
    }
}

fn put_served<R: Threads + Wait + Sync>(
    rt: &R,
    alloc: Global,
    server: &mut Server<MemoryTcp>,
    answers: &mut String,
) -> Result<(), Fail> {
    let is_served = server.block_until_done(rt).is_ok();
    write!(answers, "{is_served} / ")?;
    put_taken(alloc, &server.sockets(), &server.listeners(), 0, answers)?;
    let stops = stops(server)?;
    let is_shut_down = server.shutdown_gracefully(rt).is_ok();
    write!(answers, " / {stops} {is_shut_down}")?;
    Ok(())
}

/// How the worker of a socket ends at which two messages arrive and of which calls fail, and what the socket took:
/// `RECEIVES ANSWERS MESSAGE MESSAGE`.
pub fn failing_calls<R: Threads + Wait + Sync>(
    rt: &R,
    alloc: Global,
    given: &str,
) -> Result<String, Fail> {
    let mut server = server(alloc)?;
    if is_refused(&mut server, failing_socket(alloc, given)?) {
        return Err(Fail::from("no socket"));
    }
    ended(rt, alloc, &mut server)
}

/// The same of a listener to which two connections come: `ACCEPTS FRAME FRAME`.
pub fn failing_accepts<R: Threads + Wait + Sync>(
    rt: &R,
    alloc: Global,
    given: &str,
) -> Result<String, Fail> {
    let mut server = server(alloc)?;
    register(&mut server, failing_listener(alloc, given)?)?;
    ended(rt, alloc, &mut server)
}

/// How the workers ended, in words.
pub fn how_ended(alloc: Global, ended: Result<(), NetError>) -> Result<String, Fail> {
    match ended {
        Ok(()) => Ok("well".to_string(alloc)?),
        Err(fault) => Ok(format!(in alloc; "{fault}")?),
    }
}

fn ended<R: Threads + Wait + Sync>(
    rt: &R,
    alloc: Global,
    server: &mut Server<MemoryTcp>,
) -> Result<String, Fail> {
    let mut answers = how_ended(alloc, server.block_until_done(rt))?;
    answers.push_str(" / ")?;
    put_taken(
        alloc,
        &server.sockets(),
        &server.listeners(),
        0,
        &mut answers,
    )?;
    Ok(answers)
}

/// Stops a second token; whether the server's own is stopped then.
fn stops(server: &mut Server<MemoryTcp>) -> Result<bool, Fail> {
    let token = server.shutdown_token().again()?;
    token.stop();
    Ok(server.shutdown_token().is_stopped())
}
