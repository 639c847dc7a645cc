//! A handler that gives each message back, and leaves empty messages without a reply.

use dns_io::{Octets, OutOfMemory};
use dns_server_core::{
    AccessControl, Ask, LentAsk, ReplyBytes, RequestHandler, Settled, SettledInto, bytes_of,
};
use dns_wire::Protocol;
use std::alloc::Global;
use std::test::Fail;

/// How many messages came, and by which protocol and for which client the last one.
#[derive(Drop)]
pub(crate) struct Echo {
    pub(crate) messages: u64,
    pub(crate) protocol: Option<Protocol>,
    pub(crate) client: u32,
    alloc: Global,
}

impl Echo {
    pub(crate) fn new(alloc: Global) -> Echo {
        Echo {
            messages: 0,
            protocol: None,
            client: 9,
            alloc,
        }
    }

    /// Counts a message, and gives it back.
    fn settled(&mut self, ask: &LentAsk<'_>) -> Result<Settled, OutOfMemory> {
        self.messages = self.messages.saturating_add(1);
        self.protocol = Some(ask.protocol);
        self.client = ask.client;
        Ok(Settled {
            reply: reply_to(self.alloc, bytes_of(ask))?,
            length: 0,
            receipt: None,
        })
    }

    /// Adds how many messages came, by which protocol, and for which client.
    pub(crate) fn tell(&self, answer: &mut String) -> Result<(), Fail> {
        Ok(write!(
            answer,
            " {} {:?} {}",
            self.messages, self.protocol, self.client
        )?)
    }
}

impl RequestHandler for Echo {
    ghost serves = { ? };

    ghost skips = { ? };

    ghost skips_same = { ? };

    fn handle_request(
        &mut self,
        _access: &AccessControl,
        ask: &Ask,
    ) -> Result<Settled, OutOfMemory> {
        self.settled(&ask.lent())
    }

    fn handle_into(
        &mut self,
        _access: &AccessControl,
        ask: &LentAsk<'_>,
        out: &mut Vec<u8>,
        is_framed: bool,
    ) -> Result<SettledInto, OutOfMemory> {
        self.settled(ask)?.add_to(out, is_framed)
    }
}

/// The message itself.
fn reply_to(alloc: Global, bytes: &[u8]) -> Result<Option<ReplyBytes>, OutOfMemory> {
    if bytes.len() == 0 {
        return Ok(None);
    }
    Ok(Some(ReplyBytes::new(Octets::from_slice(alloc, bytes)?)?))
}
