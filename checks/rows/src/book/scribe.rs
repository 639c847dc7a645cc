//! A handler that gives each message back with the last digit of its moment, and leaves empty messages without a reply.

use dns_io::{Octets, OutOfMemory};
use dns_server_core::{AccessControl, Ask, ReplyBytes, RequestHandler, Settled};
use std::alloc::Global;

/// How many messages came.
#[derive(Drop)]
pub struct Scribe {
    pub messages: u64,
    pub alloc: Global,
}

impl RequestHandler for Scribe {
    ghost serves = { ? };

    ghost skips = { ? };

    ghost skips_same = { ? };

    fn handle_request(
        &mut self,
        _access: &AccessControl,
        ask: &Ask,
    ) -> Result<Settled, OutOfMemory> {
        self.messages = self.messages.saturating_add(1);
        Ok(Settled {
            reply: reply_to(self.alloc, ask.bytes.as_slice(), ask.at)?,
            length: 0,
            receipt: None,
        })
    }
}

/// The message with the last digit of its moment.
fn reply_to(alloc: Global, bytes: &[u8], at: u64) -> Result<Option<ReplyBytes>, OutOfMemory> {
    let len = bytes.len();
    if len == 0 || len > 100 {
        return Ok(None);
    }
    let mut reply = Octets::from_slice(alloc, bytes)?;
    reply.push(b'0' + (at % 10) as u8)?;
    Ok(Some(ReplyBytes::new(reply)?))
}
