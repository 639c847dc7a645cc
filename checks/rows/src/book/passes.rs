//! Passes of a book that is shared.

use dns_keeper::MemoryKeeper;
use dns_ticket_lock::{Pass, TicketBook};

/// Takes the last of the passes that stand in the order of their numbers.
pub fn last_of(book: &TicketBook<MemoryKeeper>, passes: &mut Vec<Pass>) -> Option<Pass> {
    passes.pop()
}
