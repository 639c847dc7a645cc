//! The commands over a list of events, audits, and feeds with their followers, on journals that are not in a file; and the scripts of the update
//! client, the messages that they mean, and their exchange with a server.

mod audits;
mod follows;
mod journals;
mod keepers;
mod runs;
mod stops;
mod updates;

use std::alloc::Global;
use std::test::Fail;

/// What comes of a row.
pub fn answer_to(alloc: Global, kind: &str, given: &str) -> Result<String, Fail> {
    match kind {
        "journal" => journals::journal(alloc, given),
        "stops" => stops::stops(alloc, given),
        "rows" => keepers::rows(alloc, given),
        "parts" => keepers::parts(alloc, given),
        "audit" => audits::audit_journal(alloc, given),
        "audit_rows" => audits::audit_rows(alloc, given),
        "audit_parts" => audits::audit_parts(alloc, given),
        "applied" => audits::applied(alloc, given),
        "printed" => audits::printed(alloc, given),
        "fed" => follows::fed(alloc, given),
        "follow" => follows::follow_journal(alloc, given),
        "follow_parts" => follows::follow_parts(alloc, given),
        "take" => follows::take(alloc, given),
        "turns" => follows::turns(alloc, given),
        "long" => follows::long(alloc, given),
        "entry" => updates::entry(alloc, given),
        "script" => updates::script(alloc, given),
        "messages" => updates::messages(alloc, given),
        "submit" => updates::submitted(alloc, given),
        "wanted" => updates::wanted(alloc, given),
        "large" => updates::large(alloc, given),
        "client" => updates::client(alloc, given),
        "wanting_client" => updates::wanting_client(alloc, given),
        _ => Ok("no such kind".to_string(alloc)?),
    }
}
