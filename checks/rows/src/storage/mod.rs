//! What is kept: configurations, zones in files, and journals.
//!
//! What is expected of configurations and files stands in docs/DECISIONS.md, "Behaviour", and docs/PROFILE.md, "The zone" and "The zone
//! text"; of journals it was written down by hand from what their calls promise. In texts the pictures of a line feed, a carriage
//! return and a tab stand for these.
//!
//! The kinds of rows stand in the order of `answer_of`, each told at its function. Blanks at the end of an answer count for nothing.

mod configurations;
mod journals;
mod stops;
mod words;
mod zone_files;

use crate::row::trimmed;
use std::alloc::Global;
use std::test::Fail;

/// What comes of a row.
pub fn answer_to(alloc: Global, kind: &str, given: &str) -> Result<String, Fail> {
    trimmed(alloc, answer_of(alloc, kind, given))
}

fn answer_of(alloc: Global, kind: &str, given: &str) -> Result<String, Fail> {
    match kind {
        "configuration" => configurations::configuration(alloc, given),
        "same_configuration" => configurations::same(alloc, given),
        "made_configuration" => configurations::made(alloc, given),
        "path" => configurations::path(alloc, given),
        "same_path" => configurations::same_path(alloc, given),
        "reads" => zone_files::reads(alloc, given),
        "loads" => zone_files::loads(alloc, given),
        "answer" => zone_files::answer(alloc, given),
        "handed_in" => zone_files::handed_in(alloc, given),
        "handed_in_answer" => zone_files::handed_in_answer(alloc, given),
        "replaced" => zone_files::replaced(alloc, given),
        "no_memory" => zone_files::no_memory(alloc),
        "journal" => journals::journal(alloc, given),
        "refusal" => journals::refusal(alloc, given),
        "stops" => stops::stops(alloc),
        _ => Ok("no such kind".to_string(alloc)?),
    }
}
