//! The text of a configuration: a document of TOML 1.0 with the one key `zone_path`, whose value is a text. Configurations are
//! equal where their paths are, byte by byte, however they are written. The path is the value as TOML reads it. A key is compared byte
//! by byte, and only at the top of the text; of two faults the first in the order of `ConfigFault` is told (docs/DECISIONS.md,
//! "Behaviour").

use crate::storage::words::{parted_at, text_of};
use dns_configuration::{FileConfig, PathText};
use std::alloc::Global;
use std::test::Fail;

/// The path that a text names, or why it is refused.
pub fn configuration(alloc: Global, given: &str) -> Result<String, Fail> {
    let text = text_of(alloc, given)?;
    match FileConfig::read(alloc, text.as_str()) {
        Ok(config) => Ok(format!(in alloc; "path {}", config.zone_path.as_str())?),
        Err(fault) => Ok(format!(in alloc; "{fault:?}")?),
    }
}

/// Whether the texts about a ` & ` are one configuration.
pub fn same(alloc: Global, given: &str) -> Result<String, Fail> {
    let (text, other) = parted_at(given, " & ");
    let config = FileConfig::read(alloc, text)?;
    let second = FileConfig::read(alloc, other)?;
    Ok((config == second).to_string(alloc)?)
}

/// Whether the path in front of a ` & ` makes the configuration that the text behind it is.
pub fn made(alloc: Global, given: &str) -> Result<String, Fail> {
    let (path, text) = parted_at(given, " & ");
    let made = FileConfig {
        zone_path: path_of(alloc, path)?,
    };
    let read = FileConfig::read(alloc, text)?;
    Ok((read == made).to_string(alloc)?)
}

/// The path that a text is.
pub fn path_of(alloc: Global, text: &str) -> Result<PathText, Fail> {
    Ok(PathText::new(String::from_str(alloc, text)?))
}

/// The text that a path keeps, lent and given back.
pub fn path(alloc: Global, text: &str) -> Result<String, Fail> {
    let lent = path_of(alloc, text)?;
    let kept = path_of(alloc, text)?.into_string();
    Ok(format!(in alloc; "{} {kept}", lent.as_str())?)
}

/// Whether the texts about a blank are one path.
pub fn same_path(alloc: Global, given: &str) -> Result<String, Fail> {
    let (text, other) = parted_at(given, " ");
    let (path, second) = (path_of(alloc, text)?, path_of(alloc, other)?);
    Ok((path == second).to_string(alloc)?)
}
