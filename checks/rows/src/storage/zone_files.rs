//! Zones that are read from the file that a configuration names, and files in memory. A list of files has a `,` between them, and each
//! has its path, a `=` and its text.
//!
//! A file is found by its path alone, compared byte by byte; of two files with one path the first. The path is that of the configuration where
//! this begins with a slash or there is no folder; else the folder, a slash unless the folder is empty or ends with one, and the path of
//! the configuration. The faults come in the order of the work: a read that fails, a file that is not there, the text (docs/DECISIONS.md,
//! "Behaviour"; docs/PROFILE.md, "The zone text").

use crate::row::hex_of;
use crate::storage::configurations::path_of;
use crate::storage::words::{parted_at, text_of};
use dns_configuration::{
    AxfrPolicy, FileConfig, FileZoneHandler, Files, LoadFault, MemoryFiles, PathText, ZoneType,
};
use dns_io::Octets;
use dns_keeper::KeepFault;
use dns_name::Name;
use dns_wire::{Question, Record};
use dns_zone::{Looked, Zone, read_zone};
use std::alloc::Global;
use std::test::Fail;

/// The files of a list, of whose reads those with these numbers fail.
fn files_of(alloc: Global, failing: &str, list: &str) -> Result<MemoryFiles, Fail> {
    let reads = numbers(alloc, failing)?;
    Ok(MemoryFiles::new(alloc, listed(alloc, list)?, reads))
}

fn numbers(alloc: Global, words: &str) -> Result<Vec<u64>, Fail> {
    let mut numbers = Vec::new(alloc);
    for word in words.split_whitespace() {
        numbers.push(word.parse().unwrap_or(0))?;
    }
    Ok(numbers)
}

fn listed(alloc: Global, list: &str) -> Result<Vec<(PathText, Octets)>, Fail> {
    let mut files = Vec::new(alloc);
    if !list.is_empty() {
        for file in list.split(',') {
            files.push(file_of(alloc, file)?)?;
        }
    }
    Ok(files)
}

fn file_of(alloc: Global, file: &str) -> Result<(PathText, Octets), Fail> {
    let (at, given) = parted_at(file, "=");
    let text = Octets::from_vec(text_of(alloc, given)?.into_bytes());
    Ok((path_of(alloc, at)?, text))
}

/// What reads find in files, each answer with a `,` behind it: given are the numbers of the reads that fail, the paths with a `,`
/// between them, and the files, with a `;` between the three.
pub fn reads(alloc: Global, given: &str) -> Result<String, Fail> {
    let (failing, given) = parted_at(given, ";");
    let (paths, list) = parted_at(given, ";");
    let mut files = files_of(alloc, failing, list)?;
    let mut told = String::new(alloc);
    for at in paths.split(',') {
        tell_read(alloc, files.read_file(at), &mut told)?;
    }
    Ok(told)
}

fn tell_read(
    alloc: Global,
    found: Result<Option<Octets>, KeepFault>,
    told: &mut String,
) -> Result<(), Fail> {
    match found {
        Ok(Some(text)) => put_text(alloc, text.as_slice(), told),
        Ok(None) => Ok(told.push_str("none,")?),
        Err(fault) => Ok(write!(told, "{fault:?},")?),
    }
}

fn put_text(alloc: Global, text: &[u8], told: &mut String) -> Result<(), Fail> {
    let text = String::from_utf8_lossy(alloc, text)?;
    Ok(write!(told, "={text},")?)
}

/// What comes of configurations one after the other, each answer with a `,` behind it: given are the type and the policy of the
/// zone, the numbers of the reads that fail, the folder or a `-`, the paths of the configurations with a `,` between them, and the
/// files, with a `;` between the five.
pub fn loads(alloc: Global, given: &str) -> Result<String, Fail> {
    let (how, given) = parted_at(given, ";");
    let (failing, given) = parted_at(given, ";");
    let (root, given) = parted_at(given, ";");
    let (paths, list) = parted_at(given, ";");
    let mut files = files_of(alloc, failing, list)?;
    let mut told = String::new(alloc);
    for path in paths.split(',') {
        tell_load(alloc, loaded(alloc, how, root, path, &mut files), &mut told)?;
    }
    Ok(told)
}

/// The zone that comes of the path of a configuration.
fn loaded<F: Files>(
    alloc: Global,
    how: &str,
    root: &str,
    path: &str,
    files: &mut F,
) -> Result<FileZoneHandler, LoadFault> {
    let Ok(origin) = Name::parse(alloc, "Example.COM.") else {
        return Err(LoadFault::OutOfMemory);
    };
    let Ok(path) = String::from_str(alloc, path) else {
        return Err(LoadFault::OutOfMemory);
    };
    let root = if root == "-" { None } else { Some(root) };
    let config = FileConfig {
        zone_path: PathText::new(path),
    };
    FileZoneHandler::try_from_config(
        alloc,
        origin,
        type_of(how),
        policy_of(how),
        root,
        &config,
        files,
    )
}

fn type_of(how: &str) -> ZoneType {
    match parted_at(how, " ").0 {
        "Primary" => ZoneType::Primary,
        "Secondary" => ZoneType::Secondary,
        _ => ZoneType::External,
    }
}

fn policy_of(how: &str) -> AxfrPolicy {
    match parted_at(how, " ").1 {
        "Deny" => AxfrPolicy::Deny,
        "AllowAll" => AxfrPolicy::AllowAll,
        _ => AxfrPolicy::AllowSigned,
    }
}

fn tell_load(
    alloc: Global,
    loaded: Result<FileZoneHandler, LoadFault>,
    told: &mut String,
) -> Result<(), Fail> {
    match loaded {
        Ok(handler) => put_handler(alloc, &handler, told),
        Err(fault) => Ok(write!(told, "{fault:?},")?),
    }
}

/// Adds the labels of a zone's origin, its serial, the number of its records, its type and its policy.
fn put_handler(alloc: Global, handler: &FileZoneHandler, told: &mut String) -> Result<(), Fail> {
    let origin = hex_of(alloc, handler.origin().as_wire())?;
    let zone = handler.in_memory();
    write!(told, "{origin} {} {} ", zone.serial(), zone.len())?;
    write!(
        told,
        "{:?} {:?},",
        handler.zone_type(),
        handler.axfr_policy()
    )?;
    Ok(())
}

/// What a zone of a file answers for www.example.com. A.
pub fn answer(alloc: Global, list: &str) -> Result<String, Fail> {
    let mut files = files_of(alloc, "", list)?;
    let handler = loaded(alloc, "Primary Deny", "r", "z", &mut files)?;
    looked(alloc, handler.in_memory())
}

fn looked(alloc: Global, zone: &Zone) -> Result<String, Fail> {
    let question = Question {
        name: Name::parse(alloc, "www.example.com.")?,
        qtype: 1,
        qclass: 1,
    };
    if !question.name.at_or_below(zone.origin()) {
        return Ok("outside".to_string(alloc)?);
    }
    let looked = zone.lookup(alloc, &question)?;
    looked_text(alloc, &looked)
}

/// The response code, AA, the number of records in the authority section, and the answers.
fn looked_text(alloc: Global, looked: &Looked) -> Result<String, Fail> {
    let mut told = format!(in alloc; "{} {} {}", looked.code, looked.aa, looked.authority.len())?;
    for record in looked.answers.as_slice() {
        put_record(alloc, record, &mut told)?;
    }
    Ok(told)
}

fn put_record(alloc: Global, record: &Record, told: &mut String) -> Result<(), Fail> {
    let bytes = record.to_vec(alloc)?;
    let digits = hex_of(alloc, bytes.as_slice())?;
    Ok(write!(told, " {digits} {:?}", record.rdata)?)
}

/// What a zone is held with that was handed in: given are its origin and its text, with a `;` between them.
pub fn handed_in(alloc: Global, given: &str) -> Result<String, Fail> {
    let handler = FileZoneHandler::new(handed(alloc, given)?);
    held(alloc, &handler)
}

/// What it answers for www.example.com. A.
pub fn handed_in_answer(alloc: Global, given: &str) -> Result<String, Fail> {
    let handler = FileZoneHandler::new(handed(alloc, given)?);
    looked(alloc, handler.in_memory())
}

fn handed(alloc: Global, given: &str) -> Result<Zone, Fail> {
    let (origin, text) = parted_at(given, ";");
    zone_of(alloc, origin, text)
}

fn held(alloc: Global, handler: &FileZoneHandler) -> Result<String, Fail> {
    let mut told = String::new(alloc);
    put_handler(alloc, handler, &mut told)?;
    Ok(told)
}

/// The zone of a text, with this origin.
fn zone_of(alloc: Global, origin: &str, given: &str) -> Result<Zone, Fail> {
    let origin = Name::parse(alloc, origin)?;
    let text = text_of(alloc, given)?;
    Ok(read_zone(alloc, text.as_bytes(), &origin)?)
}

/// The serial of a zone that is held, and with what another is held that takes its place: given are the type and the policy, the
/// files, and the other zone's origin and text, with a `;` between the four.
pub fn replaced(alloc: Global, given: &str) -> Result<String, Fail> {
    let (how, given) = parted_at(given, ";");
    let (list, given) = parted_at(given, ";");
    let mut files = files_of(alloc, "", list)?;
    let mut handler = loaded(alloc, how, "r", "z", &mut files)?;
    let serial = handler.in_memory_mut().serial();
    *handler.in_memory_mut() = handed(alloc, given)?;
    replaced_text(alloc, serial, &handler)
}

fn replaced_text(alloc: Global, serial: u32, handler: &FileZoneHandler) -> Result<String, Fail> {
    let held = held(alloc, handler)?;
    Ok(format!(in alloc; "{serial},{held}")?)
}

/// Files for which there is never memory.
#[derive(Drop)]
struct NoMemory {}

impl Files for NoMemory {
    ghost files = { ? };

    ghost faults = { ? };

    fn read_file(&mut self, _path: &str) -> Result<Option<Octets>, KeepFault> {
        Err(KeepFault::OutOfMemory)
    }
}

/// Why no zone comes of files for which there is no memory.
pub fn no_memory(alloc: Global) -> Result<String, Fail> {
    let mut told = String::new(alloc);
    tell_load(
        alloc,
        loaded(alloc, "Primary Deny", "-", "z", &mut NoMemory {}),
        &mut told,
    )?;
    Ok(told)
}
