//! Names (RFC 1035 3.1, 4.1.4 and 5.1).

use crate::row::{bytes_of, hex_of, size, two};
use dns_name::Name;
use std::alloc::Global;
use std::test::Fail;

/// The bytes of the name of a text, or why there is none.
pub fn name(alloc: Global, given: &str) -> Result<String, Fail> {
    match Name::parse(alloc, given) {
        Ok(name) => spelled(alloc, &name),
        Err(fault) => Ok(format!(in alloc; "{fault:?}")?),
    }
}

/// The bytes of a name in a message.
fn spelled(alloc: Global, name: &Name) -> Result<String, Fail> {
    let mut bytes = Vec::new(alloc);
    name.write(&mut bytes)?;
    hex_of(alloc, bytes.as_slice())
}

/// The length and the number of labels of a name with labels of so many letters, and the number of its bytes in a message; or why
/// there is none.
pub fn labels(alloc: Global, given: &str) -> Result<String, Fail> {
    let mut text = Vec::new(alloc);
    for word in given.split(' ') {
        put_label(&mut text, size(word))?;
    }
    match Name::parse_bytes(alloc, text.as_slice()) {
        Ok(name) => sizes(alloc, &name),
        Err(fault) => Ok(format!(in alloc; "{fault:?}")?),
    }
}

fn sizes(alloc: Global, name: &Name) -> Result<String, Fail> {
    let mut bytes = Vec::new(alloc);
    name.write(&mut bytes)?;
    Ok(format!(in alloc; "{} {} {}", name.len(), name.label_count(), bytes.len())?)
}

fn put_label(text: &mut Vec<u8>, len: usize) -> Result<(), Fail> {
    if text.len() > 0 {
        text.push(b'.')?;
    }
    for _ in 0..len {
        text.push(b'a')?;
    }
    Ok(())
}

/// Whether two names are the same, and whether the first is at or below the second.
pub fn compared(alloc: Global, given: &str) -> Result<String, Fail> {
    let (one, other) = two(given);
    let one = Name::parse(alloc, one)?;
    let other = Name::parse(alloc, other)?;
    told(alloc, &one, &other)
}

fn told(alloc: Global, one: &Name, other: &Name) -> Result<String, Fail> {
    let folded = are_folded_alike(alloc, one, other)?;
    Ok(format!(in alloc; "{} {} {folded}", one.same(other), one.at_or_below(other))?)
}

fn are_folded_alike(alloc: Global, one: &Name, other: &Name) -> Result<bool, Fail> {
    let folded = one.folded(alloc)?;
    Ok(folded == other.folded(alloc)?)
}

/// The name that stands at a place of the bytes, and the place behind it.
pub fn name_at(alloc: Global, given: &str) -> Result<String, Fail> {
    let (place, digits) = two(given);
    let bytes = bytes_of(alloc, digits)?;
    match Name::read(alloc, bytes.as_slice(), size(place))? {
        Some((name, end)) => name_text(alloc, &name, end),
        None => Ok("none".to_string(alloc)?),
    }
}

fn name_text(alloc: Global, name: &Name, end: usize) -> Result<String, Fail> {
    let digits = spelled(alloc, name)?;
    Ok(format!(in alloc; "{end} {digits}")?)
}

/// The number of labels of a name; whether it is the same when its labels are put together again, and when it is copied.
pub fn apart(alloc: Global, given: &str) -> Result<String, Fail> {
    let name = Name::parse(alloc, given)?;
    let mut again = Name::root(alloc);
    for label in name.labels() {
        put(&mut again, label)?;
    }
    copied(alloc, &name, &again)
}

fn put(name: &mut Name, label: &[u8]) -> Result<(), Fail> {
    if label.is_empty() || label.len() > 63 || name.len() + label.len() > 254 {
        return Err(Fail::from("no label"));
    }
    name.push(label)?;
    Ok(())
}

fn copied(alloc: Global, name: &Name, again: &Name) -> Result<String, Fail> {
    let copy = name.copy()?;
    Ok(format!(in alloc;
        "{} {} {}",
        name.label_count(),
        *again == *name,
        copy == *name
    )?)
}
