//! How answers are written.

use dns_transport::NetError;
use std::fmt::{Debug, Display};
use std::test::Fail;

/// Adds a value, as it is debugged.
pub fn put<T: Debug + Drop>(answer: &mut String, value: T) -> Result<(), Fail> {
    Ok(write!(answer, "{value:?}")?)
}

/// Adds a value, as it is shown.
pub fn show<T: Display + Drop>(answer: &mut String, value: T) -> Result<(), Fail> {
    Ok(write!(answer, "{value}")?)
}

/// Adds a word where there is a value, or the fault.
pub fn say<T: Drop>(
    answer: &mut String,
    outcome: Result<T, NetError>,
    word: &str,
) -> Result<(), Fail> {
    match outcome {
        Ok(_) => Ok(answer.push_str(word)?),
        Err(fault) => show(answer, fault),
    }
}
