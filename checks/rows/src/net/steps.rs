//! Values that are used step by step.

use std::alloc::Global;
use std::test::Fail;

/// What a step is done to.
pub trait Steps {
    /// Does the step of this word, with what stands behind its `:`, and adds what comes of it.
    fn step(
        &mut self,
        alloc: Global,
        word: &str,
        with: &str,
        answer: &mut String,
    ) -> Result<(), Fail>;
}

/// Does steps, parted by blanks, and adds what comes of each, parted by `, `.
pub fn all_steps<T: Steps>(
    alloc: Global,
    used: &mut T,
    steps: &str,
    answer: &mut String,
) -> Result<(), Fail> {
    for step in steps.split(' ') {
        part(answer)?;
        let (word, with) = step.split_once(':').unwrap_or((step, ""));
        used.step(alloc, word, with, answer)?;
    }
    Ok(())
}

/// Parts an answer from those before it, where there are any.
pub fn part(answer: &mut String) -> Result<(), Fail> {
    if answer.is_empty() {
        return Ok(());
    }
    Ok(answer.push_str(", ")?)
}
