//! A clock whose readings are of 32 bits.

use crate::row::numbers_of;
use dns_edges::Clock;
use std::alloc::Global;
use std::test::Fail;

/// These readings in turn, then the last one again.
#[derive(Drop)]
pub struct Readings {
    readings: Vec<u64>,
    place: usize,
    last: u32,
}

impl Readings {
    /// The readings with commas between them.
    pub fn of(alloc: Global, words: &str) -> Result<Readings, Fail> {
        Ok(Readings {
            readings: numbers_of(alloc, words)?,
            place: 0,
            last: 0,
        })
    }
}

impl Clock for Readings {
    ghost clock = { ? };

    fn now(&mut self) -> u64 {
        if let Some(&reading) = self.readings.get(self.place) {
            self.place = self.place.saturating_add(1);
            self.last = reading.min(4_294_967_295) as u32;
        }
        u64::from(self.last)
    }
}
