//! Sources, sinks and clocks: over std's readers and writers, which are interrupted and fail, and in memory.

use crate::row::{size, two};
use dns_edges::{
    Clock, FileSource, MemoryClock, MemorySink, MemorySource, Reading, Sink, Source, SystemClock,
    Writing, read_to_end, write_all,
};
use dns_io::Octets;
use std::alloc::Global;
use std::cell::Cell;
use std::io::{self, ErrorKind, Read, Write};
use std::rt;
use std::test::Fail;
use std::time::Duration;

/// A reader and a writer whose first call is interrupted, whose third fails, and whose fourth finds no memory.
#[derive(Drop)]
struct Faulty {
    calls: u8,
}

impl Faulty {
    fn call(&mut self) -> io::Result<()> {
        self.calls = self.calls.saturating_add(1);
        match self.calls {
            1 => Err(ErrorKind::Interrupted.into()),
            3 => Err(ErrorKind::BrokenPipe.into()),
            4 => Err(ErrorKind::OutOfMemory.into()),
            _ => Ok(()),
        }
    }
}

impl Read for Faulty {
    fn read(&mut self, room: &mut [u8]) -> io::Result<usize> {
        self.call()?;
        Ok(room.len())
    }
}

impl Write for Faulty {
    fn write(&mut self, bytes: &[u8]) -> io::Result<usize> {
        self.call()?;
        Ok(bytes.len())
    }

    fn flush(&mut self) -> io::Result<()> {
        self.call()
    }
}

/// What four reads of a faulty reader give.
pub fn faulty_reads(alloc: Global) -> Result<String, Fail> {
    let mut source = Reading::new(Faulty { calls: 0 });
    let mut room = [0; 2];
    let answers = [
        source.read(&mut room),
        source.read(&mut room),
        source.read(&mut room),
        source.read(&mut room),
    ];
    Ok(format!(in alloc; "{answers:?}")?)
}

/// What four writes to a faulty writer give.
pub fn faulty_writes(alloc: Global) -> Result<String, Fail> {
    let mut sink = Writing::new(Faulty { calls: 0 });
    let answers = [
        sink.write(b"01"),
        sink.write(b"01"),
        sink.write(b"01"),
        sink.write(b"01"),
    ];
    Ok(format!(in alloc; "{answers:?}")?)
}

/// Whether four flushes of a faulty writer pass.
pub fn faulty_flushes(alloc: Global) -> Result<String, Fail> {
    let mut sink = Writing::new(Faulty { calls: 0 });
    let passes = [
        sink.flush().is_ok(),
        sink.flush().is_ok(),
        sink.flush().is_ok(),
        sink.flush().is_ok(),
    ];
    Ok(format!(in alloc; "{passes:?}")?)
}

/// What three reads of a file with this text give, in a room of four bytes, and what stands there then.
pub fn file(alloc: Global, text: &str) -> Result<String, Fail> {
    let mut room = [0; 4];
    let mut opened = FileSource::new(Some(Ok(text.as_bytes())));
    let answers = [
        opened.read(&mut room),
        opened.read(&mut room),
        opened.read(&mut room),
    ];
    Ok(format!(in alloc; "{answers:?} {room:?}")?)
}

/// What a read of a file gives that could not be opened.
pub fn missing_file(alloc: Global) -> Result<String, Fail> {
    let missing = Err(ErrorKind::NotFound.into());
    let mut refused: FileSource<&[u8]> = FileSource::new(Some(missing));
    let answer = refused.read(&mut [0; 4]);
    Ok(format!(in alloc; "{answer:?}")?)
}

/// What comes of writing all to a growing writer, and which bytes it takes.
pub fn write(alloc: Global, text: &str) -> Result<String, Fail> {
    let mut taken = Vec::new(alloc);
    let answer = write_all(&mut Writing::new(&mut taken), text.as_bytes());
    Ok(format!(in alloc; "{answer:?} {taken:?}")?)
}

/// What comes of writing all to a slice of two bytes, which takes nothing when it is full, and which bytes it takes.
pub fn write_to_slice(alloc: Global, text: &str) -> Result<String, Fail> {
    let mut room = [0; 2];
    let answer = write_all(&mut Writing::new(room.as_mut_slice()), text.as_bytes());
    Ok(format!(in alloc; "{answer:?} {room:?}")?)
}

/// A clock that shows these milliseconds one after the other, or cannot be read.
#[derive(Drop)]
struct Shown {
    readings: [Option<u64>; 6],
    read: Cell<usize>,
}

impl rt::Clock for Shown {
    fn monotonic(&self) -> io::Result<Duration> {
        self.since_1970()
    }

    fn since_1970(&self) -> io::Result<Duration> {
        let place = self.read.get();
        self.read.set(place.saturating_add(1));
        match self.readings.get(place) {
            Some(Some(time)) => Ok(Duration::from_millis(*time)),
            _ => Err(ErrorKind::Other.into()),
        }
    }
}

/// The readings of a clock over one that shows these milliseconds, of which six count; a word that is no number cannot be read.
pub fn readings(alloc: Global, given: &str) -> Result<String, Fail> {
    let mut readings = [None; 6];
    for (reading, word) in readings.iter_mut().zip(given.split(' ')) {
        *reading = word.parse().ok();
    }
    let mut clock = SystemClock::new(Shown {
        readings,
        read: Cell::new(0),
    });
    let readings = [
        clock.now(),
        clock.now(),
        clock.now(),
        clock.now(),
        clock.now(),
        clock.now(),
    ];
    Ok(format!(in alloc; "{readings:?}")?)
}

/// Whether the system's clock stands between two readings.
pub fn now(rt: &HostRuntime, given: &str) -> Result<String, Fail> {
    let (first, last) = two(given);
    let now = SystemClock::new(rt).now() as usize;
    let answer = size(first) < now && now < size(last);
    Ok(answer.to_string(rt.alloc())?)
}

/// A source in memory of these bytes, in steps of two, one of whose reads fails.
fn source_of(alloc: Global, text: &str, failing: usize) -> Result<MemorySource, Fail> {
    let bytes = Octets::from_slice(alloc, text.as_bytes())?;
    let failing = Vec::from_slice(alloc, &[failing as u64])?;
    Ok(MemorySource::new(bytes, 2, failing))
}

/// What five reads of a source in memory give, of which the second fails.
pub fn source(alloc: Global, text: &str) -> Result<String, Fail> {
    let mut source = source_of(alloc, text, 2)?;
    let mut room = [0; 3];
    let answers = [
        source.read(&mut room),
        source.read(&mut room),
        source.read(&mut room),
        source.read(&mut room),
        source.read(&mut room),
    ];
    Ok(format!(in alloc; "{answers:?}")?)
}

/// What reading the bytes `01234` to their end gives, where the read of this number fails and so many bytes may come.
pub fn to_end(alloc: Global, given: &str) -> Result<String, Fail> {
    let (failing, bound) = two(given);
    let mut source = source_of(alloc, "01234", size(failing))?;
    match read_to_end(alloc, &mut source, size(bound).min(9)) {
        Ok(bytes) => Ok(bytes.len().to_string(alloc)?),
        Err(fault) => Ok(format!(in alloc; "{fault:?}")?),
    }
}

/// What comes of calls of a sink in memory with steps of four, whose fourth write and second flush fail.
pub fn sink(alloc: Global, given: &str) -> Result<String, Fail> {
    let writes = Vec::from_slice(alloc, &[4])?;
    let flushes = Vec::from_slice(alloc, &[2])?;
    let mut sink = MemorySink::with_failing_flushes(alloc, 4, writes, flushes);
    let mut told = String::new(alloc);
    for word in given.split(' ') {
        call(&mut sink, word, &mut told)?;
    }
    Ok(told)
}

/// Makes the call of a word, or writes the word, and adds what comes of it.
fn call(sink: &mut MemorySink, word: &str, told: &mut String) -> Result<(), Fail> {
    match word {
        "flush" => write!(told, "{:?} ", sink.flush())?,
        "flushed" => write!(told, "{:?} ", sink.flushed())?,
        "taken" => write!(told, "{:?} ", sink.taken().as_slice())?,
        _ => write!(told, "{:?} ", write_all(sink, word.as_bytes()))?,
    }
    Ok(())
}

/// Three readings of a clock in memory with two, and one of a clock with none.
pub fn clock(alloc: Global) -> Result<String, Fail> {
    let mut clock = MemoryClock::new(Vec::from_slice(alloc, &[7, 9])?);
    let mut none = MemoryClock::new(Vec::new(alloc));
    let readings = [clock.now(), clock.now(), clock.now(), none.now()];
    Ok(format!(in alloc; "{readings:?}")?)
}
