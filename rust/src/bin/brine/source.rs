//! Where bytes come from: a file, which can be read at any place, or a stream, of which the last bytes are kept.

use std::fs::File;
use std::io::{self, IsTerminal, Read, Seek, Write};
use std::os::fd::AsFd;
use std::os::unix::fs::FileExt;
use std::path::Path;
use std::time::{Duration, Instant};

use crate::Trouble;

/// How many bytes are read at a time.
const PIECE: usize = 1 << 18;

pub struct Source {
    from: File,
    /// A file's length; a stream has none that is known.
    length: Option<usize>,
    /// A file's piece that was read last; a stream's last bytes.
    bytes: Vec<u8>,
    /// Where these start.
    start: usize,
    /// How many bytes of a stream are kept behind the newest ones.
    keep: usize,
    progress: Progress,
}

impl Source {
    /// A file, or standard input. A file that is redirected to standard input is a file, if it stands at its start.
    pub fn open(file: Option<&Path>, keep: usize) -> Result<Self, Trouble> {
        let mut from = match file {
            Some(path) => File::open(path)?,
            None => File::from(io::stdin().as_fd().try_clone_to_owned()?),
        };
        let about = from.metadata()?;
        if about.is_dir() {
            return Err(Trouble::Said("is a folder".into()));
        }
        let whole = about.is_file() && from.stream_position()? == 0;
        let length = whole.then_some(about.len() as usize);
        Ok(Source { from, length, bytes: Vec::new(), start: 0, keep, progress: Progress::new(file, length) })
    }

    /// The file's length, or nothing of a stream.
    pub fn length(&self) -> Option<usize> {
        self.length
    }

    /// Whether the bytes from a place on can still be had.
    pub fn keeps(&self, at: usize) -> bool {
        self.length.is_some() || at >= self.start
    }

    /// Bytes from a place on, some of them; none where there are no more. A stream's place is one behind the bytes that have come, or
    /// one that is still kept.
    pub fn piece(&mut self, at: usize) -> Result<&[u8], Trouble> {
        self.progress.at(at);
        let end = self.start + self.bytes.len();
        if !self.keeps(at) {
            return Err(Trouble::Said(format!("the bytes from {at} on are wanted again, and a stream can't be wound back")));
        }
        if (self.start..end).contains(&at) {
            return Ok(&self.bytes[at - self.start..]);
        }
        match self.length {
            Some(length) => self.read_file(at, length)?,
            None => self.read_stream()?,
        }
        Ok(&self.bytes[at - self.start..])
    }

    /// The next piece of a file, up to the length that it had at first.
    fn read_file(&mut self, at: usize, length: usize) -> Result<(), Trouble> {
        self.bytes.resize(PIECE.min(length.saturating_sub(at)), 0);
        let count = read(|bytes| self.from.read_at(bytes, at as u64), &mut self.bytes)?;
        if count == 0 && at < length {
            return Err(Trouble::Said("has become shorter".into()));
        }
        self.bytes.truncate(count);
        self.start = at;
        Ok(())
    }

    /// The next piece of a stream, behind those that are kept.
    fn read_stream(&mut self) -> Result<(), Trouble> {
        if self.bytes.len() >= 2 * self.keep + PIECE {
            let gone = self.bytes.len() - self.keep;
            self.bytes.drain(..gone);
            self.start += gone;
        }
        let had = self.bytes.len();
        self.bytes.resize(had + PIECE, 0);
        let from = &mut self.from;
        let count = read(|bytes| from.read(bytes), &mut self.bytes[had..])?;
        self.bytes.truncate(had + count);
        Ok(())
    }

    /// As many bytes at a place, all of which have come.
    pub fn bytes(&mut self, at: usize, count: usize) -> Result<Vec<u8>, Trouble> {
        let mut bytes = vec![0; count];
        match self.length {
            Some(_) => self.from.read_exact_at(&mut bytes, at as u64)?,
            None if at >= self.start => bytes.copy_from_slice(&self.bytes[at - self.start..][..count]),
            None => return Err(Trouble::Said(format!("the {count} bytes at {at} are no longer there: more than a stream keeps"))),
        }
        Ok(bytes)
    }

    /// All bytes.
    pub fn whole(&mut self) -> Result<Vec<u8>, Trouble> {
        let mut bytes = Vec::with_capacity(self.length.unwrap_or(0));
        self.from.read_to_end(&mut bytes)?;
        Ok(bytes)
    }
}

/// What a read gives, which is made again where a signal came between.
fn read(mut by: impl FnMut(&mut [u8]) -> io::Result<usize>, bytes: &mut [u8]) -> io::Result<usize> {
    loop {
        match by(bytes) {
            Err(error) if error.kind() == io::ErrorKind::Interrupted => {}
            other => return other,
        }
    }
}

/// How far a long file is read, said on standard error where that is a terminal.
struct Progress {
    name: String,
    length: Option<usize>,
    said: Option<Instant>,
    shown: bool,
}

impl Progress {
    fn new(file: Option<&Path>, length: Option<usize>) -> Self {
        let name = file.map_or("standard input".into(), |file| file.display().to_string());
        Progress { name, length, said: io::stderr().is_terminal().then(Instant::now), shown: false }
    }

    /// Says the place, a second after the last time.
    fn at(&mut self, at: usize) {
        if self.said.is_none_or(|said| said.elapsed() < Duration::from_secs(1)) {
            return;
        }
        let part = match self.length {
            Some(length) if length > 0 => format!(", {} %", at as u128 * 100 / length as u128),
            _ => String::new(),
        };
        let _ = write!(io::stderr(), "\r\x1b[K{}: {} MB{part}", self.name, at / 1_000_000);
        (self.said, self.shown) = (Some(Instant::now()), true);
    }
}

impl Drop for Progress {
    fn drop(&mut self) {
        if self.shown {
            let _ = write!(io::stderr(), "\r\x1b[K");
        }
    }
}
