//! What the receiver is told by its words.

use std::path::PathBuf;
use std::time::Duration;

/// The stack of an upload's thread: all memory that an upload takes but for its lines and its name.
pub const STACK: usize = 131_072;

pub struct Options {
    pub port: u16,
    /// The most bytes of an upload.
    pub limit: usize,
    /// How long no byte may come.
    pub idle: Duration,
    /// How long a whole upload may take.
    pub whole: Duration,
    /// How many uploads are taken at once: as many as have their memory and their storage.
    pub uploads: u64,
    pub spool: Option<PathBuf>,
    pub canon: bool,
}

impl Options {
    /// Reads the words; nothing where they are none.
    pub fn read(words: &[String]) -> Option<Self> {
        let [port, limit, rest @ ..] = words else { return None };
        let (mut idle, mut whole, mut memory, mut stored) = (60, 86_400, 64 * STACK as u64, u64::MAX);
        let (mut spool, mut canon) = (None, false);
        let mut rest = rest.iter();
        while let Some(word) = rest.next() {
            match word.as_str() {
                "canon" => canon = true,
                "spool" => spool = Some(rest.next()?.into()),
                "idle" => idle = rest.next()?.parse().ok()?,
                "whole" => whole = rest.next()?.parse().ok()?,
                "memory" => memory = rest.next()?.parse().ok()?,
                "stored" => stored = rest.next()?.parse().ok()?,
                _ => return None,
            }
        }
        let limit: usize = limit.parse().ok()?;
        let uploads = (memory / STACK as u64).min(stored.checked_div(limit as u64).unwrap_or(u64::MAX));
        let (idle, whole) = (seconds(idle), seconds(whole));
        (uploads > 0).then_some(Options { port: port.parse().ok()?, limit, idle, whole, uploads, spool, canon })
    }
}

fn seconds(count: u32) -> Duration {
    Duration::from_secs(count.into())
}
