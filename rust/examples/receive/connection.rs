//! A sender's connection, with its time-outs.

use std::io::{ErrorKind, Read, Result, Write};
use std::net::TcpStream;
use std::time::{Duration, Instant};

use crate::options::Options;
use crate::system::ending;
use crate::upload::Why;

/// How often a silent connection is looked at.
pub const TICK: Duration = Duration::from_millis(200);
/// How long an answered sender may take to stop sending.
const DRAINING: Duration = Duration::from_secs(1);

/// What reading came to.
pub enum Came {
    /// So many bytes.
    Bytes(usize),
    /// The sender has closed.
    Closed,
    /// None have come for a tick.
    Nothing,
}

pub struct Connection<'a> {
    stream: &'a TcpStream,
    options: &'a Options,
    began: Instant,
    /// How long it was waited for a byte.
    silent: Duration,
}

impl<'a> Connection<'a> {
    pub fn new(stream: &'a TcpStream, options: &'a Options) -> Result<Self> {
        stream.set_read_timeout(Some(TICK))?;
        Ok(Connection { stream, options, began: Instant::now(), silent: Duration::ZERO })
    }

    /// Why the connection is to be given up by now: ending, late or idle.
    pub fn over(&self) -> std::result::Result<(), Why> {
        if ending() {
            return Err(Why::Word("ending"));
        }
        if self.began.elapsed() >= self.options.whole {
            return Err(Why::Word("late"));
        }
        if self.silent >= self.options.idle { Err(Why::Word("idle")) } else { Ok(()) }
    }

    /// Reads bytes that have come.
    pub fn read(&mut self, room: &mut [u8]) -> Came {
        match self.stream.read(room) {
            Ok(0) => Came::Closed,
            Ok(n) => {
                self.silent = Duration::ZERO;
                Came::Bytes(n)
            }
            Err(error) if matches!(error.kind(), ErrorKind::WouldBlock | ErrorKind::TimedOut) => {
                self.silent += TICK;
                Came::Nothing
            }
            Err(error) if error.kind() == ErrorKind::Interrupted => Came::Nothing,
            Err(_) => Came::Closed, // a connection that broke is one that closed
        }
    }

    /// Answers a sender in a line, and takes what it still sends for a while, so that it can read that.
    pub fn answer(&mut self, line: &str) {
        let answered = Instant::now();
        let _ = self.stream.write_all(line.as_bytes());
        while matches!(self.read(&mut [0; 4096]), Came::Bytes(_)) && answered.elapsed() < DRAINING {}
    }
}

/// Tells a sender that it is not served, at once.
pub fn refuse(mut stream: &TcpStream, line: &str) {
    let told = stream.set_nonblocking(true).and_then(|()| stream.write_all(line.as_bytes()));
    let _ = told.and_then(|()| stream.read(&mut [0; 256])); // its name; closing before that was read would take the line back
}
