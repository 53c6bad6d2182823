//! What the standard library does not have: mapped files, signals, and waiting for a connection for a while. The unsafe code of the
//! host is here.

use std::ffi::{c_int, c_short, c_ulong, c_void};
use std::fs::File;
use std::io::{Error, ErrorKind, Result};
use std::net::TcpListener;
use std::ops::{Deref, Range};
use std::os::fd::AsRawFd;
use std::sync::atomic::{AtomicBool, Ordering};

const PROT_READ: c_int = 1;
const MAP_SHARED: c_int = 1;
const SIGINT: c_int = 2;
const SIGTERM: c_int = 15;
const POLLIN: c_short = 1;
/// Every page's length divides this.
const PAGE: usize = 65_536;

#[repr(C)]
struct PollFd {
    file: c_int,
    events: c_short,
    came: c_short,
}

unsafe extern "C" {
    fn mmap(address: *mut c_void, length: usize, protection: c_int, flags: c_int, file: c_int, offset: i64) -> *mut c_void;
    fn munmap(address: *mut c_void, length: usize) -> c_int;
    fn signal(number: c_int, handler: extern "C" fn(c_int)) -> usize;
    fn poll(files: *mut PollFd, count: c_ulong, milliseconds: c_int) -> c_int;
}

/// Bytes of a file, mapped: the system's copy, and no memory is asked for.
pub struct Part {
    map: *mut c_void,
    /// How many are mapped before them: a mapping starts with a page.
    before: usize,
    length: usize,
}

impl Part {
    /// Maps bytes that a file has. It is never cut, and these bytes of it are never written again.
    pub fn new(file: &File, bytes: Range<usize>) -> Result<Self> {
        let before = bytes.start % PAGE;
        let length = bytes.len();
        let offset = (bytes.start - before) as i64;
        // SAFETY: no memory of this program is named, and a refusal is looked at.
        let map = unsafe { mmap(std::ptr::null_mut(), before + length, PROT_READ, MAP_SHARED, file.as_raw_fd(), offset) };
        if map.addr() == usize::MAX { Err(Error::last_os_error()) } else { Ok(Part { map, before, length }) }
    }
}

impl Deref for Part {
    type Target = [u8];

    fn deref(&self) -> &[u8] {
        // SAFETY: so many bytes are mapped until this is dropped, and nobody writes them.
        unsafe { std::slice::from_raw_parts(self.map.cast::<u8>().add(self.before), self.length) }
    }
}

impl Drop for Part {
    fn drop(&mut self) {
        // SAFETY: it was mapped with this length, and no slice of it is left.
        unsafe { munmap(self.map, self.before + self.length) };
    }
}

static ENDING: AtomicBool = AtomicBool::new(false);

/// Asks the receiver to end.
extern "C" fn end(_: c_int) {
    ENDING.store(true, Ordering::Relaxed);
}

/// Lets SIGTERM and SIGINT ask the receiver to end.
pub fn end_on_signals() -> Result<()> {
    for number in [SIGTERM, SIGINT] {
        // SAFETY: all that the handler does is to set a flag.
        if unsafe { signal(number, end) } == usize::MAX {
            return Err(Error::last_os_error());
        }
    }
    Ok(())
}

/// Whether the receiver is to end.
pub fn ending() -> bool {
    ENDING.load(Ordering::Relaxed)
}

/// Waits for a connection for so many milliseconds, and says whether one has come.
pub fn has_come(listener: &TcpListener, milliseconds: c_int) -> bool {
    let mut ready = PollFd { file: listener.as_raw_fd(), events: POLLIN, came: 0 };
    // SAFETY: one file is lent.
    unsafe { poll(&mut ready, 1, milliseconds) > 0 }
}

/// Whether an error says that no descriptor is left, to this program or to all.
pub fn no_descriptor(error: &Error) -> bool {
    const ENFILE: c_int = 23;
    const EMFILE: c_int = 24;
    matches!(error.raw_os_error(), Some(ENFILE | EMFILE))
}

/// Whether an error says that the system lacks memory.
pub fn no_memory(error: &Error) -> bool {
    const ENOBUFS: c_int = 105;
    error.kind() == ErrorKind::OutOfMemory || error.raw_os_error() == Some(ENOBUFS)
}
