//! Receives uploads on a loopback port, several at once, and says records and frames of each as soon as they are certain:
//! `receive PORT LIMIT [spool FOLDER] [canon] [idle SECONDS] [whole SECONDS] [memory BYTES] [stored BYTES]`.
//!
//! Port 0 is a free one. LIMIT is the most bytes that an upload may have. An upload is a line with its name (1 to 32 letters, digits,
//! `-` or `_`) and then its bytes, up to where the sender closes. It is stored in FOLDER by its name, or else in a temporary file, and
//! the sender is answered `stored BYTES` or `refused WHY`. `upload` has the lines that are said of it; those of the receiver are
//!
//! ```text
//! listening PORT uploads N memory BYTES stored BYTES
//! - refused WHY
//! ended
//! ```
//!
//! the first with how many uploads are taken at once and what each may take, the second of a connection without a name. It ends on
//! SIGTERM and SIGINT.

/// Writes a line; where nobody reads it any more the receiver goes on.
macro_rules! say {
    ($($words:tt)*) => {{
        use std::io::Write;
        let _ = writeln!(std::io::stdout().lock(), $($words)*);
    }};
}

mod canon;
mod connection;
mod options;
mod stored;
mod system;
mod tell;
mod upload;

use std::fs::File;
use std::io::Result;
use std::net::{Ipv4Addr, TcpListener, TcpStream};
use std::process::ExitCode;
use std::sync::Arc;
use std::sync::atomic::{AtomicU64, Ordering};
use std::thread;
use std::time::Duration;

use connection::{Came, Connection, TICK, refuse};
use options::{Options, STACK};
use stored::Folder;
use upload::{Upload, Why};

const LONGEST_ID: usize = 32;
/// The most bytes that are read at once.
const PIECE: usize = 16_384;
/// How long uploads that are given up may take to end, and how long is waited where the system lacks room.
const ENDING: Duration = Duration::from_secs(5);
const NAP: Duration = Duration::from_millis(10);

/// What all uploads share.
struct Receiver {
    options: Options,
    folder: Folder,
    uploads: AtomicU64,
}

/// An upload's place among those that may be under way, which it has until this is dropped.
struct Slot(Arc<Receiver>);

impl Slot {
    fn take(receiver: &Arc<Receiver>) -> Option<Self> {
        let slot = Slot(receiver.clone());
        (receiver.uploads.fetch_add(1, Ordering::Relaxed) < receiver.options.uploads).then_some(slot)
    }
}

impl Drop for Slot {
    fn drop(&mut self) {
        self.0.uploads.fetch_sub(1, Ordering::Relaxed);
    }
}

fn main() -> ExitCode {
    let words: Vec<String> = std::env::args().skip(1).collect();
    let Some(options) = Options::read(&words) else {
        eprintln!("receive PORT LIMIT [spool FOLDER] [canon] [idle SECONDS] [whole SECONDS] [memory BYTES] [stored BYTES]");
        return ExitCode::FAILURE;
    };
    match run(options) {
        Ok(true) => ExitCode::SUCCESS,
        Ok(false) => ExitCode::FAILURE,
        Err(error) => {
            eprintln!("receive: {error}");
            ExitCode::FAILURE
        }
    }
}

/// Receives until the receiver is to end; says whether all uploads have ended by then.
fn run(options: Options) -> Result<bool> {
    system::end_on_signals()?;
    let folder = Folder::new(options.spool.as_deref())?;
    let listener = TcpListener::bind((Ipv4Addr::LOCALHOST, options.port))?;
    listener.set_nonblocking(true)?;
    let port = listener.local_addr()?.port();
    say!("listening {port} uploads {} memory {STACK} stored {}", options.uploads, options.limit);
    let receiver = Arc::new(Receiver { options, folder, uploads: AtomicU64::new(0) });
    serve(&receiver, &listener);
    drop(listener);
    let naps = ENDING.as_millis() / NAP.as_millis();
    let under_way = || receiver.uploads.load(Ordering::Relaxed) > 0;
    (0..naps).take_while(|_| under_way()).for_each(|_| thread::sleep(NAP));
    say!("ended");
    Ok(!under_way())
}

/// Takes connections until the receiver is to end. One descriptor is kept spare, to refuse a sender where no other is left.
fn serve(receiver: &Arc<Receiver>, listener: &TcpListener) {
    let spare = || File::open("/dev/null").ok();
    let mut kept = spare();
    while !system::ending() {
        if !system::has_come(listener, TICK.as_millis() as i32) {
            continue;
        }
        match listener.accept() {
            Ok((connection, _)) => start(receiver, connection),
            Err(error) if system::no_descriptor(&error) => {
                drop(kept.take());
                if let Ok((connection, _)) = listener.accept() {
                    refuse_busy(&connection);
                }
                kept = spare();
            }
            Err(error) if system::no_memory(&error) => thread::sleep(NAP),
            Err(_) => {}
        }
    }
}

/// Tells a sender that there is no room for it.
fn refuse_busy(connection: &TcpStream) {
    say!("- refused busy");
    refuse(connection, "refused busy\n");
}

/// Starts a thread for a connection, or refuses it where there are as many as there may be, or can be.
fn start(receiver: &Arc<Receiver>, connection: TcpStream) {
    let connection = Arc::new(connection);
    let sender = connection.clone();
    let started = Slot::take(receiver).is_some_and(|slot| {
        let receiving = move || {
            receive(&slot.0, &sender);
            drop(slot); // before the sender can know that its upload is over
            drop(sender);
        };
        connection.set_nonblocking(false).is_ok() && thread::Builder::new().stack_size(STACK).spawn(receiving).is_ok()
    });
    if !started {
        refuse_busy(&connection);
    }
}

/// Receives one upload.
fn receive(receiver: &Receiver, stream: &TcpStream) {
    let Receiver { options, folder, .. } = receiver;
    let Ok(mut connection) = Connection::new(stream, options) else { return };
    let (id, taken) = match read_id(&mut connection) {
        Ok(id) => {
            let taken = Upload::new(&id, options, folder).and_then(|upload| take_all(&mut connection, upload));
            (id, taken)
        }
        Err(why) => ("-".into(), Err(why)),
    };
    let line = match taken {
        Ok(length) => format!("stored {length}\n"),
        Err(why) => {
            say!("{id} refused {why}");
            format!("refused {why}\n")
        }
    };
    connection.answer(&line);
}

/// The upload's name.
fn read_id(connection: &mut Connection) -> std::result::Result<String, Why> {
    let mut id = String::new();
    loop {
        connection.over()?;
        let mut letter = [0];
        match connection.read(&mut letter) {
            Came::Closed => return Err(Why::Word("name")),
            Came::Nothing => continue,
            Came::Bytes(_) => {}
        }
        match letter[0] {
            b'\n' if !id.is_empty() => return Ok(id),
            c if id.len() < LONGEST_ID && (c.is_ascii_alphanumeric() || b"-_".contains(&c)) => id.push(c.into()),
            _ => return Err(Why::Word("name")),
        }
    }
}

/// Takes an upload's bytes up to where the sender closes, and says how many there are.
fn take_all(connection: &mut Connection, mut upload: Upload) -> std::result::Result<usize, Why> {
    let mut piece = [0; PIECE];
    let mut quiet = false;
    loop {
        connection.over()?;
        let room = upload.room(PIECE);
        match connection.read(&mut piece[..room]) {
            Came::Closed => return upload.finish(),
            Came::Bytes(n) => {
                quiet = false;
                upload.take(&piece[..n])?;
            }
            Came::Nothing => {
                if !quiet {
                    upload.say_waits();
                }
                quiet = true;
            }
        }
    }
}
