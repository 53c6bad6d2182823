//! Sends an upload to a loopback port: `send PORT ID FILE PIECES [pause AT] [tear AT]` or `send PORT ID primer CLAIM BYTES`.
//!
//! PIECES are sizes with commas between, taken in turn. `pause AT` waits after so many bytes for a line on standard input,
//! `tear AT` closes there. `primer` is a hostile upload: a primer pack that claims a value of CLAIM bytes and FFFFFFFFh entries,
//! of which BYTES bytes of value are sent. It writes the receiver's answer, and ends with 2 where that is not that all is stored.

use std::fs::File;
use std::io::{Error, ErrorKind, Read, Result, Write, stdin};
use std::net::{Ipv4Addr, Shutdown, TcpStream};
use std::process::ExitCode;

const LONGEST_PIECE: u64 = 65_536;
const LONGEST_ANSWER: u64 = 63;
const REFUSED: u8 = 2;
const PRIMER: [u8; 16] = *b"\x06\x0e\x2b\x34\x02\x05\x01\x01\x0d\x01\x02\x01\x01\x05\x01\x00";

/// What to send.
enum Plan {
    /// A file, and how.
    File { path: String, pieces: Vec<u64>, pause: u64, tear: u64 },
    /// A primer pack that claims more than it has.
    Primer { claim: u64, bytes: u64 },
}

fn main() -> ExitCode {
    let arguments: Vec<String> = std::env::args().skip(1).collect();
    let arguments: Vec<&str> = arguments.iter().map(String::as_str).collect();
    let Some((port, id, plan)) = read_arguments(&arguments) else {
        eprintln!("send PORT ID FILE PIECES [pause AT] [tear AT]\nsend PORT ID primer CLAIM BYTES");
        return ExitCode::FAILURE;
    };
    match upload(port, id, &plan) {
        Ok(true) => ExitCode::SUCCESS,
        Ok(false) => ExitCode::from(REFUSED),
        Err(error) => {
            eprintln!("send: {error}");
            ExitCode::FAILURE
        }
    }
}

/// The port, the upload's name and what to send.
fn read_arguments<'a>(arguments: &[&'a str]) -> Option<(u16, &'a str, Plan)> {
    let [port, id, what, rest @ ..] = arguments else { return None };
    let plan = match (*what, rest) {
        ("primer", [claim, bytes]) => Plan::Primer { claim: claim.parse().ok()?, bytes: bytes.parse().ok()? },
        (path, [pieces, rest @ ..]) => read_plan(path, pieces, rest)?,
        _ => return None,
    };
    Some((port.parse().ok()?, id, plan))
}

/// How to send a file.
fn read_plan(path: &str, pieces: &str, rest: &[&str]) -> Option<Plan> {
    let size = |text: &str| text.parse().ok().filter(|n| (1..=LONGEST_PIECE).contains(n));
    let pieces = pieces.split(',').map(size).collect::<Option<Vec<u64>>>()?;
    let (mut pause, mut tear) = (u64::MAX, u64::MAX);
    let (pairs, []) = rest.as_chunks::<2>() else { return None };
    for [word, at] in pairs {
        match *word {
            "pause" => pause = at.parse().ok()?,
            "tear" => tear = at.parse().ok()?,
            _ => return None,
        }
    }
    Some(Plan::File { path: path.into(), pieces, pause, tear })
}

/// Sends an upload, closes, writes the receiver's answer, and waits until it closes, too; whether it has stored the upload.
fn upload(port: u16, id: &str, plan: &Plan) -> Result<bool> {
    let mut to = TcpStream::connect((Ipv4Addr::LOCALHOST, port))?;
    to.set_nodelay(true)?;
    let sent = writeln!(to, "{id}").and_then(|()| match plan {
        Plan::File { path, pieces, pause, tear } => send_file(&mut to, File::open(path)?, pieces, *pause, *tear),
        Plan::Primer { claim, bytes } => send_primer(&mut to, *claim, *bytes),
    });
    match sent {
        Err(error) if !closed(&error) => return Err(error),
        _ => {}
    }
    let mut answer = Vec::new();
    let _ = to.shutdown(Shutdown::Write); // the receiver may have closed
    let _ = (&to).take(LONGEST_ANSWER).read_to_end(&mut answer);
    print!("{}", String::from_utf8_lossy(&answer));
    Ok(sent.is_ok() && answer.starts_with(b"stored "))
}

/// Whether an error says that the receiver has closed.
fn closed(error: &Error) -> bool {
    matches!(error.kind(), ErrorKind::BrokenPipe | ErrorKind::ConnectionReset)
}

/// Sends a file in pieces up to where it is torn, and pauses once.
fn send_file(to: &mut TcpStream, file: File, pieces: &[u64], pause: u64, tear: u64) -> Result<()> {
    let mut sent = 0;
    let mut piece = Vec::new();
    for size in pieces.iter().cycle() {
        if sent == pause {
            stdin().read_line(&mut String::new())?;
        }
        let stop = if sent < pause { pause.min(tear) } else { tear };
        piece.clear();
        (&file).take(*size.min(&(stop - sent))).read_to_end(&mut piece)?;
        if piece.is_empty() {
            return Ok(());
        }
        to.write_all(&piece)?;
        sent += piece.len() as u64;
    }
    Ok(())
}

/// Sends a primer pack with the length and the count that it claims, and as many bytes of its value as are wanted.
fn send_primer(to: &mut TcpStream, claim: u64, bytes: u64) -> Result<()> {
    to.write_all(&[&PRIMER[..], &[0x88], &claim.to_be_bytes()].concat())?;
    let mut value = b"\xff\xff\xff\xff\x00\x00\x00\x12".chain(std::io::repeat(0)).take(bytes);
    std::io::copy(&mut value, to).map(drop)
}
