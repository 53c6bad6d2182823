//! `brine`: what an MXF file is made of, from the command line. brine.1 is its manual.
//!
//! Everything that is said of a file comes from the library's calls; this program reads bytes, lends them and writes lines. A file of
//! any size is read piece by piece and fed to a walk.
#![forbid(unsafe_code)]

mod cameras;
mod check;
mod diff;
mod frames;
mod list;
mod outline;
mod partitions;
mod receive;
mod say;
mod source;
mod values;
mod words;

use std::fmt;
use std::io::{self, Write};
use std::process::ExitCode;

use brinethimble::Refusal;

use say::Out;
use words::{Asked, Words};

/// What a command found of what it was asked about.
#[derive(Clone, Copy, PartialEq, Eq)]
enum Found {
    /// All is as it should be.
    Right,
    /// A file that is refused, or that ends within a value.
    Wanting,
}

/// Why a command could not do what it was asked.
enum Trouble {
    /// Bytes can't be read or written.
    Bytes(io::Error),
    /// A sentence.
    Said(String),
}

impl From<io::Error> for Trouble {
    fn from(error: io::Error) -> Self {
        Trouble::Bytes(error)
    }
}

impl From<Refusal> for Trouble {
    fn from(refusal: Refusal) -> Self {
        Trouble::Said(refusal.to_string())
    }
}

impl fmt::Display for Trouble {
    fn fmt(&self, f: &mut fmt::Formatter) -> fmt::Result {
        match self {
            Trouble::Bytes(error) => write!(f, "{error}"),
            Trouble::Said(text) => write!(f, "{text}"),
        }
    }
}

type Done = Result<Found, Trouble>;

/// A command: its name, how many files and which options it takes, what it does in a line, and how.
struct Command {
    name: &'static str,
    files: usize,
    options: &'static [&'static str],
    about: &'static str,
    run: fn(&Asked, &mut Out) -> Done,
}

const COMMANDS: [Command; 7] = [
    Command {
        name: "list",
        files: 1,
        options: &[],
        about: "each record: place, label, value's place and length, bytes passed before it",
        run: list::run,
    },
    Command {
        name: "frames",
        files: 1,
        options: &["--camera", "--payload"],
        about: "each frame with its lens, focus, exposure and tilt",
        run: frames::run,
    },
    Command { name: "outline", files: 1, options: &["--depth"], about: "what the file is made of, without its values", run: outline::run },
    Command {
        name: "check",
        files: 1,
        options: &[],
        about: "whether records follow each other from the first byte to the last",
        run: check::run,
    },
    Command { name: "partitions", files: 1, options: &[], about: "the partitions that the random index pack names", run: partitions::run },
    Command { name: "diff", files: 2, options: &[], about: "where the frames of two recordings of one take are apart", run: diff::run },
    Command { name: "receive", files: 1, options: &["--limit"], about: "records and frames of an upload as they come", run: receive::run },
];

fn help() -> String {
    let commands: String = COMMANDS.iter().map(|Command { name, about, .. }| format!("  {name:<11} {about}\n")).collect();
    format!(
        "brine COMMAND [OPTION ..] [FILE]\n\n{commands}\n\
         FILE may have any size; without one, or for -, standard input is read. diff takes two.\n\n\
         \x20 --json              a JSON object a line instead of text\n\
         \x20 --camera CAMERA     frames: sony, arri or canon; else the first that is found\n\
         \x20 --payload           frames: the payload of Sony's and Canon's frames, in hex\n\
         \x20 --depth N           outline: 1 to 8 levels; 8 where it is not named\n\
         \x20 --limit N           receive: an upload has at most so many bytes\n\
         \x20 --help, --version\n\n\
         Exit status: 0; 1 where a file is refused, is apart or ends within a value; 2 where it can't be read, or a word is not understood."
    )
}

/// Says a text that was asked for, where somebody reads it.
fn told(text: &str) -> ExitCode {
    match writeln!(io::stdout(), "{text}") {
        Err(error) if error.kind() != io::ErrorKind::BrokenPipe => ExitCode::from(2),
        _ => ExitCode::SUCCESS,
    }
}

fn main() -> ExitCode {
    let (command, asked) = match words::understood(std::env::args_os().skip(1)) {
        Ok(Words::Help) => return told(&help()),
        Ok(Words::Version) => return told(concat!("brine ", env!("CARGO_PKG_VERSION"))),
        Ok(Words::Command(command, asked)) => (command, asked),
        Err(why) => {
            eprintln!("brine: {why}; brine --help says more");
            return ExitCode::from(2);
        }
    };
    let mut out = Out::new(asked.json);
    let done = (command.run)(&asked, &mut out).and_then(|found| Ok(out.flush().map(|()| found)?));
    match done {
        Ok(Found::Right) => ExitCode::SUCCESS,
        Ok(Found::Wanting) => ExitCode::from(1),
        Err(trouble) => {
            let _ = out.flush();
            eprintln!("brine: {}: {trouble}", asked.name());
            ExitCode::from(2)
        }
    }
}
