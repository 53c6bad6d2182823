//! Measuring: the least time of many short passes of which the sides take turns, and each side's instructions.

use std::fs::File;
use std::hint::black_box;
use std::io::Write;
use std::time::{Duration, Instant};
use std::vec::IntoIter;

/// What a side does in one pass. It answers a number that the sides of a row must agree on.
pub type Pass = Box<dyn Fn() -> u64>;

/// The rounds that are made at least, and the time that rounds are made for.
const ROUNDS: usize = 40;
const TIME: Duration = Duration::from_millis(600);

/// What callgrind is asked: to collect or to stop collecting, and to write down what it has collected.
const TOGGLE_COLLECT: u64 = CALLGRIND + 2;
const DUMP: u64 = CALLGRIND;
const CALLGRIND: u64 = (b'C' as u64) << 24 | (b'T' as u64) << 16;

/// Asks callgrind, where the program runs under it: else the instructions do nothing (valgrind.h).
fn ask(request: u64) {
    let args = [request, 0, 0, 0, 0, 0];
    #[cfg(target_arch = "aarch64")]
    unsafe {
        std::arch::asm!("ror x12, x12, #3", "ror x12, x12, #13", "ror x12, x12, #51", "ror x12, x12, #61", "orr x10, x10, x10",
            in("x4") args.as_ptr(), inout("x3") 0u64 => _);
    }
    #[cfg(target_arch = "x86_64")]
    unsafe {
        std::arch::asm!("rol rdi, 3", "rol rdi, 13", "rol rdi, 61", "rol rdi, 51", "xchg rbx, rbx",
            in("rax") args.as_ptr(), inout("rdx") 0u64 => _);
    }
}

/// Runs a pass once under callgrind, which writes down its instructions.
pub fn counted(pass: &Pass) {
    ask(TOGGLE_COLLECT);
    black_box(pass());
    ask(TOGGLE_COLLECT);
    ask(DUMP);
}

/// The least time of each pass in ns, over rounds in which each has its turn: other work on the machine makes a pass longer,
/// never shorter.
pub fn least(passes: &[&Pass]) -> Vec<f64> {
    let mut least = vec![Duration::MAX; passes.len()];
    let began = Instant::now();
    let mut rounds = 0;
    while rounds < ROUNDS || began.elapsed() < TIME {
        for (pass, least) in passes.iter().zip(&mut least) {
            let began = Instant::now();
            black_box(pass());
            *least = began.elapsed().min(*least);
        }
        rounds += 1;
    }
    least.into_iter().map(|time| time.as_nanos() as f64).collect()
}

/// Where the times of a table come from. One program's code is laid out in one way, which is worth up to a fifth where a pass is a
/// few cycles: bench/run has the same program in four layouts, of which each writes its times down, and makes the table of all.
pub enum Clock {
    /// The passes are run.
    Runs,
    /// The passes are run, and their times written to a file, a line each.
    Writes(File),
    /// The times that each program wrote, line by line.
    Reads(Vec<IntoIter<Vec<f64>>>),
}

impl Clock {
    /// A clock that writes to a file.
    pub fn writing(file: &str) -> Self {
        Clock::Writes(File::create(file).expect("a file to write times to"))
    }

    /// A clock that reads what programs wrote.
    pub fn reading(files: &[&str]) -> Self {
        let numbers = |line: &str| line.split(' ').map(|time| time.parse().expect("a time")).collect();
        let lines = |file: &&str| std::fs::read_to_string(file).expect("times").lines().map(numbers).collect::<Vec<_>>().into_iter();
        Clock::Reads(files.iter().map(lines).collect())
    }

    /// The least times of passes.
    pub fn times(&mut self, passes: &[&Pass]) -> Times {
        match self {
            Clock::Runs => Times(vec![least(passes)]),
            Clock::Writes(file) => {
                let times = least(passes);
                let line: Vec<_> = times.iter().map(f64::to_string).collect();
                writeln!(file, "{}", line.join(" ")).expect("times written");
                Times(vec![times])
            }
            Clock::Reads(programs) => Times(programs.iter_mut().map(|lines| lines.next().expect("as many times as passes")).collect()),
        }
    }
}

/// The least times of passes, in each layout.
pub struct Times(Vec<Vec<f64>>);

impl Times {
    /// A pass's time, the mean of all layouts.
    pub fn of(&self, pass: usize) -> f64 {
        self.0.iter().map(|times| times[pass]).sum::<f64>() / self.0.len() as f64
    }

    /// One pass's time to another's.
    pub fn ratio(&self, pass: usize, to: usize) -> f64 {
        self.of(pass) / self.of(to)
    }

    /// The least and the largest of the ratios in each layout, as text: nothing where there is one.
    pub fn range(&self, pass: usize, to: usize) -> String {
        let ratios = || self.0.iter().map(|times| times[pass] / times[to]);
        if self.0.len() == 1 {
            String::new()
        } else {
            format!("{:.2} to {:.2}", ratios().fold(f64::MAX, f64::min), ratios().fold(0.0, f64::max))
        }
    }
}
