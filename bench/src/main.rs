//! The port's speed beside the published Rust's, as tables in markdown: bench/run builds and runs this.

mod fed;
mod index;
mod inputs;
mod linear;
mod measure;
#[allow(dead_code)]
#[path = "../../rust/src/places.rs"]
mod places;
mod port;
mod primers;
mod published;
mod rows;
mod tables;
mod values;
mod worst;

use measure::{Clock, counted};
use rows::{Row, rows};

const USAGE: &str = "\
bench all            all tables
bench write FILE     the tables that are measured in each layout; their times are written to a file
bench read FILE FILES ..
                     all tables: the first file has the instructions of each side of each row, a number a line, the others the
                     times that were written
bench some WORDS ..  the rows whose part and name have these words
bench linear         the arriving walk alone
bench fed            the fed walk beside the arriving one
bench primers        look-ups in a primer: a search each, a table, the Rust's map
bench worst          the periodic inputs that the port's search takes longest for
bench once WORDS ..  each side of each row that has these words once, for counting instructions";

// Moves all code behind it, so that bench/run can lay the program out in several ways.
std::arch::global_asm!(".section .text.startup.shift, \"axR\", @progbits", concat!(".skip ", env!("BENCH_SHIFT")), ".text");

fn main() {
    let args: Vec<String> = std::env::args().skip(1).collect();
    let args: Vec<&str> = args.iter().map(String::as_str).collect();
    match args[..] {
        ["all"] => all(&[], &mut Clock::Runs),
        ["write", file] => in_each_layout(&[], &mut Clock::writing(file)),
        ["read", file, ..] => all(&counts(file), &mut Clock::reading(&args[2..])),
        ["some", ..] => part_by_part(rows().iter().filter(|row| has(row, &args[1..])).map(|row| (row, None)), &mut Clock::Runs),
        ["linear"] => linear::table(),
        ["fed"] => fed::table(&mut Clock::Runs),
        ["primers"] => primers::table(),
        ["worst"] => worst::table(),
        ["once", ..] => once(&args[1..]),
        _ => println!("{USAGE}"),
    }
}

/// The numbers in the lines of a file.
fn counts(file: &str) -> Vec<f64> {
    let text = std::fs::read_to_string(file).unwrap_or_default();
    text.lines().filter_map(|line| line.trim().parse().ok()).collect()
}

/// Whether a row's part and name have all words.
fn has(row: &Row, words: &[&str]) -> bool {
    words.iter().all(|word| row.part.contains(word) || row.name.contains(word))
}

/// Each side of each row that has all words once, under callgrind.
fn once(words: &[&str]) {
    for row in rows().into_iter().filter(|row| has(row, words)) {
        counted(&row.port);
        counted(&row.rust);
    }
}

/// All tables.
fn all(counts: &[f64], clock: &mut Clock) {
    in_each_layout(counts, clock);
    primers::table();
    linear::table();
}

/// The tables that are measured in each layout.
fn in_each_layout(counts: &[f64], clock: &mut Clock) {
    let rows = rows();
    let instructions = |i| counts.get(2 * i).zip(counts.get(2 * i + 1)).map(|(port, rust)| port / rust);
    part_by_part(rows.iter().enumerate().map(|(i, row)| (row, instructions(i))), clock);
    fed::table(clock);
}

/// The rows, with the ratio of their instructions, in a table a part.
fn part_by_part<'a>(rows: impl Iterator<Item = (&'a Row, Option<f64>)>, clock: &mut Clock) {
    let mut part = "";
    for (row, instructions) in rows {
        if row.part != part {
            part = row.part;
            println!(
                "\n| {part} | port, µs | Rust, µs | ratio | at most | by layout | instructions | others to the Rust |\n|---|---|---|---|---|---|---|---|"
            );
        }
        println!("{}", measured(row, instructions, clock));
    }
}

/// A row measured. The sides must agree.
fn measured(row: &Row, instructions: Option<f64>, clock: &mut Clock) -> String {
    let mut passes = vec![&row.port, &row.rust];
    passes.extend(row.others.iter().map(|(_, pass)| pass));
    let answer = (row.port)();
    for pass in &passes {
        assert_eq!(pass(), answer, "{}: {}", row.part, row.name);
    }
    let times = clock.times(&passes);
    let [port, rust] = [0, 1].map(|side| times.of(side) / 1000.0);
    let target = row.target.map_or(String::new(), |target| format!("{target}"));
    let instructions = instructions.map_or(String::new(), |ratio| format!("{ratio:.3}"));
    let others: Vec<_> = row.others.iter().zip(2..).map(|((name, _), other)| format!("{name} {:.2}", times.ratio(other, 1))).collect();
    let (ratio, range, others) = (times.ratio(0, 1), times.range(0, 1), others.join(", "));
    format!("| {} | {port:.1} | {rust:.1} | **{ratio:.3}** | {target} | {range} | {instructions} | {others} |", row.name)
}
