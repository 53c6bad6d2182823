//! The oracle's commands.

use std::io::{BufRead, BufWriter, Error, Result, Write, stdin, stdout};
use std::path::Path;
use std::process::exit;

use oracle::compare::{Port, report, report_lines};
use oracle::{answer, arriving, cases, cuts, every, files, known, leaves, line, record};

const USAGE: &str = "\
oracle answer                                    the Rust's answer for each line of the standard input
oracle expected                                  the same, with the rules' where a difference is known
oracle cases WORDS COUNT SEED                    cases of each word
oracle compare WORDS COUNT SEED --answers CMD    the port's answers beside the expected ones
oracle files WORDS FOLDER --answers CMD          the same over the real files of a folder
oracle cuts WORDS FOLDER --answers CMD           the same over these files at every cut and end, and damaged
oracle every WORDS --answers CMD                 the same over every small case
oracle leaves COUNT SEED FOLDER --answers CMD    the port's outlines of files whose leaf bytes are changed
oracle record WORDS COUNT SEED FOLDER            a sample, as FOLDER/cases.txt and FOLDER/answers.txt
oracle arriving WORD COUNT SEED [--answers CMD]  an arriving walk, the port's or by the rules, beside all short extensions";

fn main() {
    let args: Vec<String> = std::env::args().skip(1).collect();
    let args: Vec<&str> = args.iter().map(String::as_str).collect();
    let done = match args[..] {
        ["answer"] => answer_lines(answer::answer),
        ["expected"] => answer_lines(|line| known::expected(line).0),
        ["cases", words, count, seed] => print_cases(words, number(count), number(seed)),
        ["compare", words, count, seed, "--answers", command] => compare(words, number(count), number(seed), command),
        ["files", words, folder, "--answers", command] => compare_files(words, folder, command),
        ["every", words, "--answers", command] => compare_every(words, command),
        ["cuts", words, folder, "--answers", command] => compare_cuts(words, folder, command),
        ["leaves", count, seed, folder, "--answers", command] => try_leaves(number(count), number(seed), folder, command),
        ["record", words, count, seed, folder] => write_sample(words, number(count), number(seed), folder),
        ["arriving", word, count, seed] => arriving_beside_extensions(None, word, number(count), number(seed)),
        ["arriving", word, count, seed, "--answers", command] => {
            arriving_beside_extensions(Some(port(command)), word, number(count), number(seed))
        }
        _ => usage(),
    };
    match done {
        Ok(true) => {}
        Ok(false) => exit(1),
        Err(error) => {
            eprintln!("{error}");
            exit(2);
        }
    }
}

fn usage() -> ! {
    eprintln!("{USAGE}");
    exit(2)
}

/// The number that an argument is.
fn number(text: &str) -> u64 {
    text.parse().unwrap_or_else(|_| usage())
}

fn answer_lines(answer: impl Fn(&str) -> String) -> Result<bool> {
    let mut out = BufWriter::new(stdout().lock());
    for line in stdin().lock().split(b'\n') {
        writeln!(out, "{}", answer(&String::from_utf8_lossy(&line?)))?;
    }
    out.flush().map(|()| true)
}

fn print_cases(words: &str, count: u64, seed: u64) -> Result<bool> {
    let mut out = BufWriter::new(stdout().lock());
    for word in words_of(words)? {
        for index in 0..count {
            writeln!(out, "{}", cases::case(word, seed, index))?;
        }
    }
    out.flush().map(|()| true)
}

fn compare(words: &str, count: u64, seed: u64, command: &str) -> Result<bool> {
    let port = port(command);
    let mut same = true;
    for word in words_of(words)? {
        same &= report(&port, &format!("{word} {count} {seed}"), || cases::drawn(word, count, seed))?;
    }
    Ok(same)
}

fn compare_files(words: &str, folder: &str, command: &str) -> Result<bool> {
    report_lines(&port(command), &files::cases(Path::new(folder), &words_of(words)?)?)
}

fn compare_every(words: &str, command: &str) -> Result<bool> {
    let port = port(command);
    let mut same = true;
    for word in words_of(words)? {
        let (buffers, cases) = every::counted(word);
        same &= report(&port, &format!("{word} {buffers} buffers {cases} cases"), || every::cases(word))?;
    }
    Ok(same)
}

fn compare_cuts(words: &str, folder: &str, command: &str) -> Result<bool> {
    let port = port(command);
    let mut same = true;
    for path in files::paths(Path::new(folder))? {
        let (file, name) = (std::fs::read(&path)?, path.file_name().unwrap_or_default().display());
        for word in words_of(words)?.into_iter().filter(|word| files::takes(word)) {
            let [torn, ended, damaged] = cuts::counted(&file);
            same &= report(&port, &format!("{word} {name} {torn} cuts"), || cuts::torn(word, &file))?;
            if cuts::ended(word, &file).next().is_some() {
                same &= report(&port, &format!("{word} {name} {ended} ends"), || cuts::ended(word, &file))?;
            }
            same &= report(&port, &format!("{word} {name} {damaged} damaged"), || cuts::damaged(word, &file))?;
        }
    }
    Ok(same)
}

fn try_leaves(count: u64, seed: u64, folder: &str, command: &str) -> Result<bool> {
    match leaves::check(&port(command), count, seed, Path::new(folder))? {
        Ok(tried) => {
            println!(
                "leaves {count} {seed} {} copies with other leaf bytes no difference, {} of {} copies with another byte changed differ",
                tried.leaves, tried.changed, tried.others
            );
            Ok(tried.changed > 0)
        }
        Err([file, copy]) => {
            println!("file: {file}\ncopy: {copy}\nThe copy has other leaf bytes, and another outline.");
            Ok(false)
        }
    }
}

/// The words that a list names, with commas, spaces or ends of lines between them.
fn words_of(list: &str) -> Result<Vec<&'static str>> {
    let word = |name: &str| line::word(name).map(|(word, _)| word).ok_or_else(|| Error::other(format!("{name} is no word")));
    list.split([',', ' ', '\n']).filter(|name| !name.is_empty()).map(word).collect()
}

/// The port's program that a command starts.
fn port(command: &str) -> Port {
    let words: Vec<String> = command.split_whitespace().map(String::from).collect();
    if words.is_empty() {
        usage();
    }
    Port(words)
}

fn write_sample(words: &str, count: u64, seed: u64, folder: &str) -> Result<bool> {
    let (cases, answers) = record::sample(&words_of(words)?, count as usize, seed);
    std::fs::write(Path::new(folder).join("cases.txt"), &cases)?;
    std::fs::write(Path::new(folder).join("answers.txt"), &answers)?;
    println!("{} cases, {} bytes of cases, {} bytes of answers", cases.lines().count(), cases.len(), answers.len());
    Ok(true)
}

fn arriving_beside_extensions(port: Option<Port>, word: &str, count: u64, seed: u64) -> Result<bool> {
    match arriving::check(port.as_ref(), word, count, seed)? {
        Ok(extensions) => println!("{word} {count} {seed} no difference, {extensions} extensions"),
        Err(difference) => {
            println!("{difference}");
            return Ok(false);
        }
    }
    Ok(true)
}
