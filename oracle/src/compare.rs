//! The port's answers beside the expected ones, over cases drawn from a seed or listed.

use std::collections::BTreeMap;
use std::io::{BufRead, BufReader, BufWriter, Error, Result, Write};
use std::process::{Child, Command, Stdio};
use std::thread::JoinHandle;
use std::time::Instant;

use crate::asked;
use crate::known::expected;
use crate::shrink::smallest;

/// What a comparison found.
pub enum Outcome {
    /// No difference: how many cases each known difference was about, by its name.
    Same(BTreeMap<&'static str, u64>),
    /// The first case that differs, and its index.
    Differs(u64, String),
}

/// The port's program, with its arguments.
pub struct Port(pub Vec<String>);

impl Port {
    /// Starts the program and gives it lines as it takes them.
    fn start(&self, lines: impl Iterator<Item = String> + Send + 'static) -> Result<(Child, JoinHandle<()>)> {
        let mut command = Command::new(&self.0[0]);
        let child = command.args(&self.0[1..]).stdin(Stdio::piped()).stdout(Stdio::piped()).spawn();
        let mut child = child.map_err(|error| Error::other(format!("{}: {error}", self.0[0])))?;
        let mut input = BufWriter::with_capacity(1 << 16, child.stdin.take().expect("a pipe"));
        let feeder = std::thread::spawn(move || {
            for line in lines {
                if writeln!(input, "{line}").is_err() {
                    return;
                }
            }
        });
        Ok((child, feeder))
    }

    /// The answers to some lines, as many as it gives.
    pub fn answers(&self, lines: &[String]) -> Result<Vec<String>> {
        let lines = lines.to_vec();
        let (mut child, feeder) = self.start(lines.into_iter())?;
        let answers = BufReader::new(child.stdout.take().expect("a pipe")).split(b'\n').map(|line| line.map(text)).collect();
        feeder.join().expect("a feeder that ends");
        child.wait()?;
        answers
    }
}

/// An answer as text.
fn text(line: Vec<u8>) -> String {
    String::from_utf8_lossy(&line).into_owned()
}

/// Compares cases, which are listed twice: for the port and for the oracle.
pub fn compare<L: Iterator<Item = String> + Send + 'static>(port: &Port, cases: impl Fn() -> L) -> Result<Outcome> {
    let (mut child, feeder) = port.start(cases())?;
    let mut answers = BufReader::with_capacity(1 << 16, child.stdout.take().expect("a pipe")).split(b'\n');
    let mut known = BTreeMap::new();
    for (index, line) in cases().enumerate() {
        let (right, difference) = expected(&line);
        let answer = answers.next().transpose()?;
        if answer.as_deref() != Some(right.as_bytes()) {
            drop(answers);
            child.kill()?;
            child.wait()?;
            feeder.join().expect("a feeder that ends");
            return Ok(Outcome::Differs(index as u64, line));
        }
        if let Some(difference) = difference {
            *known.entry(difference.name).or_default() += 1;
        }
    }
    if answers.next().is_some() {
        return Err(Error::other("the port gave more answers than there were cases"));
    }
    feeder.join().expect("a feeder that ends");
    let status = child.wait()?;
    if !status.success() {
        return Err(Error::other(format!("the port answered all cases and ended with {status}")));
    }
    Ok(Outcome::Same(known))
}

/// The first of some lines that the port answers otherwise than expected.
fn first_difference(port: &Port, lines: &[String]) -> Option<usize> {
    let answers = port.answers(lines).unwrap_or_default();
    (0..lines.len()).find(|i| answers.get(*i) != Some(&expected(&lines[*i]).0))
}

/// Compares, says what was found in one line or shows the smallest difference, and answers whether there was none.
pub fn report<L: Iterator<Item = String> + Send + 'static>(port: &Port, title: &str, cases: impl Fn() -> L) -> Result<bool> {
    let started = Instant::now();
    match compare(port, cases)? {
        Outcome::Same(known) => {
            let notes: String = known.iter().map(|(name, cases)| format!(", {cases} known as {name}")).collect();
            println!("{title} no difference{notes} {:.1} s", started.elapsed().as_secs_f64());
            Ok(true)
        }
        Outcome::Differs(index, line) => {
            println!("{title} differs at case {index}");
            show(port, &smallest(&line, |lines| first_difference(port, lines)))?;
            Ok(false)
        }
    }
}

/// Compares some lines, says how many or shows the smallest difference, and answers whether there was none.
pub fn report_lines(port: &Port, lines: &[String]) -> Result<bool> {
    let difference = first_difference(port, lines);
    match difference {
        None => println!("{} cases from files no difference", lines.len()),
        Some(index) => show(port, &smallest(&lines[index], |lines| first_difference(port, lines)))?,
    }
    Ok(difference.is_none())
}

/// Whether a case is one of a request's words.
fn is_asked(line: &str) -> bool {
    asked::words().any(|(word, _)| line.split(' ').next() == Some(word))
}

/// Shows a case with both answers.
fn show(port: &Port, line: &str) -> Result<()> {
    let answer = port.answers(&[line.to_string()])?.into_iter().next();
    let (right, difference) = expected(line);
    println!("case: {line}");
    println!("port: {}", answer.as_deref().unwrap_or("(no answer)"));
    match difference {
        Some(known) => println!("01:   {right}   ({})", known.rule),
        None if is_asked(line) => println!("02:   {right}"),
        None => println!("Rust: {right}"),
    }
    Ok(())
}

#[cfg(test)]
mod tests {
    use super::*;
    use crate::cases::drawn;

    /// A port that answers every case alike.
    fn constant(answer: &str) -> Port {
        Port(["sed", "-u", &format!("s/.*/{answer}/")].map(String::from).to_vec())
    }

    #[test]
    fn a_constant_answer_is_found_out() {
        assert!(matches!(compare(&constant("cut"), || drawn("ber", 100, 1)).unwrap(), Outcome::Differs(..)));
    }

    #[test]
    fn a_difference_is_shrunk() {
        let port = constant("0 1");
        let small = smallest("ber 8205060708", |lines| first_difference(&port, lines));
        assert_eq!(small, "ber -");
    }

    #[test]
    fn a_port_that_answers_too_much_is_found_out() {
        let port = Port(vec!["echo".into(), "?".into()]);
        assert!(compare(&port, || drawn("klvs", 0, 1)).is_err());
        assert!(compare(&Port(vec!["false".into()]), || drawn("klvs", 0, 1)).is_err());
    }

    #[test]
    fn a_port_that_ends_early_differs() {
        let port = Port(vec!["true".into()]);
        assert!(matches!(compare(&port, || drawn("klvs", 10, 1)).unwrap(), Outcome::Differs(0, _)));
    }
}
