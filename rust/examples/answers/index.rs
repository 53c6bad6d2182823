//! `index`, `turn` and `shared`: adding to an index, asking it, turning it, and sharing it (docs/RULES.md, "L10. An index beside the file",
//! "L12. Columns instead of rows", "L11. Two uploads, one index room").

use brinethimble::{Entry, Index, Layout, Refusal, SharedIndex};

use crate::text::Text;

/// An operation of a script: its letter and its numbers.
type Operation = (u8, Vec<u64>);

/// The operations of a script, `-` for none, if it is one: `a` has four numbers, `f` one; in a shared room `o` and `c` have none,
/// and the file's number is first in each.
fn script(text: &[u8], shared: bool) -> Option<Vec<Operation>> {
    let text = str::from_utf8(text).ok()?;
    if text == "-" {
        return Some(Vec::new());
    }
    text.split(',').map(|text| operation(text, shared)).collect()
}

/// An operation, if it is one.
fn operation(text: &str, shared: bool) -> Option<Operation> {
    let (letter, numbers) = text.split_once(':')?;
    let numbers: Vec<u64> = numbers.split(':').map(number).collect::<Option<_>>()?;
    let wanted = match letter {
        "a" => 4,
        "f" => 1,
        "o" | "c" if shared => 0,
        _ => return None,
    };
    (numbers.len() == wanted + usize::from(shared)).then_some((letter.as_bytes()[0], numbers))
}

/// The number that some digits are.
fn number(digits: &str) -> Option<u64> {
    digits.bytes().all(|digit| digit.is_ascii_digit()).then(|| digits.parse().ok())?
}

/// The record of four numbers.
fn entry(numbers: &[u64]) -> Entry {
    let [start, length_bytes, group, length] = numbers[..] else { unreachable!("four numbers") };
    Entry { start, length_bytes, group, length }
}

/// Puts what an operation answers, `;` behind it.
fn put(out: &mut Text, answer: Result<Answer, Refusal>) {
    match answer {
        Ok(Answer::Done) => out.put("ok"),
        Ok(Answer::Found(found)) => out.or_dash(found, |out, (number, entry)| {
            out.number(number as u64);
            for field in [entry.start, entry.length_bytes, entry.group, entry.length] {
                out.put(":").number(field);
            }
        }),
        Err(refusal) => out.put("refused ").number(refusal.number().into()),
    };
    out.put(";");
}

/// What an operation that is not refused answers.
enum Answer {
    Done,
    Found(Option<(usize, Entry)>),
}

/// The layout that a case says.
fn layout(columns: bool) -> Layout {
    if columns { Layout::Columns } else { Layout::Rows }
}

/// `index`: a script over so many lent bytes, and the bytes after it.
pub fn index(out: &mut Text, text: &[u8], columns: bool, room: usize) {
    let Some(script) = script(text, false) else {
        out.put("?");
        return;
    };
    let mut index = Index::new(vec![0; room], layout(columns));
    for (letter, numbers) in &script {
        let answer = match letter {
            b'a' => index.add(entry(numbers)).map(|()| Answer::Done),
            _ => index.find(numbers[0]).map(Answer::Found),
        };
        put(out, answer);
    }
    out.put("|").bytes(index.bytes());
}

/// `turn`: an index in the other layout, columns (1) or rows, in so much room.
pub fn turn(out: &mut Text, s: &[u8], columns: bool, room: usize) -> Result<(), Refusal> {
    let index = Index::stored(s, layout(!columns), 0);
    let turned = index.turned(vec![0; room.min(s.len())], layout(columns))?;
    out.bytes(turned.bytes());
    Ok(())
}

/// `shared`: a script over so many lent bytes that two files share.
pub fn shared(out: &mut Text, text: &[u8], columns: bool, room: usize, shares: [usize; 2]) -> Result<(), Refusal> {
    let Some(script) = script(text, true) else {
        out.put("?");
        return Ok(());
    };
    let mut room = SharedIndex::new(vec![0; room], layout(columns), shares)?;
    for (letter, numbers) in &script {
        let file = numbers[0];
        let answer = match letter {
            b'o' => room.open(file).map(|()| Answer::Done),
            b'c' => room.close(file).map(|()| Answer::Done),
            b'a' => room.add(file, entry(&numbers[1..])).map(|()| Answer::Done),
            _ => room.find(file, numbers[1]).map(Answer::Found),
        };
        put(out, answer);
    }
    Ok(())
}
