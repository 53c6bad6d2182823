//! L11: two uploads in one index room, each with a reserved share, closed or not.

use super::index::{Entry, Operation, put_added, put_found, script, unfit};
use crate::line::{Case, Field, Word};

pub const WORDS: &[Word] = &[("shared", &[Field::Coding, Field::Room, Field::Number, Field::Number, Field::List])];

/// The answer to a case; columns answer as rows do.
pub fn put(out: &mut String, case: &Case) {
    let [_, room, a, b] = case.numbers[..] else { unreachable!("four numbers") };
    let Some(script) = script(&case.list, 1) else { return out.push('?') };
    let whole = room / 16;
    if a as u128 + b as u128 > whole as u128 {
        return out.push_str("refused 20");
    }
    let mut room = Room { whole, files: [a, b].map(|share| File { share, open: false, entries: Vec::new() }) };
    for operation in &script {
        room.put(out, operation);
    }
}

/// A file in transit: its share, whether it is open, and its records.
struct File {
    share: u64,
    open: bool,
    entries: Vec<Entry>,
}

impl File {
    /// The entries that it uses or has reserved.
    fn kept(&self) -> u64 {
        self.share.max(self.entries.len() as u64)
    }
}

/// A room that two files share.
struct Room {
    whole: u64,
    files: [File; 2],
}

impl Room {
    /// Puts what an operation on a file answers: 19 where there is no such file, it isn't open, or it is opened twice.
    fn put(&mut self, out: &mut String, (letter, numbers): &Operation) {
        let number = numbers[0];
        if number > 1 || self.files[number as usize].open == (*letter == 'o') {
            return out.push_str("refused 19;");
        }
        let (file, other) = (number as usize, 1 - number as usize);
        match letter {
            'f' => put_found(out, &self.files[file].entries, numbers[1]),
            'a' => {
                let entry = Entry::of(&numbers[1..]);
                let refusal = unfit(&self.files[file].entries, &entry).or(self.is_full(file, other).then_some(18));
                put_added(out, refusal);
                if refusal.is_none() {
                    self.files[file].entries.push(entry);
                }
            }
            _ => {
                self.files[file].open = *letter == 'o';
                self.files[file].entries.clear();
                out.push_str("ok;");
            }
        }
    }

    /// Whether a file at or above its share finds no entry free beyond the other's unused share.
    fn is_full(&self, file: usize, other: usize) -> bool {
        let used = self.files[file].entries.len() as u64;
        used >= self.files[file].share && used + self.files[other].kept() >= self.whole
    }
}

#[cfg(test)]
mod tests {
    use super::*;
    use crate::asked::tests::shows;
    use crate::cases;
    use crate::line::parse;

    #[test]
    fn the_example() {
        let script = "o:0,o:0,a:1:0:0:0:0,a:2:0:1:0:0,a:0:0:1:0:0,a:0:17:1:0:0,a:0:34:1:0:0,o:1,a:1:0:1:0:0,a:1:17:1:0:0,\
            a:1:34:1:0:0,c:0,a:1:34:1:0:0,a:1:51:1:0:0,o:0,a:0:0:1:0:0";
        let right = "ok;refused 19;refused 19;refused 19;ok;ok;refused 18;ok;ok;ok;refused 18;ok;ok;refused 18;ok;ok;";
        for columns in [0, 1] {
            shows(&format!("shared {columns} 64 1 2 {script}"), right);
        }
        shows("shared 0 64 3 2 o:0", "refused 20");
        shows("shared 0 64 18446744073709551615 2 -", "refused 20");
        shows("shared 0 64 1 2 -", "");
    }

    #[test]
    fn refusals_of_a_file_before_those_of_an_entry() {
        shows(
            "shared 0 16 1 0 o:0,a:0:0:0:0:0,a:1:0:0:0:0,f:1:0,c:1,c:0,c:0,f:0:0",
            "ok;refused 15;refused 19;refused 19;refused 19;ok;refused 19;refused 19;",
        );
        shows("shared 0 16 1 0 o:0,a:0:5:1:0:0,a:0:5:1:0:0,a:0:22:1:0:0", "ok;ok;refused 17;refused 18;");
        shows("shared 0 32 1 0 o:0,o:1,a:0:5:1:0:0,f:0:5,f:1:5,c:0,o:0,f:0:5", "ok;ok;ok;0:5:1:0:0;-;ok;ok;-;");
    }

    /// A file below its share is never refused for room, and the two never use more than the whole.
    #[test]
    fn shares_are_kept() {
        for index in 0..5000 {
            let case = parse(&cases::case("shared", 13, index)).unwrap();
            let [_, room, a, b] = case.numbers[..] else { unreachable!() };
            let Some(script) = script(&case.list, 1).filter(|_| a.saturating_add(b) <= room / 16) else { continue };
            let mut room = Room { whole: room / 16, files: [a, b].map(|share| File { share, open: false, entries: Vec::new() }) };
            for operation in &script {
                let below = operation.1[0] < 2 && {
                    let file = &room.files[operation.1[0] as usize];
                    (file.entries.len() as u64) < file.share
                };
                let mut out = String::new();
                room.put(&mut out, operation);
                assert!(!below || out != "refused 18;", "{}", case.line());
                assert!(room.files.iter().map(File::kept).sum::<u64>() <= room.whole, "{}", case.line());
            }
        }
    }
}
