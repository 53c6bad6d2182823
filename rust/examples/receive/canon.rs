//! Canon's frames of a stored upload. The finished walk wants the whole file, which is mapped: it is the system's copy, of which the
//! walk looks at each record's label and length, and at all that is no record.

use brinethimble::{Canon, CanonItem};

use crate::stored::Stored;
use crate::tell;
use crate::upload::Why;

/// Says Canon's frames and given values (`upload` has the lines), and counts both.
pub fn list(id: &str, stored: &Stored) -> Result<(u64, u64), Why> {
    let (mut frames, mut given) = (0, 0);
    if stored.len() == 0 {
        return Ok((frames, given));
    }
    let file = stored.map(0, stored.len())?;
    for item in Canon::new(&file, file.len())? {
        match item {
            CanonItem::Frame(frame) => {
                let told = if frame.overlong { " over-long".into() } else { tell::payload_of(frame.element.value) };
                say!("{id} frame canon {} {}{told}", frame.number, tell::places(&frame.element));
                frames += 1;
            }
            CanonItem::Given(record) => {
                say!("{id} given canon {}{}", tell::places(&record), tell::given(&record));
                given += 1;
            }
        }
    }
    Ok((frames, given))
}
