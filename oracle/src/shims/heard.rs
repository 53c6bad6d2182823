//! The published Rust says only in its log that an element is over-long, and only by its progress where it is.

use std::cell::{Cell, RefCell};
use std::sync::Once;

thread_local! {
    static HEARD: RefCell<Vec<(u64, u64)>> = const { RefCell::new(Vec::new()) };
    static PLACE: Cell<u64> = const { Cell::new(0) };
}

struct Ear;

impl log::Log for Ear {
    fn enabled(&self, _: &log::Metadata) -> bool {
        true
    }

    fn log(&self, record: &log::Record) {
        if let Some(heard) = over_long(&record.args().to_string()) {
            HEARD.with_borrow_mut(|all| all.push(heard));
        }
    }

    fn flush(&self) {}
}

/// The place of the value and the length in a warning of an over-long element: `... element of N bytes at 0xP`.
fn over_long(warning: &str) -> Option<(u64, u64)> {
    let (length, place) = warning.split_once(" element of ")?.1.split_once(" bytes at 0x")?;
    Some((u64::from_str_radix(place, 16).ok()?, length.parse().ok()?))
}

/// Hears the warnings from now on, with those of before forgotten.
pub fn listen() {
    static ONCE: Once = Once::new();
    ONCE.call_once(|| {
        log::set_logger(&Ear).expect("no other logger");
        log::set_max_level(log::LevelFilter::Warn);
    });
    HEARD.take();
}

/// The over-long elements heard of since `listen`: the places of their values and their lengths.
pub fn taken() -> Vec<(u64, u64)> {
    HEARD.take()
}

/// Notes the progress, a share of a size.
pub fn reached(share: f64, size: u64) {
    PLACE.set((share * size as f64).round() as u64);
}

/// The place of the last progress: the value's, when a value is handed over.
pub fn place() -> u64 {
    PLACE.get()
}

#[cfg(test)]
mod tests {
    use super::*;

    #[test]
    fn an_over_long_element_is_heard_of() {
        assert_eq!(over_long("ARRI: a frame metadata element of 8193 bytes at 0x00000013"), Some((19, 8193)));
        assert_eq!(over_long("An ST 436 element of 23723673 bytes at 0x00000014"), Some((20, 23_723_673)));
        assert_eq!(over_long("An ST 436 element of 1 bytes"), None);
    }
}
