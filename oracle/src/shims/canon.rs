//! The parts of Canon's files that are ours: a `named` that gives back its code, and the tags in the order they come.

use std::cell::RefCell;

use serde_json::{Value, json};

use crate::tags_impl::TagDescription;

thread_local! {
    static KEPT: RefCell<Vec<TagDescription>> = const { RefCell::new(Vec::new()) };
}

/// The code that the Rust hands to its `named`.
pub fn named(code: u8, _: &[&str]) -> Value {
    json!({ "code": code })
}

/// Keeps a tag until it is taken.
pub fn keep(tag: &TagDescription) {
    KEPT.with_borrow_mut(|kept| kept.push(tag.clone()));
}

/// The tags kept since the last call.
pub fn taken() -> Vec<TagDescription> {
    KEPT.take()
}
