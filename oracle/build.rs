//! Stages the published Rust in target/staged for compiling: whole files byte for byte, with one line after the last of
//! those whose private functions are compared, and single items cut out of files of which only these are reached.

use std::fs;
use std::path::{Path, PathBuf};
use std::process::exit;

/// The files that are compiled whole, and the child module that reaches into each.
const WHOLE: [(&str, Option<&str>); 6] = [
    ("mxf.rs", Some("mxf.rs")),
    ("tags_impl.rs", None),
    ("segment_table.rs", None),
    ("arri/mxf.rs", Some("arri.rs")),
    ("sony/mxf.rs", Some("sony.rs")),
    ("canon/mxf_packs.rs", Some("canon.rs")),
];

/// The files of which single items are compiled: where they go, what they begin with, and the items' first lines.
const PARTS: [(&str, &str, &[&str]); 4] = [
    (
        "util.rs",
        "use std::io::*;\nuse crate::tags_impl::*;\npub use crate::insert_tag;\n",
        &[
            "pub fn to_hex(",
            "#[derive(Debug, Clone, Default)]\npub struct SampleInfo ",
            "#[derive(Default, Debug, Clone)]\npub struct VideoMetadata ",
            "pub fn read_data<",
        ],
    ),
    ("canon/clip_boxes.rs", "use crate::tags_impl::GroupId;\n", &["pub const CLIP_METADATA:"]),
    ("canon/cndm_tags.rs", "use crate::tags_impl::GroupId;\n", &["pub const FRAME_METADATA:", "pub fn code_name("]),
    (
        "canon/crm_packs.rs",
        "use serde_json::{ json, Value };\nuse super::cndm_tags::code_name;\n",
        &["pub fn named(", "pub fn focus_position("],
    ),
];

fn main() {
    let here = PathBuf::from(std::env::var_os("CARGO_MANIFEST_DIR").unwrap());
    let out = here.join("target/staged");
    let rust = sources(&here);
    println!("cargo::rerun-if-env-changed=BRINETHIMBLE_RUST");
    for (name, child) in WHOLE {
        let mut text = watched(&rust, name);
        if let Some(child) = child {
            let path = here.join("src/reach").join(child);
            text += &format!("\n#[path = {path:?}] pub mod reach;\n");
        }
        put(&out.join(name), &text);
    }
    for (name, head, items) in PARTS {
        let text = watched(&rust, name);
        let items: String = items.iter().map(|first| item(&text, first, name)).collect();
        put(&out.join(name), &format!("{head}{items}"));
    }
    put(&out.join("tags.rs"), &watched(&here.join("src/shims"), "tags.rs"));
}

/// The folder of the published Rust: the one named by the environment, from the project's root, or the usual one.
fn sources(here: &Path) -> PathBuf {
    let named = std::env::var_os("BRINETHIMBLE_RUST").filter(|name| !name.is_empty());
    let folder = here.join("..").join(named.unwrap_or("../shared/docs/src/src".into()));
    if !folder.join("mxf.rs").is_file() {
        eprintln!("the published Rust is not at {}: BRINETHIMBLE_RUST names the folder that holds its mxf.rs", folder.display());
        exit(3);
    }
    folder
}

/// The text of a file, which cargo watches from then on.
fn watched(folder: &Path, name: &str) -> String {
    let path = folder.join(name);
    println!("cargo::rerun-if-changed={}", path.display());
    fs::read_to_string(&path).unwrap_or_else(|e| panic!("{}: {e}", path.display()))
}

/// The item that begins with a line, up to the first line that closes it, byte for byte.
fn item(text: &str, first: &str, name: &str) -> String {
    let start = text.find(&format!("\n{first}")).unwrap_or_else(|| panic!("{name} has no item {first:?}")) + 1;
    let rest = &text[start..];
    let line = rest.find('\n').map_or(rest.len(), |i| i + 1);
    let end = if rest[..line].trim_end().ends_with(';') { line } else { rest.find("\n}\n").expect("an end of the item") + 3 };
    rest[..end].to_string()
}

fn put(path: &Path, text: &str) {
    fs::create_dir_all(path.parent().unwrap()).unwrap();
    fs::write(path, text).unwrap();
}
