//! Tells cargo where the library is: in the folder that BRINETHIMBLE_LIB names, else where `library/build` puts the one for this
//! machine, else where a release has it. A library that is missing, or was made for another machine, is said before the linker
//! fails on it.

use std::path::{Path, PathBuf};
use std::{env, fs};

/// Machines that a library is made for: cargo's name, ELF's number.
const MACHINES: [(&str, u16); 2] = [("x86_64", 62), ("aarch64", 183)];

fn main() {
    let here = PathBuf::from(env::var_os("CARGO_MANIFEST_DIR").expect("cargo names the crate's folder"));
    let folder = match env::var_os("BRINETHIMBLE_LIB") {
        Some(folder) => here.join(folder),
        None => ["../target/library/native", "../lib"]
            .map(|folder| here.join(folder))
            .into_iter()
            .find(|folder| folder.join("libbrinethimble.a").is_file())
            .unwrap_or_else(|| here.join("../target/library/native")),
    };
    println!("cargo::rerun-if-env-changed=BRINETHIMBLE_LIB");
    println!("cargo::rerun-if-changed={}", folder.join("libbrinethimble.a").display());
    match fitting(&folder.join("libbrinethimble.a"), &env::var("CARGO_CFG_TARGET_ARCH").unwrap_or_default()) {
        Ok(()) => {
            println!("cargo::rustc-link-search=native={}", folder.display());
            println!("cargo::rustc-link-lib=static=brinethimble");
        }
        Err(why) => println!("cargo::error={why}"),
    }
}

/// Whether a library can be linked for a machine, or why not.
fn fitting(library: &Path, target: &str) -> Result<(), String> {
    let shown = library.display();
    let bytes = fs::read(library).map_err(|why| {
        format!("{shown} can't be read ({why}): make it with `library/build`, or let BRINETHIMBLE_LIB name the folder that has it")
    })?;
    let number = machine(&bytes).ok_or_else(|| format!("{shown} is no library of ELF objects"))?;
    let made = MACHINES.iter().find(|(_, known)| *known == number).map_or("another machine", |(name, _)| name);
    if made != target {
        return Err(format!(
            "{shown} is for {made}, and this build is for {target}: let BRINETHIMBLE_LIB name the folder of one for {target}"
        ));
    }
    Ok(())
}

/// The ELF number of the machine that the first object of an archive is for. A member is a head of 60 bytes, which has its size in
/// decimal at 48, and its bytes, up to an even place.
fn machine(archive: &[u8]) -> Option<u16> {
    let mut rest = archive.strip_prefix(b"!<arch>\n")?;
    loop {
        let size: usize = str::from_utf8(rest.get(48..58)?).ok()?.trim_end().parse().ok()?;
        let member = rest.get(60..60 + size)?;
        if member.starts_with(b"\x7fELF\x02\x01") {
            return Some(u16::from_le_bytes(*member.get(18..)?.first_chunk()?));
        }
        rest = rest.get(60 + size + size % 2..)?;
    }
}
