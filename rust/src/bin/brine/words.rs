//! The words of a command line.

use std::ffi::OsString;
use std::path::{Path, PathBuf};

use crate::cameras::Camera;
use crate::{COMMANDS, Command};

/// What a command is asked.
#[derive(Default)]
pub struct Asked {
    files: Vec<PathBuf>,
    pub json: bool,
    pub payload: bool,
    pub camera: Option<Camera>,
    pub depth: Option<usize>,
    pub limit: Option<usize>,
}

impl Asked {
    /// A file by its number from 0, or nothing for standard input.
    pub fn file(&self, number: usize) -> Option<&Path> {
        self.files.get(number).map(PathBuf::as_path).filter(|file| *file != "-")
    }

    /// How messages call the input.
    pub fn name(&self) -> String {
        let names: Vec<_> = self.files.iter().map(|file| file.display().to_string()).filter(|name| name != "-").collect();
        if names.is_empty() { "standard input".into() } else { names.join(", ") }
    }
}

pub enum Words {
    Help,
    Version,
    Command(&'static Command, Asked),
}

/// What words ask for, or why they are not understood.
pub fn understood(words: impl Iterator<Item = OsString>) -> Result<Words, String> {
    let (mut asked, mut plain, mut given) = (Asked::default(), Vec::new(), Vec::new());
    let mut rest = words;
    while let Some(word) = rest.next() {
        let Some(text) = word.to_str().filter(|text| text.starts_with('-') && *text != "-") else {
            plain.push(word);
            continue;
        };
        let (name, value) = text.split_once('=').map_or((text, None), |(name, value)| (name, Some(value.to_string())));
        match name {
            "--help" | "-h" => return Ok(Words::Help),
            "--version" | "-V" => return Ok(Words::Version),
            "--" => {
                plain.extend(rest);
                break;
            }
            "--json" => asked.json = true,
            "--payload" => asked.payload = true,
            _ => option(&mut asked, name, value.or_else(|| rest.next()?.into_string().ok()))?,
        }
        given.push(name.to_string());
    }
    chosen(asked, plain, &given)
}

/// Takes an option and its value.
fn option(asked: &mut Asked, name: &str, value: Option<String>) -> Result<(), String> {
    let number = || value.as_deref().and_then(|text| text.parse().ok()).ok_or(format!("{name} takes a number"));
    match name {
        "--camera" => asked.camera = Some(value.as_deref().and_then(Camera::named).ok_or("--camera takes sony, arri or canon")?),
        "--depth" => asked.depth = Some(number()?),
        "--limit" => asked.limit = Some(number()?),
        _ => return Err(format!("{name} is no option")),
    }
    Ok(())
}

/// The command that is named, with its files.
fn chosen(mut asked: Asked, plain: Vec<OsString>, given: &[String]) -> Result<Words, String> {
    let mut plain = plain.into_iter();
    let name = plain.next().ok_or("a command is missing")?.to_string_lossy().into_owned();
    let command = COMMANDS.iter().find(|command| command.name == name).ok_or(format!("{name} is no command"))?;
    if let Some(other) = given.iter().find(|option| *option != "--json" && !command.options.contains(&option.as_str())) {
        return Err(format!("{name} has no {other}"));
    }
    asked.files = plain.map(PathBuf::from).collect();
    match asked.files.get(command.files) {
        Some(more) => Err(format!("{} is a file too many for {name}", more.display())),
        None if command.files > 1 && asked.files.len() < command.files => Err(format!("{name} takes {} files", command.files)),
        None => Ok(Words::Command(command, asked)),
    }
}
