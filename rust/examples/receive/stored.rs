//! The file that an upload is stored in as it comes, and parts of it, mapped for reading.

use std::fs::{self, File, OpenOptions};
use std::io::{ErrorKind, Result, Write};
use std::os::unix::fs::OpenOptionsExt;
use std::path::{Path, PathBuf};
use std::sync::atomic::{AtomicU64, Ordering};

use crate::system::Part;

/// The folder of stored files: the spool's, where uploads keep their names, or that of temporary files, where they have none.
pub struct Folder {
    path: PathBuf,
    named: bool,
    opened: AtomicU64,
}

impl Folder {
    /// The spool's folder, or that of temporary files. It is an error where it is none.
    pub fn new(spool: Option<&Path>) -> Result<Self> {
        let path = spool.map_or_else(std::env::temp_dir, Path::to_path_buf);
        fs::read_dir(&path)?;
        Ok(Folder { path, named: spool.is_some(), opened: AtomicU64::new(0) })
    }

    /// Opens a new file for an upload; in a spool it is ID.part until it is whole. It is [`ErrorKind::AlreadyExists`] where the spool
    /// has the upload.
    pub fn open(&self, id: &str) -> Result<Stored> {
        let name = self.path.join(id);
        if self.named && name.try_exists()? {
            return Err(ErrorKind::AlreadyExists.into());
        }
        let number = self.opened.fetch_add(1, Ordering::Relaxed);
        let other = if self.named { format!("{id}.part") } else { format!(".receive-{}-{number}", std::process::id()) };
        let part = self.path.join(other);
        let file = OpenOptions::new().read(true).write(true).create_new(true).mode(0o600).open(&part)?;
        if self.named {
            return Ok(Stored { file, length: 0, names: Some((part, name)) });
        }
        fs::remove_file(part)?;
        Ok(Stored { file, length: 0, names: None })
    }
}

/// A stored file. It is this program's alone, and is only added to. Dropped before it is kept it is removed.
pub struct Stored {
    file: File,
    length: usize,
    /// In a spool, its name and the one that it is to have.
    names: Option<(PathBuf, PathBuf)>,
}

impl Stored {
    /// How many bytes are stored.
    pub fn len(&self) -> usize {
        self.length
    }

    /// Adds bytes at the end.
    pub fn add(&mut self, bytes: &[u8]) -> Result<()> {
        self.file.write_all(bytes)?;
        self.length += bytes.len();
        Ok(())
    }

    /// The bytes from a place up to another one behind it.
    pub fn map(&self, from: usize, to: usize) -> Result<Part> {
        if from >= to || to > self.length {
            return Err(ErrorKind::InvalidInput.into());
        }
        Part::new(&self.file, from..to)
    }

    /// Keeps the file; in a spool it is on the disk by then, and has its upload's name from then on.
    pub fn keep(&self) -> Result<()> {
        let Some((part, name)) = &self.names else { return Ok(()) };
        let folder = File::open(name.parent().unwrap_or(name))?;
        self.file.sync_all()?;
        fs::hard_link(part, name)?;
        folder.sync_all().inspect_err(|_| drop(fs::remove_file(name)))
    }
}

impl Drop for Stored {
    fn drop(&mut self) {
        if let Some((part, _)) = &self.names {
            let _ = fs::remove_file(part);
        }
    }
}
