//! Folders for the files of one test, each its own.

use std::env;
use std::fs;
use std::io::ErrorKind;
use std::path::{Path, PathBuf};
use std::process;
use std::sync::atomic::{AtomicUsize, Ordering};

/// How many folders this process has made.
static MADE: AtomicUsize = AtomicUsize::new(0);

/// A folder that is removed with all that is in it when the test is done with it.
pub struct Scratch {
    folder: PathBuf,
}

impl Scratch {
    /// A new, empty folder.
    pub fn new() -> Scratch {
        loop {
            let number = MADE.fetch_add(1, Ordering::Relaxed);
            let folder = env::temp_dir().join(format!("comparison-{}-{number}", process::id()));
            match fs::create_dir(&folder) {
                Ok(()) => return Scratch { folder },
                Err(error) if error.kind() == ErrorKind::AlreadyExists => {}
                Err(error) => panic!("{}: {error}", folder.display()),
            }
        }
    }

    /// The folder itself.
    pub fn folder(&self) -> &Path {
        &self.folder
    }

    /// A new file with these bytes.
    pub fn file(&self, name: &str, bytes: &[u8]) -> PathBuf {
        let path = self.folder.join(name);
        fs::write(&path, bytes).unwrap_or_else(|error| panic!("{}: {error}", path.display()));
        path
    }
}

impl Drop for Scratch {
    /// Removes the folder; one that cannot be removed is left.
    fn drop(&mut self) {
        let _ = fs::remove_dir_all(&self.folder);
    }
}
