//! Folders among the system's temporary ones.

use std::path::{Path, PathBuf};
use std::sync::atomic::{AtomicU64, Ordering};
use std::{env, fs, io, process};

/// A new and empty folder, removed in the end with all that lies in it.
pub struct Temporary {
    path: PathBuf,
}

impl Temporary {
    /// Its name begins with this.
    pub fn new(begin: &str) -> io::Result<Temporary> {
        static COUNT: AtomicU64 = AtomicU64::new(0);
        let count = COUNT.fetch_add(1, Ordering::Relaxed);
        let name = format!("{begin}-{}-{count}", process::id());
        let path = env::temp_dir().join(name);
        fs::create_dir(&path)?;
        Ok(Temporary { path })
    }

    pub fn path(&self) -> &Path {
        &self.path
    }
}

impl Drop for Temporary {
    fn drop(&mut self) {
        // What can't be removed stays among the temporary folders.
        let _ = fs::remove_dir_all(&self.path);
    }
}
