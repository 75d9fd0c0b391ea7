//! A folder for a run's files, gone when the run ends.

use std::path::{Path, PathBuf};
use std::{env, fs, io, process};

pub struct Folder(PathBuf);

impl Folder {
    pub fn new(name: &str) -> io::Result<Folder> {
        let path = env::temp_dir().join(format!("{name}-{}", process::id()));
        fs::create_dir_all(&path)?;
        Ok(Folder(path))
    }

    pub fn path(&self, name: &str) -> PathBuf {
        self.0.join(name)
    }

    /// Writes a file and answers where it is.
    pub fn write(&self, name: &str, bytes: &[u8]) -> io::Result<PathBuf> {
        let path = self.path(name);
        fs::write(&path, bytes)?;
        Ok(path)
    }
}

impl Drop for Folder {
    fn drop(&mut self) {
        let path: &Path = &self.0;
        if let Err(fault) = fs::remove_dir_all(path) {
            eprintln!("{} is left: {fault}", path.display());
        }
    }
}
