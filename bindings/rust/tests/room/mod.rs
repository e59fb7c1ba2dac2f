//! A folder for a test of stations with folders.
use std::path::PathBuf;
use std::{env, fs, io, process};

/// A folder of its own, which is removed with all that is in it.
pub struct Room(PathBuf);

impl Room {
    /// Makes the folder, with an outbox, an inbox, and an inbox of the station that sends.
    pub fn new(name: &str) -> io::Result<Room> {
        let at = env::temp_dir().join(format!("cfdp-{name}-{}", process::id()));
        for it in ["out", "in", "back"] {
            fs::create_dir_all(at.join(it))?;
        }
        Ok(Room(at))
    }

    pub fn path(&self, name: &str) -> PathBuf {
        self.0.join(name)
    }
}

impl Drop for Room {
    fn drop(&mut self) {
        let _ = fs::remove_dir_all(&self.0);
    }
}
