//! Directories of their own in which programs are run, so that each finds the
//! `std.txt` that is meant for it, or none.

use std::ffi::{OsStr, OsString};
use std::fs::{self, DirEntry};
use std::io::{self, ErrorKind};
use std::path::{Path, PathBuf};
use std::process::Command;

/// The file that a program reads its standards from.
pub const STD: &str = "std.txt";

/// A directory, empty at first, that is removed at the end.
pub struct Room(PathBuf);

impl Room {
    pub fn new() -> io::Result<Self> {
        let here = std::env::temp_dir();
        let own = std::process::id();
        let mut names = (0..).map(|number: u64| here.join(format!("second-{own}-{number}")));
        let made = names.find_map(|path| match fs::create_dir(&path) {
            Err(error) if error.kind() == ErrorKind::AlreadyExists => None,
            Err(error) => Some(Err(error)),
            Ok(()) => Some(Ok(Room(path))),
        });
        made.unwrap_or_else(|| Err(ErrorKind::AlreadyExists.into()))
    }

    pub fn path(&self) -> &Path {
        &self.0
    }

    pub fn write(&self, name: &str, bytes: &[u8]) -> io::Result<PathBuf> {
        let path = self.0.join(name);
        fs::write(&path, bytes)?;
        Ok(path)
    }

    /// Nothing where there is no such file.
    pub fn read(&self, name: &str) -> io::Result<Option<Vec<u8>>> {
        absent_is_none(fs::read(self.0.join(name)))
    }

    /// A file that may be there.
    pub fn remove(&self, name: &str) -> io::Result<()> {
        absent_is_none(fs::remove_file(self.0.join(name))).map(drop)
    }

    /// Of all that is here.
    pub fn names(&self) -> io::Result<Vec<String>> {
        let name = |entry: io::Result<DirEntry>| Ok(entry?.file_name().to_string_lossy().into());
        fs::read_dir(&self.0)?.map(name).collect()
    }

    /// From now on programs find this text of standards here, or none.
    pub fn lay_out(&self, std: Option<&[u8]>) -> io::Result<()> {
        match std {
            Some(text) => self.write(STD, text).map(drop),
            None => self.remove(STD),
        }
    }

    /// A program to be run here, that may be named from where we are.
    pub fn command(&self, program: &OsStr) -> io::Result<Command> {
        let mut command = Command::new(from_anywhere(program)?);
        command.current_dir(&self.0);
        Ok(command)
    }
}

impl Drop for Room {
    fn drop(&mut self) {
        let _ = fs::remove_dir_all(&self.0);
    }
}

fn absent_is_none<T>(found: io::Result<T>) -> io::Result<Option<T>> {
    match found {
        Err(error) if error.kind() == ErrorKind::NotFound => Ok(None),
        found => found.map(Some),
    }
}

/// A name without a directory is searched for by the system.
fn from_anywhere(program: &OsStr) -> io::Result<OsString> {
    if Path::new(program).components().count() > 1 {
        fs::canonicalize(program).map(OsString::from)
    } else {
        Ok(program.into())
    }
}
