//! The files that the program is handed.

use std::fs::{self, File};
use std::io::{self, Write};
use std::path::{Path, PathBuf};
use std::process;

/// Puts a text in a file's place. It is written to a new file beside it first,
/// so that whatever fails, the old one is whole.
pub fn replace(path: &Path, text: &[u8]) -> io::Result<()> {
    let new = beside(path);
    let file = File::create_new(&new)?;
    let done = fill(file, text).and_then(|()| fs::rename(&new, path));
    if done.is_err() {
        let _ = fs::remove_file(&new);
    }
    done
}

fn beside(path: &Path) -> PathBuf {
    let mut name = path.as_os_str().to_owned();
    name.push(format!(".{}.new", process::id()));
    name.into()
}

fn fill(mut file: File, text: &[u8]) -> io::Result<()> {
    file.write_all(text)?;
    file.sync_all()
}
