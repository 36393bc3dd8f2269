//! What the program is asked by its arguments.

use second::room::STD;
use std::ffi::OsString;
use std::path::Path;

pub const USAGE: &str = "second [--no-accounts] [--std FILE] [--read FILE] [--write FILE]";

pub struct Asked {
    pub audited: bool,
    std: Option<OsString>,
    read: Option<OsString>,
    write: Option<OsString>,
}

impl Asked {
    /// Nothing where the arguments are not these, each at most once.
    pub fn by(mut arguments: impl Iterator<Item = OsString>) -> Option<Self> {
        let mut asked = Asked {
            audited: true,
            std: None,
            read: None,
            write: None,
        };
        while let Some(argument) = arguments.next() {
            let file = match argument.to_str()? {
                "--no-accounts" if asked.audited => {
                    asked.audited = false;
                    continue;
                }
                "--std" => &mut asked.std,
                "--read" => &mut asked.read,
                "--write" => &mut asked.write,
                _ => return None,
            };
            if file.replace(arguments.next()?).is_some() {
                return None;
            }
        }
        Some(asked)
    }

    /// Where the standards are; and whether they may be absent there.
    pub fn std(&self) -> (&Path, bool) {
        match &self.std {
            Some(named) => (Path::new(named), false),
            None => (Path::new(STD), true),
        }
    }

    pub fn read(&self) -> Option<&Path> {
        self.read.as_ref().map(Path::new)
    }

    pub fn write(&self) -> Option<&Path> {
        self.write.as_ref().map(Path::new)
    }
}
