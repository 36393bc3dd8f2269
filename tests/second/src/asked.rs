//! The commands that hold a program against this library, asked by
//! `PROGRAM N [SEED]`.

use std::ffi::OsString;
use std::process::ExitCode;

pub struct Asked {
    pub program: OsString,
    pub count: u64,
    pub seed: u64,
}

/// Runs such a command and prints what `hold` says: that nothing differs, or
/// the first difference.
pub fn answered(usage: &str, hold: impl FnOnce(&Asked) -> Result<String, String>) -> ExitCode {
    let Some(asked) = by_arguments() else {
        eprintln!("usage: {usage}");
        return ExitCode::from(2);
    };
    let (said, code) = match hold(&asked) {
        Ok(said) => (said, ExitCode::SUCCESS),
        Err(difference) => (difference, ExitCode::FAILURE),
    };
    println!("{said}");
    code
}

/// Nothing where the arguments are not these; without a seed it is 1.
fn by_arguments() -> Option<Asked> {
    let mut arguments = std::env::args_os().skip(1);
    let program = arguments.next()?;
    let count = number(arguments.next()?)?;
    let seed = arguments.next().map_or(Some(1), number)?;
    match arguments.next() {
        Some(_) => None,
        None => Some(Asked {
            program,
            count,
            seed,
        }),
    }
}

fn number(argument: OsString) -> Option<u64> {
    argument.to_str()?.parse().ok()
}
