//! `bench PROGRAM`: wall-clock times of PROGRAM and of `second --no-accounts`
//! on the same inputs, best of five, the two in turn, with the built-in
//! standards. Then what of a call of PROGRAM's is its head: for a trade, and
//! for a filing, which also has its table checked.

use second::generate::{session, Kind};
use second::room::Room;
use std::ffi::OsStr;
use std::fs::File;
use std::io;
use std::path::{Path, PathBuf};
use std::process::{Command, ExitCode, Stdio};
use std::time::{Duration, Instant};

const RUNS: usize = 5;
const SEED: u64 = 2014;
const INPUTS: [(&str, Kind); 3] = [
    ("100,000 lines", Kind::Bench),
    ("one year", Kind::Single),
    ("full", Kind::Full),
];

/// Lines of which PROGRAM asks the head alone, since the maker is none; with
/// another last byte they are read as far, and not posted.
const FILING: &str = "(file (maker 8) (set 3) (year 2014) (use 1) (edition 0) (family 0) \
                      (fcl 465) (cf 280000) (volume 1000) (life 435))";
const TRADE: &str = "(trade (from 8) (to 1) (set 3) (vintage 2014) (mg 200))";
const HEADS: usize = 100_000;

fn main() -> ExitCode {
    let mut arguments = std::env::args_os().skip(1);
    let (Some(program), None) = (arguments.next(), arguments.next()) else {
        eprintln!("usage: bench PROGRAM");
        return ExitCode::from(2);
    };
    match bench(&program) {
        Ok(()) => ExitCode::SUCCESS,
        Err(error) => {
            eprintln!("bench: {error}");
            ExitCode::FAILURE
        }
    }
}

fn bench(program: &OsStr) -> io::Result<()> {
    let second = beside_this("second")?;
    // No std.txt lies there.
    let room = Room::new()?;
    println!(
        "{:<14} {:>7} {:>11} {:>11} {:>13} {:>13} {:>15}",
        "input", "lines", "program s", "second s", "program l/s", "second l/s", "program/second"
    );
    for (name, kind) in INPUTS {
        let text = session(kind, SEED, kind.usual_lines());
        let lines = text.iter().filter(|&&byte| byte == b'\n').count();
        let input = room.write("input", &text)?;
        let mut program = room.command(program)?;
        let mut second = room.command(second.as_os_str())?;
        second.arg("--no-accounts");
        same_output(&mut program, &mut second, &input)?;
        let (program, second) = best_times(&mut program, &mut second, &input)?;
        println!(
            "{name:<14} {lines:>7} {:>11.4} {:>11.4} {:>13.0} {:>13.0} {:>15.2}",
            program.as_secs_f64(),
            second.as_secs_f64(),
            per_second(lines, program),
            per_second(lines, second),
            program.as_secs_f64() / second.as_secs_f64()
        );
    }
    println!("best of {RUNS}; program/second is the ratio of the times");
    let trade = head_of(program, TRADE, &room)?;
    let filing = head_of(program, FILING, &room)?;
    println!(
        "the soundness walk, with the copies of the book: {trade:.3} us a call; \
         the check of a filing's table: {:.3} us, {:.2} of it",
        filing - trade,
        (filing - trade) / trade
    );
    Ok(())
}

/// Microseconds of what comes between reading a line and its own refusals.
fn head_of(program: &OsStr, line: &str, room: &Room) -> io::Result<f64> {
    let posted = repeated(line);
    let unposted = repeated(&format!("{}]", &line[..line.len() - 1]));
    let posted = best_time(program, &posted, room)?;
    let unposted = best_time(program, &unposted, room)?;
    Ok((posted.as_secs_f64() - unposted.as_secs_f64()) * 1e6 / HEADS as f64)
}

fn repeated(line: &str) -> Vec<u8> {
    format!("{line}\n").repeat(HEADS).into_bytes()
}

fn best_time(program: &OsStr, text: &[u8], room: &Room) -> io::Result<Duration> {
    let input = room.write("input", text)?;
    let mut command = room.command(program)?;
    let mut best = Duration::MAX;
    for _ in 0..RUNS {
        best = best.min(time(&mut command, &input)?);
    }
    Ok(best)
}

fn beside_this(name: &str) -> io::Result<PathBuf> {
    let mut path = std::env::current_exe()?;
    path.set_file_name(name);
    Ok(path)
}

/// The untimed first run: times are told of equal work only.
fn same_output(program: &mut Command, second: &mut Command, input: &Path) -> io::Result<()> {
    if output(program, input)? == output(second, input)? {
        Ok(())
    } else {
        Err(io::Error::other("the two outputs differ; run compare"))
    }
}

fn output(command: &mut Command, input: &Path) -> io::Result<Vec<u8>> {
    let out = command
        .stdin(File::open(input)?)
        .stdout(Stdio::piped())
        .output()?;
    Ok(out.stdout)
}

fn best_times(
    program: &mut Command,
    second: &mut Command,
    input: &Path,
) -> io::Result<(Duration, Duration)> {
    let mut best = (Duration::MAX, Duration::MAX);
    for _ in 0..RUNS {
        best.0 = best.0.min(time(program, input)?);
        best.1 = best.1.min(time(second, input)?);
    }
    Ok(best)
}

fn time(command: &mut Command, input: &Path) -> io::Result<Duration> {
    command.stdin(File::open(input)?).stdout(Stdio::null());
    let begun = Instant::now();
    let status = command.status()?;
    let taken = begun.elapsed();
    if status.success() {
        Ok(taken)
    } else {
        Err(io::Error::other(format!("a run ended with {status}")))
    }
}

fn per_second(lines: usize, time: Duration) -> f64 {
    lines as f64 / time.as_secs_f64()
}
