//! The reader of saved entries: a file on standard input, what it shows on
//! standard output; with `--entries` first a line for each good entry.
//!
//! Ends with 0 if all is good, with 1 after `bad entry at N` or `bad blocks`,
//! and with 2 for wrong usage, an input that cannot be read or an output that
//! cannot be written.

use independent::reader::{output, read, read_entries, Failure};
use std::env;
use std::ffi::OsString;
use std::fs::File;
use std::io::{self, Write};
use std::os::fd::{AsFd, BorrowedFd};
use std::process::ExitCode;

/// A standard stream as a file. `Stdin` and `Stdout` hide a stream that is open
/// in the wrong direction: an empty input, or an output that takes everything.
fn file(stream: BorrowedFd) -> io::Result<File> {
    stream.try_clone_to_owned().map(File::from)
}

/// Prints what the input shows; gives whether all of it is good.
fn show(with_entries: bool) -> Result<bool, Failure> {
    let input = file(io::stdin().as_fd()).map_err(Failure::of_input)?;
    let mut lines = file(io::stdout().as_fd()).map_err(Failure::of_output)?;
    let verdict = match with_entries {
        false => read(input)?,
        true => read_entries(input, &mut lines)?,
    };
    let written = lines.write_all(&output(&verdict));
    written.map_err(Failure::of_output)?;
    Ok(verdict.is_ok())
}

/// Writes a line to standard error. If that fails, the exit status remains.
fn complain(line: &str) {
    let _ = writeln!(io::stderr(), "{line}");
}

fn main() -> ExitCode {
    let arguments: Vec<OsString> = env::args_os().skip(1).collect();
    let with_entries = match &arguments[..] {
        [] => false,
        [option] if option == "--entries" => true,
        _ => {
            complain("usage: reader [--entries] < FILE");
            return ExitCode::from(2);
        }
    };
    match show(with_entries) {
        Ok(true) => ExitCode::SUCCESS,
        Ok(false) => ExitCode::FAILURE,
        Err(failure) => {
            for message in failure.messages() {
                complain(&format!("reader: {message}"));
            }
            ExitCode::from(2)
        }
    }
}
