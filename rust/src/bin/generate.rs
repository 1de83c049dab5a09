//! `generate SEED CALLS`: a random list of calls on standard output.

use independent::generate::{generate, write_list};
use std::io;
use std::process::ExitCode;

fn main() -> io::Result<ExitCode> {
    write_list("generate SEED CALLS", generate)
}
