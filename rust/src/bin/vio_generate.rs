//! `vio_generate SEED LINES`: a random list of lines of two ends on standard
//! output.

use independent::generate::write_list;
use independent::vio::generate::generate;
use std::io;
use std::process::ExitCode;

fn main() -> io::Result<ExitCode> {
    write_list("vio_generate SEED LINES", generate)
}
