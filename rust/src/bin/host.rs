//! The host program over the independent agent: a list of calls on standard
//! input, the answers on standard output.

use independent::lines::{serve, Host};
use std::io;

fn main() -> io::Result<()> {
    serve::<Host>()
}
