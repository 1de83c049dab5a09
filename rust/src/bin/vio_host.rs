//! The program over two independent ends of the version handshake: a list of
//! lines on standard input, the answers on standard output.

use independent::lines::serve;
use independent::vio::Host;
use std::io;

fn main() -> io::Result<()> {
    serve::<Host>()
}
