//! Lines that are bad, passed over, or near the greatest length.

use super::random::Random;
use crate::lines::MAX_LINE;

pub const ODD: [&[u8]; 90] = [
    b"",
    b"\r",
    b" \r",
    b"\t",
    b" ",
    b"   ",
    b"#",
    b"# a comment",
    b"#close 1",
    b" # no comment",
    b"x",
    b"Close 1",
    b"CLOSE 1",
    b"close",
    b"close ",
    b"close 1 ",
    b" close 1",
    b"close  1",
    b"close 1 2",
    b"close\t1",
    b"close 1\r",
    b"close 1\t",
    b"close 18446744073709551616",
    b"close 0x10000000000000000",
    b"close 99999999999999999999999",
    b"close 0X1",
    b"close 0x",
    b"close x1",
    b"close 1x",
    b"close +1",
    b"close -1",
    b"close 0x1g",
    b"offer 1",
    b"offer 1 ",
    b"offer 1 2 3",
    b"offer",
    b"withdraw 1",
    b"withdraw 0 0 0",
    b"work",
    b"work 1 1",
    b"work ff",
    b"drain 257",
    b"drain",
    b"drain 18446744073709551615",
    b"drain 0x101",
    b"output 4097",
    b"output",
    b"journal 201",
    b"journal 128 128",
    b"receive",
    b"receive 1 0",
    b"receive 1 ",
    b"receive 1 0x00",
    b"receive 1 0g",
    b"receive 1 00 00",
    b"receive x 00",
    b"show",
    b"show 1 abc",
    b"state 1",
    b"setup ",
    b"Device 1 0 0 00",
    b" device 1 0 0 00",
    b"devices 1 0 0 00",
    b"device 1 0 0 00\r",
    b"device\t1 0 0 00",
    b"setup 0 1  0 0 0",
    b"Peer 1 0 00",
    b" peer 1 0 00",
    b"peers 1 0 00",
    b"peer 1 0 00\r",
    b"peer\t1 0 00",
    b"permit",
    b"permit 2",
    b"permit 2 ",
    b"permit 2 1 1",
    b"permit 2 2",
    b"permit 3 18446744073709551615",
    b"permit 3 0x100000001",
    b"permit 2 x",
    b"permit x 1",
    b"Permit 2 1",
    b"take 1",
    b"take ",
    b"Piece 1 00",
    b" piece 1",
    b"pieces 1 00",
    b"piece\t1",
    b"Reopen 1",
    b"reopen 1\r",
    b"setup 0 1 0 0 1 x",
];

/// Beginnings of long lines, and what fills them.
pub const LONG: [(&[u8], u8); 11] = [
    (b"receive 1 ", b'0'),
    (b"receive 0x0 ", b'a'),
    (b"show 2 ", b'F'),
    (b"piece 1 ", b'0'),
    (b"piece 2 ", b'a'),
    (b"#", b'x'),
    (b"", b' '),
    (b"work ", b'0'),
    (b"work 0x", b'0'),
    (b"x", b'y'),
    (b"", b'7'),
];

/// A line that is hardly ever a call: an odd one, changed or not, any bytes,
/// or a name many times.
pub fn odd_line(random: &mut Random, odd: &[&[u8]], name: &[u8]) -> Vec<u8> {
    match random.weighted(&[85, 8, 4, 3]) {
        0 => random.pick(odd).to_vec(),
        1 => {
            let mut line = random.pick(odd).to_vec();
            let at = random.between(0, line.len() as u64) as usize;
            line.insert(at, random.pick(b"\0\r\t\x7f\xff\x80~#/:g"));
            line
        }
        2 => {
            let length = random.between(0, 30);
            let mut line = random.bytes(length);
            line.retain(|byte| *byte != b'\n');
            line
        }
        _ => name.repeat(random.between(2, 200) as usize),
    }
}

/// A line of about the greatest length: a call, bad, or passed over.
pub fn long_line(random: &mut Random, beginnings: &[(&[u8], u8)]) -> Vec<u8> {
    let over = random.pick(&[0, 0, 0, 1, 1, 2, 3, 40_000]);
    let under = random.pick(&[0, 0, 1, 2]);
    let (start, fill) = random.pick(beginnings);
    let mut line = start.to_vec();
    line.resize(MAX_LINE + over - under, fill);
    line
}
