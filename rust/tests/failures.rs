//! Inputs that cannot be read and outputs that cannot be written: what was
//! read whole before has its line, nothing follows, and the status is 2.

mod common;
use common::{file, many, numbered, Entry, BLOCK_LIST, MARK};
use independent::reader::{output, read, read_entries, Failure};
use independent::saved::write_long;
use std::fs::{self, File};
use std::io::{self, ErrorKind, Read, Write};
use std::path::PathBuf;
use std::process::{Command, Output, Stdio};

/// Linux's numbers.
const EIO: i32 = 5;
const ENOSPC: i32 = 28;

const INPUT: &str = "the input cannot be read: Input/output error";
const OUTPUT: &str = "the output cannot be written: No space left on device";

/// Gives its bytes, at most `at_once` at a time, then fails. Reading it again
/// after that is an error.
struct FailingInput<'a> {
    bytes: &'a [u8],
    at_once: usize,
    failed: bool,
}

impl Read for FailingInput<'_> {
    fn read(&mut self, buffer: &mut [u8]) -> io::Result<usize> {
        assert!(!self.failed, "read after a failure");
        self.failed = self.bytes.is_empty();
        if self.failed {
            return Err(io::Error::from_raw_os_error(EIO));
        }
        let length = self.at_once.min(buffer.len());
        self.bytes.read(&mut buffer[..length])
    }
}

fn failing(bytes: &[u8], at_once: usize) -> FailingInput<'_> {
    FailingInput {
        bytes,
        at_once,
        failed: false,
    }
}

/// Takes `room` bytes, then fails. Writing to it again after that is an error.
#[derive(Default)]
struct FailingOutput {
    room: usize,
    taken: Vec<u8>,
    failed: bool,
}

impl Write for FailingOutput {
    fn write(&mut self, bytes: &[u8]) -> io::Result<usize> {
        assert!(!self.failed, "written after a failure");
        let length = bytes.len().min(self.room - self.taken.len());
        self.failed = length == 0 && !bytes.is_empty();
        if self.failed {
            return Err(io::Error::from_raw_os_error(ENOSPC));
        }
        self.taken.extend(&bytes[..length]);
        Ok(length)
    }

    fn flush(&mut self) -> io::Result<()> {
        Ok(())
    }
}

fn messages(failure: &Failure) -> Vec<String> {
    failure.messages().collect()
}

/// What is written for an input that fails after these bytes.
fn lines_before_failure(bytes: &[u8], at_once: usize) -> String {
    let failure = read(failing(bytes, at_once)).unwrap_err();
    assert_eq!(messages(&failure), [INPUT]);
    let mut lines = Vec::new();
    let failure = read_entries(failing(bytes, at_once), &mut lines).unwrap_err();
    assert_eq!(messages(&failure), [INPUT]);
    String::from_utf8(lines).unwrap()
}

/// The day at the panel in the old edition.
const ENTRIES: [Entry; 7] = [
    [1, 2, 0, 0, 0, 0, 0],
    [4, 2, 0, 0, 0, 0, 0],
    [5, 2, 0, 0, 0, 0, 2],
    [12, 2, 0, 0, 0, 1, 9],
    [14, 2, 0, 0, 0, 3, 0],
    [15, 2, 0, 0, 0, 1, 0],
    [16, 2, 0, 0, 0, 1, 9],
];

/// The same in the new one.
fn new_entries() -> Vec<Entry> {
    let mut entries = [&[MARK][..], &ENTRIES].concat();
    entries[3][6] = 1 << 63 | 3;
    entries
}

const OLD_LINES: [&str; 7] = [
    "1 channel 2: ready\n",
    "2 channel 2: service 0 offered\n",
    "3 channel 2: service 0 registered, handle 2, minor 0\n",
    "4 channel 2: removal begun, 1 record, request 9\n",
    "5 channel 2: 3 pages collected\n",
    "6 channel 2: record 0 settled, block 0 now unconfigured, last 1 page moved\n",
    "7 channel 2: removal ended, all settled, request 9, reply sent\n",
];

const NEW_LINES: [&str; 8] = [
    "1: edition mark\n",
    "2 channel 2: ready\n",
    "3 channel 2: service 0 offered\n",
    "4 channel 2: service 0 registered, handle 9223372036854775811, minor 0\n",
    "5 channel 2: removal begun, 1 record, request 9\n",
    "6 channel 2: 3 pages collected\n",
    "7 channel 2: record 0 settled, block 0 now unconfigured, last 1 page moved\n",
    "8 channel 2: removal ended, all settled, request 9, reply sent\n",
];

#[test]
fn an_input_that_fails_at_every_length() {
    let list = &BLOCK_LIST[..10];
    let old = (file(list, &numbered(&ENTRIES)), &OLD_LINES[..]);
    let new = (file(list, &numbered(&new_entries())), &NEW_LINES[..]);
    for (bytes, lines) in [old, new] {
        // In the count, in the list, between two entries and in one.
        for length in 0..=bytes.len() {
            let whole = length.saturating_sub(88) / 16;
            for at_once in [1, 7, 16, 1 << 20] {
                let written = lines_before_failure(&bytes[..length], at_once);
                assert_eq!(written, lines[..whole].concat(), "{length}");
            }
        }
    }
}

#[test]
fn an_input_of_many_blocks_that_fails() {
    // A part of an entry is not cut: nobody knows what follows.
    let bytes = file(&many(20), &numbered(&ENTRIES[..2]));
    let start = bytes.len() - 32;
    for (length, lines) in [(0, 0), (8, 0), (15, 0), (16, 1), (24, 1), (32, 2)] {
        let written = lines_before_failure(&bytes[..start + length], 1 << 20);
        assert_eq!(written, OLD_LINES[..lines].concat());
    }
}

#[test]
fn what_is_bad_before_the_failure_is_said() {
    // The reading ends there, as it does before anything else that follows.
    let list = &BLOCK_LIST[..10];
    for bad in 0..7 {
        let mut entries = numbered(&ENTRIES);
        entries[bad][0] |= 1 << 63;
        let bytes = file(list, &entries);
        let (before, rest) = bytes.split_at(88 + 16 * bad);
        let written = lines_before_failure(before, 1 << 20);
        assert_eq!(written, OLD_LINES[..bad].concat());
        for length in 16..rest.len() {
            let mut lines = Vec::new();
            let input = failing(&bytes[..before.len() + length], 1 << 20);
            let verdict = read_entries(input, &mut lines).unwrap();
            let expected = format!("bad entry at {}\n", bad + 1);
            assert_eq!(output(&verdict), expected.as_bytes());
            assert_eq!(lines, OLD_LINES[..bad].concat().as_bytes());
        }
    }
    for count in [1u64, 325, u64::MAX] {
        let verdict = read(failing(&count.to_be_bytes(), 1 << 20)).unwrap();
        assert_eq!(output(&verdict), b"bad blocks\n");
    }
    let wrong = file(&[0, 0, 0, 0, 0], &[]);
    let verdict = read(failing(&wrong, 1 << 20)).unwrap();
    assert_eq!(output(&verdict), b"bad blocks\n");
}

/// Is interrupted before each read.
struct Interrupted<'a>(&'a [u8], bool);

impl Read for Interrupted<'_> {
    fn read(&mut self, buffer: &mut [u8]) -> io::Result<usize> {
        self.1 = !self.1;
        match self.1 {
            true => Err(ErrorKind::Interrupted.into()),
            false => self.0.read(&mut buffer[..1]),
        }
    }
}

#[test]
fn an_interrupted_read_is_tried_again() {
    let bytes = file(&BLOCK_LIST[..10], &numbered(&ENTRIES));
    let mut lines = Vec::new();
    let verdict = read_entries(Interrupted(&bytes, false), &mut lines).unwrap();
    assert_eq!(verdict, read(&*bytes).unwrap());
    assert_eq!(lines, OLD_LINES.concat().as_bytes());
}

/// A good file of more than one piece of 2^18 bytes, and its lines.
fn long() -> (Vec<u8>, Vec<u8>) {
    let (mut bytes, mut lines) = (Vec::new(), Vec::new());
    write_long(40_000, &mut bytes).unwrap();
    read_entries(&*bytes, &mut lines).unwrap().unwrap();
    (bytes, lines)
}

#[test]
fn a_long_input_that_fails() {
    let (bytes, lines) = long();
    let start = 16 * 8;
    // About the ends of pieces, and in them.
    for entries in [1, 100, 16_383, 16_384, 16_385, 32_768, 39_999, 40_000] {
        for part in [0, 1, 15] {
            let length = (start + entries * 16 + part).min(bytes.len());
            let written = lines_before_failure(&bytes[..length], 1 << 20);
            assert_eq!(written.lines().count(), entries);
            assert!(lines.starts_with(written.as_bytes()));
        }
    }
}

#[test]
fn an_output_that_fails() {
    let (bytes, lines) = long();
    for room in [0, 1, 1 << 16, 1 << 17, 300_000, lines.len() - 1] {
        let mut output = FailingOutput {
            room,
            ..FailingOutput::default()
        };
        let failure = read_entries(&*bytes, &mut output).unwrap_err();
        assert_eq!(messages(&failure), [OUTPUT]);
        assert_eq!(output.taken, lines[..room]);
        // The input fails as well, behind what was not written.
        output.taken.clear();
        output.failed = false;
        let failure = read_entries(failing(&bytes, 1 << 20), &mut output).unwrap_err();
        let last = room == lines.len() - 1;
        assert_eq!(messages(&failure).last().unwrap(), OUTPUT);
        assert_eq!(messages(&failure).len(), 1 + usize::from(last));
    }
    let mut output = FailingOutput {
        room: lines.len(),
        ..FailingOutput::default()
    };
    assert!(read_entries(&*bytes, &mut output).is_ok());
}

#[test]
fn an_error_that_has_no_number_keeps_its_text() {
    let failure = Failure::of_output(io::Error::other("no paper (os error 5)"));
    let expected = "the output cannot be written: no paper (os error 5)";
    assert_eq!(messages(&failure), [expected]);
}

fn run(arguments: &[&str], input: impl Into<Stdio>, output: impl Into<Stdio>) -> Output {
    let mut program = Command::new(env!("CARGO_BIN_EXE_reader"));
    let program = program.args(arguments).stdin(input).stdout(output);
    program.stderr(Stdio::piped()).output().unwrap()
}

/// The program ended with 2 and this one line on standard error, and wrote
/// nothing else.
fn assert_failed(ended: &Output, message: &str) {
    assert_eq!(ended.status.code(), Some(2));
    assert_eq!(ended.stdout, b"");
    let complaint = String::from_utf8_lossy(&ended.stderr);
    assert_eq!(complaint, format!("reader: {message}\n"));
}

const OPTIONS: [&[&str]; 2] = [&[], &["--entries"]];

/// A saved file with these bytes.
fn save(name: &str, bytes: &[u8]) -> PathBuf {
    let path = std::env::temp_dir().join(format!("independent-{name}.saved"));
    fs::write(&path, bytes).unwrap();
    path
}

#[test]
fn the_program_with_an_input_that_fails() {
    for arguments in OPTIONS {
        let directory = File::open("/").unwrap();
        let ended = run(arguments, directory, Stdio::piped());
        assert_failed(&ended, "the input cannot be read: Is a directory");
        // No process has memory at address 0.
        let memory = File::open("/proc/self/mem").unwrap();
        assert_failed(&run(arguments, memory, Stdio::piped()), INPUT);
        let write_only = File::options().write(true).open("/dev/null").unwrap();
        let ended = run(arguments, write_only, Stdio::piped());
        assert_failed(&ended, "the input cannot be read: Bad file descriptor");
    }
}

#[test]
fn the_program_with_an_output_that_fails() {
    let (bytes, _) = long();
    let short = file(&BLOCK_LIST[..10], &numbered(&ENTRIES));
    let paths = [save("failing-short", &short), save("failing-long", &bytes)];
    for path in &paths {
        for arguments in OPTIONS {
            let input = || File::open(path).unwrap();
            let full = File::options().write(true).open("/dev/full").unwrap();
            assert_failed(&run(arguments, input(), full), OUTPUT);
            let read_only = File::open("/dev/null").unwrap();
            let ended = run(arguments, input(), read_only);
            assert_failed(&ended, "the output cannot be written: Bad file descriptor");
        }
    }
    paths.iter().for_each(|path| fs::remove_file(path).unwrap());
}

#[test]
fn the_programs_status() {
    let good = file(&BLOCK_LIST[..10], &numbered(&ENTRIES));
    for (name, bytes, status) in [
        ("good", &good[..], 0),
        ("cut", &good[..good.len() - 1], 1),
        ("bad-blocks", &good[..87], 1),
        ("many", &file(&many(20), &[])[..], 0),
    ] {
        let path = save(&format!("status-{name}"), bytes);
        for arguments in OPTIONS {
            let ended = run(arguments, File::open(&path).unwrap(), Stdio::piped());
            assert_eq!(ended.status.code(), Some(status), "{name}");
            assert!(ended.stdout.ends_with(&output(&read(bytes).unwrap())));
            assert_eq!(ended.stderr, b"");
        }
        fs::remove_file(path).unwrap();
    }
    let ended = run(&["--entry"], Stdio::null(), Stdio::piped());
    assert_eq!(ended.status.code(), Some(2));
    assert_eq!(ended.stdout, b"");
    assert!(ended.stderr.starts_with(b"usage: reader "));
}
