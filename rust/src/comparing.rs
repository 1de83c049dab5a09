//! Another program and an independent one given the same input: their outputs
//! compared byte for byte, and counted line by line.

use crate::lines::{FeedOf, Program};
use std::io::{self, Write};
use std::process::{Command, ExitCode, Stdio};
use std::{env, fs, thread};

/// Counts of what a list reached.
pub trait Tally: Default {
    /// Counts an input line and the output that a program gave for it.
    fn line(&mut self, line: &[u8], output: &[u8]);

    /// The names of the counts that are zero and must not be.
    fn zeros(&self) -> Vec<String>;
}

/// The output of another program, where the independent one gave the same.
pub struct Same {
    output: Vec<u8>,
    /// Where the part of each input line ends.
    ends: Vec<usize>,
    /// Whether the other program read all and ended well.
    pub well: bool,
}

/// Gives the input to the program at the path `other` and to the independent
/// program. A difference is reported, the input kept under the name `kept`.
pub fn same<P: Program>(other: &str, input: &[u8], kept: &str) -> io::Result<Option<Same>> {
    let (theirs, well) = run(other, input)?;
    let (ours, ends) = independent::<P>(input);
    if ours == theirs {
        let output = theirs;
        return Ok(Some(Same { output, ends, well }));
    }
    report(other, input, (&ours, &ends), &theirs);
    let path = env::temp_dir().join(kept);
    fs::write(&path, input)?;
    println!("the input is kept in {}", path.display());
    Ok(None)
}

/// Counts each input line with the part of the output that belongs to it.
pub fn count<T: Tally>(input: &[u8], same: &Same) -> T {
    let mut counts = T::default();
    let mut start = 0;
    for (line, end) in lines(input).zip(&same.ends) {
        counts.line(line, &same.output[start..*end]);
        start = *end;
    }
    counts
}

/// Prints the counts that are zero and must not be; gives how many.
pub fn print_zeros(zeros: &[String]) -> usize {
    for name in zeros {
        println!("zero: {name}");
    }
    zeros.len()
}

/// How a comparison ends: 0 only if it passed.
pub fn verdict(name: &str, passed: io::Result<bool>) -> ExitCode {
    match passed {
        Ok(true) => ExitCode::SUCCESS,
        Ok(false) => ExitCode::FAILURE,
        Err(error) => {
            eprintln!("{name}: {error}");
            ExitCode::FAILURE
        }
    }
}

/// The output of the other program, and whether it read all and ended well.
/// The input is written from a thread.
fn run(other: &str, input: &[u8]) -> io::Result<(Vec<u8>, bool)> {
    let mut child = Command::new(other)
        .stdin(Stdio::piped())
        .stdout(Stdio::piped())
        .spawn()?;
    let mut stdin = child.stdin.take().ok_or(io::ErrorKind::BrokenPipe)?;
    let (output, written) = thread::scope(|scope| {
        let writer = scope.spawn(move || stdin.write_all(input));
        (child.wait_with_output(), writer.join())
    });
    let output = output?;
    let well = output.status.success() && matches!(written, Ok(Ok(())));
    if !well {
        println!("{other}: {}, input written: {written:?}", output.status);
    }
    Ok((output.stdout, well))
}

/// The input's lines, without LF.
fn lines(input: &[u8]) -> impl Iterator<Item = &[u8]> {
    input
        .split_inclusive(|byte| *byte == b'\n')
        .map(|line| line.strip_suffix(b"\n").unwrap_or(line))
}

/// The independent output, and where the part of each line ends.
fn independent<P: Program>(input: &[u8]) -> (Vec<u8>, Vec<usize>) {
    let (mut feed, mut answer, mut ends) = (FeedOf::<P>::default(), Vec::new(), Vec::new());
    for line in input.split_inclusive(|byte| *byte == b'\n') {
        feed.piece(line, &mut answer);
        if !line.ends_with(b"\n") {
            feed.finish(&mut answer);
        }
        ends.push(answer.len());
    }
    (answer, ends)
}

/// The output line that begins at or before `at` and holds it.
fn line_around(output: &[u8], at: usize) -> String {
    let start = output[..at]
        .iter()
        .rposition(|byte| *byte == b'\n')
        .map_or(0, |end| end + 1);
    match lines(&output[start..]).next() {
        Some(line) => String::from_utf8_lossy(line).into_owned(),
        None => "(the output ends here)".to_string(),
    }
}

/// The first byte at which the outputs differ, or one of them ends.
fn first_difference(ours: &[u8], theirs: &[u8]) -> usize {
    let both = ours.iter().zip(theirs);
    both.take_while(|(ours, theirs)| ours == theirs).count()
}

/// Prints the first line that differs, of the other program and of the
/// independent one.
pub fn print_lines(other: &str, ours: &[u8], theirs: &[u8]) {
    let at = first_difference(ours, theirs);
    println!("{other}: {}", line_around(theirs, at));
    println!("independent: {}", line_around(ours, at));
}

/// Reports the first difference.
fn report(other: &str, input: &[u8], (ours, ends): (&[u8], &[usize]), theirs: &[u8]) {
    let at = first_difference(ours, theirs);
    let number = ends
        .partition_point(|end| *end <= at)
        .min(ends.len().saturating_sub(1));
    let line = lines(input).nth(number).unwrap_or_default();
    println!("difference at byte {at} of the output");
    println!(
        "input line {}: {}",
        number + 1,
        String::from_utf8_lossy(line)
    );
    print_lines(other, ours, theirs);
}
