//! `compare_reader PROGRAM FILES SEED`: gives saved files, whole and damaged,
//! to PROGRAM and to the independent reader, without and with `--entries`,
//! compares their outputs byte for byte, and counts what the files reached.

use independent::comparing::{print_lines, print_zeros, verdict};
use independent::reader::{output, read_entries};
use independent::saved::counts::Counts;
use independent::saved::{batch, File, BATCH};
use std::io::{self, ErrorKind, Write};
use std::process::{Command, ExitCode, Stdio};
use std::sync::atomic::{AtomicBool, AtomicU64, Ordering};
use std::{env, fs, thread};

/// What is compared, and how far it is.
struct Comparison {
    program: String,
    files: u64,
    seed: u64,
    next_batch: AtomicU64,
    differs: AtomicBool,
}

/// The output of the program for a file; none if it was ended by a signal.
/// The program need not read a bad file to its end. With `--entries` it writes
/// while it reads, so that the file is written from a thread.
fn run(program: &str, option: Option<&str>, file: &[u8]) -> io::Result<Option<Vec<u8>>> {
    let mut child = Command::new(program)
        .args(option)
        .stdin(Stdio::piped())
        .stdout(Stdio::piped())
        .spawn()?;
    let mut stdin = child.stdin.take().ok_or(ErrorKind::BrokenPipe)?;
    let (output, written) = thread::scope(|scope| {
        let writer = scope.spawn(move || stdin.write_all(file));
        (child.wait_with_output(), writer.join())
    });
    match written.expect("no thread panics") {
        Err(error) if error.kind() != ErrorKind::BrokenPipe => return Err(error),
        _ => {}
    }
    let output = output?;
    Ok(output.status.code().map(|_| output.stdout))
}

impl Comparison {
    /// Compares batch after batch, as one of several threads.
    fn batches(&self) -> io::Result<Counts> {
        let mut counts = Counts::default();
        loop {
            let number = self.next_batch.fetch_add(1, Ordering::Relaxed);
            let start = number * BATCH;
            if start >= self.files {
                return Ok(counts);
            }
            let files = (start + 1..=self.files).zip(batch(self.seed, number));
            for (number, file) in files {
                if self.differs.load(Ordering::Relaxed) {
                    return Ok(counts);
                }
                self.file(number, &file, &mut counts)?;
            }
        }
    }

    /// Compares the outputs for a file, without and with the lines of entries.
    fn file(&self, number: u64, file: &File, counts: &mut Counts) -> io::Result<()> {
        let mut lines = Vec::new();
        let verdict = read_entries(file.bytes.as_slice(), &mut lines);
        let verdict = verdict.expect("neither bytes nor a vector fails");
        let shown = output(&verdict);
        let all = [lines.as_slice(), &shown].concat();
        for (option, ours) in [(None, shown), (Some("--entries"), all)] {
            let theirs = run(&self.program, option, &file.bytes)?;
            if theirs.as_ref() != Some(&ours) {
                let theirs = theirs.unwrap_or(b"(ended by a signal)\n".to_vec());
                return self.report((number, file), option, &ours, &theirs);
            }
        }
        counts.file(file, &verdict, &lines);
        Ok(())
    }

    /// Reports a difference, unless another was, and keeps the file.
    fn report(
        &self,
        (number, file): (u64, &File),
        option: Option<&str>,
        ours: &[u8],
        theirs: &[u8],
    ) -> io::Result<()> {
        if self.differs.swap(true, Ordering::Relaxed) {
            return Ok(());
        }
        let how = option.map_or(String::new(), |option| format!(", with {option}"));
        println!("difference at file {number} from seed {}{how}", self.seed);
        print_lines(&self.program, ours, theirs);
        let kept = format!("difference-{}-{number}.saved", self.seed);
        let path = env::temp_dir().join(kept);
        fs::write(&path, &file.bytes)?;
        println!("the file is kept in {}", path.display());
        Ok(())
    }

    fn compare(&self) -> io::Result<bool> {
        let workers = thread::available_parallelism().map_or(1, |count| count.get());
        let mut counts = Counts::default();
        let all: Vec<io::Result<Counts>> = thread::scope(|scope| {
            let threads: Vec<_> = (0..workers)
                .map(|_| scope.spawn(|| self.batches()))
                .collect();
            let joined = threads.into_iter().map(|thread| thread.join());
            joined
                .map(|counts| counts.expect("no thread panics"))
                .collect()
        });
        for more in all {
            counts.join(more?);
        }
        if self.differs.load(Ordering::Relaxed) {
            return Ok(false);
        }
        print!("{counts}");
        let zeros = print_zeros(&counts.zeros());
        let (files, seed) = (counts.files(), self.seed);
        println!("{files} files from seed {seed}: no difference, {zeros} zero counts");
        Ok(zeros == 0)
    }
}

fn main() -> ExitCode {
    let all: Vec<String> = env::args().skip(1).collect();
    let numbers: Vec<u64> = all.iter().skip(1).flat_map(|text| text.parse()).collect();
    let ([program, _, _], &[files, seed]) = (&all[..], &numbers[..]) else {
        eprintln!("usage: compare_reader PROGRAM FILES SEED");
        return ExitCode::from(2);
    };
    let comparison = Comparison {
        program: program.clone(),
        files,
        seed,
        next_batch: AtomicU64::new(0),
        differs: AtomicBool::new(false),
    };
    verdict("compare_reader", comparison.compare())
}
