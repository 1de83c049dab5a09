//! `saved SEED FILES DIRECTORY`: saved files for the reader, whole and
//! damaged, as 1.saved, 2.saved, ..; `saved --long ENTRIES`: one long file on
//! standard output.

use independent::saved::{files, write_long, MAX_ENTRIES};
use std::path::Path;
use std::process::ExitCode;
use std::{env, fs, io};

fn save(seed: u64, count: u64, directory: &str) -> io::Result<()> {
    fs::create_dir_all(directory)?;
    for (number, file) in (1..).zip(files(seed, count)) {
        let name = format!("{number}.saved");
        fs::write(Path::new(directory).join(name), file.bytes)?;
    }
    Ok(())
}

fn long(entries: u64) -> io::Result<()> {
    let output = io::stdout().lock();
    write_long(entries, io::BufWriter::with_capacity(1 << 18, output))
}

fn main() -> io::Result<ExitCode> {
    let all: Vec<String> = env::args().skip(1).collect();
    let number = |text: &String| text.parse::<u64>().ok();
    let done = match &all[..] {
        [option, entries] if option == "--long" => {
            let entries = number(entries).filter(|entries| *entries <= MAX_ENTRIES);
            entries.map(long)
        }
        [seed, count, directory] => {
            let numbers = number(seed).zip(number(count));
            numbers.map(|(seed, count)| save(seed, count, directory))
        }
        _ => None,
    };
    let Some(done) = done else {
        eprintln!("usage: saved SEED FILES DIRECTORY, or saved --long ENTRIES");
        return Ok(ExitCode::from(2));
    };
    done.map(|()| ExitCode::SUCCESS)
}
