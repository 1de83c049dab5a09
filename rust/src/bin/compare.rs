//! `compare HOST CALLS SEED [--made FILE]`: gives a random list of calls to
//! the program HOST and to the independent host, compares their outputs byte
//! for byte, and counts what the list reached.

use independent::comparing::{count, print_zeros, same, verdict, Tally};
use independent::counts::Counts;
use independent::generate::generate;
use independent::lines::Host;
use std::process::ExitCode;
use std::{env, fs, io};

struct Arguments {
    host: String,
    calls: u64,
    seed: u64,
    made: Option<String>,
}

fn arguments() -> Option<Arguments> {
    let all: Vec<String> = env::args().skip(1).collect();
    let (host, calls, seed, made) = match &all[..] {
        [host, calls, seed] => (host, calls, seed, None),
        [host, calls, seed, option, file] if option == "--made" => (host, calls, seed, Some(file)),
        _ => return None,
    };
    Some(Arguments {
        host: host.clone(),
        calls: calls.parse().ok()?,
        seed: seed.parse().ok()?,
        made: made.cloned(),
    })
}

fn compare(wanted: &Arguments) -> io::Result<bool> {
    let (calls, seed) = (wanted.calls, wanted.seed);
    let input = generate(seed, calls);
    let kept = format!("difference-{seed}-{calls}.calls");
    let Some(same) = same::<Host>(&wanted.host, &input, &kept)? else {
        return Ok(false);
    };
    let mut counts: Counts = count(&input, &same);
    if let Some(file) = &wanted.made {
        counts.made(&fs::read_to_string(file)?);
    }
    print!("{counts}");
    let zeros = print_zeros(&counts.zeros());
    let calls = counts.calls();
    println!("{calls} calls from seed {seed}: no difference, {zeros} zero counts");
    Ok(same.well && zeros == 0)
}

fn main() -> ExitCode {
    let Some(wanted) = arguments() else {
        eprintln!("usage: compare HOST CALLS SEED [--made FILE]");
        return ExitCode::from(2);
    };
    verdict("compare", compare(&wanted))
}
