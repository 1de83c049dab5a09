//! `vio_compare PROGRAM LINES SEED`: gives a random list of lines to PROGRAM
//! and to the independent ends, compares their outputs byte for byte, and
//! counts what the list reached.

use independent::comparing::{count, print_zeros, same, verdict, Tally};
use independent::vio::counts::Counts;
use independent::vio::generate::generate;
use independent::vio::Host;
use std::process::ExitCode;
use std::{env, io};

fn compare(program: &str, lines: u64, seed: u64) -> io::Result<bool> {
    let input = generate(seed, lines);
    let kept = format!("difference-{seed}-{lines}.vio");
    let Some(same) = same::<Host>(program, &input, &kept)? else {
        return Ok(false);
    };
    let counts: Counts = count(&input, &same);
    print!("{counts}");
    let zeros = print_zeros(&counts.zeros());
    let lines = counts.lines();
    println!("{lines} lines from seed {seed}: no difference, {zeros} zero counts");
    Ok(same.well && zeros == 0)
}

fn main() -> ExitCode {
    let all: Vec<String> = env::args().skip(1).collect();
    let numbers: Vec<u64> = all.iter().skip(1).flat_map(|text| text.parse()).collect();
    let ([program, _, _], [lines, seed]) = (&all[..], &numbers[..]) else {
        eprintln!("usage: vio_compare PROGRAM LINES SEED");
        return ExitCode::from(2);
    };
    verdict("vio_compare", compare(program, *lines, *seed))
}
