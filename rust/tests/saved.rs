//! The saved files, and the comparison of a reader with the independent one.

use independent::reader::{output, read, read_entries};
use independent::saved::counts::Counts;
use independent::saved::list::lists;
use independent::saved::{batch, files, write_long, File};
use std::fs::{self, Permissions};
use std::os::unix::fs::PermissionsExt;
use std::process::{Command, Output, Stdio};

fn compare(reader: &str, rest: &[&str]) -> Output {
    let mut command = Command::new(env!("CARGO_BIN_EXE_compare_reader"));
    command.arg(reader).args(rest).output().unwrap()
}

fn text(output: &Output) -> String {
    String::from_utf8_lossy(&output.stdout).into_owned()
}

/// Reads and removes the file that was kept.
fn take_kept(text: &str) -> Vec<u8> {
    let path = text.lines().last().unwrap().rsplit(' ').next().unwrap();
    let kept = fs::read(path).unwrap();
    fs::remove_file(path).unwrap();
    kept
}

const READER: &str = env!("CARGO_BIN_EXE_reader");

#[test]
fn our_own_reader_agrees() {
    let output = compare(READER, &["2000", "3"]);
    let text = text(&output);
    assert!(output.status.success(), "{text}");
    assert!(text.ends_with("2000 files from seed 3: no difference, 0 zero counts\n"));
}

#[test]
fn zero_counts_fail_and_are_named() {
    let output = compare(READER, &["20", "1"]);
    assert_eq!(output.status.code(), Some(1));
    let text = text(&output);
    assert!(text.contains("\nzero: bad new kind 31 unnamed w\n"));
    assert!(text.contains("\nzero: line old N channel N: "));
}

#[test]
fn a_reader_that_differs_fails() {
    // `cat` answers every file with itself, `true` with nothing.
    for (reader, seed) in [("cat", "41"), ("true", "42")] {
        let output = compare(reader, &["100", seed]);
        assert_eq!(output.status.code(), Some(1));
        let text = text(&output);
        assert!(text.starts_with("difference at file "), "{text}");
        let kept = take_kept(&text);
        let independent = output_of(&kept);
        let line = independent.lines().next().unwrap();
        assert!(text.contains(&format!("\nindependent: {line}\n")));
    }
    let output = compare("no-such-program", &["100", "1"]);
    assert_eq!(output.status.code(), Some(1));
}

/// Compares a reader that is a script, `$reader` our own.
fn compare_script(name: &str, script: &str, seed: &str) -> Output {
    let path = std::env::temp_dir().join(name);
    fs::write(&path, format!("#!/bin/sh\nreader='{READER}'\n{script}\n")).unwrap();
    fs::set_permissions(&path, Permissions::from_mode(0o700)).unwrap();
    let output = compare(path.to_str().unwrap(), &["200", seed]);
    fs::remove_file(path).unwrap();
    output
}

#[test]
fn lines_of_entries_that_differ_fail() {
    // Readers that are right without the option: one takes no notice of it, one
    // has another word, one leaves lines out.
    for (name, script, seed) in [
        ("no-lines", "exec \"$reader\"", "43"),
        (
            "another-word",
            "\"$reader\" \"$@\" | sed 's/, no reply$/, no answer/'",
            "44",
        ),
        (
            "a-line-less",
            "\"$reader\" \"$@\" | sed '/: message of type /d'",
            "45",
        ),
    ] {
        let output = compare_script(&format!("independent-{name}"), script, seed);
        assert_eq!(output.status.code(), Some(1), "{name}");
        let text = text(&output);
        let first = text.lines().next().unwrap();
        assert!(first.starts_with("difference at file "), "{text}");
        assert!(first.ends_with(&format!(" from seed {seed}, with --entries")));
        take_kept(&text);
    }
}

#[test]
fn lines_that_are_the_same_pass() {
    // Only its counts are too few.
    let output = compare_script("independent-same", "exec \"$reader\" \"$@\"", "46");
    assert_eq!(output.status.code(), Some(1));
    assert!(text(&output).contains("\n200 files from seed 46: no difference, "));
}

fn output_of(bytes: &[u8]) -> String {
    String::from_utf8(output(&read(bytes).unwrap())).unwrap()
}

#[test]
fn the_same_for_the_same_seed() {
    let all: Vec<File> = files(5, 2_100).collect();
    assert_eq!(all.len(), 2_100);
    assert_eq!(all[..2_000], batch(5, 0));
    assert_eq!(all[2_000..], batch(5, 1)[..100]);
    assert_ne!(all[..2_000], batch(6, 0));
}

#[test]
fn a_batch_reaches_everything() {
    for seed in 1..=3 {
        let mut counts = Counts::default();
        let listed = line_names(&counts);
        for file in batch(seed, 0) {
            let mut lines = Vec::new();
            let verdict = read_entries(file.bytes.as_slice(), &mut lines).unwrap();
            // What was not damaged is good.
            assert!(file.damaged || verdict.is_ok());
            counts.file(&file, &verdict, &lines);
        }
        assert_eq!(counts.zeros(), [""; 0]);
        assert_eq!(counts.files(), 2_000);
        // Every line has one of the wordings that are looked for.
        assert_eq!(line_names(&counts), listed);
    }
}

/// The wordings of lines that are counted, in each edition.
fn line_names(counts: &Counts) -> Vec<String> {
    let table = counts.to_string();
    let lines = table.lines().filter(|line| line.starts_with("line "));
    let names = lines.map(|line| line.rsplit_once(' ').unwrap().0.trim_end());
    names.map(String::from).collect()
}

#[test]
fn too_few_damaged_files_are_told() {
    let mut counts = Counts::default();
    let damaged = |damaged| File {
        bytes: vec![0; 8],
        damaged,
    };
    let verdict = read([0; 8].as_slice()).unwrap();
    counts.file(&damaged(true), &verdict, &[]);
    counts.file(&damaged(false), &verdict, &[]);
    let half = "half of the files damaged".to_string();
    assert!(!counts.zeros().contains(&half));
    counts.file(&damaged(false), &verdict, &[]);
    assert!(counts.zeros().contains(&half));
    assert!(!counts
        .zeros()
        .contains(&"good old file of no entries, up to 16 blocks".to_string()));
}

#[test]
fn what_the_agent_drained_is_good() {
    let mut old_of_more = 0;
    for saved in lists(9, 20_000) {
        let shown = output_of(&saved.bytes());
        let last = format!("\nentries {}\n", saved.entries.len());
        assert!(shown.ends_with(&last), "{shown}");
        // The same journal in the old edition shows the same blocks, channels
        // and services, up to a record that it cannot say.
        let Some(old) = saved.to_old() else {
            continue;
        };
        old_of_more += usize::from(old.blocks() > 16);
        let mut new = saved.clone();
        new.entries.truncate(old.entries.len() + 1);
        let lines = |text: &str| -> Vec<String> {
            let lines = text.lines().filter(|line| !line.starts_with("entries"));
            lines.map(without_handle).collect()
        };
        assert_eq!(
            lines(&output_of(&old.bytes())),
            lines(&output_of(&new.bytes()))
        );
    }
    assert!(old_of_more > 0);
}

/// Each case of an old journal of 17 to 64 blocks is asked for, and a count.
#[test]
fn journals_of_many_blocks_without_a_mark_are_counted() {
    let zeros = Counts::default().zeros();
    for name in [
        "bad old of 17 to 64 blocks, cut in the first entry",
        "bad old of 17 to 64 blocks, from number 2 on",
        "bad old of 17 to 64 blocks, from a later number on",
        "bad old of 17 to 64 blocks, first entry bad otherwise",
        "bad old of 17 to 64 blocks, a later entry bad",
        "bad old of 17 to 64 blocks, kind 11 block not listed",
        "bad old of 17 to 64 blocks, kind 15 block not listed",
        "bad old of 17 to 64 blocks, kind 15 past the last record",
        "good old file of no entries, 17 to 64 blocks",
        "good old file of 17 to 63 blocks",
        "good old file of 64 blocks",
        "good old kind 11 of a block from 16 on",
        "good old kind 11 of 64 blocks",
        "good old kind 15 of a block from 16 on",
    ] {
        assert!(zeros.contains(&name.to_string()), "{name}");
    }
}

/// A reader that follows an earlier rule, `bad blocks` for over 16 blocks
/// without a mark, is found out.
#[test]
fn a_reader_that_refuses_old_journals_of_many_blocks_differs() {
    let script = r#"saved=$(mktemp)
trap 'rm -f "$saved"' EXIT
cat > "$saved"
count=$(od -An -tu1 -N8 "$saved" | awk '{ print $7 * 256 + $8 }')
kind=$(od -An -tu1 -j$((8 + 8 * ${count:-0} + 4)) -N1 "$saved" 2> /dev/null)
if [ "${count:-0}" -gt 80 ] && [ "$((${kind:-0} >> 3))" -ne 31 ]; then
    echo 'bad blocks'
    exit 1
fi
exec "$reader" "$@" < "$saved""#;
    let output = compare_script("independent-sixteen", script, "47");
    assert_eq!(output.status.code(), Some(1));
    let text = text(&output);
    assert!(
        text.contains(
            "/independent-sixteen: bad blocks
"
        ),
        "{text}"
    );
    let kept = take_kept(&text);
    assert!(kept[..6] == [0; 6] && kept[6..8] > [0, 80][..]);
    assert_ne!(
        output_of(&kept),
        "bad blocks
"
    );
}

/// A line with the number of the entry in place of its handle.
fn without_handle(line: &str) -> String {
    let fields = line.split(' ').enumerate();
    let fields = fields.map(|(place, field)| match (place, field.parse::<u64>()) {
        (3, Ok(handle)) if handle >> 63 == 1 => (handle - (1 << 63) - 1).to_string(),
        _ => field.to_string(),
    });
    fields.collect::<Vec<String>>().join(" ")
}

#[test]
fn long_files() {
    for entries in [0, 1, 2, 39, 40, 63, 64, 65, 128, 129, 5_000] {
        let mut bytes = Vec::new();
        write_long(entries, &mut bytes).unwrap();
        assert_eq!(bytes.len() as u64, 8 + 15 * 8 + entries * 16);
        assert!(output_of(&bytes).ends_with(&format!("\nentries {entries}\n")));
    }
    // Every kind of 01 but 8, which is not written any more, those of orders and
    // of the peer, and the mark.
    let mut bytes = Vec::new();
    write_long(200, &mut bytes).unwrap();
    let entries = bytes[8 + 15 * 8..].chunks_exact(16);
    let mut kinds: Vec<u8> = entries.map(|entry| entry[4] >> 3).collect();
    kinds.sort();
    kinds.dedup();
    let written = (1..=24).filter(|kind| ![8, 18].contains(kind));
    let written = written.chain([31]);
    assert_eq!(kinds, written.collect::<Vec<u8>>());
}

#[test]
fn the_programs() {
    let saved = env!("CARGO_BIN_EXE_saved");
    let directory = std::env::temp_dir().join("independent-saved-files");
    let path = directory.to_str().unwrap();
    let ended = Command::new(saved).args(["5", "3", path]).status().unwrap();
    assert!(ended.success());
    for (number, file) in (1..).zip(files(5, 3)) {
        let name = directory.join(format!("{number}.saved"));
        assert_eq!(fs::read(&name).unwrap(), file.bytes);
        let input = Stdio::from(fs::File::open(&name).unwrap());
        let printed = Command::new(READER).stdin(input).output().unwrap();
        assert_eq!(text(&printed), output_of(&file.bytes));
    }
    fs::remove_dir_all(directory).unwrap();
    let long = Command::new(saved)
        .args(["--long", "100"])
        .output()
        .unwrap();
    assert!(output_of(&long.stdout).ends_with("\nentries 100\n"));
    for wrong in [&["1", "2"][..], &["--long", "4294967296"], &["--long", "x"]] {
        let ended = Command::new(saved).args(wrong).output().unwrap();
        assert_eq!(ended.status.code(), Some(2));
    }
}
