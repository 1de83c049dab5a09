//! The comparison itself: it passes a host that agrees, and fails others.

use std::process::{Command, Output};

fn compare(host: &str, rest: &[&str]) -> Output {
    let mut command = Command::new(env!("CARGO_BIN_EXE_compare"));
    command.arg(host).args(rest).output().unwrap()
}

fn text(output: &Output) -> String {
    String::from_utf8_lossy(&output.stdout).into_owned()
}

/// Reads and removes the input that was kept.
fn take_kept(text: &str) -> Vec<u8> {
    let path = text.lines().last().unwrap().rsplit(' ').next().unwrap();
    let kept = std::fs::read(path).unwrap();
    std::fs::remove_file(path).unwrap();
    kept
}

const HOST: &str = env!("CARGO_BIN_EXE_host");

#[test]
fn our_own_host_agrees() {
    let output = compare(HOST, &["100000", "11"]);
    let text = text(&output);
    assert!(output.status.success(), "{text}");
    assert!(text.ends_with("100000 calls from seed 11: no difference, 0 zero counts\n"));
}

#[test]
fn zero_counts_fail_and_are_named() {
    let output = compare(HOST, &["5", "1"]);
    assert_eq!(output.status.code(), Some(1));
    assert!(text(&output).contains("\nzero: entry kind 16\n"));
}

#[test]
fn a_host_that_differs_fails() {
    // `cat` answers every line with itself. The first line asks for the state
    // before a setup.
    let output = compare("cat", &["100", "987654"]);
    assert_eq!(output.status.code(), Some(1));
    let text = text(&output);
    assert!(text.contains("\ninput line "), "{text}");
    assert!(text.contains("\ninput line 1: state\n"), "{text}");
    assert!(text.contains("\nindependent: channel 0 closed\n"));
    let kept = take_kept(&text);
    assert!(kept.starts_with(b"state\n"));
}

#[test]
fn a_host_that_says_nothing_fails() {
    let output = compare("true", &["100", "987655"]);
    assert_eq!(output.status.code(), Some(1));
    let text = text(&output);
    assert!(text.contains("\ntrue: (the output ends here)\n"));
    take_kept(&text);
    assert_eq!(
        compare("no-such-program", &["100", "1"]).status.code(),
        Some(1)
    );
}

#[test]
fn made_states_are_counted() {
    let file = std::env::temp_dir().join("independent-made-states.txt");
    let path = file.to_str().unwrap();
    std::fs::write(&file, "close refused 5\nsetup refused 7\ndrain refused 8\n").unwrap();
    let arguments = ["100000", "11", "--made", path];
    assert!(compare(HOST, &arguments).status.success());
    std::fs::write(
        &file,
        "close refused 5\nsetup refused 7\ndrain accepted 8\n",
    )
    .unwrap();
    let output = compare(HOST, &arguments);
    assert_eq!(output.status.code(), Some(1));
    assert!(text(&output).contains("\nzero: bounds: refusal 8\n"));
    std::fs::remove_file(file).unwrap();
}
