//! The line format of two ends, the generator, the counts and the comparison.

use independent::comparing::Tally;
use independent::lines::{answer_of, MAX_LINE};
use independent::vio::counts::Counts;
use independent::vio::generate::generate;
use independent::vio::Host;
use std::process::{Command, Output};

fn answers(input: &str) -> String {
    String::from_utf8(answer_of::<Host>(input.as_bytes())).unwrap()
}

#[test]
fn before_and_after_ends() {
    let input = "state 1\nstart 1 0\nreceive 1 0 0 0\nend 1 0 255 1 2\nstate 1\nstart 1 9\n\
                 end 1 0 255 1 2 1 3\nstate 1\nstart 1 9\nreceive 1 9 0 0\n\
                 end 1 0 255 1 2\nstate 1\nend 0 0 0 0 1\nstart 1 4294967295\nend 1 1 1 7 0\nstate 1\n";
    let wanted = "end 1 no version\nstart refused 8\nreceive refused 8\nend accepted\n\
                  end 1 no version\nstart 0000000900010101 0000000000020001\n\
                  end refused 7\nend 1 no version\nstart refused 8\nreceive refused 8\n\
                  end accepted\nend 1 no version\nend refused 7\n\
                  start ffffffff00010101 0000000000020001\nend accepted\nend 1 no version\n";
    assert_eq!(answers(input), wanted);
}

#[test]
fn lists_of_16_and_17_versions() {
    let line = |count: u16| -> String {
        let versions: String = (1..=count).map(|major| format!(" {major} 0")).collect();
        format!("end 0 1 2{versions}")
    };
    assert_eq!(answers(&line(16)), "end accepted\n");
    assert_eq!(answers(&line(17)), "end refused 7\n");
    assert_eq!(answers(&line(2_000)), "end refused 7\n");
    assert_eq!(answers(&format!("{} 3", line(17))), "bad line 1\n");
    assert_eq!(answers(&format!("{} 3 65536", line(17))), "bad line 1\n");
}

#[test]
fn numbers_at_their_limits() {
    let good = "end 1 255 255 65535 65535\nstart 1 0xffffffff\n\
                receive 0x1 4294967295 18446744073709551615 0xFFFFFFFFFFFFFFFF\nstate 0x01\n";
    let wanted = "end accepted\nstart ffffffff00010101 000000ffffffffff\nreceive\n\
                  end 1 asked 65535 65535\n";
    assert_eq!(answers(good), wanted);
}

const BAD_LINES: [&str; 31] = [
    "end",
    "end 0",
    "end 0 1 2",
    "end 0 1 2 1",
    "end 0 1 2 1 0 2",
    "end 2 1 2 1 0",
    "end 0 256 2 1 0",
    "end 0 1 256 1 0",
    "end 0 1 2 65536 0",
    "end 0 1 2 1 65536",
    "end 0 1 2 0 0 1 65536",
    "end 0 1 2 1  0",
    "end 0 1 2 1 0 ",
    "End 0 1 2 1 0",
    "start",
    "start 0",
    "start 2 0",
    "start 0 4294967296",
    "start 0 1 2",
    "start 0 0X1",
    " start 0 1",
    "receive 0 1 2",
    "receive 0 1 2 3 4",
    "receive 2 1 2 3",
    "receive 0 4294967296 2 3",
    "receive 0 1 18446744073709551616 3",
    "receive 0 1 2 0x10000000000000000",
    "state",
    "state 2",
    "state 0 0",
    "state\t0",
];

#[test]
fn bad_lines_do_nothing() {
    for line in BAD_LINES {
        let input = format!("end 0 1 2 1 0\nstart 0 5\n# x\n\n{line}\nstate 0");
        let answer = answers(&input);
        assert!(
            answer.ends_with("\nbad line 5\nend 0 asked 1 0\n"),
            "{line}"
        );
    }
}

#[test]
fn long_lines() {
    let zeros = |count: usize| "0".repeat(count);
    let line = format!("state {}", zeros(MAX_LINE - 6));
    assert_eq!(answers(&line), "end 0 no version\n");
    assert_eq!(answers(&format!("{line}0\nx")), "bad line 1\nbad line 2\n");
}

#[test]
fn as_many_lines_as_asked() {
    for asked in [0, 1, 2, 9, 1_000] {
        let text = generate(3, asked);
        assert_eq!(
            text.split_inclusive(|byte| *byte == b'\n').count(),
            asked as usize
        );
    }
    assert_eq!(generate(1, 500), generate(1, 500));
    assert_ne!(generate(1, 500), generate(2, 500));
}

#[test]
fn counts_of_rules() {
    let mut counts = Counts::default();
    let lines = [
        "start 0 1",
        "end 0 1 2 2 0",
        "start 0 5",
        "receive 0 6 0x0000000500010201 0x0000000100010002",
        "receive 0 6 0x0000000500010401 0x0000000100010000",
        "receive 0 6 0x0000000600010401 0x0000000100010000",
        "receive 0 6 0x0000000500010401 0x0000000100000002",
        "x",
    ];
    for line in lines {
        counts.line(line.as_bytes(), b"");
    }
    let zeros = counts.zeros();
    for name in [
        "start refused 8 without an end",
        "end accepted",
        "start with no version",
        "ACK ignored minor above alone",
        "NACK ignored 0 with a minor alone",
        "NACK ignored several",
        "NACK try ended by wrong class",
        "line bad",
    ] {
        assert!(!zeros.contains(&name.to_string()), "{name}");
    }
    assert!(zeros.contains(&"NACK try ended by 0".to_string()));
    assert_eq!(counts.lines(), 8);
}

fn compare(program: &str, rest: [&str; 2]) -> (Output, String) {
    let mut command = Command::new(env!("CARGO_BIN_EXE_vio_compare"));
    let output = command.arg(program).args(rest).output().unwrap();
    let text = String::from_utf8_lossy(&output.stdout).into_owned();
    (output, text)
}

#[test]
fn the_comparison_passes_a_program_that_agrees() {
    let (output, text) = compare(env!("CARGO_BIN_EXE_vio_host"), ["30000", "11"]);
    assert!(output.status.success(), "{text}");
    assert!(text.ends_with("30000 lines from seed 11: no difference, 0 zero counts\n"));
}

#[test]
fn the_comparison_fails_others() {
    let (output, text) = compare(env!("CARGO_BIN_EXE_vio_host"), ["5", "1"]);
    assert_eq!(output.status.code(), Some(1));
    assert!(text.contains("\nzero: NACK try ended by 0\n"));
    let (output, text) = compare("cat", ["100", "987656"]);
    assert_eq!(output.status.code(), Some(1));
    assert!(text.contains("\ninput line 1: state "), "{text}");
    let path = text.lines().last().unwrap().rsplit(' ').next().unwrap();
    std::fs::remove_file(path).unwrap();
}
