//! The lines that a test writes, in the host program's form, and their comparison with those expected.

/// The answer of a call: its refusal, or what is written after `accepted`.
pub fn answer(call: &str, refusal: u64, accepted: &str) -> String {
    match refusal {
        0 => format!("{call} accepted{accepted}"),
        _ => format!("{call} refused {refusal}"),
    }
}

/// Bytes as digits after a space, nothing for no bytes.
pub fn digits(bytes: &[u8]) -> String {
    let digits: String = bytes.iter().map(|byte| format!("{byte:02x}")).collect();
    match bytes {
        [] => digits,
        _ => format!(" {digits}"),
    }
}

/// All lines of a test.
#[derive(Default)]
pub struct Lines(String);

impl Lines {
    pub fn put(&mut self, line: &str) {
        self.0.push_str(line);
        self.0.push('\n');
    }

    pub fn put_if(&mut self, written: bool, line: &str) {
        if written {
            self.put(line);
        }
    }

    /// Fails at the first line that is not the one expected.
    pub fn compare(&self, expected: &str) {
        let (mut all_written, mut all_expected) = (self.0.lines(), expected.lines());
        let mut case = "";
        for number in 1.. {
            let (written, expected) = (all_written.next(), all_expected.next());
            assert_eq!(
                written, expected,
                "line {number}, case '{case}': the left was written, the right is expected"
            );
            match expected {
                Some(line) if line.starts_with('#') => case = line,
                Some(_) => {}
                None => break,
            }
        }
        assert!(self.0 == expected, "the ends of lines differ");
    }
}
