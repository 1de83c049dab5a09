//! What stops the reader: an input that cannot be read, an output that cannot
//! be written.

use std::io;

/// What failed while a file was read. Both are set where the input failed and
/// then the lines of the entries before that could not be written.
#[derive(Debug, Default)]
pub struct Failure {
    pub input: Option<io::Error>,
    pub output: Option<io::Error>,
}

impl Failure {
    pub fn of_input(error: io::Error) -> Failure {
        Failure {
            input: Some(error),
            output: None,
        }
    }

    pub fn of_output(error: io::Error) -> Failure {
        Failure {
            input: None,
            output: Some(error),
        }
    }

    /// A message for each failure.
    pub fn messages(&self) -> impl Iterator<Item = String> + '_ {
        let input = self.input.iter();
        let input = input.map(|error| format!("the input cannot be read: {}", reason(error)));
        let output = self.output.iter();
        let output = output.map(|error| format!("the output cannot be written: {}", reason(error)));
        input.chain(output)
    }
}

/// The error's text as C's strerror gives it: Rust adds the number.
fn reason(error: &io::Error) -> String {
    let mut text = error.to_string();
    if let Some(code) = error.raw_os_error() {
        let number = format!(" (os error {code})");
        if text.ends_with(&number) {
            text.truncate(text.len() - number.len());
        }
    }
    text
}
