//! One line of the program over two ends.

use super::{Version, Words};
use crate::lines::{number, Ask};

/// What a line asks for. The first number is that of the end, 0 or 1.
#[derive(Clone, Debug, PartialEq, Eq)]
pub enum Call {
    End(usize, u8, u8, Vec<Version>),
    Start(usize, u32),
    Receive(usize, u32, Words),
    State(usize),
}

impl Ask for Call {
    fn from_line(line: &[u8]) -> Option<Call> {
        let mut fields = line.split(|byte| *byte == b' ');
        let name = fields.next()?;
        let numbers: Vec<u64> = fields.map(number).collect::<Option<_>>()?;
        let (end, rest) = numbers.split_first()?;
        let end = usize::try_from(*end).ok().filter(|end| *end <= 1)?;
        match (name, rest) {
            (b"end", [class, accepts, versions @ ..]) => {
                let versions = read_versions(versions)?;
                Some(Call::End(end, narrow(*class)?, narrow(*accepts)?, versions))
            }
            (b"start", [sid]) => Some(Call::Start(end, narrow(*sid)?)),
            (b"receive", [sid, first, second]) => {
                Some(Call::Receive(end, narrow(*sid)?, [*first, *second]))
            }
            (b"state", []) => Some(Call::State(end)),
            _ => None,
        }
    }
}

/// A number that its field can hold.
fn narrow<T: TryFrom<u64>>(number: u64) -> Option<T> {
    T::try_from(number).ok()
}

/// Pairs of a major and a minor, at least one.
fn read_versions(numbers: &[u64]) -> Option<Vec<Version>> {
    if numbers.is_empty() || !numbers.len().is_multiple_of(2) {
        return None;
    }
    let pairs = numbers.chunks_exact(2);
    pairs
        .map(|pair| {
            Some(Version {
                major: narrow(pair[0])?,
                minor: narrow(pair[1])?,
            })
        })
        .collect()
}
