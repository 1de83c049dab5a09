//! What is special in a device list that setup was given.

use crate::block::Blocks;
use crate::device::{Devices, DEVICE_WORDS, MAX_DEVICES, MAX_NAME};

/// The members of the group `device list`.
pub const ACCEPTED: &str = "of 0, of 1, of 2 to 31, of 32, with an id twice, with a name twice, \
     with a name of 1 byte, with a name of 8 bytes, with a name of 256 bytes";
/// The members of the group `device list refused`, for lists of which nothing
/// else is bad.
pub const REFUSED: &str = "33 devices, more devices, configured, busy, name of 0 bytes, \
     name of 257 bytes, name of more bytes, no zero at the end, an inner zero, \
     id and name twice, after bad blocks";

/// A device's words as they were given.
struct Given<'a> {
    id: u64,
    marks: [u64; 2],
    length: u64,
    /// The name, as far as the words hold it.
    name: Vec<u8>,
    words: &'a [u64],
}

impl Given<'_> {
    fn of(words: &[u64]) -> Given<'_> {
        let bytes: Vec<u8> = words[4..]
            .iter()
            .flat_map(|word| word.to_be_bytes())
            .collect();
        let length = words[3].min(MAX_NAME as u64) as usize;
        Given {
            id: words[0],
            marks: [words[1], words[2]],
            length: words[3],
            name: bytes[..length].to_vec(),
            words: &words[3..],
        }
    }

    /// What is wrong with the device alone.
    fn defects(&self) -> Vec<&'static str> {
        let inner = self.name.iter().rev().skip(1).any(|byte| *byte == 0);
        let whole = (1..=MAX_NAME as u64).contains(&self.length);
        let tests = [
            (self.marks[0] > 1, "configured"),
            (self.marks[1] > 1, "busy"),
            (self.length == 0, "name of 0 bytes"),
            (self.length == 257, "name of 257 bytes"),
            (self.length > 257, "name of more bytes"),
            (whole && self.name.last() != Some(&0), "no zero at the end"),
            (whole && inner, "an inner zero"),
        ];
        let failed = tests.into_iter().filter(|(failed, _)| *failed);
        failed.map(|(_, name)| name).collect()
    }
}

/// What is wrong with a list.
fn defects(list: &[Given]) -> Vec<&'static str> {
    let mut all: Vec<_> = list.iter().flat_map(Given::defects).collect();
    match list.len().checked_sub(MAX_DEVICES) {
        None | Some(0) => {}
        Some(1) => all.push("33 devices"),
        Some(_) => all.push("more devices"),
    }
    let twice = |at: usize| {
        let same = |other: &Given| other.id == list[at].id && other.words == list[at].words;
        list[..at].iter().any(same)
    };
    if (0..list.len()).any(twice) {
        all.push("id and name twice");
    }
    all
}

/// The names of what setup was given.
pub fn names(blocks: &[u64], devices: &[u64]) -> Vec<String> {
    let list: Vec<Given> = devices.chunks_exact(DEVICE_WORDS).map(Given::of).collect();
    let bad_blocks = Blocks::from_words(blocks).is_none();
    let defects = defects(&list);
    match defects[..] {
        [] if !bad_blocks => {
            // The classes here and the agent's own rules are the same.
            assert!(Devices::from_words(devices).is_some());
            accepted(&list)
        }
        [] if !list.is_empty() => vec!["device list refused after bad blocks".into()],
        [only] if !bad_blocks => vec![format!("device list refused {only}")],
        _ => Vec::new(),
    }
}

fn accepted(list: &[Given]) -> Vec<String> {
    let count = match list.len() {
        0 => "of 0",
        1 => "of 1",
        MAX_DEVICES => "of 32",
        _ => "of 2 to 31",
    };
    let ids = |one: &Given, other: &Given| one.id == other.id;
    let devices = |one: &Given, other: &Given| one.name == other.name;
    let twice = |same: &dyn Fn(&Given, &Given) -> bool| {
        let mut places = 0..list.len();
        places.any(|at| list[..at].iter().any(|other| same(other, &list[at])))
    };
    let of_length = |length| list.iter().any(|device| device.length == length);
    let tests = [
        (true, count),
        (twice(&ids), "with an id twice"),
        (twice(&devices), "with a name twice"),
        (of_length(1), "with a name of 1 byte"),
        (of_length(8), "with a name of 8 bytes"),
        (of_length(256), "with a name of 256 bytes"),
    ];
    let met = tests.iter().filter(|(met, _)| *met);
    met.map(|(_, name)| format!("device list {name}")).collect()
}
