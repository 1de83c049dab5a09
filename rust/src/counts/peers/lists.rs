//! What is special in an id list that setup was given.

use crate::block::Blocks;
use crate::device::Devices;
use crate::peer::{Ids, ID_WORDS, MAX_ID, MAX_IDS};

/// The members of the group `id list`.
pub const ACCEPTED: &str = "of 0, of 1, of 2 to 15, of 16, with an id of 1 byte, \
     with an id of 8 bytes, with an id of 9 bytes, with an id of 32 bytes, \
     with the beginning of another, with two of one length, with a major of 0, \
     with a major of 65535, with a minor of 65535";
/// The members of the group `id list refused`, for lists of which nothing else
/// is bad.
pub const REFUSED: &str = "17 ids, more ids, major, minor, id of 0 bytes, id of 33 bytes, \
     id of more bytes, no zero at the end, an inner zero, an id twice, \
     an id twice with other versions, after bad blocks, after bad devices";

/// An id's words as they were given.
struct Given {
    versions: [u64; 2],
    length: u64,
    /// The id, as far as the words hold it.
    id: Vec<u8>,
}

impl Given {
    fn of(words: &[u64]) -> Given {
        let bytes = words[3..].iter().flat_map(|word| word.to_be_bytes());
        Given {
            versions: [words[0], words[1]],
            length: words[2],
            id: bytes.take(words[2].min(MAX_ID as u64) as usize).collect(),
        }
    }

    /// What is wrong with the id alone.
    fn defects(&self) -> Vec<&'static str> {
        let inner = self.id.iter().rev().skip(1).any(|byte| *byte == 0);
        let whole = (1..=MAX_ID as u64).contains(&self.length);
        let tests = [
            (self.versions[0] > 0xffff, "major"),
            (self.versions[1] > 0xffff, "minor"),
            (self.length == 0, "id of 0 bytes"),
            (self.length == 33, "id of 33 bytes"),
            (self.length > 33, "id of more bytes"),
            (whole && self.id.last() != Some(&0), "no zero at the end"),
            (whole && inner, "an inner zero"),
        ];
        let failed = tests.into_iter().filter(|(failed, _)| *failed);
        failed.map(|(_, name)| name).collect()
    }

    fn is(&self, other: &Given) -> bool {
        self.length == other.length && self.id == other.id
    }
}

/// What is wrong with a list.
fn defects(list: &[Given]) -> Vec<&'static str> {
    let mut all: Vec<_> = list.iter().flat_map(Given::defects).collect();
    match list.len().checked_sub(MAX_IDS) {
        None | Some(0) => {}
        Some(1) => all.push("17 ids"),
        Some(_) => all.push("more ids"),
    }
    let twice = (0..list.len()).find_map(|at| {
        let same = list[..at].iter().find(|before| before.is(&list[at]))?;
        Some(match same.versions == list[at].versions {
            true => "an id twice",
            false => "an id twice with other versions",
        })
    });
    all.extend(twice);
    all
}

/// The names of what setup was given.
pub fn names(blocks: &[u64], devices: &[u64], ids: &[u64]) -> Vec<String> {
    let list: Vec<Given> = ids.chunks_exact(ID_WORDS).map(Given::of).collect();
    let bad_blocks = Blocks::from_words(blocks).is_none();
    let bad_devices = Devices::from_words(devices).is_none();
    let defects = defects(&list);
    // The classes here and the agent's own rules are the same.
    assert_eq!(Ids::from_words(ids).is_some(), defects.is_empty());
    match (&defects[..], bad_blocks, bad_devices) {
        ([], false, false) => accepted(&list),
        ([], true, _) if !list.is_empty() => vec!["id list refused after bad blocks".into()],
        ([], _, true) if !list.is_empty() => vec!["id list refused after bad devices".into()],
        ([only], false, false) => vec![format!("id list refused {only}")],
        _ => Vec::new(),
    }
}

fn accepted(list: &[Given]) -> Vec<String> {
    let count = match list.len() {
        0 => "of 0",
        1 => "of 1",
        MAX_IDS => "of 16",
        _ => "of 2 to 15",
    };
    let of_length = |length| list.iter().any(|id| id.length == length);
    let any_two = |test: &dyn Fn(&Given, &Given) -> bool| {
        let mut places = 0..list.len();
        places.any(|at| list[..at].iter().any(|other| test(other, &list[at])))
    };
    let letters = |id: &Given| id.id[..id.id.len() - 1].to_vec();
    let begins = |one: &Given, other: &Given| {
        let (one, other) = (letters(one), letters(other));
        let (short, long) = if one.len() < other.len() {
            (one, other)
        } else {
            (other, one)
        };
        !short.is_empty() && long.starts_with(&short)
    };
    let tests = [
        (true, count),
        (of_length(1), "with an id of 1 byte"),
        (of_length(8), "with an id of 8 bytes"),
        (of_length(9), "with an id of 9 bytes"),
        (of_length(32), "with an id of 32 bytes"),
        (any_two(&begins), "with the beginning of another"),
        (
            any_two(&|one, other| one.length == other.length),
            "with two of one length",
        ),
        (
            list.iter().any(|id| id.versions[0] == 0),
            "with a major of 0",
        ),
        (
            list.iter().any(|id| id.versions[0] == 0xffff),
            "with a major of 65535",
        ),
        (
            list.iter().any(|id| id.versions[1] == 0xffff),
            "with a minor of 65535",
        ),
    ];
    let met = tests.iter().filter(|(met, _)| *met);
    met.map(|(_, name)| format!("id list {name}")).collect()
}
