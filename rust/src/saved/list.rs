//! A saved file before it is bytes, and the files that random lists of calls
//! leave.

use crate::block::BLOCK_WORDS;
use crate::entry::{KIND, NUMBER};
use crate::generate::generate;
use crate::lines::{Call, Host, Line};
use crate::reader::{read, Edition, Reading, Verdict, WORD};
use crate::state::TOP_BIT;
use crate::Blocks;

/// The most blocks that an agent of 01 had, before ticket 8.
pub const OLD_BLOCKS: usize = 16;

/// A block list and entries.
#[derive(Clone, Debug, Default, PartialEq, Eq)]
pub struct Saved {
    pub words: Vec<u64>,
    pub entries: Vec<[u64; 2]>,
}

/// The kind of an entry.
pub fn kind_of(entry: &[u64; 2]) -> usize {
    KIND.of(entry[0]) as usize
}

impl Saved {
    /// The word count, the block list and the entries.
    pub fn bytes(&self) -> Vec<u8> {
        let count = [self.words.len() as u64];
        let words = count.iter().chain(&self.words);
        let words = words.chain(self.entries.as_flattened());
        words.flat_map(|word| word.to_be_bytes()).collect()
    }

    /// The edition that its first entry tells.
    pub fn edition(&self) -> Edition {
        Edition::of(self.entries.first().map(|[first, _]| *first))
    }

    /// The first place where the edition lets an entry be added.
    pub fn first_place(&self) -> u64 {
        match self.edition() {
            Edition::Old => 0,
            Edition::New => 1,
        }
    }

    /// The blocks of its list.
    pub fn blocks(&self) -> usize {
        self.words.len() / BLOCK_WORDS
    }

    /// Where its entries begin in the bytes.
    pub fn start(&self) -> usize {
        WORD + self.words.len() * WORD
    }

    /// The block list alone.
    pub fn without_entries(&self) -> Saved {
        Saved {
            words: self.words.clone(),
            entries: Vec::new(),
        }
    }

    /// Leaves so many entries, and at least a mark.
    pub fn truncate(&mut self, count: u64) {
        let count = count.max(self.first_place());
        self.entries.truncate(count as usize);
    }

    /// The same journal in the old edition: without its mark, all numbers and
    /// the handles that have them one lower, these without the top bit, and
    /// record and block of kind 15 where 01 has them. It ends where a record is
    /// past what the old edition can say. None if it is old already.
    pub fn to_old(&self) -> Option<Saved> {
        let old = Edition::Old;
        if self.edition() == old {
            return None;
        }
        let mut entries = Vec::new();
        for [first, second] in &self.entries[1..] {
            let mut words = [first - NUMBER.word(1), *second];
            match KIND.of(*first) {
                5 | 9 => words[1] = old_handle(*second),
                15 => {
                    let (record, block) = Edition::New.settled(*first, *second);
                    if record > old.last_record() {
                        break;
                    }
                    let settled = old.settled_words(record, block);
                    words = [words[0] | settled[0], settled[1]];
                }
                _ => {}
            }
            entries.push(words);
        }
        let words = self.words.clone();
        Some(Saved { words, entries })
    }

    /// The reading before the entry at a place, counted from 0; the entries
    /// before it are good.
    pub fn before(&self, place: usize) -> Reading {
        let blocks = Blocks::from_words(&self.words).expect("a list that setup accepts");
        let mut reading = Reading::new(blocks, self.edition());
        for entry in &self.entries[..place] {
            reading.entry(*entry).expect("a good entry");
        }
        reading
    }

    /// Puts an entry at a place, counted from 0. The numbers after it move
    /// up, and with them the handles that have such numbers.
    pub fn insert(&mut self, place: usize, entry: [u64; 2]) {
        let edition = self.edition();
        let handles = edition.handle(place as u64 + 1)..edition.handle(u32::MAX.into());
        for moved in &mut self.entries[place..] {
            moved[0] += NUMBER.word(1);
            let has_handle = [5, 9].contains(&kind_of(moved));
            if has_handle && handles.contains(&moved[1]) {
                moved[1] += 1;
            }
        }
        self.entries.insert(place, entry);
    }
}

/// One of our handles as the old edition has it, and any other number where
/// none of these is.
fn old_handle(handle: u64) -> u64 {
    match handle ^ TOP_BIT {
        number @ 1..=0xffff_ffff => number - 1,
        _ => handle | TOP_BIT,
    }
}

/// What the independent reader says of a file.
pub fn verdict(bytes: &[u8]) -> Verdict {
    read(bytes).expect("bytes are read without an error")
}

/// The two words of a line `entry FIRST SECOND`.
fn entry(line: &str) -> Option<[u64; 2]> {
    let (first, second) = line.strip_prefix("entry ")?.split_once(' ')?;
    let word = |digits| u64::from_str_radix(digits, 16).ok();
    Some([word(first)?, word(second)?])
}

/// The block list and what was drained, of each list in a random text of so
/// many calls. A list begins with a setup; a refused one leaves no blocks, and
/// no entries.
pub fn lists(seed: u64, calls: u64) -> Vec<Saved> {
    let (mut host, mut answer) = (Host::default(), Vec::new());
    let mut all = vec![Saved::default()];
    for line in generate(seed, calls).split(|byte| *byte == b'\n') {
        let Line::Call(call) = Line::read(line) else {
            continue;
        };
        answer.clear();
        host.perform(&call, &mut answer);
        if let Call::Setup(words) = call {
            let accepted = answer.starts_with(b"setup accepted");
            all.push(Saved {
                words: if accepted { words } else { Vec::new() },
                entries: Vec::new(),
            });
        }
        let answer = String::from_utf8_lossy(&answer);
        if let Some(saved) = all.last_mut() {
            saved.entries.extend(answer.lines().filter_map(entry));
        }
    }
    all
}
