//! What saved files reached.

use super::damage::{Damage, Unmarked};
use super::list::OLD_BLOCKS;
use super::wordings::{wording, wordings, MARK};
use super::File;
use crate::block::Blocks;
use crate::entry::{CHANNEL, CODE, COUNT, EDITION, KIND, SERVICE};
use crate::reader::fields::{named, KINDS};
use crate::reader::{Bad, Edition, Reading, Verdict, ENTRY, PIECE, WORD};
use crate::state::{SERVICES, TOP_BIT};
use crate::wire::get64;
use std::collections::BTreeMap;
use std::fmt::{self, Display, Formatter};

/// The lines of a good file, as far as they are the same for all of them.
const SHOWN: [&str; 6] = [
    "channel ready",
    "channel closed",
    "service offered",
    "service registered",
    "block configured",
    "block unconfigured",
];

/// What files may have that no agent drains.
const GROWN: [&str; 3] = [
    "cancelled before it is settled",
    "begun anew after pages collected",
    "begun anew after a record settled",
];

/// Data refused under a handle that is registered but for its top bit.
const BARE: &str = "kind  9 of a registered handle but for its top bit";

/// What no agent of 01 wrote: journals of more than 16 blocks, of each edition.
const MORE: [&str; 6] = [
    "file of 17 to 63 blocks",
    "file of 64 blocks",
    "kind 11 of a block from 16 on",
    "kind 11 of 64 blocks",
    "kind 12 of 17 to 64 records",
    "kind 15 of a block from 16 on",
];

/// What only a new journal can say.
const NEW: &str = "kind 15 of a record from 16 on";

/// What only an old journal can be: one without an entry has no mark.
const EMPTY: [&str; 2] = [
    "file of no entries, up to 16 blocks",
    "file of no entries, 17 to 64 blocks",
];

/// What chooses the words of a line that does not tell it: each value of these
/// fields, each service of an order.
const CHOOSING: [&str; 4] = [
    "kind  2 of w",
    "kind 16 of count",
    "kind 18 of w",
    "kind 19 of code",
];
const VALUES: [&str; 3] = ["0", "1", "2 or more"];
const ORDERED: &str = "kind 21 of code 0 and service";

/// What must be reached of these.
fn choosing_names() -> impl Iterator<Item = String> {
    let values = |field| VALUES.map(|value| format!("{field} {value}"));
    let services = (0..SERVICES).map(|service| format!("{ORDERED} {service}"));
    CHOOSING.into_iter().flat_map(values).chain(services)
}

/// The one of them that an entry is of.
fn choosing(first: u64, second: u64) -> Option<String> {
    let (place, value) = match KIND.of(first) {
        2 => (0, second),
        16 => (1, COUNT.of(first)),
        18 => (2, second),
        19 => (3, CODE.of(first)),
        21 if CODE.of(first) == 0 => return Some(format!("{ORDERED} {}", SERVICE.of(first))),
        _ => return None,
    };
    let value = VALUES[value.min(2) as usize];
    Some(format!("{} {value}", CHOOSING[place]))
}

/// Whether an entry is of `BARE`, after the reading before it.
fn is_bare(before: &Reading, first: u64, second: u64) -> bool {
    let channel = &before.channels[CHANNEL.of(first) as usize];
    KIND.of(first) == 9 && channel.registered(second ^ TOP_BIT).is_some()
}

/// The removal of a good file, as far as these need it: pages that no longer
/// count, records settled.
#[derive(Default)]
struct RemovalSteps {
    collected: u64,
    returned: u64,
    settled: bool,
}

impl RemovalSteps {
    /// The name of what an entry does, if it is one of `GROWN`.
    fn entry(&mut self, first: u64, second: u64, reading: &Reading) -> Option<&'static str> {
        let count = COUNT.of(first);
        match KIND.of(first) {
            12 => {
                let before = std::mem::take(self);
                let anew = [
                    (before.collected, GROWN[1]),
                    (before.settled.into(), GROWN[2]),
                ];
                let reached = anew.iter().find(|(reached, _)| *reached > 0);
                return reached.map(|(_, name)| *name);
            }
            13 => (self.returned, self.collected) = (self.returned.max(self.collected), 0),
            14 => self.collected += count,
            15 => {
                let before = std::mem::take(self);
                self.settled = true;
                let (_, block) = reading.edition.settled(first, second);
                let pages = reading.blocks.list[block as usize].pages;
                return (before.returned + count > pages).then_some(GROWN[0]);
            }
            16 => *self = RemovalSteps::default(),
            _ => {}
        }
        None
    }
}

/// A file that no reader takes at once.
const LONG: &str = "file longer than is read at once";

/// The lines of entries that files of an edition must reach.
fn line_names(edition: Edition) -> impl Iterator<Item = String> {
    let mark = (edition == Edition::New).then(|| MARK.to_string());
    let lines = wordings().chain(mark);
    lines.map(move |line| format!("line {edition} {line}"))
}

/// Counts by name.
pub struct Counts {
    listed: BTreeMap<String, u64>,
    files: u64,
    damaged: u64,
}

/// What good files of an edition must reach.
fn good_names(edition: Edition) -> Vec<String> {
    let mark = |kind: usize| edition == Edition::New && kind as u64 == EDITION;
    let kinds = (0..KINDS).filter(|kind| named(edition, *kind).is_some() || mark(*kind));
    let mut names: Vec<String> = kinds.map(|kind| format!("kind {kind:2}")).collect();
    names.extend(GROWN.map(String::from));
    names.extend((0..SERVICES).map(|service| format!("kind 10 of service {service}")));
    names.extend(choosing_names());
    names.extend([BARE, "file", "file of 16 blocks"].map(String::from));
    names.extend(MORE.map(String::from));
    match edition {
        Edition::Old => names.extend(EMPTY.map(String::from)),
        Edition::New => names.push(NEW.into()),
    }
    let names = names.iter();
    names.map(|name| format!("good {edition} {name}")).collect()
}

impl Default for Counts {
    fn default() -> Counts {
        let bad = Damage::all().into_iter().map(|damage| damage.to_string());
        let bad = bad.map(|name| format!("bad {name}"));
        let good = Edition::ALL.into_iter().flat_map(good_names);
        let shown = Edition::ALL.into_iter().flat_map(|edition| {
            let lines = SHOWN.iter();
            lines.map(move |line| format!("shown {edition} {line}"))
        });
        let lines = Edition::ALL.into_iter().flat_map(line_names);
        let names = bad.chain(good).chain(shown).chain(lines);
        let names = names.chain([LONG.to_string()]);
        Counts {
            listed: names.map(|name| (name, 0)).collect(),
            files: 0,
            damaged: 0,
        }
    }
}

/// What an entry says of blocks, or of records, from 16 on.
fn more(edition: Edition, first: u64, second: u64) -> Vec<&'static str> {
    let (record, block) = edition.settled(first, second);
    let tests = match KIND.of(first) {
        11 => [(second >> 16 != 0, MORE[2]), (second == u64::MAX, MORE[3])],
        12 => [((17..=64).contains(&COUNT.of(first)), MORE[4]), (false, "")],
        15 => [(block > 15, MORE[5]), (record > 15, NEW)],
        _ => return Vec::new(),
    };
    let met = tests.iter().filter(|(met, _)| *met);
    met.map(|(_, name)| *name).collect()
}

/// The whole entries of a file whose block list is good.
fn entries_of(file: &[u8]) -> std::slice::ChunksExact<'_, u8> {
    let start = WORD + get64(file, 0) as usize * WORD;
    file[start..].chunks_exact(ENTRY)
}

impl Counts {
    fn add(&mut self, name: String) {
        *self.listed.entry(name).or_default() += 1;
    }

    /// Counts a file, what the reader says of it, and the lines of its entries.
    pub fn file(&mut self, file: &File, verdict: &Verdict, lines: &[u8]) {
        self.files += 1;
        self.damaged += u64::from(file.damaged);
        if file.bytes.len() > PIECE {
            self.add(LONG.to_string());
        }
        self.lines(verdict, lines);
        match verdict {
            Ok(reading) => self.good(&file.bytes, reading),
            Err(bad) => {
                self.add(format!("bad {}", Damage::of(bad)));
                if let Some(unmarked) = Unmarked::of(&file.bytes, bad) {
                    self.add(format!("bad {unmarked}"));
                }
            }
        }
    }

    /// Counts what a good file says and shows.
    fn good(&mut self, file: &[u8], reading: &Reading) {
        let edition = reading.edition;
        self.bare(file, edition);
        let entries = entries_of(file);
        self.add(format!("good {edition} file"));
        if entries.len() == 0 {
            let name = EMPTY[usize::from(reading.blocks.count > OLD_BLOCKS)];
            self.add(format!("good {edition} {name}"));
        }
        let blocks = match reading.blocks.count {
            ..=15 => "up to 15",
            16 => "16",
            17..=63 => "17 to 63",
            _ => "64",
        };
        self.add(format!("good {edition} file of {blocks} blocks"));
        let mut removal = RemovalSteps::default();
        for entry in entries {
            let (first, second) = (get64(entry, 0), get64(entry, WORD));
            self.add(format!("good {edition} kind {:2}", KIND.of(first)));
            if KIND.of(first) == 10 {
                let service = SERVICE.of(first);
                self.add(format!("good {edition} kind 10 of service {service}"));
            }
            let said = removal.entry(first, second, reading);
            let said = said.into_iter().chain(more(edition, first, second));
            for name in said.map(String::from).chain(choosing(first, second)) {
                self.add(format!("good {edition} {name}"));
            }
        }
        for line in String::from_utf8_lossy(&reading.lines()).lines() {
            let mut words = line.split(' ');
            if let (Some(what), Some(_), Some(how)) = (words.next(), words.next(), words.next()) {
                self.add(format!("shown {edition} {what} {how}"));
            }
        }
    }

    /// Counts the lines of a file's good entries.
    fn lines(&mut self, verdict: &Verdict, lines: &[u8]) {
        let edition = match verdict {
            Ok(reading) => reading.edition,
            Err(Bad::Entry { edition, .. }) => *edition,
            Err(Bad::Blocks(_)) => return,
        };
        for line in String::from_utf8_lossy(lines).lines() {
            self.add(format!("line {edition} {}", wording(line)));
        }
    }

    /// Counts the entries of `BARE` in a good file.
    fn bare(&mut self, file: &[u8], edition: Edition) {
        let start = WORD + get64(file, 0) as usize * WORD;
        let words = file[WORD..start].chunks_exact(WORD);
        let words: Vec<u64> = words.map(|word| get64(word, 0)).collect();
        let blocks = Blocks::from_words(&words).expect("a good file");
        let mut reading = Reading::new(blocks, edition);
        for entry in entries_of(file) {
            let (first, second) = (get64(entry, 0), get64(entry, WORD));
            if is_bare(&reading, first, second) {
                self.add(format!("good {edition} {BARE}"));
            }
            reading.entry([first, second]).expect("a good file");
        }
    }

    /// Adds the counts of other files.
    pub fn join(&mut self, other: Counts) {
        for (name, count) in other.listed {
            *self.listed.entry(name).or_default() += count;
        }
        self.files += other.files;
        self.damaged += other.damaged;
    }

    pub fn files(&self) -> u64 {
        self.files
    }

    /// The names of the counts that are zero, or too low, and must not be.
    pub fn zeros(&self) -> Vec<String> {
        let listed = self.listed.iter().filter(|(_, count)| **count == 0);
        let mut zeros: Vec<String> = listed.map(|(name, _)| name.clone()).collect();
        if self.damaged * 2 < self.files {
            zeros.push("half of the files damaged".into());
        }
        zeros
    }
}

impl Display for Counts {
    fn fmt(&self, text: &mut Formatter) -> fmt::Result {
        for (name, count) in &self.listed {
            writeln!(text, "{name:84} {count:>10}")?;
        }
        writeln!(text, "{:84} {:>10}", "files damaged", self.damaged)
    }
}
