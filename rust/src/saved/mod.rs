//! Saved files for the reader: what random lists of calls drained from the
//! agent, whole and damaged in one place, in both editions.

pub mod counts;
pub mod damage;
mod entries;
pub mod list;
mod long;
mod whole;
mod wordings;

pub use long::{write_long, MAX_ENTRIES};

use crate::generate::random::Random;
use crate::reader::{Edition, ENTRY, PIECE};
use damage::Damage;
use list::{lists, Saved, OLD_BLOCKS};

/// A file, and whether it was damaged.
#[derive(Clone, Debug, PartialEq, Eq)]
pub struct File {
    pub bytes: Vec<u8>,
    pub damaged: bool,
}

/// The files that are made together.
pub const BATCH: u64 = 2_000;
/// The calls whose lists a batch is made of.
const CALLS: u64 = 30_000;
/// The most entries that are taken from one list.
const MAX_TAKEN: u64 = 300;
/// The entries of a long file, more than are read at once.
const LONG: u64 = (PIECE / ENTRY) as u64;

/// So many files from a seed, the same for the same seed.
pub fn files(seed: u64, count: u64) -> impl Iterator<Item = File> {
    let batches = 0..count.div_ceil(BATCH);
    let files = batches.flat_map(move |number| batch(seed, number));
    files.take(count as usize)
}

/// The files of one batch. The first is long; three of five are damaged, by
/// each damage in turn.
pub fn batch(seed: u64, number: u64) -> Vec<File> {
    let mut random = Random::new(seed ^ number.wrapping_mul(0x2545_f491_4f6c_dd1d));
    let lists = Lists::new(random.next());
    let mut damages = Damage::all().into_iter().cycle();
    let mut next = |place| {
        let damaged = place % 5 > 1;
        let bytes = match damaged {
            _ if place == 0 => return long(&mut random),
            false => lists.good(&mut random, None).bytes(),
            true => lists.bad(&mut random, damages.next()),
        };
        File { bytes, damaged }
    };
    (0..BATCH).map(&mut next).collect()
}

/// A file that no reader takes at once; half of them are cut in the last entry.
fn long(random: &mut Random) -> File {
    let mut bytes = Vec::new();
    write_long(random.between(LONG + 1, 2 * LONG), &mut bytes).expect("bytes are written");
    let damaged = random.once_in(2);
    if damaged {
        bytes.truncate(bytes.len() - random.between(1, ENTRY as u64 - 1) as usize);
    }
    File { bytes, damaged }
}

/// What lists of calls drained, in each edition.
struct Lists {
    old: Vec<Saved>,
    new: Vec<Saved>,
}

impl Lists {
    fn new(seed: u64) -> Lists {
        let all = lists(seed, CALLS);
        let mut old: Vec<Saved> = all.iter().filter_map(Saved::to_old).collect();
        // Few lists have more than 16 blocks: each of these is there three times,
        // and once as its block list alone.
        let more = old.iter().filter(|saved| saved.blocks() > OLD_BLOCKS);
        let more: Vec<Saved> = more.cloned().collect();
        old.extend(more.iter().map(Saved::without_entries));
        old.extend([&more[..], &more].concat());
        // Without an entry the edition is old; a part of these will do.
        let (new, empty): (Vec<Saved>, Vec<Saved>) = all
            .into_iter()
            .partition(|saved| saved.edition() == Edition::New);
        old.extend(empty.into_iter().step_by(4));
        Lists { old, new }
    }

    /// A good file of this or any edition, from one of the lists or from its
    /// beginning.
    fn good(&self, random: &mut Random, edition: Option<Edition>) -> Saved {
        let edition = edition.unwrap_or_else(|| random.pick(&Edition::ALL));
        let lists = match edition {
            Edition::Old => &self.old,
            Edition::New => &self.new,
        };
        let list = &lists[random.below(lists.len() as u64) as usize];
        let mut drained = list.clone();
        if random.once_in(3) || drained.entries.len() as u64 > MAX_TAKEN {
            drained.truncate(random.up_to(MAX_TAKEN));
        }
        whole::whole(random, &drained)
    }

    /// A file with the damage; one in 20, and where no place for it is found,
    /// is damaged anywhere.
    fn bad(&self, random: &mut Random, damage: Option<Damage>) -> Vec<u8> {
        let tries = if random.once_in(20) { 0 } else { 100 };
        for _ in 0..tries {
            let good = self.good(random, damage.and_then(Damage::edition));
            if let Some(bytes) = damage.and_then(|damage| damage.make(random, &good)) {
                return bytes;
            }
        }
        let good = self.good(random, None);
        damage::anywhere(random, &good)
    }
}
