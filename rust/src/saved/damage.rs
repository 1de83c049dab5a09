//! Files that are bad in one place, for each test of the reader.

use super::entries::entry;
use super::list::{kind_of, verdict, Saved, OLD_BLOCKS};
use crate::block::{BLOCK_WORDS, MAX_BLOCKS};
use crate::entry::{EDITION, KIND, NUMBER};
use crate::generate::random::Random;
use crate::generate::setups;
use crate::reader::fields::{named, unnamed, Field, KINDS};
use crate::reader::{Bad, Edition, Fault, ListFault, Need, ENTRY, WORD};
use crate::wire::get64;
use std::fmt::{self, Display, Formatter};

/// What is bad in a file, wherever it stands.
#[derive(Clone, Copy, Debug, PartialEq, Eq, PartialOrd, Ord)]
pub enum Damage {
    List(ListFault),
    Entry(Edition, Fault),
    Unmarked(Unmarked),
}

/// What is bad in a journal of 17 to 64 blocks that has no mark, and so is read
/// by the rules of the old edition.
#[derive(Clone, Copy, Debug, PartialEq, Eq, PartialOrd, Ord)]
pub enum Unmarked {
    /// There is no whole entry, but a part of one.
    CutFirst,
    /// The first entry has number 2: the mark alone is lost.
    FromTwo,
    /// The first entry has a higher number: more than the mark is lost.
    FromLater,
    /// The first entry is bad for another reason.
    FirstBad,
    /// An entry after the first is bad.
    LaterBad,
    /// An entry of this kind has a block that is not listed.
    Block(usize),
    /// A record is past the last that an old entry can say.
    NoRecord,
}

/// What each kind needs, as the ticket says.
const NEEDS: [(Need, &[usize]); 9] = [
    (Need::Ready, &[4, 5, 6, 7, 8, 9, 10, 11, 12, 13, 17]),
    (Need::Idle, &[4]),
    (Need::Offered, &[5, 6]),
    (Need::Handle, &[5]),
    (Need::TopBit, &[5]),
    (Need::Live, &[7]),
    (Need::Registered, &[8, 10, 11, 12, 13]),
    (Need::NotRegistered, &[9]),
    (Need::Removal, &[13, 14, 15, 16]),
];

impl Damage {
    pub fn of(bad: &Bad) -> Damage {
        match *bad {
            Bad::Blocks(fault) => Damage::List(fault),
            Bad::Entry { edition, fault, .. } => Damage::Entry(edition, fault),
        }
    }

    /// Every damage that the reader tests for: those of a list, and those of an
    /// entry in each edition.
    pub fn all() -> Vec<Damage> {
        let lists = [
            ListFault::TooManyWords,
            ListFault::NotWholeBlocks,
            ListFault::ListCut,
            ListFault::BreaksRule,
        ];
        let counts = (0..WORD).map(ListFault::CountCut);
        let lists = lists.into_iter().chain(counts);
        let entries = Edition::ALL.into_iter().flat_map(|edition| {
            let faults = faults(edition).into_iter();
            faults.map(move |fault| Damage::Entry(edition, fault))
        });
        let unmarked = Unmarked::ALL.map(Damage::Unmarked);
        let lists = lists.map(Damage::List);
        lists.chain(entries).chain(unmarked).collect()
    }

    /// The edition of the file that it is made of; either will do for a list.
    pub fn edition(self) -> Option<Edition> {
        match self {
            Damage::List(_) => None,
            Damage::Entry(edition, _) => Some(edition),
            Damage::Unmarked(unmarked) => Some(unmarked.made_of()),
        }
    }

    /// Damages a good file so, if a place for it was found.
    pub fn make(self, random: &mut Random, good: &Saved) -> Option<Vec<u8>> {
        let bytes = match self {
            Damage::List(fault) => damage_list(random, good, fault),
            Damage::Entry(_, fault) => damage_entry(random, good, fault)?,
            Damage::Unmarked(unmarked) => damage_unmarked(random, good, unmarked)?,
        };
        let bad = verdict(&bytes).err()?;
        let made = match self {
            Damage::Unmarked(_) => Unmarked::of(&bytes, &bad).map(Damage::Unmarked),
            _ => Some(Damage::of(&bad)),
        };
        (made == Some(self)).then_some(bytes)
    }
}

impl Unmarked {
    const ALL: [Unmarked; 8] = [
        Unmarked::CutFirst,
        Unmarked::FromTwo,
        Unmarked::FromLater,
        Unmarked::FirstBad,
        Unmarked::LaterBad,
        Unmarked::Block(11),
        Unmarked::Block(15),
        Unmarked::NoRecord,
    ];

    /// What a bad file has of these, if it is such a journal.
    pub fn of(file: &[u8], bad: &Bad) -> Option<Unmarked> {
        let Bad::Entry {
            edition: Edition::Old,
            place,
            fault,
        } = *bad
        else {
            return None;
        };
        let words = get64(file, 0) as usize;
        if words <= OLD_BLOCKS * BLOCK_WORDS {
            return None;
        }
        Some(match (place, fault) {
            (_, Fault::Block(kind)) => Unmarked::Block(kind),
            (_, Fault::NoRecord) => Unmarked::NoRecord,
            (1, Fault::Cut(_)) => Unmarked::CutFirst,
            (1, Fault::Number) => match NUMBER.of(get64(file, WORD + words * WORD)) {
                0 => Unmarked::FirstBad,
                2 => Unmarked::FromTwo,
                _ => Unmarked::FromLater,
            },
            (1, _) => Unmarked::FirstBad,
            _ => Unmarked::LaterBad,
        })
    }

    /// The edition of the good file that is damaged: a new one loses its mark.
    fn made_of(self) -> Edition {
        match self {
            Unmarked::CutFirst | Unmarked::FromTwo | Unmarked::FromLater | Unmarked::FirstBad => {
                Edition::New
            }
            Unmarked::LaterBad | Unmarked::Block(_) | Unmarked::NoRecord => Edition::Old,
        }
    }
}

/// Every fault that an entry can have in an edition.
fn faults(edition: Edition) -> Vec<Fault> {
    let is_known = |kind: &usize| named(edition, *kind).is_some();
    let unknown = (0..KINDS).filter(|kind| !is_known(kind));
    // A new journal's mark has fields as well, and names none of them.
    let is_mark = move |kind: usize| edition == Edition::New && kind as u64 == EDITION;
    let fields = (0..KINDS).filter(|kind| is_known(kind) || is_mark(*kind));
    let unnamed = fields.flat_map(|kind| {
        let fields = Field::ALL.into_iter();
        let fields = fields.filter(move |field| unnamed(edition, kind, *field) != 0);
        fields.map(move |field| Fault::Unnamed(kind, field))
    });
    let needs = NEEDS.iter().flat_map(|(need, kinds)| {
        let kinds = kinds.iter();
        kinds.map(|kind| Fault::Need(*kind, *need))
    });
    let others = [
        Fault::Number,
        Fault::Record,
        Fault::NoRecord,
        Fault::Block(11),
        Fault::Block(15),
        Fault::Moved,
        Fault::Collected,
    ];
    let entries = others.into_iter().chain(unknown.map(Fault::Kind));
    let entries = entries.chain(unnamed).chain(needs);
    entries.chain((1..ENTRY).map(Fault::Cut)).collect()
}

impl Display for ListFault {
    fn fmt(&self, text: &mut Formatter) -> fmt::Result {
        match self {
            ListFault::CountCut(length) => write!(text, "count of {length} bytes"),
            ListFault::TooManyWords => write!(text, "list of too many words"),
            ListFault::NotWholeBlocks => write!(text, "list not of whole blocks"),
            ListFault::ListCut => write!(text, "list cut"),
            ListFault::BreaksRule => write!(text, "list that breaks a rule"),
        }
    }
}

impl Display for Fault {
    fn fmt(&self, text: &mut Formatter) -> fmt::Result {
        match self {
            Fault::Number => write!(text, "number"),
            Fault::Kind(kind) => write!(text, "unknown kind {kind:2}"),
            Fault::Unnamed(kind, field) => write!(text, "kind {kind:2} unnamed {field}"),
            Fault::Need(kind, need) => write!(text, "kind {kind:2} needs {need:?}"),
            Fault::Record => write!(text, "kind 15 record"),
            Fault::NoRecord => write!(text, "kind 15 past the last record"),
            Fault::Block(kind) => write!(text, "kind {kind:2} block not listed"),
            Fault::Moved => write!(text, "kind 15 pages moved"),
            Fault::Collected => write!(text, "kind 15 pages with those collected"),
            Fault::Cut(length) => write!(text, "entry of {length:2} bytes"),
        }
    }
}

impl Display for Unmarked {
    fn fmt(&self, text: &mut Formatter) -> fmt::Result {
        text.write_str("old of 17 to 64 blocks, ")?;
        match self {
            Unmarked::CutFirst => write!(text, "cut in the first entry"),
            Unmarked::FromTwo => write!(text, "from number 2 on"),
            Unmarked::FromLater => write!(text, "from a later number on"),
            Unmarked::FirstBad => write!(text, "first entry bad otherwise"),
            Unmarked::LaterBad => write!(text, "a later entry bad"),
            Unmarked::Block(kind) => write!(text, "{}", Fault::Block(*kind)),
            Unmarked::NoRecord => write!(text, "{}", Fault::NoRecord),
        }
    }
}

impl Display for Damage {
    fn fmt(&self, text: &mut Formatter) -> fmt::Result {
        match self {
            Damage::List(fault) => write!(text, "{fault}"),
            Damage::Entry(edition, fault) => write!(text, "{edition} {fault}"),
            Damage::Unmarked(unmarked) => write!(text, "{unmarked}"),
        }
    }
}

/// The place of an entry, if there is one.
fn any_place(random: &mut Random, saved: &Saved) -> Option<usize> {
    let count = saved.entries.len() as u64;
    (count > 0).then(|| random.below(count) as usize)
}

/// The first bytes of a file.
fn cut(saved: &Saved, length: usize) -> Vec<u8> {
    let mut bytes = saved.bytes();
    bytes.truncate(length);
    bytes
}

/// The file with another word count.
fn with_count(saved: &Saved, count: u64) -> Vec<u8> {
    let mut bytes = saved.bytes();
    bytes[..WORD].copy_from_slice(&count.to_be_bytes());
    bytes
}

/// Damages a good file of 17 to 64 blocks so, if it has as many.
fn damage_unmarked(random: &mut Random, good: &Saved, unmarked: Unmarked) -> Option<Vec<u8>> {
    if good.blocks() <= OLD_BLOCKS {
        return None;
    }
    let mut saved = good.clone();
    match unmarked {
        Unmarked::CutFirst => {
            let length = random.between(1, ENTRY as u64 - 1);
            return Some(cut(good, good.start() + length as usize));
        }
        Unmarked::FromTwo => {
            saved.entries.remove(0);
        }
        Unmarked::FromLater => {
            let last = good.entries.len().checked_sub(1)?;
            let lost = random.between(2.min(last as u64), last as u64);
            saved.entries.drain(..lost as usize);
        }
        Unmarked::FirstBad => {
            let [first, second] = saved.entries.first_mut()?;
            match random.below(3) {
                0 => *first ^= KIND.word(random.between(1, KIND.most())),
                1 => *first ^= NUMBER.word(1) | KIND.word(1),
                _ => (*first, *second) = (random.next(), random.next()),
            }
        }
        Unmarked::LaterBad => {
            let fault = random.pick(&faults(Edition::Old));
            return damage_entry(random, good, fault);
        }
        Unmarked::Block(kind) => return damage_entry(random, good, Fault::Block(kind)),
        Unmarked::NoRecord => return damage_entry(random, good, Fault::NoRecord),
    }
    Some(saved.bytes())
}

fn damage_list(random: &mut Random, good: &Saved, fault: ListFault) -> Vec<u8> {
    let most = (MAX_BLOCKS * BLOCK_WORDS) as u64;
    let count = good.words.len() as u64;
    match fault {
        ListFault::CountCut(length) => cut(good, length),
        ListFault::TooManyWords => {
            // Some of them agree with a good count in fewer bits, or in bytes.
            let high = random.pick(&[1 << 8, 1 << 16, 1 << 32, 1 << 61, 1 << 63]);
            let any = random.next() | 1 << 9;
            let wrong = [most + 1, most + 5, count | high, u64::MAX, any];
            with_count(good, random.pick(&wrong))
        }
        ListFault::NotWholeBlocks => with_count(good, random.below(most)),
        ListFault::ListCut => {
            let length = count * WORD as u64;
            let kept = random.below(length.max(1)) as usize;
            cut(good, WORD + kept)
        }
        ListFault::BreaksRule => {
            let mut saved = good.clone();
            saved.words = setups::bad(random);
            saved.bytes()
        }
    }
}

/// Changes or cuts an entry, or adds one, so that it has this fault.
fn damage_entry(random: &mut Random, good: &Saved, fault: Fault) -> Option<Vec<u8>> {
    let saved = match fault {
        Fault::Number => damage_number(random, good)?,
        Fault::Kind(kind) => damage_kind(random, good, kind)?,
        Fault::Unnamed(kind, field) => damage_unnamed(random, good, kind, field)?,
        Fault::Need(kind, _) | Fault::Block(kind) => add_bad(random, good, kind, fault)?,
        Fault::Record | Fault::Moved | Fault::Collected => add_bad(random, good, 15, fault)?,
        Fault::NoRecord => add_past_last(random, good)?,
        Fault::Cut(length) => {
            let place = any_place(random, good)?;
            return Some(cut(good, good.start() + place * ENTRY + length));
        }
    };
    Some(saved.bytes())
}

/// Gives an entry this kind, which is unknown there.
fn damage_kind(random: &mut Random, good: &Saved, kind: usize) -> Option<Saved> {
    let mut saved = good.clone();
    let place = any_place(random, good)?;
    let [first, second] = saved.entries[place];
    let number = NUMBER.word(place as u64 + 1) | KIND.word(kind as u64);
    saved.entries[place] = match random.once_in(2) {
        true => [number, 0],
        false => [first ^ KIND.word(KIND.of(first)) | number, second],
    };
    Some(saved)
}

/// An entry left out, twice, changed with its neighbour, or with another
/// number.
fn damage_number(random: &mut Random, good: &Saved) -> Option<Saved> {
    let mut saved = good.clone();
    let place = any_place(random, good)?;
    match random.below(5) {
        0 => {
            saved.entries.remove(place);
        }
        1 => saved.entries.insert(place, saved.entries[place]),
        2 => saved.entries.swap(place, place.saturating_sub(1)),
        3 => {
            let number = random.pick(&[0, place as u64, place as u64 + 2]);
            let entry = &mut saved.entries[place][0];
            *entry = *entry ^ NUMBER.word(NUMBER.of(*entry)) | NUMBER.word(number);
        }
        _ => {
            let bits = NUMBER.word(random.between(1, NUMBER.most()));
            saved.entries[place][0] ^= random.pick(&[bits, NUMBER.word(1 << 31)]);
        }
    }
    Some(saved)
}

/// Sets an unnamed field of an entry that is there, or of a good one that is
/// added.
fn damage_unnamed(random: &mut Random, good: &Saved, kind: usize, field: Field) -> Option<Saved> {
    let mut saved = good.clone();
    let places: Vec<usize> = (0..good.entries.len())
        .filter(|place| kind_of(&good.entries[*place]) == kind)
        .collect();
    let place = match random.pick_any(&places) {
        Some(place) => place,
        None => add(random, &mut saved, kind, |added| added.is_ok())?,
    };
    // Lowest, highest, any and all of the bits that are not named.
    let free = unnamed(good.edition(), kind, field);
    let any = random.next() & free;
    let highest = free & !(free >> 1);
    let [first, second] =
        field.words(random.pick(&[free & free.wrapping_neg(), highest, any, free]));
    let entry = &mut saved.entries[place];
    *entry = [entry[0] | first, entry[1] | second];
    Some(saved)
}

/// Adds a removal that settles as many records as an entry can tell, and one
/// more.
fn add_past_last(random: &mut Random, good: &Saved) -> Option<Saved> {
    let mut saved = good.clone();
    let begun = add(random, &mut saved, 12, |added| added.is_ok())?;
    let last = good.edition().last_record() as usize + 1;
    for place in begun + 1..=begun + last {
        add_at(random, &mut saved, place, 15, |added| added.is_ok())?;
    }
    let past = |added| added == Err(Fault::NoRecord);
    add_at(random, &mut saved, begun + last + 1, 15, past)?;
    Some(saved)
}

fn add_bad(random: &mut Random, good: &Saved, kind: usize, fault: Fault) -> Option<Saved> {
    let mut saved = good.clone();
    add(random, &mut saved, kind, |added| added == Err(fault))?;
    Some(saved)
}

/// Adds an entry of a kind at a place where reading it ends as wanted; gives
/// the place.
fn add(
    random: &mut Random,
    saved: &mut Saved,
    kind: usize,
    wanted: impl Fn(Result<(), Fault>) -> bool,
) -> Option<usize> {
    for _ in 0..8 {
        let place = random.between(saved.first_place(), saved.entries.len() as u64) as usize;
        if add_at(random, saved, place, kind, &wanted).is_some() {
            return Some(place);
        }
    }
    None
}

/// Adds an entry of a kind at this place, if one was found whose reading ends
/// as wanted.
fn add_at(
    random: &mut Random,
    saved: &mut Saved,
    place: usize,
    kind: usize,
    wanted: impl Fn(Result<(), Fault>) -> bool,
) -> Option<()> {
    let before = saved.before(place);
    for _ in 0..16 {
        let added = entry(random, &before, kind);
        if wanted(before.clone().entry(added)) {
            saved.insert(place, added);
            return Some(());
        }
    }
    None
}

/// A file damaged anywhere: a bit or a byte changed, bytes left out or twice,
/// the file cut. A few turn out good.
pub fn anywhere(random: &mut Random, good: &Saved) -> Vec<u8> {
    let mut bytes = good.bytes();
    let at = random.below(bytes.len() as u64) as usize;
    match random.below(5) {
        0 => bytes[at] ^= 1 << random.below(8),
        1 => bytes[at] = random.next() as u8,
        2 => {
            bytes.remove(at);
        }
        3 => bytes.insert(at, bytes[at]),
        _ => bytes.truncate(at),
    }
    bytes
}
