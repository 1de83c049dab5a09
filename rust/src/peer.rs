//! Services of the other end, ticket 7 of 02: the ids that the host lists at
//! setup, and what the peer registered on each channel.

pub mod service;

use crate::state::TOP_BIT;
use crate::wire::ends_at_only_zero;
use std::array;

/// There are 0 to 16 ids.
pub const MAX_IDS: usize = 16;
/// A channel has at most eight peer registrations.
pub const MAX_PEERS: u32 = 8;
/// Setup gives seven words for each id: major, highest minor, the bytes of the
/// id with its zero, and the id.
pub const ID_WORDS: usize = 7;
/// An id has 1 to 32 bytes with its zero.
pub const MAX_ID: usize = 32;
/// The words of an id's bytes.
const BYTE_WORDS: usize = MAX_ID / WORD;
const WORD: usize = 8;

/// One id. Its bytes are the first `length` of `words`, most significant
/// first; those that follow in its last word are 0, and the words after that
/// say nothing.
#[derive(Clone, Copy, Debug, Default, PartialEq, Eq)]
pub struct Id {
    pub major: u16,
    pub minor: u16,
    pub length: usize,
    pub words: [u64; BYTE_WORDS],
}

/// The id list: the first `count` of `list`.
#[derive(Clone, Copy, Debug, Default, PartialEq, Eq)]
pub struct Ids {
    pub count: usize,
    pub list: [Id; MAX_IDS],
}

/// Other than 0 just if one of the word's bytes is 0.
fn zero_bytes(word: u64) -> u64 {
    const LOW: u64 = u64::from_ne_bytes([0x01; WORD]);
    const HIGH: u64 = u64::from_ne_bytes([0x80; WORD]);
    word.wrapping_sub(LOW) & !word & HIGH
}

/// One word more in a mark.
#[inline]
fn mix(mixed: u64, word: u64) -> u64 {
    (mixed ^ word).wrapping_mul(0x9e37_79b9_7f4a_7c15)
}

impl Id {
    /// The id that seven words describe; none if a version has more than 16
    /// bits, or the length is none of an id.
    fn from_words(given: &[u64]) -> Option<Id> {
        let &[major, minor, length, ref words @ ..] = given else {
            return None;
        };
        Some(Id {
            major: major.try_into().ok()?,
            minor: minor.try_into().ok()?,
            length: usize::try_from(length)
                .ok()
                .filter(|length| *length <= MAX_ID)?,
            words: words.try_into().ok()?,
        })
    }

    /// The words that describe it.
    pub fn to_words(&self) -> [u64; ID_WORDS] {
        let [first, second, third, fourth] = self.words;
        let (major, minor) = (self.major.into(), self.minor.into());
        [
            major,
            minor,
            self.length as u64,
            first,
            second,
            third,
            fourth,
        ]
    }

    /// The id's bytes with its zero. It must keep the rules.
    pub fn bytes(&self) -> Vec<u8> {
        let bytes = self.words.iter().flat_map(|word| word.to_be_bytes());
        bytes.take(self.length).collect()
    }

    /// A mark of the id, if it has a length, its last byte is its only zero, and
    /// the bytes after it in its last word are 0. No word after that is looked
    /// at. The same ids have the same mark; others hardly ever do.
    #[inline]
    fn mark(&self) -> Option<u32> {
        let zero = self.length.wrapping_sub(1);
        let (whole, &last) = match zero / WORD {
            at @ ..BYTE_WORDS => (&self.words[..at], &self.words[at]),
            _ => return None,
        };
        let bits = zero % WORD * 8;
        let mut bad = zero_bytes(last | u64::MAX >> bits) | last << bits;
        let mut mixed = mix(self.length as u64, last);
        for word in whole {
            bad |= zero_bytes(*word);
            mixed = mix(mixed, *word);
        }
        (bad == 0).then_some((mixed >> 32) as u32)
    }

    /// Whether two ids that keep the rules are the same: the lengths first,
    /// then the words that have bytes of them.
    #[inline]
    fn is(&self, other: &Id) -> bool {
        let used = (self.length - 1) / WORD;
        self.length == other.length
            && self.words[0] == other.words[0]
            && self.words[1..=used] == other.words[1..=used]
    }
}

impl Ids {
    /// Setup's list of words, if it is whole ids that keep the rules.
    pub fn from_words(words: &[u64]) -> Option<Ids> {
        let count = words.len() / ID_WORDS;
        if !words.len().is_multiple_of(ID_WORDS) || count > MAX_IDS {
            return None;
        }
        let mut ids = Ids {
            count,
            ..Ids::default()
        };
        for (id, words) in ids.list.iter_mut().zip(words.chunks_exact(ID_WORDS)) {
            *id = Id::from_words(words)?;
        }
        ids.keep_rules().then_some(ids)
    }

    /// Whether every id keeps the rules and all are different, a made list's
    /// included.
    #[inline]
    pub fn keep_rules(&self) -> bool {
        self.count == 0 || self.are_good()
    }

    /// Apart from the callers, which are short where there are no ids.
    #[inline(never)]
    fn are_good(&self) -> bool {
        let Some(list) = self.list.get(..self.count) else {
            return false;
        };
        // All marks twice, so that each stands beside each other one at a
        // distance up to half of them. Those past the count differ.
        let mut marks: [u32; 2 * MAX_IDS] = array::from_fn(|at| (at % MAX_IDS) as u32);
        for (at, id) in list.iter().enumerate() {
            let Some(mark) = id.mark() else {
                return false;
            };
            (marks[at], marks[at + MAX_IDS]) = (mark, mark);
        }
        list.len() == 1 || !has_repeat(&marks) || differ(list)
    }

    /// The ids there are. The list must keep the rules.
    pub fn listed(&self) -> &[Id] {
        &self.list[..self.count]
    }

    /// The place of an id with its zero. The list must keep the rules.
    pub fn find(&self, id: &[u8]) -> Option<usize> {
        if !(1..=MAX_ID).contains(&id.len()) {
            return None;
        }
        debug_assert!(ends_at_only_zero(id));
        let mut padded = [0; MAX_ID];
        padded[..id.len()].copy_from_slice(id);
        let (words, _) = padded.as_chunks();
        let asked = Id {
            length: id.len(),
            words: array::from_fn(|at| u64::from_be_bytes(words[at])),
            ..Id::default()
        };
        self.listed().iter().position(|id| id.is(&asked))
    }
}

/// Whether one of the marks, given twice, is that of another place. Without an
/// early end many are compared in one step.
#[inline]
fn has_repeat(marks: &[u32; 2 * MAX_IDS]) -> bool {
    let mut repeats = 0;
    for distance in 1..=MAX_IDS / 2 {
        for at in 0..MAX_IDS {
            repeats |= u32::from(marks[at] == marks[at + distance]);
        }
    }
    repeats != 0
}

/// Whether no id is that of a place before it. They must keep their own rules.
#[cold]
fn differ(list: &[Id]) -> bool {
    let mut places = list.iter().enumerate();
    places.all(|(at, id)| !list[..at].iter().any(|before| before.is(id)))
}

/// What the peer registered on one channel, by the place of the id. Where no
/// id is registered, handle and minor say nothing; this agent leaves 0 there.
#[derive(Clone, Copy, Debug, Default, PartialEq, Eq)]
pub struct Peers {
    /// Bit i for the id at place i.
    pub registered: u16,
    pub handles: [u64; MAX_IDS],
    pub minors: [u16; MAX_IDS],
}

impl Peers {
    /// The places that are registered, in rising order.
    #[inline]
    pub fn places(&self) -> impl Iterator<Item = usize> {
        let mut left = self.registered;
        std::iter::from_fn(move || {
            let place = left.trailing_zeros() as usize;
            left &= left.wrapping_sub(1);
            (place < MAX_IDS).then_some(place)
        })
    }

    /// Whether the id at a place is registered.
    #[inline]
    pub fn has(&self, place: usize) -> bool {
        self.registered >> place & 1 == 1
    }

    /// How many are registered.
    pub fn count(&self) -> u32 {
        self.registered.count_ones()
    }

    /// The place of the registration with this handle.
    #[inline]
    pub fn find(&self, handle: u64) -> Option<usize> {
        self.places().find(|place| self.handles[*place] == handle)
    }

    pub fn add(&mut self, place: usize, handle: u64, minor: u16) {
        self.registered |= 1 << place;
        self.handles[place] = handle;
        self.minors[place] = minor;
    }

    pub fn remove(&mut self, place: usize) {
        self.registered &= !(1 << place);
        self.handles[place] = 0;
        self.minors[place] = 0;
    }

    /// Drops all registrations.
    #[inline]
    pub fn drop_all(&mut self) {
        if self.registered != 0 {
            *self = Peers::default();
        }
    }

    /// At most eight registrations of listed ids, no minor above the list's,
    /// whose handles lack the top bit and differ.
    #[inline(never)]
    pub fn keep_rules(&self, ids: &Ids) -> bool {
        if u32::from(self.registered) >> ids.count != 0 || self.count() > MAX_PEERS {
            return false;
        }
        let mut seen = [0; MAX_PEERS as usize];
        for (count, place) in self.places().enumerate() {
            let handle = self.handles[place];
            if handle & TOP_BIT != 0
                || self.minors[place] > ids.list[place].minor
                || seen[..count].contains(&handle)
            {
                return false;
            }
            seen[count] = handle;
        }
        true
    }
}
