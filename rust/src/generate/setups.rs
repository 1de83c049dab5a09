//! Block lists: good ones of many shapes, and ones that break a single rule.

use super::random::Random;
use crate::block::{BLOCK_WORDS, MAX_BLOCKS, MAX_END, MAX_PAGES, PAGE};

/// Five words a block, by name.
#[derive(Clone, Copy)]
struct Draft {
    base: u64,
    pages: u64,
    first: u64,
    permanent: u64,
    configured: u64,
}

impl Draft {
    fn words(&self) -> [u64; BLOCK_WORDS] {
        [
            self.base,
            self.pages,
            self.first,
            self.permanent,
            self.configured,
        ]
    }
}

fn words(drafts: &[Draft]) -> Vec<u64> {
    drafts.iter().flat_map(Draft::words).collect()
}

/// The sizes of blocks: in long lists mostly small, so that a removal of many
/// of them ends within a list of calls.
const SIZES: [u64; 6] = [25, 35, 15, 10, 8, 7];
const SIZES_OF_MANY: [u64; 6] = [55, 36, 5, 2, 1, 1];

/// A block of random size with random permanent pages; base 0.
fn draft(random: &mut Random, many: bool) -> Draft {
    let sizes = if many { &SIZES_OF_MANY } else { &SIZES };
    let pages = match random.weighted(sizes) {
        0 => random.between(1, 3),
        1 => random.between(4, 12),
        2 => random.between(13, 200),
        3 => random.between(65_534, 65_537),
        4 => random.between(201, 300_000),
        _ => random.pick(&[MAX_PAGES, MAX_PAGES - 1, 131_070]),
    };
    let configured = u64::from(!random.once_in(4));
    let mut draft = Draft {
        base: 0,
        pages,
        first: 0,
        permanent: 0,
        configured,
    };
    if configured == 1 && random.once_in(if many { 12 } else { 4 }) {
        draft.first = if random.once_in(3) {
            0
        } else {
            random.below(pages)
        };
        let room = pages - draft.first;
        draft.permanent = if random.once_in(3) {
            room
        } else {
            random.between(1, room)
        };
    }
    draft
}

/// A good list of `count` blocks: gaps or none, low, high or at 2^63.
fn drafts(random: &mut Random, count: u64) -> Vec<Draft> {
    let mut list: Vec<Draft> = (0..count).map(|_| draft(random, count > 16)).collect();
    let adjacent = random.once_in(3);
    let mut end = random.pick(&[0, PAGE, 0x1000_0000, 0xffff_e000, 1 << 40]);
    for draft in &mut list {
        let gap = match random.weighted(&[40, 40, 20]) {
            _ if adjacent => 0,
            0 => 0,
            1 => random.below(64),
            _ => random.below(1 << 24),
        };
        draft.base = end + gap * PAGE;
        end = draft.base + draft.pages * PAGE;
    }
    if random.once_in(6) {
        let rise = MAX_END - end;
        list.iter_mut().for_each(|draft| draft.base += rise);
    }
    list
}

/// A list that setup accepts.
pub fn good(random: &mut Random) -> Vec<u64> {
    let count = match random.weighted(&[4, 12, 36, 16, 8, 16, 8]) {
        0 => 0,
        1 => 1,
        2 => random.between(2, 6),
        3 => random.between(7, 15),
        4 => 16,
        5 => random.between(17, 63),
        _ => 64,
    };
    words(&drafts(random, count))
}

/// A list that breaks a single rule at a random block, or is no whole list.
pub fn bad(random: &mut Random) -> Vec<u64> {
    let any = random.between(1, 16);
    let more = random.between(17, MAX_BLOCKS as u64);
    let count = random.pick(&[any, any, more]);
    let mut list = drafts(random, count);
    let at = match random.once_in(2) {
        true => list.len() - 1,
        false => random.below(count) as usize,
    };
    match random.weighted(&[2, 2, 12]) {
        0 => {
            let mut cut = words(&list);
            cut.truncate(cut.len() - random.between(1, 4) as usize);
            return cut;
        }
        1 => {
            let count = random.pick(&[65, 65, 66, 100]);
            return words(&drafts(random, count));
        }
        _ => break_rule(random, &mut list, at),
    }
    words(&list)
}

/// Breaks one rule for the block at `at`.
fn break_rule(random: &mut Random, list: &mut [Draft], at: usize) {
    let before = at.checked_sub(1).map(|at| list[at]);
    let last = at + 1 == list.len();
    let block = &mut list[at];
    match random.below(12) {
        0 => block.base += random.pick(&[1, 4096, 8191]),
        1 => block.pages = 0,
        2 if last && block.base < 1 << 62 => {
            block.pages = random.pick(&[MAX_PAGES + 1, u64::MAX, 1 << 51]);
        }
        3 if last => block.base = MAX_END - (block.pages - 1) * PAGE,
        4 if last => block.base = random.pick(&[MAX_END, MAX_END + PAGE, u64::MAX - PAGE + 1]),
        5 if before.is_some() => {
            let end = before.map_or(0, |block| block.base + block.pages * PAGE);
            block.base = end - PAGE;
        }
        6 => {
            (block.first, block.configured) = (1.min(block.pages - 1), 1);
            block.permanent = block.pages - block.first + 1;
        }
        7 => {
            (block.first, block.permanent) = (u64::MAX, random.pick(&[1, 2, u64::MAX]));
            block.configured = 1;
        }
        8 => (block.first, block.permanent, block.configured) = (1, u64::MAX, 1),
        9 => (block.first, block.permanent) = (random.between(1, block.pages), 0),
        10 => (block.first, block.permanent, block.configured) = (0, block.pages, 0),
        _ => block.configured = random.pick(&[2, 3, 1 << 32, u64::MAX]),
    }
}
