//! Memory blocks and the rules that 01 gives for them.

/// A page has 8,192 bytes.
pub const PAGE: u64 = 8_192;
/// A block has 1 to 1,048,576 pages.
pub const MAX_PAGES: u64 = 1_048_576;
/// A block's end is at most 2^63.
pub const MAX_END: u64 = 1 << 63;
/// There are 0 to 64 blocks.
pub const MAX_BLOCKS: usize = 64;
/// Setup gives five words for each block.
pub const BLOCK_WORDS: usize = 5;

/// One block; `first` is the first permanent page, counted from the base.
#[derive(Clone, Copy, Debug, Default, PartialEq, Eq)]
pub struct Block {
    pub base: u64,
    pub pages: u64,
    pub first: u64,
    pub permanent: u64,
    pub configured: bool,
}

/// Address and size in bytes, as a request has them.
#[derive(Clone, Copy, Debug, Default, PartialEq, Eq)]
pub struct Pair {
    pub addr: u64,
    pub size: u64,
}

/// The block list: the first `count` of `list`.
#[derive(Clone, Copy, Debug, PartialEq, Eq)]
pub struct Blocks {
    pub count: usize,
    pub list: [Block; MAX_BLOCKS],
}

impl Default for Blocks {
    /// No blocks.
    fn default() -> Blocks {
        Blocks {
            count: 0,
            list: [Block::default(); MAX_BLOCKS],
        }
    }
}

impl Block {
    /// The block that five words describe; none if the last is not 0 or 1.
    fn from_words(words: &[u64]) -> Option<Block> {
        let &[base, pages, first, permanent, configured] = words else {
            return None;
        };
        (configured <= 1).then_some(Block {
            base,
            pages,
            first,
            permanent,
            configured: configured == 1,
        })
    }

    /// The end of a block that keeps the rules and stands at or above
    /// `floor`, the end of the block before it.
    fn end_above(&self, floor: u64) -> Option<u64> {
        let based = self.base.is_multiple_of(PAGE) && self.base >= floor && self.base <= MAX_END;
        let sized = (1..=MAX_PAGES).contains(&self.pages);
        if !based || !sized {
            return None;
        }
        // At most 2^63 + 2^33: no overflow.
        let end = self.base + self.pages * PAGE;
        let inside = self.first <= self.pages && self.permanent <= self.pages - self.first;
        let permitted = if self.permanent == 0 {
            self.first == 0
        } else {
            self.configured
        };
        (end <= MAX_END && inside && permitted).then_some(end)
    }
}

impl Blocks {
    /// Setup's list of words, if it is whole blocks that keep the rules.
    pub fn from_words(words: &[u64]) -> Option<Blocks> {
        let count = words.len() / BLOCK_WORDS;
        if !words.len().is_multiple_of(BLOCK_WORDS) || count > MAX_BLOCKS {
            return None;
        }
        let mut blocks = Blocks {
            count,
            ..Blocks::default()
        };
        for (block, five) in blocks.list.iter_mut().zip(words.chunks_exact(BLOCK_WORDS)) {
            *block = Block::from_words(five)?;
        }
        blocks.keep_rules().then_some(blocks)
    }

    /// Whether every block keeps the rules, a made list's included.
    pub fn keep_rules(&self) -> bool {
        let Some(list) = self.list.get(..self.count) else {
            return false;
        };
        list.iter()
            .try_fold(0, |floor, block| block.end_above(floor))
            .is_some()
    }

    /// The blocks there are. The list must keep the rules.
    pub fn listed(&self) -> &[Block] {
        &self.list[..self.count]
    }

    /// The number of the block that a pair names: addr is its base and size
    /// all of it. The list must keep the rules, so its bases rise.
    pub fn find(&self, pair: Pair) -> Option<usize> {
        let blocks = self.listed();
        let at = blocks.partition_point(|block| block.base < pair.addr);
        let block = blocks.get(at)?;
        (block.base == pair.addr && block.pages * PAGE == pair.size).then_some(at)
    }
}
