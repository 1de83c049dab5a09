//! What setup writes.

use crate::common::layout::word;
use crate::common::lines::{answer, Lines};
use crate::each::{put_drained, RUN_WORDS};
use crate::made::{two_devices, two_ids, WORD};
use arkelutz::raw::{self, JOURNAL_WORDS, STATE_WORDS};

const GOOD: [u64; 5] = [0x1000_0000, 4, 0, 0, 1];
const BAD: [u64; 5] = [0x1000_0000, 4, 0, 0, 2];

/// A refused setup writes the empty state and nothing else.
fn refused(lines: &mut Lines, blocks: &[u64], journal_words: usize) {
    let (mut state, mut journal) = ([WORD; STATE_WORDS], vec![WORD; journal_words]);
    let refusal = raw::setup(&mut state, blocks, &two_devices(), &two_ids(), &mut journal);
    lines.put(&answer("setup", refusal, ""));
    lines.put_if(state != [0; STATE_WORDS], "the state is not empty");
    let is_same = journal.iter().all(|left| *left == WORD);
    lines.put_if(!is_same, "the journal has changed");
}

/// 1 is tested before 7.
pub fn refused_setups(lines: &mut Lines) {
    lines.put("# setup with 127 words of journal, then 129, a good list and a bad one; with 128, a bad one");
    for journal_words in [JOURNAL_WORDS - 1, JOURNAL_WORDS + 1] {
        refused(lines, &GOOD, journal_words);
        refused(lines, &BAD, journal_words);
    }
    refused(lines, &BAD, JOURNAL_WORDS);
}

/// An accepted setup writes the mark alone, and holds it.
pub fn accepted_setup(lines: &mut Lines) {
    let (mut state, mut journal) = ([WORD; STATE_WORDS], [WORD; JOURNAL_WORDS]);
    let mut run = [WORD; RUN_WORDS];
    raw::setup(&mut state, &GOOD, &two_devices(), &two_ids(), &mut journal);
    lines.put("# the mark alone");
    put_drained(lines, raw::drain(&mut state, &journal, &mut run), &run);
    let is_left = |words: &[u64]| {
        words[word("ENTRY_WORDS")..]
            .iter()
            .all(|left| *left == WORD)
    };
    lines.put_if(!is_left(&journal), "another slot has changed");
    lines.put_if(!is_left(&run), "the run has changed");
}
