//! The last entry number, and the refusals in their order.

use crate::common::lines::Lines;
use crate::each::{answered, close, each_call, put_drained, receive, RUN_WORDS};
use crate::made::{change, sound_state};
use arkelutz::raw::{self, JOURNAL_WORDS, OUTPUT_BYTES};

/// The last number used, with none held and with 64: 4 is tested before 5, and drain has neither.
pub fn last_number(lines: &mut Lines) {
    let mut state = sound_state();
    change(&mut state, "LAST_WORD = HIGHEST_NUMBER");
    lines.put("# entry number 4294967295 used");
    each_call(lines, &state);
    change(&mut state, "HELD_WORD = MOST_HELD");
    lines.put("# entry number 4294967295 used, and 64 entries held");
    receive(lines, &state);
    close(lines, &state);
}

/// The last number but one is used: one more call is accepted, and the next is refused.
pub fn last_number_but_one(lines: &mut Lines) {
    let mut state = sound_state();
    let (mut journal, mut out) = ([0; JOURNAL_WORDS], [0; OUTPUT_BYTES]);
    let mut run = [0; RUN_WORDS];
    change(&mut state, "LAST_WORD = HIGHEST_NUMBER - 1");
    lines.put("# entry number 4294967294 used");
    for _ in 0..2 {
        let given = raw::close(&mut state, 1, &mut journal, &mut out);
        lines.put(&answered("close", given, &out));
    }
    put_drained(lines, raw::drain(&mut state, &journal, &mut run), &run);
}

/// 8 is tested before 1, 2 and 3.
pub fn unsound_first(lines: &mut Lines) {
    let mut state = sound_state();
    let (mut journal, mut out) = ([0; JOURNAL_WORDS - 1], [0; OUTPUT_BYTES - 1]);
    change(&mut state, "HELD_WORD = 10");
    lines.put("# an unsound state, 127 words of journal, 2591 bytes of output, channel 4");
    let given = raw::close(&mut state, 4, &mut journal, &mut out);
    lines.put(&answered("close", given, &out));
}
