//! Each call on a made state, with a line for each thing that a refused one changed.

use crate::common::layout::word;
use crate::common::lines::{answer, digits, Lines};
use crate::made::WORD;
use arkelutz::raw::{self, Answer, Drained, Words, JOURNAL_WORDS, OUTPUT_BYTES};

pub const RUN_WORDS: usize = 256;

/// What every byte of the output holds before a call.
const BYTE: u8 = 7;

type Journal = [u64; JOURNAL_WORDS];
type Output = [u8; OUTPUT_BYTES];

pub fn answered(call: &str, given: Answer, out: &[u8]) -> String {
    answer(call, given.refusal, &digits(&out[..given.length]))
}

pub fn put_drained(lines: &mut Lines, given: Drained, run: &[u64]) {
    let count = format!(" {}", given.entries);
    lines.put(&answer("drain", given.refusal, &count));
    for entry in run.chunks(word("ENTRY_WORDS")).take(given.entries) {
        lines.put(&format!("entry {:016x} {:016x}", entry[0], entry[1]));
    }
}

/// DS_INIT_REQ for version 1.0, received on channel 3.
pub fn init(state: &mut Words, journal: &mut Journal, out: &mut Output) -> Answer {
    let message = [0, 0, 0, 0, 0, 0, 0, 4, 0, 1, 0, 0];
    raw::receive(state, 3, &message, journal, out)
}

/// Makes a call on a copy of the state, which must write nothing anywhere.
fn refused<F>(lines: &mut Lines, before: &Words, call: F)
where
    F: FnOnce(&mut Words, &mut Journal, &mut Output) -> String,
{
    let (mut state, mut journal, mut out) = (*before, [WORD; JOURNAL_WORDS], [BYTE; OUTPUT_BYTES]);
    lines.put(&call(&mut state, &mut journal, &mut out));
    lines.put_if(state != *before, "the state has changed");
    lines.put_if(journal != [WORD; JOURNAL_WORDS], "the journal has changed");
    lines.put_if(out != [BYTE; OUTPUT_BYTES], "the output has changed");
}

pub fn receive(lines: &mut Lines, before: &Words) {
    refused(lines, before, |state, journal, out| {
        answered("receive", init(state, journal, out), out)
    });
}

fn offer(lines: &mut Lines, before: &Words) {
    refused(lines, before, |state, journal, out| {
        answered("offer", raw::offer(state, 2, 3, journal, out), out)
    });
}

fn withdraw(lines: &mut Lines, before: &Words) {
    refused(lines, before, |state, journal, out| {
        answered("withdraw", raw::withdraw(state, 2, 0, journal, out), out)
    });
}

pub fn close(lines: &mut Lines, before: &Words) {
    refused(lines, before, |state, journal, out| {
        answered("close", raw::close(state, 1, journal, out), out)
    });
}

fn work(lines: &mut Lines, before: &Words) {
    refused(lines, before, |state, journal, out| {
        let given = raw::work(state, 1, journal, out);
        let moved = format!(" {}{}", given.pages, digits(&out[..given.length]));
        answer("work", given.refusal, &moved)
    });
}

/// No entry is held, so that an accepted drain changes nothing either.
fn drain(lines: &mut Lines, before: &Words) {
    let (mut state, journal, mut run) = (*before, [WORD; JOURNAL_WORDS], [WORD; RUN_WORDS]);
    let given = raw::drain(&mut state, &journal, &mut run);
    put_drained(lines, given, &run);
    lines.put_if(state != *before, "the state has changed");
    lines.put_if(journal != [WORD; JOURNAL_WORDS], "the journal has changed");
    lines.put_if(run != [WORD; RUN_WORDS], "the run has changed");
}

fn permit(lines: &mut Lines, before: &Words) {
    refused(lines, before, |state, journal, out| {
        answered("permit", raw::permit(state, 2, 1, journal, out), out)
    });
}

fn take(lines: &mut Lines, before: &Words) {
    refused(lines, before, |state, journal, out| {
        let given = raw::take(state, journal, out);
        let order = match given.order {
            1 => format!(" shutdown {}", given.delay),
            2 => " panic".to_string(),
            _ => " none".to_string(),
        };
        answer("take", given.refusal, &order)
    });
}

/// Data on channel 2 under our handle 3, which the sound state has registered for service 1: that is answered inside,
/// so that it is not shown; and under the peer's handle 5, which is.
pub fn show(lines: &mut Lines, state: &Words) {
    let ours = b"\0\0\0\x09\0\0\0\x09\x80\0\0\0\0\0\0\x03\x41";
    let peers = b"\0\0\0\x09\0\0\0\x09\0\0\0\0\0\0\0\x05\x42";
    for message in [ours, peers] {
        let part = &message[word("DATA_HEADER_BYTES")..][..raw::show(state, 2, message)];
        lines.put(&format!("show{}", digits(part)));
    }
}

/// Each call on the same state.
pub fn each_call(lines: &mut Lines, state: &Words) {
    for call in [
        receive, offer, withdraw, close, work, drain, permit, take, show,
    ] {
        call(lines, state);
    }
}
