//! The boundaries of documents 01 and 02 that no list of calls reaches: on states made by hand, the last entry number
//! and each way in which a state is not sound; and what setup writes.

mod common;
#[path = "made_states/each.rs"]
mod each;
#[path = "made_states/made.rs"]
mod made;
#[path = "made_states/numbers.rs"]
mod numbers;
#[path = "made_states/setups.rs"]
mod setups;
// one row a line
#[rustfmt::skip]
#[path = "made_states/tables.rs"]
mod tables;

use arkelutz::raw::{self, Words, JOURNAL_WORDS, OUTPUT_BYTES, STATE_WORDS};
use common::layout::{value, word};
use common::lines::Lines;
use each::{answered, each_call, init, put_drained, show, RUN_WORDS};
use made::{change, ready_state, registered, sixty_four_blocks, sound_state};
use tables::Row;

/// Makes each call on a state that no call accepts.
fn unsound(lines: &mut Lines, name: &str, state: &Words) {
    lines.put(name);
    each_call(lines, state);
}

/// On a sound state a receive is accepted and its entry drained.
fn sound(lines: &mut Lines, name: &str, before: &Words) {
    let (mut state, mut journal, mut out) = (*before, [0; JOURNAL_WORDS], [0; OUTPUT_BYTES]);
    let mut run = [0; RUN_WORDS];
    let received = init(&mut state, &mut journal, &mut out);
    let drained = raw::drain(&mut state, &journal, &mut run);
    lines.put(name);
    lines.put(&answered("receive", received, &out));
    put_drained(lines, drained, &run);
}

fn each_row(lines: &mut Lines, rows: &[Row], case: fn(&mut Lines, &str, &Words)) {
    for (name, changes) in rows {
        let mut state = sound_state();
        change(&mut state, changes);
        case(lines, name, &state);
    }
}

/// A word that has no meaning in this state may hold anything.
fn unread(lines: &mut Lines) {
    for (name, place) in tables::UNREAD {
        let mut state = sound_state();
        state[word(place)] = u64::MAX;
        sound(lines, name, &state);
    }
    let mut state = sound_state();
    state[word("PEER")] |= 1 << value("MOST_IDS");
    sound(lines, "# a mark past the last place of an id", &state);
}

/// 64 blocks, and a count of 65: the words after the sixty-fourth block, which are the last number and those after it,
/// would make a sixty-fifth that is valid.
fn most_blocks(lines: &mut Lines) {
    let mut state = sixty_four_blocks();
    sound(lines, "# 64 blocks", &state);
    change(
        &mut state,
        "BLOCK_COUNT_WORD = MOST_BLOCKS + 1, HELD_WORD = 1",
    );
    unsound(lines, "# 65 blocks", &state);
}

/// The last number 1, the mark's, and 0: nothing in the state needs a number.
fn no_entry(lines: &mut Lines) {
    let mut state = ready_state();
    sound(lines, "# one entry numbered", &state);
    change(&mut state, "LAST_WORD = 0");
    unsound(lines, "# no entry numbered", &state);
}

fn most_peers(lines: &mut Lines) {
    let (eight, nine) = (registered(0b1111_1111), registered(0b1_1111_1111));
    sound(lines, "# eight peer registrations of a channel", &eight);
    unsound(lines, "# nine peer registrations of a channel", &nine);
}

#[test]
fn made_states_are_answered_as_expected() {
    let lines = &mut Lines::default();
    lines.put("# the state as it is, sound");
    show(lines, &sound_state());
    each_row(lines, tables::SERVICES, unsound);
    unread(lines);
    each_row(lines, tables::BLOCKS, unsound);
    most_blocks(lines);
    each_row(lines, tables::COUNTS, unsound);
    no_entry(lines);
    each_row(lines, tables::REMOVALS, unsound);
    each_row(lines, tables::LAST_RECORD, sound);
    each_row(lines, tables::PAST_RECORDS, unsound);
    each_row(lines, tables::DEVICES, unsound);
    each_row(lines, tables::ORDERS, unsound);
    each_row(lines, tables::IDS, unsound);
    each_row(lines, tables::PEERS, unsound);
    most_peers(lines);
    numbers::last_number(lines);
    numbers::last_number_but_one(lines);
    numbers::unsound_first(lines);
    setups::refused_setups(lines);
    setups::accepted_setup(lines);
    lines.compare(include_str!("made_states.answers"));
}

#[test]
fn lengths_are_those_of_the_map() {
    assert_eq!(STATE_WORDS, word("STATE_WORDS"));
    assert_eq!(JOURNAL_WORDS, word("JOURNAL_WORDS"));
    assert_eq!(OUTPUT_BYTES, word("OUTPUT_BYTES"));
}
