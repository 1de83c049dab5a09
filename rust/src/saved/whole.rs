//! Files that are good.

use super::entries::entry;
use super::list::{kind_of, verdict, Saved};
use crate::generate::random::Random;
use crate::reader::fields::{named, KINDS};
use crate::reader::Reading;

/// The kinds of other tickets, which show nothing.
const OTHERS: [usize; 7] = [18, 19, 20, 21, 22, 23, 24];

/// The kinds that are added while a removal is shown, each as often as here.
const STEPS: [u64; 14] = [12, 13, 13, 13, 14, 14, 14, 14, 15, 15, 15, 15, 15, 16];

/// A good file made from what the agent drained: the same, with entries of
/// other tickets and of answers, with other values where any is good, or its beginning and
/// entries that the agent would not write.
pub fn whole(random: &mut Random, drained: &Saved) -> Saved {
    let mut saved = drained.clone();
    match random.weighted(&[30, 25, 15, 30]) {
        0 => {}
        1 => add_others(random, &mut saved),
        2 => change_free(random, &mut saved),
        _ => grow(random, &mut saved),
    }
    saved
}

/// Adds entries of the kinds that show nothing, where the file stays good:
/// kinds 8 and 10 need their service.
fn add_others(random: &mut Random, saved: &mut Saved) {
    for _ in 0..random.between(1, 30) {
        let kind = match random.once_in(2) {
            true => random.pick(&[8, 10, 10, 10, 10]),
            false => random.pick(&OTHERS),
        };
        let place = random.between(saved.first_place(), saved.entries.len() as u64) as usize;
        let mut before = saved.before(place);
        let added = entry(random, &before, kind);
        if before.entry(added).is_ok() {
            saved.insert(place, added);
        }
    }
}

/// Changes named fields of some entries, where the file stays good.
fn change_free(random: &mut Random, saved: &mut Saved) {
    for _ in 0..random.between(1, 6) {
        let places: Vec<usize> = (0..saved.entries.len()).collect();
        let Some(place) = random.pick_any(&places) else {
            return;
        };
        let kept = saved.entries[place];
        let fields = named(saved.edition(), kind_of(&kept)).unwrap_or_default();
        let Some(field) = random.pick_any(fields) else {
            continue;
        };
        let [first, second] = field.words(random.between(1, field.most()));
        saved.entries[place] = [kept[0] ^ first, kept[1] ^ second];
        if verdict(&saved.bytes()).is_err() {
            saved.entries[place] = kept;
        }
    }
}

/// Adds entries that a reading accepts, one after another, and mostly ends the
/// removal that is shown then.
fn grow(random: &mut Random, saved: &mut Saved) {
    saved.truncate(random.up_to(saved.entries.len() as u64));
    let mut reading = saved.before(saved.entries.len());
    let mut add = |random: &mut Random, kind: Option<u64>| {
        let kind = kind.unwrap_or_else(|| next_kind(random, &reading));
        let added = entry(random, &reading, kind as usize);
        let mut next = reading.clone();
        if next.entry(added).is_ok() {
            saved.entries.push(added);
            reading = next;
        }
    };
    for _ in 0..random.between(1, 200) {
        add(random, None);
    }
    if !random.once_in(4) {
        add(random, Some(16));
    }
}

/// The kind of an entry that may be accepted, often a step of a removal.
fn next_kind(random: &mut Random, reading: &Reading) -> u64 {
    match random.weighted(&[10, 20, 20, 50]) {
        0 => random.below(KINDS as u64),
        1 => random.pick(&[1, 4, 4, 5, 5, 9, 10, 11, 11, 11]),
        2 => random.between(1, 17),
        _ if reading.removal.is_none() => 12,
        _ => random.pick(&STEPS),
    }
}
