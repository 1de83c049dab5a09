//! Random entries of one kind, made for what a reading shows.

use crate::entry::{KIND, NUMBER, RECORD};
use crate::generate::random::Random;
use crate::reader::fields::{named, Field};
use crate::reader::{Edition, Reading};
use crate::state::{Service, CHANNELS, SERVICES, TOP_BIT};

/// An entry that has the next number, and 0 in each field and bit that its kind
/// does not name in the reading's edition. Its named fields often fit the reading, and often nearly do.
pub fn entry(random: &mut Random, reading: &Reading, kind: usize) -> [u64; 2] {
    let number = NUMBER.word(reading.entries + 1);
    let mut words = [number | KIND.word(kind as u64), 0];
    let (channel, service) = place(random, reading, kind);
    let block = block(random, reading);
    let edition = reading.edition;
    let settled = edition.settled_words(record(random, reading), block);
    for field in named(edition, kind).unwrap_or_default() {
        let value = match field {
            Field::Channel => channel,
            Field::Service => service,
            Field::Record if kind == 15 => RECORD.of(settled[0]),
            Field::Record => random.below(16),
            Field::Code if matches!(kind, 10 | 16) => random.up_to(Field::Code.most()),
            Field::Code if kind == 19 && random.per_mille(300) => 1,
            Field::Code => random.pick(&[0, 0, 0, 1, 2, 3, 4, 5, 6, 7]),
            Field::Count if kind == 16 && random.per_mille(400) => 1,
            Field::Count => count(random, reading, block),
            Field::W => match kind {
                5 | 9 if random.once_in(4) => handle(random, reading, channel) ^ TOP_BIT,
                5 | 9 => handle(random, reading, channel),
                11 => bits(random, reading),
                15 => settled[1],
                _ => random.next() >> random.below(64),
            },
        };
        let [first, second] = field.words(value);
        words = [words[0] | first, words[1] | second];
    }
    words
}

/// A channel and service: for kinds 8 and 10 to 13 mostly registered ones, of
/// which each service is as likely, and for 11 to 13 service 0; else often a
/// ready channel.
fn place(random: &mut Random, reading: &Reading, kind: usize) -> (u64, u64) {
    let any = (random.below(CHANNELS as u64), random.below(SERVICES as u64));
    let fits = |channel: &u64, service: u64| {
        let channel = &reading.channels[*channel as usize];
        let held = channel.services[service as usize];
        let registered = matches!(held, Service::Registered { .. });
        channel.ready && (registered || !matches!(kind, 8 | 10..=13))
    };
    let channels = 0..CHANNELS as u64;
    let anywhere = |service: &u64| channels.clone().any(|channel| fits(&channel, *service));
    let services: Vec<u64> = match kind {
        11..=13 => vec![0],
        _ => (0..SERVICES as u64).filter(anywhere).collect(),
    };
    let service = random.pick_any(&services).unwrap_or(any.1);
    let fitting = channels.clone().filter(|channel| fits(channel, service));
    match random.pick_any(&fitting.collect::<Vec<u64>>()) {
        Some(channel) if !random.once_in(3) => (channel, service),
        _ => any,
    }
}

/// The record at the position, if there is one, or any.
fn record(random: &mut Random, reading: &Reading) -> u64 {
    let last = reading.edition.last_record();
    let any = random.up_to(last);
    match reading.removal {
        Some(removal) if !random.once_in(4) => removal.position & last,
        _ => any,
    }
}

/// The place of a block, mostly of one that is listed; of six bits in a new
/// journal.
fn block(random: &mut Random, reading: &Reading) -> u64 {
    let count = reading.blocks.count as u64;
    let listed = random.below(count.max(1));
    let block = match random.weighted(&[70, 10, 5, 10, 5]) {
        0 => listed,
        1 => count,
        2 => random.between(count, 64),
        3 => listed | random.pick(&[1 << 6, 1 << 32, 1 << 63]),
        _ => random.next(),
    };
    match reading.edition {
        Edition::Old => block,
        Edition::New => block & 63,
    }
}

/// Pages: what remains of a block, one more, none, one, or any number.
fn count(random: &mut Random, reading: &Reading, block: u64) -> u64 {
    let collected = reading.removal.map_or(0, |removal| removal.collected);
    let listed = reading.blocks.listed().get(block as usize);
    let remains = listed.map_or(0, |block| block.pages.saturating_sub(collected));
    let count = match random.weighted(&[35, 20, 15, 15, 15]) {
        0 => remains,
        1 => remains + 1,
        2 => random.below(2),
        3 => random.below(10),
        _ => random.next() >> 48,
    };
    count.min(Field::Count.most())
}

/// A handle: offered or registered on the channel, nearly one (but for its top
/// bit), or any.
fn handle(random: &mut Random, reading: &Reading, channel: u64) -> u64 {
    let services = &reading.channels[channel as usize].services;
    let live: Vec<u64> = services.iter().filter_map(Service::handle).collect();
    let any = reading.edition.handle(random.up_to(reading.entries + 1));
    let live = random.pick_any(&live).unwrap_or(any);
    match random.weighted(&[70, 10, 5, 5, 5, 5]) {
        0 => live,
        1 => any,
        2 => live | 1 << 32,
        3 => live << 32,
        4 => live ^ TOP_BIT,
        _ => random.next(),
    }
}

/// Bits of blocks, mostly of those that are listed: some, one, none or all.
fn bits(random: &mut Random, reading: &Reading) -> u64 {
    let count = reading.blocks.count as u64;
    let all = match count {
        64 => u64::MAX,
        _ => (1 << count) - 1,
    };
    let listed = random.next() & all;
    match random.weighted(&[30, 10, 10, 10, 10, 15, 15]) {
        0 => listed,
        1 => 1 << random.below(count.max(1)),
        2 => 0,
        3 => random.next(),
        // With 64 blocks no bit is one too many.
        5 if count < 64 => listed | 1 << count,
        6 if count < 64 => listed | 1 << random.between(count, 63),
        _ => all,
    }
}
