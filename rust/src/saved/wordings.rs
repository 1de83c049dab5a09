//! The wordings of the lines that `--entries` writes.

use crate::state::SERVICES;
use std::ops::RangeInclusive;

/// Each line of README's table that an entry of either edition can have, with
/// N for each number but those that choose the words: a count of 0 or 1. Of
/// blocks configured, two stand for more.
const WORDINGS: [&str; 45] = [
    "N channel N: ready",
    "N channel N: closed by the host",
    "N channel N: closed by a message",
    "N channel N: version refused, major N asked, now closed",
    "N channel N: service N offered",
    "N channel N: service N registered, handle N, minor N",
    "N channel N: offer of service N refused",
    "N channel N: service N ended",
    "N channel N: data for service N delivered to the host",
    "N channel N: data refused, handle N",
    "N channel N: device request N answered, result N, nothing changed",
    "N channel N: memory request N answered ERROR",
    "N channel N: memory request N answered BLOCKED",
    "N channel N: memory request N answered, nothing changed",
    "N channel N: blocks configured:",
    "N channel N: blocks configured: N",
    "N channel N: blocks configured: N N",
    "N channel N: removal begun, 0 records, request N",
    "N channel N: removal begun, 1 record, request N",
    "N channel N: removal begun, N records, request N",
    "N channel N: removal marked cancelled by request N",
    "N channel N: 0 pages collected",
    "N channel N: 1 page collected",
    "N channel N: N pages collected",
    "N channel N: record N settled, block N now unconfigured, last 0 pages moved",
    "N channel N: record N settled, block N now unconfigured, last 1 page moved",
    "N channel N: record N settled, block N now unconfigured, last N pages moved",
    "N channel N: record N settled, block N was unconfigured before",
    "N channel N: removal ended, all settled, request N, reply sent",
    "N channel N: removal ended, all settled, request N, no reply",
    "N channel N: removal failed at an unknown block, request N, reply sent",
    "N channel N: removal failed at an unknown block, request N, no reply",
    "N channel N: removal ended as cancelled, request N, reply sent",
    "N channel N: removal ended as cancelled, request N, no reply",
    "N channel N: removal failed at permanent pages, request N, reply sent",
    "N channel N: removal failed at permanent pages, request N, no reply",
    "N channel N: message of type N noted",
    "N channel N: device N, result N, is unconfigured",
    "N channel N: device N, result N, is configured",
    "N: order taken",
    "N channel N: shutdown ordered, delay N milliseconds",
    "N channel N: panic ordered",
    "N channel N: peer registered id N, handle N, minor N",
    "N channel N: peer's registration ended, handle N",
    "N channel N: data for a peer's service delivered to the host",
];

/// The services and codes of kind 10 that have no words of their own.
const ANSWERS: [(u64, RangeInclusive<u64>); 3] = [(0, 3..=7), (2, 0..=7), (3, 0..=7)];

/// The codes of kinds 15 and 16 that have no words of their own.
const SETTLED: [u64; 6] = [1, 2, 3, 5, 6, 7];
const ENDED: [u64; 4] = [2, 4, 6, 7];

/// Each line that tells a code without words of its own, or the service that
/// requests go to: these keep their numbers.
fn numbered() -> Vec<String> {
    let mut all = Vec::new();
    for (service, codes) in ANSWERS {
        let line =
            |code| format!("N channel N: request N to service {service} answered, code {code}");
        all.extend(codes.map(line));
    }
    all.extend(
        SETTLED.map(|code| {
            format!("N channel N: record N settled, block N left as it was, code {code}")
        }),
    );
    for reply in ["reply sent", "no reply"] {
        let line = |code| format!("N channel N: removal ended, code {code}, request N, {reply}");
        all.extend(ENDED.map(line));
    }
    for service in 0..SERVICES {
        let requests = format!("N: requests to service {service}");
        all.push(format!("{requests} permitted from now on"));
        all.push(format!("{requests} denied from now on"));
        all.push(format!(
            "N channel N: request to service {service} answered, result N"
        ));
    }
    all
}

/// All that an entry of either edition can have.
pub fn wordings() -> impl Iterator<Item = String> {
    WORDINGS.map(String::from).into_iter().chain(numbered())
}

/// The line of a new journal's first entry alone.
pub const MARK: &str = "N: edition mark";

/// Whether a number stays in the wording of its line, by the words before and
/// after it.
fn stays(before: &[&str], word: &str, after: Option<&&str>) -> bool {
    let counted = |word: &&str| word.starts_with("page") || word.starts_with("record");
    let is_count = after.is_some_and(counted) && ["0", "1"].contains(&word);
    before.ends_with(&["code"]) || before.ends_with(&["to", "service"]) || is_count
}

/// The wording of a line.
pub fn wording(line: &str) -> String {
    let words: Vec<&str> = line.split(' ').collect();
    let mut all: Vec<String> = Vec::new();
    for (place, word) in words.iter().enumerate() {
        let number = word.trim_end_matches([',', ':']);
        let is_number = number.parse::<u64>().is_ok();
        if !is_number || stays(&words[..place], word, words.get(place + 1)) {
            all.push(word.to_string());
        } else if !all.ends_with(&["N".to_string(), "N".to_string()]) {
            all.push(word.replace(number, "N"));
        }
    }
    all.join(" ")
}
