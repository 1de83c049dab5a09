//! One end of the version handshake: worked examples from ticket 10 and from
//! section 1.1.2 of document 004.

use independent::lines::answer_of;
use independent::vio::end::{ListFault, MAX_VERSIONS};
use independent::vio::words::{ACK, INFO, NACK};
use independent::vio::{End, Host, Message, Session, Version, Words};

const NETWORK: u8 = 1;
const SWITCH: u8 = 2;
const DISK: u8 = 3;

fn version(major: u16, minor: u16) -> Version {
    Version { major, minor }
}

fn list(pairs: &[(u16, u16)]) -> Vec<Version> {
    pairs.iter().map(|pair| version(pair.0, pair.1)).collect()
}

/// A network device that accepts a switch.
fn network(pairs: &[(u16, u16)]) -> End {
    End::new(NETWORK, SWITCH, &list(pairs)).unwrap()
}

/// A switch that accepts a network device.
fn switch(pairs: &[(u16, u16)]) -> End {
    End::new(SWITCH, NETWORK, &list(pairs)).unwrap()
}

/// A message of a network device's exchange.
fn words(subtype: u8, sid: u32, major: u16, minor: u16) -> Words {
    Message::version(subtype, sid, NETWORK, version(major, minor)).pack()
}

fn asked(sid: u32, major: u16, minor: u16) -> Session {
    let version = version(major, minor);
    Session::Asked { sid, version }
}

fn agreed(sid: u32, major: u16, minor: u16) -> Session {
    let version = version(major, minor);
    Session::Agreed { sid, version }
}

/// The countdown of two majors, as lines.
const EXCHANGE: &str = "end 0 1 2 3 1 5 3 1 0
end 1 2 1 4 9 3 0
start 0 0xa1
state 0
receive 1 0 0x000000a100010101 0x0000000100030005
state 1
receive 0 0xa2 0x000000a100010401 0x0000000100090004
state 0
receive 1 0 0x000000a200010101 0x0000000100010003
state 1
receive 0 0xa3 0x000000a200010201 0x0000000100000003
state 0
";

const EXCHANGE_ANSWERS: &str = "end accepted
end accepted
start 000000a100010101 0000000100030005
end 0 asked 5 3
receive 000000a100010401 0000000100090004
end 1 no version
receive 000000a200010101 0000000100010003
end 0 asked 3 1
receive 000000a200010201 0000000100000003
end 1 agreed 3 0 session 162
receive
end 0 agreed 3 0 session 162
";

#[test]
fn a_countdown_of_two_majors() {
    let answers = answer_of::<Host>(EXCHANGE.as_bytes());
    assert_eq!(String::from_utf8(answers).unwrap(), EXCHANGE_ANSWERS);
}

#[test]
fn each_field_has_its_place() {
    let message = Message {
        sid: 0x0123_4567,
        envelope: 0x89ab,
        subtype: 0xcd,
        kind: 0xef,
        class: 0x12,
        version: version(0x789a, 0x3456),
    };
    assert_eq!(message.pack(), [0x0123_4567_89ab_cdef, 0x12_3456_789a]);
    assert_eq!(
        Message::unpack([0x0123_4567_89ab_cdef, 0xffff_ff12_3456_789a]),
        message
    );
}

#[test]
fn a_starter_asks_its_highest_major() {
    for pairs in [[(1, 6), (2, 0), (3, 1)], [(3, 1), (1, 6), (2, 0)]] {
        let mut end = network(&pairs);
        assert_eq!(end.session(), Session::NoVersion);
        assert_eq!(end.start(7), words(INFO, 7, 3, 1));
        assert_eq!(end.session(), asked(7, 3, 1));
    }
}

#[test]
fn a_held_major_is_acknowledged_with_the_lower_minor() {
    for (asked, held, lower) in [(6, 6, 6), (6, 2, 2), (2, 6, 2), (65_535, 0, 0)] {
        let mut end = switch(&[(9, 9), (1, held)]);
        let received = end.receive(0, words(INFO, 5, 1, asked));
        assert_eq!(received.sent, Some(words(ACK, 5, 1, lower)));
        assert_eq!(end.session(), agreed(5, 1, lower));
    }
}

#[test]
fn a_major_not_held_is_refused_with_the_next_lower_one() {
    let held = [(2, 7), (9, 1), (4, 65_535), (65_535, 3)];
    for (major, told) in [
        (0, (0, 0)),
        (1, (0, 0)),
        (3, (2, 7)),
        (5, (4, 65_535)),
        (8, (4, 65_535)),
        (10, (9, 1)),
        (65_534, (9, 1)),
    ] {
        let mut end = switch(&held);
        let received = end.receive(0, words(INFO, 5, major, 8));
        assert_eq!(received.sent, Some(words(NACK, 5, told.0, told.1)));
        assert_eq!(end.session(), Session::NoVersion);
    }
}

#[test]
fn a_wrong_class_is_refused_with_the_parameters_unchanged() {
    let mut end = End::new(SWITCH, DISK, &list(&[(3, 0), (1, 0)])).unwrap();
    for (major, minor) in [(3, 4), (2, 4), (0, 0), (0, 4)] {
        let received = end.receive(0, words(INFO, 5, major, minor));
        assert_eq!(received.sent, Some(words(NACK, 5, major, minor)));
        assert_eq!(end.session(), Session::NoVersion);
    }
    let mut starter = network(&[(3, 4)]);
    starter.start(5);
    assert_eq!(starter.receive(6, words(NACK, 5, 3, 4)).sent, None);
    assert_eq!(starter.session(), Session::Refused);
}

#[test]
fn reserved_bits_are_not_read_and_sent_0() {
    let set = |[tag, info]: Words| [tag, info | 0xff_ffff << 40];
    let mut end = switch(&[(3, 0)]);
    let received = end.receive(0, set(words(INFO, 5, 3, 4)));
    assert_eq!(received.sent, Some(words(ACK, 5, 3, 0)));
    let mut unlike = End::new(SWITCH, DISK, &list(&[(3, 0)])).unwrap();
    let received = unlike.receive(0, set(words(INFO, 5, 3, 4)));
    assert_eq!(received.sent, Some(words(NACK, 5, 3, 4)));
    let mut starter = network(&[(3, 4)]);
    starter.start(5);
    starter.receive(6, set(words(ACK, 5, 3, 0)));
    assert_eq!(starter.session(), agreed(5, 3, 0));
}

#[test]
fn a_starter_asks_at_or_below_the_one_told() {
    for (told, next) in [
        (6, (4, 4)),
        (5, (4, 4)),
        (4, (4, 4)),
        (3, (2, 2)),
        (2, (2, 2)),
    ] {
        let mut end = network(&[(2, 2), (7, 7), (4, 4)]);
        end.start(1);
        let received = end.receive(9, words(NACK, 1, told, 50));
        assert_eq!(received.sent, Some(words(INFO, 9, next.0, next.1)));
        assert_eq!(end.session(), asked(9, next.0, next.1));
    }
}

#[test]
fn a_try_ends_by_0_and_by_none_left() {
    for told in [(0, 0), (1, 0), (1, 9)] {
        let mut end = network(&[(2, 2), (7, 7)]);
        end.start(1);
        let received = end.receive(9, words(NACK, 1, told.0, told.1));
        assert_eq!(received.sent, None);
        assert_eq!(end.session(), Session::Refused);
    }
}

/// Answers to session 5, major 3, minor 4, that it could not get.
fn not_got() -> Vec<Words> {
    let other_class = |subtype| Message::version(subtype, 5, SWITCH, version(3, 4)).pack();
    vec![
        words(ACK, 6, 3, 4),
        words(NACK, 6, 2, 0),
        other_class(ACK),
        other_class(NACK),
        words(ACK, 5, 2, 4),
        words(ACK, 5, 4, 4),
        words(ACK, 5, 0, 0),
        words(ACK, 5, 3, 5),
        words(NACK, 5, 3, 3),
        words(NACK, 5, 3, 5),
        words(NACK, 5, 4, 4),
        words(NACK, 5, 65_535, 0),
        words(NACK, 5, 0, 1),
        words(NACK, 5, 0, 4),
    ]
}

/// Messages that are no request and no answer of the version phase.
fn others() -> Vec<Words> {
    let tag = |tag: u64| [5 << 32 | tag, words(ACK, 5, 3, 4)[1]];
    [
        0x0001_0202,
        0x0001_0200,
        0x0002_0201,
        0x0101_0201,
        0x0000_0201,
        0x0001_0001,
        0x0001_0301,
        0x0001_0501,
        0x0001_0601,
        0x0001_0801,
        0x0002_0101,
        0x0001_0102,
    ]
    .map(tag)
    .to_vec()
}

#[test]
fn what_no_request_could_get_changes_nothing() {
    let mut end = network(&[(3, 4), (2, 9), (1, 0)]);
    end.start(5);
    let before = end.clone();
    for words in not_got().into_iter().chain(others()) {
        assert_eq!(end.receive(9, words).sent, None, "{words:x?}");
        assert_eq!(end, before, "{words:x?}");
    }
}

#[test]
fn answers_without_an_open_request_change_nothing() {
    let fresh = network(&[(3, 4)]);
    let mut agreed = fresh.clone();
    agreed.start(5);
    agreed.receive(0, words(ACK, 5, 3, 4));
    let mut refused = fresh.clone();
    refused.start(5);
    refused.receive(0, words(NACK, 5, 0, 0));
    for before in [fresh, agreed, refused] {
        for words in [
            words(ACK, 5, 3, 4),
            words(ACK, 5, 3, 0),
            words(NACK, 5, 3, 4),
            words(NACK, 5, 2, 4),
            words(NACK, 5, 0, 0),
        ] {
            let mut end = before.clone();
            assert_eq!(end.receive(9, words).sent, None);
            assert_eq!(end, before);
        }
    }
}

#[test]
fn only_the_open_request_is_judged() {
    let mut end = network(&[(5, 5), (3, 3), (1, 1)]);
    end.start(1);
    end.receive(2, words(NACK, 1, 4, 0));
    assert_eq!(end.session(), asked(2, 3, 3));
    // The other end had none but 4 below 5, and now tells another one.
    end.receive(3, words(NACK, 2, 2, 0));
    assert_eq!(end.session(), asked(3, 1, 1));
    // The answer to the first request comes again.
    end.receive(4, words(NACK, 1, 4, 0));
    assert_eq!(end.session(), asked(3, 1, 1));
}

#[test]
fn a_request_received_resets_any_session() {
    let request = Message::version(INFO, 77, SWITCH, version(3, 0)).pack();
    let not_held = Message::version(INFO, 77, SWITCH, version(2, 0)).pack();
    let fresh = network(&[(3, 4)]);
    let mut open = fresh.clone();
    open.start(5);
    let mut met = open.clone();
    met.receive(0, words(ACK, 5, 3, 4));
    let mut ended = open.clone();
    ended.receive(0, words(NACK, 5, 0, 0));
    for before in [fresh, open, met, ended] {
        let mut end = before.clone();
        end.receive(9, request);
        assert_eq!(end.session(), agreed(77, 3, 0));
        end.start(6);
        assert_eq!(end.session(), asked(6, 3, 4));
        let mut end = before;
        end.receive(9, not_held);
        assert_eq!(end.session(), Session::NoVersion);
    }
}

/// Both start, under 5 and 6, and receive the requests and then the answers.
fn crossed(mut one: End, mut other: End) -> [Session; 2] {
    let (first, second) = (one.start(5), other.start(6));
    let to_other = one.receive(7, second).sent.unwrap();
    let to_one = other.receive(8, first).sent.unwrap();
    assert_eq!(one.receive(7, to_one).sent, None);
    assert_eq!(other.receive(8, to_other).sent, None);
    [one.session(), other.session()]
}

#[test]
fn crossed_starts_drop_both_requests() {
    assert_eq!(
        crossed(network(&[(3, 4), (1, 0)]), switch(&[(3, 2)])),
        [agreed(6, 3, 2), agreed(5, 3, 2)]
    );
    assert_eq!(
        crossed(network(&[(3, 0), (1, 0)]), switch(&[(1, 0)])),
        [agreed(6, 1, 0), Session::NoVersion]
    );
    assert_eq!(
        crossed(network(&[(3, 0), (1, 0)]), switch(&[(2, 0), (1, 0)])),
        [Session::NoVersion, Session::NoVersion]
    );
}

#[test]
fn lists_of_versions() {
    let new = |pairs: &[(u16, u16)]| End::new(0, 255, &list(pairs)).err();
    let majors =
        |count: usize| -> Vec<(u16, u16)> { (1..=count as u16).map(|major| (major, 0)).collect() };
    assert_eq!(new(&[]), Some(ListFault::Empty));
    assert_eq!(new(&[(1, 0), (0, 0)]), Some(ListFault::MajorZero));
    let twice = Some(ListFault::MajorTwice);
    assert_eq!(new(&[(1, 0), (2, 0), (1, 0)]), twice);
    assert_eq!(new(&[(1, 0), (2, 0), (1, 5)]), twice);
    assert_eq!(new(&[(65_535, 65_535), (1, 65_535)]), None);
    assert_eq!(new(&majors(MAX_VERSIONS)), None);
    assert_eq!(new(&majors(MAX_VERSIONS + 1)), Some(ListFault::TooMany));
}
