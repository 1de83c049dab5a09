//! Two ends that accept each other, one of which starts, each message received
//! once and in order: both end with the highest major that both hold and the
//! lower of its minors, or the starter knows that there is none.

use independent::generate::random::Random;
use independent::lines::FeedOf;
use independent::vio::words::{Message, INFO};
use independent::vio::{End, Host, Session, Version, Words};
use std::collections::BTreeMap;

/// All lists over the majors 1 to 3 and the minors 0 and 1, in every order.
fn lists() -> Vec<Vec<(u16, u16)>> {
    let mut all: Vec<Vec<(u16, u16)>> = vec![vec![]];
    let mut from = 0;
    while from < all.len() {
        let list = all[from].clone();
        for major in (1..=3).filter(|major| list.iter().all(|held| held.0 != *major)) {
            for minor in [0, 1] {
                let mut longer = list.clone();
                longer.push((major, minor));
                all.push(longer);
            }
        }
        from += 1;
    }
    all.split_off(1)
}

/// The version that two lists must come to.
fn common(one: &[(u16, u16)], other: &[(u16, u16)]) -> Option<(u16, u16)> {
    let other: BTreeMap<u16, u16> = other.iter().copied().collect();
    let shared = one
        .iter()
        .filter_map(|(major, minor)| Some((*major, *minor.min(other.get(major)?))));
    shared.max()
}

/// The program, asked line by line.
#[derive(Default)]
struct Lines {
    feed: FeedOf<Host>,
}

impl Lines {
    fn ask(&mut self, line: String) -> String {
        let mut answer = Vec::new();
        self.feed.piece(format!("{line}\n").as_bytes(), &mut answer);
        String::from_utf8(answer).unwrap().trim_end().into()
    }

    fn set_up(&mut self, number: usize, list: &[(u16, u16)]) {
        let versions: String = list
            .iter()
            .map(|held| format!(" {} {}", held.0, held.1))
            .collect();
        let (class, accepts) = (3 + number, 4 - number);
        let answer = self.ask(format!("end {number} {class} {accepts}{versions}"));
        assert_eq!(answer, "end accepted");
    }

    /// One starts; gives the session id of the last request, and how many
    /// requests there were. Session ids are 100, 101, ..
    fn exchange(&mut self, starter: usize) -> (u32, usize) {
        let (mut sid, mut requests, mut to) = (100, 1, 1 - starter);
        let mut answer = self.ask(format!("start {starter} {sid}"));
        while let [_, first, second] = answer.split(' ').collect::<Vec<_>>()[..] {
            let next = sid + u32::from(to == starter);
            answer = self.ask(format!("receive {to} {next} 0x{first} 0x{second}"));
            if to == starter && answer != "receive" {
                (sid, requests) = (next, requests + 1);
            }
            to = 1 - to;
        }
        assert_eq!(answer, "receive");
        (sid, requests)
    }
}

#[test]
fn all_pairs_of_small_lists() {
    let (all, mut lines) = (lists(), Lines::default());
    assert_eq!(all.len(), 78);
    for (one, other) in all
        .iter()
        .flat_map(|one| all.iter().map(move |other| (one, other)))
    {
        lines.set_up(0, one);
        lines.set_up(1, other);
        for starter in [0, 1, 1, 0, 0] {
            let (sid, requests) = lines.exchange(starter);
            let most = [one, other][starter].len();
            assert!(requests <= most, "{one:?} {other:?}: {requests} requests");
            let states = [0, 1].map(|number| lines.ask(format!("state {number}")));
            let wanted = match common(one, other) {
                Some((major, minor)) => {
                    [0, 1].map(|end| format!("end {end} agreed {major} {minor} session {sid}"))
                }
                None => [0, 1].map(|end| match end == starter {
                    true => format!("end {end} refused"),
                    false => format!("end {end} no version"),
                }),
            };
            assert_eq!(states, wanted, "{one:?} {other:?}");
        }
    }
}

/// An end in any earlier session.
fn used(class: u8, accepts: u8, list: &[(u16, u16)], random: &mut Random) -> End {
    let versions: Vec<Version> = list
        .iter()
        .map(|(major, minor)| Version {
            major: *major,
            minor: *minor,
        })
        .collect();
    let mut end = End::new(class, accepts, &versions).unwrap();
    for _ in 0..random.below(4) {
        let asked = random.pick(&versions);
        match random.below(3) {
            0 => {
                end.start(random.below(3) as u32);
            }
            _ => {
                let (sid, subtype) = (random.below(3) as u32, random.pick(&[INFO, 2, 4]));
                let class = random.pick(&[class, accepts]);
                end.receive(7, Message::version(subtype, sid, class, asked).pack());
            }
        }
    }
    end
}

fn random_list(span: u64, random: &mut Random) -> Vec<(u16, u16)> {
    let mut majors: Vec<u16> = (1..=span as u16).collect();
    random.shuffle(&mut majors);
    majors.truncate(random.between(1, 16) as usize);
    let minors = |major| (major, random.below(3) as u16);
    majors.into_iter().map(minors).collect()
}

/// The starter and the other end after the exchange; requests are counted.
fn run(starter: &mut End, other: &mut End, random: &mut Random) -> usize {
    let (mut requests, mut sent): (usize, Option<Words>) = (1, Some(starter.start(7)));
    while let Some(words) = sent {
        let answer = other.receive(random.below(3) as u32, words).sent.unwrap();
        sent = starter.receive(random.below(3) as u32, answer).sent;
        requests += usize::from(sent.is_some());
    }
    requests
}

#[test]
fn random_lists_in_any_earlier_session() {
    let mut random = Random::new(4);
    for _ in 0..20_000 {
        let span = random.pick(&[3, 8, 20, 40]);
        let lists = [(); 2].map(|()| random_list(span, &mut random));
        let mut starter = used(1, 2, &lists[0], &mut random);
        let mut other = used(2, 1, &lists[1], &mut random);
        let requests = run(&mut starter, &mut other, &mut random);
        assert!(requests <= lists[0].len());
        match (starter.session(), common(&lists[0], &lists[1])) {
            (session @ Session::Agreed { version, .. }, Some(wanted)) => {
                assert_eq!((version.major, version.minor), wanted);
                assert_eq!(other.session(), session);
            }
            (Session::Refused, None) => assert_eq!(other.session(), Session::NoVersion),
            (session, wanted) => panic!("{lists:?}: {session:?}, not {wanted:?}"),
        }
    }
}

#[test]
fn classes_that_do_not_fit_end_the_try() {
    let mut random = Random::new(5);
    for _ in 0..2_000 {
        let lists = [(); 2].map(|()| random_list(6, &mut random));
        let mut starter = used(1, 2, &lists[0], &mut random);
        let mut other = used(2, 3, &lists[1], &mut random);
        assert_eq!(run(&mut starter, &mut other, &mut random), 1);
        assert_eq!(starter.session(), Session::Refused);
        assert_eq!(other.session(), Session::NoVersion);
    }
}
