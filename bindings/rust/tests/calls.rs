//! The calls through the safe crate, on what document 01 and 02's tickets 1, 6, 7
//! and 9 say of them.

use arkelutz::{Agent, Block, Device, Entry, Front, Id, Kind, Order, Refusal, Service};

const INIT_REQ: [u8; 12] = [0, 0, 0, 0, 0, 0, 0, 4, 0, 1, 0, 0];

fn message(ds_type: u8, payload: &[u8]) -> Vec<u8> {
    let mut bytes = vec![0, 0, 0, ds_type];
    bytes.extend((payload.len() as u32).to_be_bytes());
    bytes.extend(payload);
    bytes
}

/// A channel made ready, and a service of it registered; gives the handle.
fn register(agent: &mut Agent, channel: usize, service: Service) -> Vec<u8> {
    agent.receive(channel, &INIT_REQ).unwrap();
    let handle = agent.offer(channel, service).unwrap()[8..16].to_vec();
    let reg_ack = message(4, &[&handle[..], &[0, 0]].concat());
    assert!(agent.receive(channel, &reg_ack).unwrap().is_empty());
    handle
}

fn kinds(agent: &mut Agent) -> Vec<Kind> {
    agent.drain().unwrap().map(|entry| entry.kind).collect()
}

#[test]
fn entries_are_the_words_that_they_are_of() {
    let mut first = 1_u64;
    for _ in 0..100_000 {
        first = first
            .wrapping_mul(6364136223846793005)
            .wrapping_add(1442695040888963407);
        let entry = Entry::from_words([first, !first]);
        assert_eq!(entry.words(), [first, !first]);
        assert_eq!(u64::from(entry.number), first / (1 << 32));
        assert_eq!(u64::from(entry.kind.number()), first / (1 << 27) % 32);
        assert_eq!(u64::from(entry.channel), first / (1 << 25) % 4);
        assert_eq!(u64::from(entry.service), first / (1 << 23) % 4);
        assert_eq!(u64::from(entry.record), first / (1 << 19) % 16);
        assert_eq!(u64::from(entry.code), first / (1 << 16) % 8);
        assert_eq!(u64::from(entry.count), first % (1 << 16));
        if entry.kind == Kind::Settled {
            let block = !first as usize % 64;
            let record = !first as usize / 64 % 64;
            assert_eq!(entry.settled(), Some((block, record)));
        }
    }
}

#[test]
fn a_full_journal_is_drained_and_the_call_made_again() {
    let mut agent = Agent::setup(&[], &[], &[]).unwrap();
    for _ in 1..64 {
        agent.close(0).unwrap();
    }
    assert_eq!(agent.close(0), Err(Refusal::Held));
    let mut copy = agent.clone();
    assert!(copy.drain().unwrap().map(|entry| entry.number).eq(1..=64));
    assert_eq!(
        agent.close(0),
        Err(Refusal::Held),
        "the copy was drained, not the agent"
    );
    agent = copy;
    agent.close(0).unwrap();
    let entries: Vec<_> = agent.drain().unwrap().collect();
    assert_eq!(
        (entries.len(), entries[0].number, entries[0].kind),
        (1, 65, Kind::Closed)
    );
}

#[test]
fn arguments_and_lists_are_refused_by_name() {
    let mut agent = Agent::setup(&[], &[], &[]).unwrap();
    assert_eq!(agent.receive(4, &INIT_REQ), Err(Refusal::Range));
    assert_eq!(agent.work(0), Err(Refusal::Range));
    assert_eq!(agent.work(1), Err(Refusal::NotAllowed));
    assert_eq!(agent.offer(0, Service::Panic), Err(Refusal::NotAllowed));
    assert_eq!(agent.withdraw(0, Service::Panic), Err(Refusal::NotAllowed));
    assert_eq!(agent.permit(Service::Memory, true), Err(Refusal::Range));
    assert_eq!(agent.take(), Err(Refusal::NotAllowed));
    let list =
        |blocks: &[Block], devices: &[Device], ids: &[Id]| Agent::setup(blocks, devices, ids).err();
    let block = |place: u64| Block::new(place << 20, 1);
    let blocks: Vec<_> = (0..65).map(block).collect();
    assert_eq!(list(&blocks[..64], &[], &[]), None);
    assert_eq!(list(&blocks, &[], &[]), Some(Refusal::List));
    assert_eq!(list(&[], &[Device::new(1, &[b'd'; 255])], &[]), None);
    assert_eq!(
        list(&[], &[Device::new(1, &[b'd'; 256])], &[]),
        Some(Refusal::List)
    );
    assert_eq!(list(&[], &[], &[Id::new(1, 0, &[b'i'; 31])]), None);
    assert_eq!(
        list(&[], &[], &[Id::new(1, 0, &[b'i'; 32])]),
        Some(Refusal::List)
    );
    assert_eq!(Refusal::NotSound.number(), 8);
    assert_eq!(Refusal::Held.to_string(), "refused 4: 64 entries are held");
}

#[test]
fn a_permitted_shutdown_is_an_order() {
    let mut agent = Agent::setup(&[], &[], &[]).unwrap();
    let handle = register(&mut agent, 1, Service::Shutdown);
    let request = message(
        9,
        &[&handle[..], &[0, 0, 0, 0, 0, 0, 0, 5, 0, 0, 1, 0]].concat(),
    );
    assert!(!agent.receive(1, &request).unwrap().is_empty());
    assert_eq!(agent.take(), Err(Refusal::NotAllowed), "denied until set");
    agent.permit(Service::Shutdown, true).unwrap();
    agent.receive(1, &request).unwrap();
    assert_eq!(agent.take(), Ok(Order::Shutdown { delay: 256 }));
    let expected = [Kind::Ordered, Kind::Permitted, Kind::Ordered, Kind::Taken];
    assert_eq!(kinds(&mut agent)[4..], expected);
}

#[test]
fn a_busy_device_is_unconfigured_by_the_forced_form() {
    let disk = Device::new(7, b"disk").configured(true).busy(true);
    let mut agent = Agent::setup(&[], &[disk], &[]).unwrap();
    let handle = register(&mut agent, 3, Service::Devices);
    for (letter, result, configured) in [(b'U', 1, 1), (b'F', 0, 0)] {
        let mut payload = handle.clone();
        payload.extend([0, 0, 0, 0, 0, 0, 0, 9]);
        payload.extend(7_u64.to_be_bytes());
        payload.extend([0, b'I', b'O', letter]);
        payload.extend(b"disk\0");
        agent.receive(3, &message(9, &payload)).unwrap();
        let entry = agent.drain().unwrap().last().unwrap();
        assert_eq!((entry.kind, entry.word), (Kind::Device, configured));
        assert_eq!(entry.code != 0, result != 0, "{entry:?}");
    }
}

#[test]
fn data_for_the_other_ends_service_is_shown() {
    let mut agent = Agent::setup(&[], &[], &[Id::new(1, 3, b"alert")]).unwrap();
    agent.receive(0, &INIT_REQ).unwrap();
    let reg_req = message(3, b"\0\0\0\0\0\0\0\x05\0\x01\0\x07alert\0");
    assert_eq!(agent.receive(0, &reg_req).unwrap()[..4], [0, 0, 0, 4]);
    let data = message(9, b"\0\0\0\0\0\0\0\x05hot");
    agent.receive(0, &data).unwrap();
    assert_eq!(agent.show(0, &data), b"hot");
    assert!(agent.show(1, &data).is_empty());
    let entries: Vec<_> = agent.drain().unwrap().collect();
    assert_eq!(
        (entries[2].kind, entries[2].count),
        (Kind::PeerRegistered, 3)
    );
    assert_eq!(entries[3].kind, Kind::PeerData);
}

#[test]
fn a_front_drops_until_it_is_reopened() {
    let (mut agent, mut front) = (Agent::setup(&[], &[], &[]).unwrap(), Front::new());
    let long = [0, 0, 0, 9, 0, 0, 16, 1];
    let piece = front.piece(&mut agent, 2, &long).unwrap();
    assert_eq!((piece.taken, piece.reply), (8, Some(&[][..])));
    let piece = front.piece(&mut agent, 2, &INIT_REQ).unwrap();
    assert_eq!((piece.taken, piece.reply), (12, None));
    front.reopen(&agent, 2).unwrap();
    assert_eq!(front.reopen(&agent, 4), Err(Refusal::Range));
    let piece = front.piece(&mut agent, 2, &INIT_REQ).unwrap();
    assert_eq!(piece.reply.map(|reply| reply[3]), Some(1));
    assert_eq!(kinds(&mut agent), [Kind::Mark, Kind::Closed, Kind::Ready]);
}
