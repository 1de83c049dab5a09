//! A pair listed twice: a repeat is handled in its turn.

mod common;
use common::*;
use independent::{memory, Pair};

#[test]
fn configure_answers_a_repeat_nowork_until_a_failure() {
    let mut bench = Bench::with_memory();
    let pairs = [C, C, A, C, A, UNKNOWN, C, UNKNOWN, D];
    let reply = bench.request(memory::CONFIGURE, &pairs);
    let ok_then_nowork = [(0, 2), (4, 2), (4, 2), (4, 2), (4, 2)];
    assert_eq!(results(&reply)[..5], ok_then_nowork);
    assert_eq!(results(&reply)[5..], [(1, 0), (1, 2), (1, 0), (1, 2)]);
    // The one bit of the one block configured.
    assert_eq!(bench.last_entry(), (11, 0, 0, 0, 0b100));
    let reply = bench.request(memory::CONFIGURE, &[C; 64]);
    assert_eq!(results(&reply), [(4, 2); 64]);
    assert_eq!(bench.last_entry(), (10, 0, 0, 0, 10));
}

#[test]
fn a_repeat_is_blocked_like_its_first() {
    let mut bench = Bench::with_memory();
    bench.unconfigure(&[A, A]);
    for memory_type in [memory::CONFIGURE, memory::UNCONFIGURE] {
        let reply = bench.request(memory_type, &[C, C, UNKNOWN, C, UNKNOWN]);
        assert_eq!(results(&reply), [(2, 1), (2, 1), (2, 0), (2, 1), (2, 0)]);
        assert_eq!(bench.last_entry(), (10, 0, 2, 0, bench.number));
    }
}

#[test]
fn a_removal_settles_a_repeat_nowork() {
    let mut bench = Bench::with_memory();
    bench.unconfigure(&[A, A, C, D, A]);
    assert_eq!(bench.last_entry(), (12, 0, 0, 5, 9));
    assert_eq!(bench.work(3), Ok((3, vec![])));
    assert_eq!(bench.work(9), Ok((1, vec![])));
    // Code, pages moved, and in w record and block of each settled record.
    assert_eq!(bench.last_entry(), (15, 0, 0, 1, 0));
    assert_eq!(bench.work(9), Ok((0, vec![])));
    assert_eq!(bench.last_entry(), (15, 0, 4, 0, 1 << 6));
    assert_eq!(bench.work(9), Ok((0, vec![])));
    assert_eq!(bench.last_entry(), (15, 0, 4, 0, 2 << 6 | 2));
    assert_eq!(bench.work(9), Ok((2, vec![])));
    assert_eq!(bench.last_entry(), (15, 0, 0, 2, 3 << 6 | 3));
    assert_eq!(bench.work(9), Ok((0, vec![])));
    assert_eq!(bench.last_entry(), (15, 0, 4, 0, 4 << 6));
    let (pages, reply) = bench.work(9).unwrap();
    let all = vec![(0, 1), (4, 1), (4, 1), (0, 1), (4, 1)];
    assert_eq!((pages, results(&reply[16..])), (0, all));
    assert_eq!(bench.last_entry(), (16, 0, 0, 1, 9));
}

#[test]
fn sixty_four_times_one_pair() {
    let mut bench = Bench::with_memory();
    bench.unconfigure(&[D; 64]);
    for _ in 0..64 {
        bench.drain();
        bench.work(2).unwrap();
        assert!(bench.state.is_sound());
    }
    let (_, reply) = bench.work(2).unwrap();
    let mut all = [(4, 1); 64];
    all[0] = (0, 1);
    assert_eq!(results(&reply[16..]), all);
}

#[test]
fn a_repeat_after_the_record_that_fails() {
    for (pairs, steps, all, code) in [
        ([A, UNKNOWN, A], 1, [(0, 1), (1, 0), (1, 1)], 1),
        ([UNKNOWN, UNKNOWN, A], 0, [(1, 0), (1, 0), (1, 2)], 1),
        ([B, B, A], 0, [(5, 2), (1, 2), (1, 2)], 5),
        ([C, B, C], 1, [(4, 1), (5, 2), (1, 1)], 5),
    ] {
        let mut bench = Bench::with_memory();
        bench.unconfigure(&pairs);
        for _ in 0..steps {
            assert_eq!(bench.work(9).unwrap().1, []);
        }
        let (_, reply) = bench.work(9).unwrap();
        assert_eq!(results(&reply[16..]), all);
        assert_eq!(bench.last_entry(), (16, 0, code, 1, 9));
    }
}

#[test]
fn a_repeat_in_a_removal_that_is_cancelled() {
    let mut bench = Bench::with_memory();
    bench.unconfigure(&[A, A, D]);
    bench.work(4).unwrap();
    // At the repeat: its size again, nothing collected.
    let status = bench.request(memory::UNCONF_STATUS, &[]);
    let total = [A.size.to_be_bytes(), [0; 8]].concat();
    assert_eq!((status[7], &status[16..]), (1, total.as_slice()));
    bench.cancel();
    let (_, reply) = bench.work(1).unwrap();
    assert_eq!(results(&reply[16..]), [(0, 1), (3, 1), (3, 2)]);
}

#[test]
fn query_repeats_its_answer() {
    let mut bench = Bench::with_memory();
    // The same address with another size is another pair.
    let other = Pair { size: 8_192, ..B };
    let reply = bench.request(memory::QUERY, &[B, B, other, UNKNOWN, B, UNKNOWN, other]);
    assert_eq!(reply[..8], [0, 0, 0, 0x6f, 0, 0, 0, 7]);
    let records: Vec<&[u8]> = reply[16..].chunks_exact(40).collect();
    let place = "0000000020000000";
    let b = "0000000000004000 0000000000002000 0000000020002000 0000000020003fff";
    let wholly = "0000000000002000 0000000000002000 0000000020000000 0000000020001fff";
    let [b, wholly] = [b, wholly].map(|rest| hex(&format!("{place} {rest}")));
    assert_eq!([records[0], records[1], records[4]], [b.as_slice(); 3]);
    assert_eq!([records[2], records[6]], [wholly.as_slice(); 2]);
    assert_eq!(records[3], records[5]);
    assert_eq!(bench.last_entry(), (10, 0, 0, 0, 9));
}
