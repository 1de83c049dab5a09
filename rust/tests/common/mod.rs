//! A bench for the tests: an agent with its buffers; and saved files.
#![allow(dead_code)] // each test program uses a part of it

use independent::block::PAGE;
use independent::{build, memory, *};

pub const A: Pair = Pair {
    addr: 0x1000_0000,
    size: 4 * PAGE,
};
pub const B: Pair = Pair {
    addr: 0x2000_0000,
    size: 2 * PAGE,
};
/// The blocks of the day at the panel, then C: 3 pages, unconfigured, and D:
/// 2 pages, configured.
pub const BLOCK_LIST: [u64; 20] = [
    0x1000_0000,
    4,
    0,
    0,
    1, //
    0x2000_0000,
    2,
    1,
    1,
    1, //
    0x3000_0000,
    3,
    0,
    0,
    0, //
    0x4000_0000,
    2,
    0,
    0,
    1,
];
pub const C: Pair = Pair {
    addr: 0x3000_0000,
    size: 3 * PAGE,
};
pub const D: Pair = Pair {
    addr: 0x4000_0000,
    size: 2 * PAGE,
};
pub const UNKNOWN: Pair = Pair {
    addr: 0x1000_0000,
    size: 3 * PAGE,
};

/// An agent, its journal and its output; the output begins with 0xee in
/// every byte, to see which are written.
#[derive(Clone, Debug, PartialEq)]
pub struct Bench {
    pub state: State,
    pub journal: Vec<u64>,
    pub out: Vec<u8>,
    /// The number of the last `request`; the first has 9, as on the day.
    pub number: u64,
}

pub type Reply = Result<Vec<u8>, u64>;

impl Bench {
    pub fn new(list: &[u64]) -> Bench {
        let mut journal = vec![0xdead; 128];
        Bench {
            state: setup(list, &[], &[], &mut journal).unwrap(),
            journal,
            out: vec![0xee; 2592],
            number: 8,
        }
    }

    /// Channel 2 ready, `dr-mem` registered there under handle 3, with its top bit.
    pub fn with_memory() -> Bench {
        let mut bench = Bench::new(&BLOCK_LIST);
        bench.receive(2, &build::init_req(1, 0)).unwrap();
        bench.offer(2, 0).unwrap();
        bench
            .receive(2, &build::reg_ack(build::ours(3), 0))
            .unwrap();
        bench
    }

    /// The reply; checks that no byte beyond it was touched.
    fn reply(&mut self, length: usize) -> Vec<u8> {
        let reply = self.out[..length].to_vec();
        assert!(self.out[length..].iter().all(|byte| *byte == 0xee));
        self.out.fill(0xee);
        reply
    }

    pub fn receive(&mut self, channel: u64, message: &[u8]) -> Reply {
        let length = receive(
            &mut self.state,
            channel,
            message,
            &mut self.journal,
            &mut self.out,
        )?;
        Ok(self.reply(length))
    }

    pub fn offer(&mut self, channel: u64, service: u64) -> Reply {
        let length = offer(
            &mut self.state,
            channel,
            service,
            &mut self.journal,
            &mut self.out,
        )?;
        Ok(self.reply(length))
    }

    pub fn withdraw(&mut self, channel: u64, service: u64) -> Reply {
        let length = withdraw(
            &mut self.state,
            channel,
            service,
            &mut self.journal,
            &mut self.out,
        )?;
        Ok(self.reply(length))
    }

    pub fn close(&mut self, channel: u64) -> Reply {
        let length = close(&mut self.state, channel, &mut self.journal, &mut self.out)?;
        Ok(self.reply(length))
    }

    pub fn work(&mut self, budget: u64) -> Result<(u64, Vec<u8>), u64> {
        let worked = work(&mut self.state, budget, &mut self.journal, &mut self.out)?;
        Ok((worked.pages, self.reply(worked.length)))
    }

    pub fn permit(&mut self, service: u64, permitted: bool) -> Reply {
        let length = permit(
            &mut self.state,
            service,
            permitted,
            &mut self.journal,
            &mut self.out,
        )?;
        Ok(self.reply(length))
    }

    pub fn take(&mut self) -> Result<Order, u64> {
        let order = take(&mut self.state, &mut self.journal, &mut self.out)?;
        self.reply(0);
        Ok(order)
    }

    /// Everything that is held.
    pub fn drain(&mut self) -> Vec<(u64, u64)> {
        let mut run = [0; 128];
        let count = drain(&mut self.state, &self.journal, &mut run).unwrap();
        run.chunks(2)
            .take(count)
            .map(|entry| (entry[0], entry[1]))
            .collect()
    }

    /// Sends a memory message under handle 3 on channel 2; gives the memory
    /// message of the reply, if there is one.
    pub fn ask(&mut self, message: &[u8]) -> Vec<u8> {
        let reply = self
            .receive(2, &build::data(build::ours(3), message))
            .unwrap();
        if reply.is_empty() {
            return reply;
        }
        assert_eq!(reply[..4], [0, 0, 0, 9]);
        assert_eq!(reply[8..16], build::ours(3).to_be_bytes());
        reply[16..].to_vec()
    }

    /// Sends a request of pairs under the next request number.
    pub fn request(&mut self, memory_type: u32, pairs: &[Pair]) -> Vec<u8> {
        self.number += 1;
        self.ask(&build::request(memory_type, self.number, pairs))
    }

    pub fn unconfigure(&mut self, pairs: &[Pair]) {
        assert_eq!(self.request(memory::UNCONFIGURE, pairs), []);
    }

    pub fn cancel(&mut self) -> Vec<u8> {
        self.request(memory::CANCEL, &[])
    }

    /// Kind, record, code, count and second word of the last entry, which
    /// must have channel 2 and service 0.
    pub fn last_entry(&self) -> (u64, u64, u64, u64, u64) {
        let at = ((self.state.last - 1) % 64 * 2) as usize;
        let (first, second) = (self.journal[at], self.journal[at + 1]);
        assert_eq!(first >> 32, self.state.last);
        assert_eq!(first >> 23 & 15, 8, "channel 2, service 0");
        (
            first >> 27 & 31,
            first >> 19 & 15,
            first >> 16 & 7,
            first & 0xffff,
            second,
        )
    }
}

/// Result and status of each record of a reply's memory message.
pub fn results(message: &[u8]) -> Vec<(u8, u8)> {
    assert_eq!(message[..4], [0, 0, 0, 0x6f]);
    let records = message[16..].chunks_exact(28);
    assert_eq!(message[7] as usize, records.len());
    records.map(|record| (record[19], record[23])).collect()
}

/// Bytes from hexadecimal digits, spaces passed over.
pub fn hex(text: &str) -> Vec<u8> {
    let digits: Vec<u8> = text.bytes().filter(|byte| *byte != b' ').collect();
    let digit = |byte: u8| (byte as char).to_digit(16).unwrap() as u8;
    digits
        .chunks(2)
        .map(|pair| digit(pair[0]) << 4 | digit(pair[1]))
        .collect()
}

/// The fields of an entry after its number: kind, channel, service, record,
/// code, count, w.
pub type Entry = [u64; 7];

pub const MARK: Entry = [31, 0, 0, 0, 0, 0, 0];

/// Two words of an entry.
pub fn words(number: u64, entry: Entry) -> [u64; 2] {
    let [kind, channel, service, record, code, count, w] = entry;
    let fields = kind << 27 | channel << 25 | service << 23 | record << 19 | code << 16 | count;
    [number << 32 | fields, w]
}

/// Entries numbered from 1.
pub fn numbered(entries: &[Entry]) -> Vec<[u64; 2]> {
    let numbered = (1..).zip(entries);
    numbered.map(|(at, entry)| words(at, *entry)).collect()
}

/// A saved file of a block list and entries.
pub fn file(words: &[u64], entries: &[[u64; 2]]) -> Vec<u8> {
    let count = [words.len() as u64];
    let all = count.iter().chain(words).chain(entries.as_flattened());
    all.flat_map(|word| word.to_be_bytes()).collect()
}

/// So many blocks of a page each, all configured.
pub fn many(count: u64) -> Vec<u64> {
    let blocks = (0..count).map(|at| [at * 8192, 1, 0, 0, 1]);
    blocks.flatten().collect()
}
