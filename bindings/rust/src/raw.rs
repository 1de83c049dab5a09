//! The calls as the static library has them, over words and bytes that the caller
//! owns. They are safe on any of these: each call checks its state. Nothing checks
//! the declarations against crates/exports but the comparisons of results in bench/
//! and in tests/, which also reads the lengths from crates/model.
//!
//! A refusal is a number, 0 where the call was accepted; [`crate::Refusal`] has their names.

/// The words of a state.
pub const STATE_WORDS: usize = 1_985;
/// Every call but show and reopen asks for a journal of just this length.
pub const JOURNAL_WORDS: usize = 128;
/// Each of these but setup and drain asks for an output of this length or more.
pub const OUTPUT_BYTES: usize = 2_592;
/// Two words a channel: how many bytes are kept, and 1 where bytes are dropped.
pub const FRONT_WORDS: usize = 8;
/// Room for a whole message a channel.
pub const FRONT_BYTES: usize = 16_416;

/// The agent's state.
pub type Words = [u64; STATE_WORDS];

/// The answer of a call that may have a reply.
#[repr(C)]
pub struct Answer {
    /// 0 if the call was accepted.
    pub refusal: u64,
    /// The reply's bytes, at the start of the output.
    pub length: usize,
}

/// Work's answer.
pub struct Worked {
    /// 0 if the call was accepted.
    pub refusal: u64,
    /// The reply's bytes, at the start of the output.
    pub length: usize,
    /// The pages that the step moved.
    pub pages: u64,
}

/// Drain's answer.
#[repr(C)]
pub struct Drained {
    /// 0 if the call was accepted.
    pub refusal: u64,
    /// Entries at the start of the run, two words each.
    pub entries: usize,
}

#[repr(C)]
struct Order {
    refusal: u64,
    order: u64,
}

/// Take's answer.
pub struct Taken {
    /// 0 if the call was accepted.
    pub refusal: u64,
    /// 1 shutdown, 2 panic, 0 on a refusal.
    pub order: u64,
    /// A shutdown's, in milliseconds.
    pub delay: u64,
}

/// What the front is lent beside the state; all 0 at first.
#[derive(Clone, PartialEq)]
pub struct Front {
    /// Two words a channel.
    pub words: [u64; FRONT_WORDS],
    /// A message's room a channel.
    pub bytes: [u8; FRONT_BYTES],
}

impl Default for Front {
    fn default() -> Front {
        Front {
            words: [0; FRONT_WORDS],
            bytes: [0; FRONT_BYTES],
        }
    }
}

#[repr(C)]
struct Pieced {
    refusal: u64,
    taken: usize,
}

/// A piece's answer.
pub struct Piece {
    /// 0 if the call was accepted.
    pub refusal: u64,
    /// The bytes that were taken.
    pub taken: usize,
    /// 1 if a message was given to the agent.
    pub given: u64,
    /// The reply's bytes, at the start of the output.
    pub length: usize,
}

extern "C" {
    fn arkelutz_setup(
        state: *mut Words,
        blocks: *const u64,
        block_words: usize,
        devices: *const u64,
        device_words: usize,
        ids: *const u64,
        id_words: usize,
        journal: *mut u64,
        journal_words: usize,
    ) -> u64;
    fn arkelutz_receive(
        state: *mut Words,
        channel: usize,
        message: *const u8,
        message_bytes: usize,
        journal: *mut u64,
        journal_words: usize,
        out: *mut u8,
        out_bytes: usize,
    ) -> Answer;
    fn arkelutz_offer(
        state: *mut Words,
        channel: usize,
        service: usize,
        journal: *mut u64,
        journal_words: usize,
        out: *mut u8,
        out_bytes: usize,
    ) -> Answer;
    fn arkelutz_withdraw(
        state: *mut Words,
        channel: usize,
        service: usize,
        journal: *mut u64,
        journal_words: usize,
        out: *mut u8,
        out_bytes: usize,
    ) -> Answer;
    fn arkelutz_close(
        state: *mut Words,
        channel: usize,
        journal: *mut u64,
        journal_words: usize,
        out: *mut u8,
        out_bytes: usize,
    ) -> Answer;
    fn arkelutz_work(
        state: *mut Words,
        budget: u64,
        journal: *mut u64,
        journal_words: usize,
        out: *mut u8,
        out_bytes: usize,
        pages: *mut u64,
    ) -> Answer;
    fn arkelutz_drain(
        state: *mut Words,
        journal: *const u64,
        journal_words: usize,
        run: *mut u64,
        run_words: usize,
    ) -> Drained;
    fn arkelutz_permit(
        state: *mut Words,
        service: usize,
        permitted: u64,
        journal: *mut u64,
        journal_words: usize,
        out: *mut u8,
        out_bytes: usize,
    ) -> Answer;
    fn arkelutz_take(
        state: *mut Words,
        journal: *mut u64,
        journal_words: usize,
        out: *mut u8,
        out_bytes: usize,
        delay: *mut u64,
    ) -> Order;
    fn arkelutz_show(
        state: *const Words,
        channel: usize,
        message: *const u8,
        message_bytes: usize,
    ) -> usize;
    fn arkelutz_piece(
        front_words: *mut [u64; FRONT_WORDS],
        front_bytes: *mut [u8; FRONT_BYTES],
        state: *mut Words,
        channel: usize,
        piece: *const u8,
        piece_bytes: usize,
        journal: *mut u64,
        journal_words: usize,
        out: *mut u8,
        out_bytes: usize,
        given: *mut u64,
        length: *mut usize,
    ) -> Pieced;
    fn arkelutz_reopen(
        front_words: *mut [u64; FRONT_WORDS],
        front_bytes: *const [u8; FRONT_BYTES],
        state: *const Words,
        channel: usize,
    ) -> u64;
}

/// Writes the first state and the journal's mark; gives the refusal.
#[inline]
pub fn setup(
    state: &mut Words,
    blocks: &[u64],
    devices: &[u64],
    ids: &[u64],
    journal: &mut [u64],
) -> u64 {
    unsafe {
        arkelutz_setup(
            state,
            blocks.as_ptr(),
            blocks.len(),
            devices.as_ptr(),
            devices.len(),
            ids.as_ptr(),
            ids.len(),
            journal.as_mut_ptr(),
            journal.len(),
        )
    }
}

/// Receives a message on a channel.
#[inline]
pub fn receive(
    state: &mut Words,
    channel: u64,
    message: &[u8],
    journal: &mut [u64],
    out: &mut [u8],
) -> Answer {
    unsafe {
        arkelutz_receive(
            state,
            channel as usize,
            message.as_ptr(),
            message.len(),
            journal.as_mut_ptr(),
            journal.len(),
            out.as_mut_ptr(),
            out.len(),
        )
    }
}

/// Offers a service to a channel's other end.
#[inline]
pub fn offer(
    state: &mut Words,
    channel: u64,
    service: u64,
    journal: &mut [u64],
    out: &mut [u8],
) -> Answer {
    unsafe {
        arkelutz_offer(
            state,
            channel as usize,
            service as usize,
            journal.as_mut_ptr(),
            journal.len(),
            out.as_mut_ptr(),
            out.len(),
        )
    }
}

/// Takes a service back.
#[inline]
pub fn withdraw(
    state: &mut Words,
    channel: u64,
    service: u64,
    journal: &mut [u64],
    out: &mut [u8],
) -> Answer {
    unsafe {
        arkelutz_withdraw(
            state,
            channel as usize,
            service as usize,
            journal.as_mut_ptr(),
            journal.len(),
            out.as_mut_ptr(),
            out.len(),
        )
    }
}

/// Closes a channel.
#[inline]
pub fn close(state: &mut Words, channel: u64, journal: &mut [u64], out: &mut [u8]) -> Answer {
    unsafe {
        arkelutz_close(
            state,
            channel as usize,
            journal.as_mut_ptr(),
            journal.len(),
            out.as_mut_ptr(),
            out.len(),
        )
    }
}

/// Does one step of the outstanding removal.
#[inline]
pub fn work(state: &mut Words, budget: u64, journal: &mut [u64], out: &mut [u8]) -> Worked {
    // a step writes it always; a value that no step moves would show one that does not
    let mut pages = u64::MAX;
    let answer = unsafe {
        arkelutz_work(
            state,
            budget,
            journal.as_mut_ptr(),
            journal.len(),
            out.as_mut_ptr(),
            out.len(),
            &mut pages,
        )
    };
    Worked {
        refusal: answer.refusal,
        length: answer.length,
        pages,
    }
}

/// Copies the oldest entries to the start of a run, and forgets them.
#[inline]
pub fn drain(state: &mut Words, journal: &[u64], run: &mut [u64]) -> Drained {
    unsafe {
        arkelutz_drain(
            state,
            journal.as_ptr(),
            journal.len(),
            run.as_mut_ptr(),
            run.len(),
        )
    }
}

/// Sets whether requests to service 2 or 3 are permitted: any number but 0.
#[inline]
pub fn permit(
    state: &mut Words,
    service: u64,
    permitted: u64,
    journal: &mut [u64],
    out: &mut [u8],
) -> Answer {
    unsafe {
        arkelutz_permit(
            state,
            service as usize,
            permitted,
            journal.as_mut_ptr(),
            journal.len(),
            out.as_mut_ptr(),
            out.len(),
        )
    }
}

/// Takes the order that a permitted request left.
#[inline]
pub fn take(state: &mut Words, journal: &mut [u64], out: &mut [u8]) -> Taken {
    // the call writes it always; no order has this delay
    let mut delay = u64::MAX;
    let Order { refusal, order } = unsafe {
        arkelutz_take(
            state,
            journal.as_mut_ptr(),
            journal.len(),
            out.as_mut_ptr(),
            out.len(),
            &mut delay,
        )
    };
    Taken {
        refusal,
        order,
        delay,
    }
}

/// The length of the host's part of a data message, which begins at byte 16.
#[inline]
pub fn show(state: &Words, channel: u64, message: &[u8]) -> usize {
    unsafe { arkelutz_show(state, channel as usize, message.as_ptr(), message.len()) }
}

/// Takes a piece of a channel's stream.
#[inline]
pub fn piece(
    front: &mut Front,
    state: &mut Words,
    channel: u64,
    piece: &[u8],
    journal: &mut [u64],
    out: &mut [u8],
) -> Piece {
    // the call writes both always; neither is ever so large
    let (mut given, mut length) = (u64::MAX, usize::MAX);
    let Pieced { refusal, taken } = unsafe {
        arkelutz_piece(
            &mut front.words,
            &mut front.bytes,
            state,
            channel as usize,
            piece.as_ptr(),
            piece.len(),
            journal.as_mut_ptr(),
            journal.len(),
            out.as_mut_ptr(),
            out.len(),
            &mut given,
            &mut length,
        )
    };
    Piece {
        refusal,
        taken,
        given,
        length,
    }
}

/// Empties a channel's front; gives the refusal.
#[inline]
pub fn reopen(front: &mut Front, state: &Words, channel: u64) -> u64 {
    unsafe { arkelutz_reopen(&mut front.words, &front.bytes, state, channel as usize) }
}
