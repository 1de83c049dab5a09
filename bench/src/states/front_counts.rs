//! What pieces and reopenings of fronts reached.

use super::agents::Answer;
use super::call::Call;
use super::fronts::{form_of, unsound, words, MOST_KEPT, UNSOUND};
use crate::proved;
use independent::front::MAX_MESSAGE;
use independent::state::{CHANNELS, LAST_NUMBER, SLOTS};
use independent::wire::{get32, HEADER};
use independent::{Front, State};

/// What an accepted call found on its channel.
const FOUND: [&str; 5] = [
    "an empty front",
    "1 to 7 bytes kept",
    "8 to 4,102 bytes kept",
    "4,103 bytes kept",
    "a front that drops",
];

/// What pieces were, or met.
const PIECES: [&str; 18] = [
    "of 0 bytes",
    "of 1 byte",
    "to the end of a message",
    "past the end of a message",
    "with a whole message behind the one given",
    "whose message was given from the piece alone",
    "whose message was joined with the bytes kept",
    "with a payload_len of 4,096 given",
    "with a payload_len of 4,097 given",
    "with a larger payload_len given",
    "answered with a reply",
    "of bytes that are dropped",
    "kept with 64 entries held",
    "kept with no number left",
    "refused with 4, whole",
    "refused with 4, with bytes kept",
    "refused with 5, whole",
    "refused with 5, with bytes kept",
];

/// The places at which a header may be cut.
const CUTS: usize = HEADER - 1;

#[derive(Default)]
pub struct FrontCounts {
    /// What made a front unsound, of the call's channel and of another, where the
    /// state was sound.
    unsound: [[u64; 2]; UNSOUND.len()],
    /// What accepted pieces and reopenings found.
    found: [[u64; 2]; FOUND.len()],
    pieces: [u64; PIECES.len()],
    /// By the bytes of a header that are kept: those that a piece ended, and
    /// those that a piece left.
    cuts: [[u64; 2]; CUTS],
}

/// The place in FOUND of what a channel's sound front holds.
fn found([kept, mark]: [u64; 2]) -> usize {
    match kept as usize {
        _ if mark == 1 => 4,
        0 => 0,
        1..HEADER => 1,
        MOST_KEPT => 3,
        _ => 2,
    }
}

/// The places in PIECES of an accepted piece and the message that it gave.
fn taken(piece: &[u8], kept: usize, message: &[u8], answer: Answer) -> Vec<usize> {
    let rest = &piece[answer.count as usize..];
    let payload_len = get32(message, 4);
    let tests = [
        rest.is_empty(),
        !rest.is_empty(),
        Front::default().message(0, rest).is_some(),
        kept == 0,
        kept > 0,
        message.len() == MAX_MESSAGE,
        payload_len == 4_097,
        payload_len > 4_097,
        answer.length > 0,
    ];
    let places = (2..).zip(tests).filter(|(_, met)| *met);
    places.map(|(place, _)| place).collect()
}

/// The places in PIECES of an accepted piece that gave no message.
fn unfinished(state: &State, mark: u64, piece: &[u8]) -> Vec<usize> {
    let tests = [
        (mark == 1 && !piece.is_empty(), 11),
        (mark == 0 && state.held == SLOTS, 12),
        (mark == 0 && state.last == LAST_NUMBER, 13),
    ];
    let places = tests.iter().filter(|(met, _)| *met);
    places.map(|(_, place)| *place).collect()
}

impl FrontCounts {
    /// Counts a call of the front on a sound state.
    pub fn add(&mut self, state: &State, front: &proved::Front, call: &Call, answer: Answer) {
        let (Call::Piece(channel, _) | Call::Reopen(channel)) = call else {
            return;
        };
        if let Some((at, wrong)) = unsound(front) {
            self.unsound[wrong][usize::from(at as u64 != *channel)] += 1;
            return;
        }
        if *channel >= CHANNELS as u64 {
            return;
        }
        let held = words(front, *channel as usize);
        match call {
            Call::Piece(_, piece) => {
                self.found[found(held)][0] += u64::from(answer.refusal == 0);
                let form = form_of(front).expect("a sound front has both forms");
                let message = form.message(*channel, piece);
                self.add_piece(state, held, piece, message, answer);
            }
            _ => self.found[found(held)][1] += 1,
        }
    }

    /// Counts a piece on a sound front, and the message that it ends.
    fn add_piece(
        &mut self,
        state: &State,
        [kept, mark]: [u64; 2],
        piece: &[u8],
        message: Option<Vec<u8>>,
        answer: Answer,
    ) {
        let kept = kept as usize;
        let mut met = match (answer.refusal, message) {
            (0, Some(message)) => taken(piece, kept, &message, answer),
            (refusal @ 4..=5, _) => vec![6 + 2 * refusal as usize + usize::from(kept > 0)],
            (0, None) => unfinished(state, mark, piece),
            _ => Vec::new(),
        };
        if answer.refusal == 0 && piece.len() < 2 {
            met.push(piece.len());
        }
        met.into_iter().for_each(|place| self.pieces[place] += 1);
        let after = kept + piece.len();
        if answer.refusal == 0 && mark == 0 {
            if (1..HEADER).contains(&kept) && after >= HEADER {
                self.cuts[kept - 1][0] += 1;
            }
            if (1..HEADER).contains(&after) && !piece.is_empty() {
                self.cuts[after - 1][1] += 1;
            }
        }
    }

    pub fn print(&self) {
        for (name, [own, other]) in UNSOUND.iter().zip(self.unsound) {
            println!("fronts with {name}: {own} of the call's channel, {other} of another");
        }
        for (name, [pieces, reopened]) in FOUND.iter().zip(self.found) {
            println!("found {name}: {pieces} pieces, {reopened} reopenings");
        }
        for (name, count) in PIECES.iter().zip(self.pieces) {
            println!("pieces {name}: {count}");
        }
        let [ended, left] = [0, 1].map(|at: usize| self.cuts.map(|cuts| cuts[at]));
        println!("headers cut after 1 to 7 bytes: ended {ended:?}, left {left:?}");
    }

    /// Whether everything came.
    pub fn are_whole(&self) -> bool {
        let parts = [self.unsound.as_flattened(), self.found.as_flattened()];
        let more = [&self.pieces[..], self.cuts.as_flattened()];
        ![parts, more].as_flattened().concat().contains(&0)
    }
}
