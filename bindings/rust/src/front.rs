//! The front: a channel's stream in pieces.

use crate::agent::Agent;
use crate::raw;
use crate::refusal::Refusal;

/// What was done with a piece.
#[derive(Clone, Copy, Debug, PartialEq, Eq)]
pub struct Piece<'a> {
    /// How many of its bytes were taken: all, or those to the end of the one
    /// message that was given to the agent. Offer the others next.
    pub taken: usize,
    /// The agent's reply, empty where there is none, if a message was given to it.
    pub reply: Option<&'a [u8]>,
}

/// The unfinished messages of the four channels of one agent.
#[derive(Clone, Default)]
pub struct Front(raw::Front);

impl Front {
    /// Nothing kept for any channel.
    pub fn new() -> Front {
        Front::default()
    }

    /// Takes a piece of any length of a channel's stream, to the end of one message
    /// at most. A refused piece has taken nothing; after [`Refusal::Held`], drain
    /// and offer it again. A payload_len above 4,096 closes the channel, and what
    /// follows is taken and dropped until [`Front::reopen`].
    ///
    /// ```
    /// use arkelutz::{Agent, Front, Refusal};
    ///
    /// let mut agent = Agent::setup(&[], &[], &[])?;
    /// let mut front = Front::new();
    /// let two_messages = [0, 0, 0, 0, 0, 0, 0, 4, 0, 1, 0, 0].repeat(2);
    /// let (mut left, mut replies) = (&two_messages[..], 0);
    /// while !left.is_empty() {
    ///     let piece = front.piece(&mut agent, 0, &left[..left.len().min(5)])?;
    ///     replies += usize::from(piece.reply.is_some());
    ///     left = &left[piece.taken..];
    /// }
    /// assert_eq!(replies, 2);
    /// # Ok::<(), Refusal>(())
    /// ```
    #[inline]
    pub fn piece<'a>(
        &mut self,
        agent: &'a mut Agent,
        channel: usize,
        piece: &[u8],
    ) -> Result<Piece<'a>, Refusal> {
        let Agent {
            state,
            journal,
            out,
        } = agent;
        let answer = raw::piece(&mut self.0, state, channel as u64, piece, journal, out);
        Refusal::of(answer.refusal)?;
        Ok(Piece {
            taken: answer.taken,
            reply: (answer.given != 0).then(|| &out[..answer.length]),
        })
    }

    /// Empties a channel's front, whether it keeps a part or drops what comes.
    pub fn reopen(&mut self, agent: &Agent, channel: usize) -> Result<(), Refusal> {
        Refusal::of(raw::reopen(&mut self.0, &agent.state, channel as u64))
    }
}
