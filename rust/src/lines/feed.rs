//! An input cut into lines, and a program that answers each of them.

use std::io::{self, Read, Write};

/// The most bytes that a line may have, its LF not counted.
pub const MAX_LINE: usize = 32_768;

/// What the lines of a program ask for.
pub trait Ask: Sized {
    /// What a line asks for; none for a bad line.
    fn from_line(line: &[u8]) -> Option<Self>;
}

/// A program over lines.
pub trait Program: Default {
    type Call: Ask;

    /// Whether what a line asks for can be had now; else it is a bad line.
    fn takes(&self, _call: &Self::Call) -> bool {
        true
    }

    /// Does what a line asks for and writes its answer.
    fn answer(&mut self, call: &Self::Call, answer: &mut Vec<u8>);
}

/// What a line is.
#[derive(Clone, Debug, PartialEq, Eq)]
pub enum LineOf<C> {
    /// Blank or a comment.
    PassedOver,
    Bad,
    Call(C),
}

impl<C: Ask> LineOf<C> {
    /// Reads the bytes of a line, without its LF. Of a line that is too long
    /// any beginning of more than `MAX_LINE` bytes will do.
    pub fn read(bytes: &[u8]) -> LineOf<C> {
        if bytes.first() == Some(&b'#') {
            return LineOf::PassedOver;
        }
        if bytes.len() > MAX_LINE {
            return LineOf::Bad;
        }
        if bytes.iter().all(|byte| *byte == b' ') {
            return LineOf::PassedOver;
        }
        C::from_line(bytes).map_or(LineOf::Bad, LineOf::Call)
    }
}

/// Cuts an input that comes in pieces into lines and answers them.
#[derive(Default)]
pub struct FeedOf<P> {
    program: P,
    number: u64,
    /// The beginning of a line that is not whole yet.
    cut: Vec<u8>,
}

impl<P: Program> FeedOf<P> {
    /// Answers the lines that this piece ends.
    pub fn piece(&mut self, piece: &[u8], answer: &mut Vec<u8>) {
        for part in piece.split_inclusive(|byte| *byte == b'\n') {
            let Some(end) = part.strip_suffix(b"\n") else {
                self.keep(part);
                continue;
            };
            if self.cut.is_empty() {
                self.line(end, answer);
            } else {
                self.keep(end);
                self.end_cut(answer);
            }
        }
    }

    /// Answers a last line that has no LF.
    pub fn finish(&mut self, answer: &mut Vec<u8>) {
        if !self.cut.is_empty() {
            self.end_cut(answer);
        }
    }

    /// Keeps a part of a line, no more than tells that the line is too long.
    fn keep(&mut self, part: &[u8]) {
        let room = (MAX_LINE + 1).saturating_sub(self.cut.len());
        self.cut.extend_from_slice(&part[..part.len().min(room)]);
    }

    fn end_cut(&mut self, answer: &mut Vec<u8>) {
        let line = std::mem::take(&mut self.cut);
        self.line(&line, answer);
    }

    fn line(&mut self, line: &[u8], answer: &mut Vec<u8>) {
        self.number += 1;
        match LineOf::read(line) {
            LineOf::PassedOver => {}
            LineOf::Call(call) if self.program.takes(&call) => self.program.answer(&call, answer),
            LineOf::Bad | LineOf::Call(_) => {
                answer.extend_from_slice(format!("bad line {}\n", self.number).as_bytes());
            }
        }
    }
}

/// The output of a program for a whole input.
pub fn answer_of<P: Program>(input: &[u8]) -> Vec<u8> {
    let mut feed = FeedOf::<P>::default();
    let mut answer = Vec::new();
    feed.piece(input, &mut answer);
    feed.finish(&mut answer);
    answer
}

const PIECE: usize = 1 << 18;

/// A program from standard input to standard output.
pub fn serve<P: Program>() -> io::Result<()> {
    let (mut input, mut output) = (io::stdin().lock(), io::stdout().lock());
    let mut piece = vec![0; PIECE];
    let mut answer = Vec::with_capacity(PIECE);
    let mut feed = FeedOf::<P>::default();
    loop {
        let length = match input.read(&mut piece) {
            Err(error) if error.kind() == io::ErrorKind::Interrupted => continue,
            read => read?,
        };
        if length == 0 {
            break;
        }
        feed.piece(&piece[..length], &mut answer);
        output.write_all(&answer)?;
        answer.clear();
    }
    feed.finish(&mut answer);
    output.write_all(&answer)?;
    output.flush()
}
