//! The map of a state's words and of a front's, read from the crates that define it.

use std::collections::HashMap;
use std::iter::Peekable;
use std::str::SplitWhitespace;
use std::sync::LazyLock;

const MODEL: &str = include_str!("../../../../crates/model/src/lib.rt");
const FRONT_MODEL: &str = include_str!("../../../../crates/front_model/src/lib.rt");

/// Names of the tests' own, in the same form: on channel 2 the words of service 0, of the first id's registration by
/// the peer, and the front; the first block, device and id and the second block; two names as words hold them.
const OWN: &str = "
    pub const STAGE: usize = FIRST_STAGE_WORD + 2 * CHANNEL_WORDS;
    pub const HANDLE: usize = FIRST_HANDLE_WORD + 2 * CHANNEL_WORDS;
    pub const MINOR: usize = FIRST_MINOR_WORD + 2 * CHANNEL_WORDS;
    pub const PEER: usize = FIRST_PEER_WORD + 2 * PEER_WORDS;
    pub const PEER_HANDLE: usize = PEER + MARK_WORDS;
    pub const PEER_MINOR: usize = PEER_HANDLE + MOST_IDS;
    pub const KEPT: usize = 2 * PART_WORDS;
    pub const DROPPING: usize = KEPT + 1;
    pub const ROOM: usize = 2 * MOST_MESSAGE;
    pub const FIRST: usize = FIRST_BLOCK_WORD;
    pub const SECOND: usize = FIRST_BLOCK_WORD + BLOCK_WORDS;
    pub const DEVICE: usize = FIRST_DEVICE_WORD;
    pub const ID: usize = FIRST_ID_WORD;
    pub const DISK: u64 = 0x6469736b00000000;
    pub const SP_LOG: u64 = 0x73702d6c6f670000;
";

static EXPRESSIONS: LazyLock<HashMap<&str, &str>> = LazyLock::new(|| {
    let sources = [MODEL, FRONT_MODEL, OWN];
    sources.into_iter().flat_map(constants).collect()
});

/// The name and the expression of each `pub const NAME: TYPE = EXPRESSION;`.
fn constants(source: &str) -> impl Iterator<Item = (&str, &str)> {
    source.split("pub const ").skip(1).filter_map(|rest| {
        let (declared, _) = rest.split_once(';')?;
        let (typed, expression) = declared.split_once(" = ")?;
        let (name, _) = typed.split_once(':')?;
        Some((name, expression))
    })
}

/// The value of an expression over these names, as `value("LAST_WORD + 1")`.
pub fn value(expression: &str) -> u64 {
    let spaced = expression.replace('(', "( ").replace(')', " )");
    let mut tokens = spaced.split_whitespace().peekable();
    let value = sum(&mut tokens);
    assert_eq!(tokens.next(), None, "not understood in {expression}");
    value
}

/// A value that is a place or a length.
pub fn word(expression: &str) -> usize {
    value(expression) as usize
}

type Tokens<'a> = Peekable<SplitWhitespace<'a>>;

fn sum(tokens: &mut Tokens) -> u64 {
    let mut total = product(tokens);
    while let Some(sign) = tokens.next_if(|token| ["+", "-"].contains(token)) {
        let next = product(tokens);
        total = if sign == "+" {
            total + next
        } else {
            total - next
        };
    }
    total
}

fn product(tokens: &mut Tokens) -> u64 {
    let mut total = operand(tokens);
    while let Some(sign) = tokens.next_if(|token| ["*", "/"].contains(token)) {
        let next = operand(tokens);
        total = if sign == "*" {
            total * next
        } else {
            total / next
        };
    }
    total
}

fn operand(tokens: &mut Tokens) -> u64 {
    let operand = match tokens.next().expect("an operand is missing") {
        "(" => {
            let inner = sum(tokens);
            assert_eq!(tokens.next(), Some(")"));
            inner
        }
        token if token.starts_with(|c: char| c.is_ascii_digit()) => number(token),
        name => match EXPRESSIONS.get(name) {
            Some(expression) => value(expression),
            None => panic!("no constant is named {name}"),
        },
    };
    // no number here is too large for the type of a cast
    if tokens.next_if_eq(&"as").is_some() {
        tokens.next();
    }
    operand
}

fn number(token: &str) -> u64 {
    let read = match (token.strip_prefix("0x"), token.strip_prefix("0b")) {
        (Some(digits), _) => u64::from_str_radix(digits, 16),
        (_, Some(digits)) => u64::from_str_radix(digits, 2),
        _ => token.parse(),
    };
    read.unwrap_or_else(|error| panic!("{token}: {error}"))
}
