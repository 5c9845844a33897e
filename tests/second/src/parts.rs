//! Frames on the line, and the judgement of a stream by its parts (document 01, "The line and its two
//! framings" and "Verdicts and refusals"). The whole stream is split before every start byte, and each
//! part is judged from its bytes alone; there is no state that goes from byte to byte.

use crate::messages::{sums, verdict_of, LONGEST};

#[derive(Clone, Copy, PartialEq, Eq, Debug)]
pub enum Framing {
    Binary,
    Ascii,
}

pub use Framing::{Ascii, Binary};

/// How a binary reader takes a 7Dh and the byte after it (document 02, No. 5); in ASCII it has no effect.
#[derive(Clone, Copy, PartialEq, Eq, Debug)]
pub enum Escapes {
    /// "7Dh followed by a byte other than 5Eh, 5Dh or 7Eh is verdict 15 at that byte".
    Strict,
    /// "The old rule": any byte may follow but 7Eh, which starts a frame.
    Lenient,
}

pub use Escapes::{Lenient, Strict};

pub const RULES: [Escapes; 2] = [Strict, Lenient];

const STOP: u8 = 0x0D;
const DIGITS: &[u8; 16] = b"0123456789ABCDEF";

pub fn start(framing: Framing) -> u8 {
    match framing {
        Binary => 0x7E,
        Ascii => 0x0A,
    }
}

/// The bytes on the line for recovered bytes: stuffed, or as two characters each.
pub fn coded(framing: Framing, bytes: &[u8]) -> Vec<u8> {
    let one = |&byte: &u8| match (framing, byte) {
        (Binary, 0x7E) => vec![0x7D, 0x5E],
        (Binary, 0x7D) => vec![0x7D, 0x5D],
        (Binary, _) => vec![byte],
        (Ascii, _) => vec![DIGITS[usize::from(byte >> 4)], DIGITS[usize::from(byte & 15)]],
    };
    bytes.iter().flat_map(one).collect()
}

/// What the sums of a message are appended to: its length byte and its bytes.
fn counted(message: &[u8]) -> Vec<u8> {
    let mut bytes = vec![message.len() as u8];
    bytes.extend_from_slice(message);
    bytes
}

/// The length byte of a message, its bytes and its sums.
pub fn summed(message: &[u8]) -> Vec<u8> {
    let mut bytes = counted(message);
    let (sum1, sum2) = sums(&bytes);
    bytes.extend([sum1, sum2]);
    bytes
}

/// Any bytes from start to stop.
pub fn framed(framing: Framing, bytes: &[u8]) -> Vec<u8> {
    let mut line = vec![start(framing)];
    line.extend(coded(framing, bytes));
    if framing == Ascii {
        line.push(STOP);
    }
    line
}

/// The frame of any bytes as a message, be it good or not. Of a length above 255 the line has the low byte.
pub fn frame(framing: Framing, message: &[u8]) -> Vec<u8> {
    framed(framing, &summed(message))
}

/// A verdict, and the index of the byte that decides it.
#[derive(Clone, PartialEq, Eq, Debug)]
pub struct Judged {
    pub verdict: u8,
    pub at: usize,
    /// For 0 and 6 to 8.
    pub type_byte: Option<u8>,
    /// Empty unless the verdict is 0.
    pub message: Vec<u8>,
}

fn plain(verdict: u8, at: usize) -> Judged {
    Judged { verdict, at, type_byte: None, message: Vec::new() }
}

/// The verdict of a whole frame from its recovered bytes: 5, 6, 7, 8 or 0.
fn whole(recovered: &[u8], at: usize) -> Judged {
    let (counted, told) = recovered.split_at(recovered.len() - 2);
    if sums(counted) != (told[0], told[1]) {
        return plain(5, at);
    }
    let message = &counted[1..];
    let verdict = verdict_of(message);
    Judged {
        verdict,
        at,
        type_byte: Some(message[0]),
        message: if verdict == 0 { message.to_vec() } else { Vec::new() },
    }
}

fn is_length(byte: u8) -> bool {
    (1..=LONGEST).contains(&usize::from(byte))
}

/// A recovered byte of a binary part.
#[derive(Clone, Copy)]
pub struct Recovered {
    pub byte: u8,
    /// The index of the byte that completes it.
    pub at: usize,
    /// Whether it was escaped and need not have been.
    pub loose: bool,
}

/// The recovered bytes of a binary part, and whether the part ends after a 7Dh.
pub fn unstuffed(part: &[u8]) -> (Vec<Recovered>, bool) {
    let mut recovered = Vec::new();
    let mut at = 1;
    while at < part.len() {
        if part[at] != 0x7D {
            recovered.push(Recovered { byte: part[at], at, loose: false });
            at += 1;
        } else if let Some(&after) = part.get(at + 1) {
            let loose = after != 0x5E && after != 0x5D;
            recovered.push(Recovered { byte: after ^ 0x20, at: at + 1, loose });
            at += 2;
        } else {
            return (recovered, true);
        }
    }
    (recovered, false)
}

/// Of the bytes that a frame can have, those behind its last sum left out: 15 at the first that was escaped
/// without need, where the rule is strict; else 4 at a length that is none; else what the whole frame is.
fn judge_binary(escapes: Escapes, part: &[u8]) -> Option<Judged> {
    let (mut recovered, _) = unstuffed(part);
    let length = *recovered.first()?;
    let needed = if is_length(length.byte) { usize::from(length.byte) + 3 } else { 1 };
    recovered.truncate(needed);
    let bad_escape = recovered.iter().find(|r| escapes == Strict && r.loose);
    if let Some(bad) = bad_escape {
        return Some(plain(15, bad.at));
    }
    if !is_length(length.byte) {
        return Some(plain(4, length.at));
    }
    if recovered.len() < needed {
        return None;
    }
    let bytes: Vec<u8> = recovered.iter().map(|r| r.byte).collect();
    Some(whole(&bytes, recovered[needed - 1].at))
}

/// The value of a digit character.
pub fn digit(character: u8) -> Option<u8> {
    DIGITS.iter().position(|&d| d == character).map(|value| value as u8)
}

/// The bytes that pairs of digits make; a last digit without its fellow is left out.
pub fn paired(characters: &[u8]) -> Vec<u8> {
    characters.chunks_exact(2).filter_map(|pair| Some(digit(pair[0])? << 4 | digit(pair[1])?)).collect()
}

/// The length byte of a part, where it has come.
pub fn length_in(framing: Framing, part: &[u8]) -> Option<u8> {
    let head = &part[..part.len().min(3)];
    match framing {
        Binary => unstuffed(head).0.first().map(|r| r.byte),
        Ascii => paired(&head[1..]).first().copied(),
    }
}

fn judge_ascii(part: &[u8]) -> Option<Judged> {
    let characters = &part[1..];
    let not_a_digit = characters.iter().position(|&c| digit(c).is_none());
    if not_a_digit == Some(0) || not_a_digit == Some(1) {
        return Some(plain(2, 1 + not_a_digit?));
    }
    let length = *paired(characters.get(..2)?).first()?;
    if !is_length(length) {
        return Some(plain(4, 2));
    }
    let stop = 2 * (usize::from(length) + 3);
    match not_a_digit {
        Some(at) if at < stop => Some(plain(2, 1 + at)),
        _ if characters.len() <= stop => None,
        _ if characters[stop] != STOP => Some(plain(3, 1 + stop)),
        _ => Some(whole(&paired(&characters[..stop]), 1 + stop)),
    }
}

/// The verdict of a part that begins with a start byte and has no other; none where it is unfinished.
pub fn judge(framing: Framing, escapes: Escapes, part: &[u8]) -> Option<Judged> {
    match framing {
        Binary => judge_binary(escapes, part),
        Ascii => judge_ascii(part),
    }
}

/// The verdicts of a stream, in order. An unfinished part is 1 if another follows, else silent.
pub fn verdicts(framing: Framing, escapes: Escapes, stream: &[u8]) -> impl Iterator<Item = Judged> + '_ {
    let next_start =
        move |from: usize| stream[from..].iter().position(|&b| b == start(framing)).map(|k| from + k);
    let mut begin = next_start(0);
    std::iter::from_fn(move || {
        let this = begin?;
        let next = next_start(this + 1);
        begin = next;
        let part = &stream[this..next.unwrap_or(stream.len())];
        match judge(framing, escapes, part) {
            Some(judged) => Some(Judged { at: this + judged.at, ..judged }),
            None => next.map(|at| plain(1, at)),
        }
    })
}
