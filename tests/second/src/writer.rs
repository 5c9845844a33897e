//! The writer and the host's replies (document 01, "Verdicts and refusals" and "What the host replies").

use crate::messages::{length_of, verdict_of};
use crate::parts::frame;
use crate::reader::framing_of;

/// The fields of nx584_written, and the out buffer afterwards.
#[derive(Clone, PartialEq, Eq, Debug)]
pub struct Written {
    pub number: u8,
    pub length: u64,
    pub out: Vec<u8>,
}

/// Order: 4, 6, 7, 8, 9. A refusal says length 0 and leaves the buffer.
pub fn write(message: &[u8], framing: u8, out: &[u8], place: u64) -> Written {
    let refused = |number| Written { number, length: 0, out: out.to_vec() };
    let verdict = verdict_of(message);
    if verdict != 0 {
        return refused(verdict);
    }
    let frame = frame(framing_of(framing), message);
    let end = u128::from(place) + frame.len() as u128;
    if end > out.len() as u128 {
        return refused(9);
    }
    let mut after = out.to_vec();
    after[place as usize..end as usize].copy_from_slice(&frame);
    Written { number: 0, length: frame.len() as u64, out: after }
}

/// The number of the reply to a verdict with its type byte, 0 none.
pub fn reply(verdict: u8, type_byte: u8) -> u8 {
    let flag = type_byte & 0x80 != 0;
    match verdict {
        1..=5 | 7 | 15 => 0x1E,
        6 | 8 => 0x1F,
        0 if length_of(type_byte).is_some() => match type_byte & 0x3F {
            0x1C..=0x1F => 0,
            0x20..=0x3F => 0x1F,
            _ if flag => 0x1D,
            _ => 0,
        },
        _ => 0,
    }
}
