//! What a read answers from any reader (document 01, "Verdicts and refusals"), by the parts: a sound
//! reader stands for the bytes on the line that lead to it, and the read for what the verdicts of those
//! bytes and its own say.

use crate::messages::LONGEST;
use crate::parts::{coded, digit, paired, start, unstuffed, verdicts, Ascii, Binary, Framing};
use crate::parts::{Escapes, Lenient, Strict};

/// Where there is no verdict yet.
pub const NONE: u8 = 255;

pub const SKIPPING: u8 = 0;
pub const IN_FRAME: u8 = 1;
pub const AFTER_7D: u8 = 2;
pub const DIGIT_PENDING: u8 = 3;

/// The fields of nx584_reader.
#[derive(Clone, PartialEq, Eq, Debug)]
pub struct Reader {
    pub framing: u8,
    pub mode: u8,
    pub digit: u8,
    pub held: u16,
    pub bytes: [u8; LONGEST + 3],
    /// Handed back as it was, whatever it is.
    pub escapes: u8,
}

/// The fields of nx584_reading.
#[derive(Clone, PartialEq, Eq, Debug)]
pub struct Reading {
    pub reader: Reader,
    pub used: u64,
    pub verdict: u8,
    pub type_byte: u8,
    pub length: u8,
    pub message: [u8; LONGEST],
}

pub fn framing_of(number: u8) -> Framing {
    match number {
        0 => Binary,
        _ => Ascii,
    }
}

pub fn escapes_of(number: u8) -> Escapes {
    match number {
        0 => Strict,
        _ => Lenient,
    }
}

impl Reader {
    /// "A reader made without saying otherwise is now strict .. The old rule can be asked for".
    pub fn fresh(framing: u8, escapes: Escapes) -> Reader {
        let (framing, escapes) = (u8::from(framing != 0), u8::from(escapes == Lenient));
        Reader { framing, mode: SKIPPING, digit: 0, held: 0, bytes: [0; LONGEST + 3], escapes }
    }

    /// A reader of the same rule that holds these bytes.
    fn holding(&self, mode: u8, digit: u8, recovered: &[u8]) -> Reader {
        let (framing, held) = (u8::from(self.framing != 0), recovered.len() as u16);
        let mut bytes = [0; LONGEST + 3];
        bytes[..recovered.len()].copy_from_slice(recovered);
        Reader { framing, mode, digit, held, bytes, escapes: self.escapes }
    }

    /// "No recovered byte, or the first is a length L" of 1 to 255 (document 02, No. 2) "and it holds at
    /// most L + 2 recovered bytes in binary, L + 3 in ASCII (the stop is then due and no digit pending). In
    /// both cases a pending digit must be at most 15."
    pub fn is_sound(&self) -> bool {
        let pending = self.mode == DIGIT_PENDING;
        if self.mode > DIGIT_PENDING || (pending && self.digit > 15) {
            return false;
        }
        if self.held == 0 {
            return true;
        }
        let length = u16::from(self.bytes[0]);
        let most = match framing_of(self.framing) {
            Ascii if !pending => length + 3,
            _ => length + 2,
        };
        (1..=LONGEST as u16).contains(&length) && self.held <= most
    }

    /// Bytes on the line that lead to this sound reader.
    fn line(&self) -> Vec<u8> {
        if self.mode == SKIPPING {
            return Vec::new();
        }
        let framing = framing_of(self.framing);
        let mut line = vec![start(framing)];
        line.extend(coded(framing, &self.bytes[..usize::from(self.held)]));
        match (framing, self.mode) {
            (Binary, AFTER_7D) => line.push(0x7D),
            (Ascii, DIGIT_PENDING) => line.push(coded(Ascii, &[self.digit])[1]),
            _ => {}
        }
        line
    }

    /// The part in which the last of these bytes gave a verdict, as far as it had come before that byte.
    pub fn part_heard(&self, bytes: &[u8]) -> Option<Vec<u8>> {
        let mut line = self.line();
        line.extend_from_slice(bytes);
        line.pop()?;
        let begin = line.iter().rposition(|&b| b == start(framing_of(self.framing)))?;
        Some(line.split_off(begin))
    }

    /// A reader that skips keeps what it holds until a start comes.
    fn still_skipping(&self) -> Reader {
        Reader { framing: u8::from(self.framing != 0), digit: 0, ..self.clone() }
    }

    /// The reader after a part, up to where it was heard, that has no verdict.
    fn after(&self, part: &[u8]) -> Reader {
        match framing_of(self.framing) {
            Binary => {
                let (recovered, open) = unstuffed(part);
                let held: Vec<u8> = recovered.iter().map(|r| r.byte).collect();
                self.holding(if open { AFTER_7D } else { IN_FRAME }, 0, &held)
            }
            Ascii => {
                let characters = &part[1..];
                let held = paired(characters);
                match characters.get(2 * held.len()).and_then(|&c| digit(c)) {
                    Some(value) => self.holding(DIGIT_PENDING, value, &held),
                    None => self.holding(IN_FRAME, 0, &held),
                }
            }
        }
    }

    /// Whether an answered reader is the same one as this expected reader. Bytes beyond those held do
    /// not count.
    pub fn is_met_by(&self, answered: &Reader) -> bool {
        let held = usize::from(self.held).min(self.bytes.len());
        let rest = |r: &Reader| (r.framing, r.mode, r.digit, r.held, r.escapes);
        rest(self) == rest(answered) && self.bytes[..held] == answered.bytes[..held]
    }
}

/// The answer of a call that is refused: the reader comes back as it was.
pub fn refused(reader: &Reader, number: u8) -> Reading {
    Reading {
        reader: reader.clone(),
        used: 0,
        verdict: number,
        type_byte: 0,
        length: 0,
        message: [0; LONGEST],
    }
}

/// A read uses the fewest bytes that give one verdict more, or all of them.
pub fn read(reader: &Reader, bytes: &[u8]) -> Reading {
    if !reader.is_sound() {
        return refused(reader, 12);
    }
    let framing = framing_of(reader.framing);
    let mut line = reader.line();
    let before = line.len();
    line.extend_from_slice(bytes);
    let first = verdicts(framing, escapes_of(reader.escapes), &line).next();
    let mut message = [0; LONGEST];
    match first {
        None => Reading {
            reader: match line.iter().position(|&b| b == start(framing)) {
                None => reader.still_skipping(),
                Some(begin) => reader.after(&line[begin..]),
            },
            used: bytes.len() as u64,
            verdict: NONE,
            type_byte: 0,
            length: 0,
            message,
        },
        Some(judged) => {
            message[..judged.message.len()].copy_from_slice(&judged.message);
            // where 1 is given, the same byte opens the next frame
            let mode = if judged.verdict == 1 { IN_FRAME } else { SKIPPING };
            Reading {
                reader: reader.holding(mode, 0, &[]),
                used: (judged.at + 1 - before) as u64,
                verdict: judged.verdict,
                type_byte: judged.type_byte.unwrap_or(0),
                length: judged.message.len() as u8,
                message,
            }
        }
    }
}
