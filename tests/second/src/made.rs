//! Made inputs: messages, frames, damage, streams, readers and tables, from a seed.

use crate::messages::{checked_bytes, is_for_a_unit, length_of, Allowed, LENGTHS, LONGEST, LONGEST_KNOWN};
use crate::parts::{coded, frame, start, Ascii, Binary, Escapes, Framing, RULES};
use crate::reader::{Reader, DIGIT_PENDING};
use crate::table::TABLE_BYTES;

/// Numbers from a seed (splitmix64).
pub struct Chance(u64);

impl Chance {
    pub fn new(seed: u64) -> Chance {
        Chance(seed)
    }

    pub fn number(&mut self) -> u64 {
        self.0 = self.0.wrapping_add(0x9E37_79B9_7F4A_7C15);
        let mut z = self.0;
        z = (z ^ (z >> 30)).wrapping_mul(0xBF58_476D_1CE4_E5B9);
        z = (z ^ (z >> 27)).wrapping_mul(0x94D0_49BB_1331_11EB);
        z ^ (z >> 31)
    }

    /// Less than the bound, which is not 0.
    pub fn below(&mut self, bound: usize) -> usize {
        (self.number() % bound as u64) as usize
    }

    pub fn one_in(&mut self, bound: usize) -> bool {
        self.below(bound) == 0
    }

    pub fn of<T: Copy>(&mut self, values: &[T]) -> T {
        values[self.below(values.len())]
    }

    pub fn byte(&mut self) -> u8 {
        self.number() as u8
    }

    pub fn framing(&mut self) -> Framing {
        self.of(&[Binary, Ascii])
    }

    /// The number by which a framing is asked for: 0, or any other.
    pub fn framing_number(&mut self, framing: Framing) -> u8 {
        match framing {
            Binary => 0,
            Ascii => self.of(&[1, 1, 1, 2, 128, 255]),
        }
    }

    pub fn escapes(&mut self) -> Escapes {
        self.of(&RULES)
    }

    /// A number for the rule of escapes in a reader: the strict one's, the old one's, or any.
    pub fn escapes_number(&mut self) -> u8 {
        match self.below(3) {
            0 => 0,
            1 => 1,
            _ => self.byte(),
        }
    }
}

/// Bytes at which a quick build goes wrong.
const TELLING: [u8; 26] = [
    0x00, 0x01, 0x0A, 0x0D, 0x12, 0x13, 0x20, 0x2F, 0x30, 0x39, 0x3A, 0x40, 0x41, 0x46, 0x47, 0x5C, 0x5D,
    0x5E, 0x5F, 0x61, 0x66, 0x7C, 0x7D, 0x7E, 0xFE, 0xFF,
];

/// Lengths at which a quick build goes wrong: around the longest of the 41, around those whose length byte
/// is escaped, and around the longest that a length byte says.
const TELLING_LENGTHS: [usize; 17] =
    [0, 1, 2, 17, 18, 19, 20, 21, 124, 125, 126, 127, 253, 254, 255, 256, 257];

/// Any byte, often a telling one.
pub fn byte(chance: &mut Chance) -> u8 {
    if chance.one_in(3) {
        chance.of(&TELLING)
    } else {
        chance.byte()
    }
}

pub fn bytes(chance: &mut Chance, length: usize) -> Vec<u8> {
    (0..length).map(|_| byte(chance)).collect()
}

fn allowed_byte(chance: &mut Chance, allowed: &Allowed) -> u8 {
    match *allowed {
        Allowed::UpTo(most) => chance.below(usize::from(most) + 1) as u8,
        Allowed::Between(least, most) => least + chance.below(usize::from(most - least) + 1) as u8,
        Allowed::Bits { mask, are } => chance.byte() & !mask | are,
        Allowed::OneOf(values) => chance.of(values),
    }
}

/// A good message of a number, with or without the flag.
pub fn good_message(chance: &mut Chance, number: u8) -> Vec<u8> {
    let mut message = bytes(chance, length_of(number).expect("one of the 41"));
    message[0] = number | chance.of(&[0, 0x80]);
    for (place, allowed) in checked_bytes(number) {
        message[place - 1] = allowed_byte(chance, allowed);
    }
    if (number == 0x09 || number == 0x29) && is_for_a_unit(message[3]) {
        message[2] &= 15;
    }
    message
}

pub fn some_good_message(chance: &mut Chance) -> Vec<u8> {
    let number = chance.of(&LENGTHS).0;
    good_message(chance, number)
}

/// One of the messages that a table stores.
pub fn table_message(chance: &mut Chance) -> Vec<u8> {
    let number = chance.of(&[4, 4, 5, 5, 6, 7, 8]);
    good_message(chance, number)
}

/// A length for any bytes as a message: mostly about as long as the 41 are.
fn any_length(chance: &mut Chance) -> usize {
    match chance.below(8) {
        0 | 1 => chance.of(&TELLING_LENGTHS),
        2 => chance.below(LONGEST + 3),
        _ => chance.below(LONGEST_KNOWN + 3),
    }
}

/// A message that is longer than each of the 41, of a number that is among theirs or not.
fn long_message(chance: &mut Chance) -> Vec<u8> {
    let length = match chance.below(2) {
        0 => chance.of(&TELLING_LENGTHS).clamp(LONGEST_KNOWN + 1, LONGEST),
        _ => LONGEST_KNOWN + 1 + chance.below(LONGEST - LONGEST_KNOWN),
    };
    let mut message = bytes(chance, length);
    if chance.one_in(3) {
        message[0] = chance.of(&LENGTHS).0 | chance.of(&[0, 0x80]);
    }
    message
}

/// A message of which the frame's sums are right: good, or at times a long one.
fn good_or_long(chance: &mut Chance) -> Vec<u8> {
    if chance.one_in(16) {
        long_message(chance)
    } else {
        some_good_message(chance)
    }
}

/// A message that is more likely bad than good: any number and length, or one byte of a good one changed.
pub fn doubtful_message(chance: &mut Chance) -> Vec<u8> {
    let mut message = some_good_message(chance);
    match chance.below(5) {
        0 => message[0] = byte(chance),
        1 => message.resize(any_length(chance), 0x55),
        2 => {
            let length = any_length(chance);
            message = bytes(chance, length);
        }
        _ => {
            // a checked byte, if the number has one
            let number = message[0] & 0x3F;
            let place = match checked_bytes(number) {
                [] => chance.below(message.len()),
                checked => checked[chance.below(checked.len())].0 - 1,
            };
            message[place] = byte(chance);
        }
    }
    message
}

/// The frame of a message with escapes that the writer would not make, few or many; the same in ASCII.
pub fn loosely_escaped(chance: &mut Chance, framing: Framing, message: &[u8]) -> Vec<u8> {
    let line = frame(framing, message);
    if framing == Ascii {
        return line;
    }
    let seldom = chance.of(&[4, line.len()]);
    let mut loose = vec![line[0]];
    let mut escaped = false;
    for &byte in &line[1..] {
        if !escaped && byte != 0x7D && byte != 0x5E && chance.one_in(seldom) {
            loose.extend([0x7D, byte ^ 0x20]);
        } else {
            loose.push(byte);
        }
        escaped = !escaped && byte == 0x7D;
    }
    loose
}

/// A frame in which noise has changed the byte after a 7Dh, where there is one.
fn noisy_escape(chance: &mut Chance, line: &mut [u8]) {
    if let Some(at) = line.iter().position(|&b| b == 0x7D) {
        line[at + 1] = if chance.one_in(2) { line[at + 1] ^ (1 << chance.below(8)) } else { byte(chance) };
    }
}

/// Damage as a cable does it, to one place or two.
fn damage(chance: &mut Chance, line: &mut Vec<u8>) {
    for _ in 0..1 + chance.below(2) {
        if line.is_empty() {
            return;
        }
        let at = chance.below(line.len());
        match chance.below(7) {
            0 => line[at] ^= 1 << chance.below(8),
            1 => line[at] = byte(chance),
            2 => {
                line.remove(at);
            }
            3 => line.insert(at, byte(chance)),
            4 => line.truncate(at),
            5 => line.swap(at, at / 2),
            _ => line.swap(at.saturating_sub(1), at),
        }
    }
}

/// A length byte, and bytes that may be more or fewer than it says.
fn with_another_length(chance: &mut Chance, framing: Framing) -> Vec<u8> {
    let length = chance.of(&[0, 1, 17, 18, 19, 20, 124, 125, 126, 127, 254, 255]);
    let some = match chance.below(4) {
        0 => usize::from(length) + chance.below(6),
        _ => chance.below(24),
    };
    let mut line = vec![start(framing)];
    line.extend(coded(framing, &[length]));
    line.extend(coded(framing, &bytes(chance, some)));
    line
}

/// A piece of a stream: good, bad, long, damaged, or no frame at all.
pub fn piece(chance: &mut Chance, framing: Framing) -> Vec<u8> {
    let message = good_or_long(chance);
    match chance.below(13) {
        0..=2 => frame(framing, &message),
        3 => loosely_escaped(chance, framing, &message),
        4 | 5 => frame(framing, &doubtful_message(chance)),
        6 | 7 => {
            let mut line = frame(framing, &message);
            damage(chance, &mut line);
            line
        }
        8 => {
            // the last byte changed: the stop in ASCII, a sum in binary
            let mut line = frame(framing, &message);
            *line.last_mut().expect("a frame has bytes") = byte(chance);
            line
        }
        9 => with_another_length(chance, framing),
        10 => {
            let length = chance.below(30);
            bytes(chance, length)
        }
        11 => {
            let mut line = frame(framing, &message);
            noisy_escape(chance, &mut line);
            line
        }
        _ => vec![start(framing); 1 + chance.below(3)],
    }
}

pub fn stream(chance: &mut Chance, framing: Framing, pieces: usize) -> Vec<u8> {
    (0..pieces).flat_map(|_| piece(chance, framing)).collect()
}

/// Up to 64 KiB in which no frame starts.
pub fn long_noise(chance: &mut Chance, framing: Framing) -> Vec<u8> {
    let length = chance.below(1 << 16);
    let noise = bytes(chance, length);
    noise.iter().map(|&b| if b == start(framing) { 0 } else { b }).collect()
}

/// How many bytes a reader says that it holds: often about as many as its length allows, at times so many
/// that only their low byte is.
fn held(chance: &mut Chance, length: u16) -> u16 {
    let around = length + chance.below(6) as u16;
    match chance.below(6) {
        0 => 0,
        1 => chance.of(&[1, 2, 20, 21, 22, 255, 256, 257, 258, 259, 256 + around, 512 + around, 65_535]),
        2 | 3 => around,
        4 => chance.below(LONGEST_KNOWN + 4) as u16,
        _ => chance.below(LONGEST + 4) as u16,
    }
}

/// Any reader at all, most of them near the edge of soundness.
pub fn reader(chance: &mut Chance) -> Reader {
    let framing = chance.framing();
    let length = match chance.below(4) {
        0 => chance.of(&[0, 1, 18, 19, 125, 126, 127, 253, 254, 255]),
        1 => chance.byte(),
        _ => 1 + chance.below(LONGEST_KNOWN) as u8,
    };
    let held = held(chance, u16::from(length));
    let mode = match chance.below(12) {
        0 => chance.byte(),
        1 => DIGIT_PENDING + 1,
        _ => chance.below(4) as u8,
    };
    let digit = match chance.below(4) {
        0 => chance.of(&[15, 16, 255]),
        1 => chance.byte(),
        _ => chance.below(16) as u8,
    };
    let mut held_bytes = [0; LONGEST + 3];
    held_bytes.iter_mut().for_each(|b| *b = byte(chance));
    held_bytes[0] = length;
    let (framing, escapes) = (chance.framing_number(framing), chance.escapes_number());
    Reader { framing, mode, digit, held, bytes: held_bytes, escapes }
}

/// A sound reader in the middle of a good or a long frame, and the rest of that frame.
pub fn reader_and_rest(chance: &mut Chance) -> (Reader, Vec<u8>) {
    let framing = chance.framing();
    let message = if chance.one_in(4) { long_message(chance) } else { some_good_message(chance) };
    let line = frame(framing, &message);
    let at = 1 + chance.below(line.len() - 1);
    let fresh = Reader::fresh(u8::from(framing == Ascii), chance.escapes());
    (crate::reader::read(&fresh, &line[..at]).reader, line[at..].to_vec())
}

/// A table: any bytes, or mostly zero, or few zones heard.
pub fn table(chance: &mut Chance) -> Vec<u8> {
    let mut table = vec![0; TABLE_BYTES];
    let dense = chance.below(4);
    for byte in &mut table {
        *byte = match dense {
            0 => 0,
            1 if !chance.one_in(20) => 0,
            _ => chance.byte(),
        };
    }
    if dense == 3 {
        // whole groups unheard
        for group in 0..16 {
            let heard = chance.below(4);
            for zone in 16 * group..16 * group + 16 {
                match heard {
                    0 => table[8 * zone] &= 0xFE,
                    1 => table[8 * zone] |= 1,
                    _ => {}
                }
            }
        }
    }
    table
}

/// A buffer whose length is not a table's.
pub fn no_table(chance: &mut Chance) -> Vec<u8> {
    let length = chance.of(&[0, 1, 12, 1812, 2120, TABLE_BYTES - 1, TABLE_BYTES + 1, 2 * TABLE_BYTES]);
    bytes(chance, length)
}

/// A binary capture of about so many bytes: frames, most of them good, among them those of a table.
pub fn capture(chance: &mut Chance, length: usize) -> Vec<u8> {
    let mut capture = Vec::new();
    while capture.len() < length {
        if chance.one_in(2) {
            capture.extend(frame(Binary, &table_message(chance)));
        } else {
            capture.extend(piece(chance, Binary));
        }
    }
    capture.truncate(length);
    capture
}
