//! Sums, the 41 messages and their checked values (document 01, "Sum" and "The 41 messages").

/// The longest message that is read, its type byte included (document 02, No. 2).
pub const LONGEST: usize = 255;
/// The longest of the 41, and so the longest that is written.
pub const LONGEST_KNOWN: usize = 18;

/// Each number that is recognised, with the length of its message.
pub const LENGTHS: [(u8, usize); 41] = [
    (0x01, 11),
    (0x03, 18),
    (0x04, 8),
    (0x05, 10),
    (0x06, 9),
    (0x07, 9),
    (0x08, 12),
    (0x09, 4),
    (0x0A, 10),
    (0x0B, 3),
    (0x10, 13),
    (0x12, 7),
    (0x1C, 1),
    (0x1D, 1),
    (0x1E, 1),
    (0x1F, 1),
    (0x21, 1),
    (0x23, 2),
    (0x24, 2),
    (0x25, 2),
    (0x26, 2),
    (0x27, 1),
    (0x28, 1),
    (0x29, 4),
    (0x2A, 2),
    (0x2B, 12),
    (0x2C, 3),
    (0x30, 4),
    (0x31, 13),
    (0x32, 5),
    (0x33, 2),
    (0x34, 8),
    (0x35, 5),
    (0x36, 7),
    (0x37, 4),
    (0x3A, 6),
    (0x3B, 7),
    (0x3C, 6),
    (0x3D, 4),
    (0x3E, 3),
    (0x3F, 2),
];

/// The values that a checked byte may have.
pub enum Allowed {
    UpTo(u8),
    Between(u8, u8),
    /// The bits under the mask are exactly these.
    Bits {
        mask: u8,
        are: u8,
    },
    OneOf(&'static [u8]),
}

use Allowed::{Between, Bits, OneOf, UpTo};

/// The X-10 functions for which the unit counts.
const FOR_A_UNIT: [u8; 4] = [0x28, 0x38, 0x48, 0x58];
const X10_FUNCTIONS: [u8; 7] = [0x08, 0x18, 0x28, 0x38, 0x48, 0x58, 0x68];

impl Allowed {
    pub fn has(&self, value: u8) -> bool {
        match *self {
            UpTo(most) => value <= most,
            Between(least, most) => least <= value && value <= most,
            Bits { mask, are } => value & mask == are,
            OneOf(values) => values.contains(&value),
        }
    }
}

/// The checked bytes of a number, as document 003 counts them from 1. The X-10 unit is checked apart,
/// since it depends on the function.
pub fn checked_bytes(number: u8) -> &'static [(usize, Allowed)] {
    match number {
        0x05 | 0x25 => &[(2, UpTo(240))],
        0x06 | 0x26 => &[(2, UpTo(7))],
        0x09 | 0x29 => &[(2, UpTo(15)), (4, OneOf(&X10_FUNCTIONS))],
        0x0B => &[(3, UpTo(0x15))],
        0x2B => &[(3, UpTo(0))],
        0x10 => &[(3, Bits { mask: 0b1010_0000, are: 0 })],
        0x30 => &[(3, Bits { mask: 0b1011_0000, are: 0 })],
        0x31 => &[(3, Bits { mask: 0b1010_0000, are: 0b0010_0000 })],
        0x3B => &[
            (2, UpTo(99)),
            (3, Between(1, 12)),
            (4, Between(1, 31)),
            (5, UpTo(23)),
            (6, UpTo(59)),
            (7, Between(1, 7)),
        ],
        0x3C => &[(5, UpTo(7))],
        0x3D => &[(2, UpTo(7))],
        0x3E => &[(2, UpTo(0x0F))],
        _ => &[],
    }
}

/// Whether an X-10 function counts units.
pub fn is_for_a_unit(function: u8) -> bool {
    FOR_A_UNIT.contains(&function)
}

fn values_are_good(number: u8, message: &[u8]) -> bool {
    let unit_is_good = match number {
        0x09 | 0x29 => message[2] <= 15 || !is_for_a_unit(message[3]),
        _ => true,
    };
    unit_is_good && checked_bytes(number).iter().all(|(byte, allowed)| allowed.has(message[byte - 1]))
}

/// The message number of a type byte; none where bit 6 is set.
pub fn number_of(type_byte: u8) -> Option<u8> {
    if type_byte & 0x40 == 0 {
        Some(type_byte & 0x3F)
    } else {
        None
    }
}

/// The length that a type byte's number asks for; none where it is unrecognised.
pub fn length_of(type_byte: u8) -> Option<usize> {
    let number = number_of(type_byte)?;
    LENGTHS.iter().find(|row| row.0 == number).map(|row| row.1)
}

/// The verdict of bytes as a message: 4, 6, 7, 8 in this order, or 0.
pub fn verdict_of(message: &[u8]) -> u8 {
    if message.is_empty() || message.len() > LONGEST {
        return 4;
    }
    match length_of(message[0]) {
        None => 6,
        Some(length) if length != message.len() => 7,
        Some(_) if !values_are_good(message[0] & 0x3F, message) => 8,
        Some(_) => 0,
    }
}

/// Sum 1 and sum 2: plain totals, of the bytes and of all the sum 1s, remainders by 255.
pub fn sums(bytes: &[u8]) -> (u8, u8) {
    let totals: Vec<u64> =
        (1..=bytes.len()).map(|end| bytes[..end].iter().map(|&b| u64::from(b)).sum::<u64>() % 255).collect();
    let sum1 = totals.last().copied().unwrap_or(0);
    let sum2 = totals.iter().sum::<u64>() % 255;
    (sum1 as u8, sum2 as u8)
}

/// Document 003's pseudo-code for the same, in eight bits: only the self tests use it.
pub fn sums_in_eight_bits(bytes: &[u8]) -> (u8, u8) {
    let added = |sum: u8, byte: u8| {
        let mut sum = sum;
        if 255 - sum < byte {
            sum = sum.wrapping_add(1);
        }
        sum = sum.wrapping_add(byte);
        if sum == 255 {
            0
        } else {
            sum
        }
    };
    bytes.iter().fold((0, 0), |(sum1, sum2), &byte| {
        let sum1 = added(sum1, byte);
        (sum1, added(sum2, sum1))
    })
}
