//! The trials of frames and messages of every length (document 02, No. 2).

use crate::calls::{Answer, Call};
use crate::driver::Calls;
use crate::lines;
use crate::made::{self, Chance};
use crate::messages::{length_of, LENGTHS, LONGEST};
use crate::parts::{coded, frame, framed, start, summed, Ascii, Binary, Framing, RULES};
use crate::reader::{Reader, NONE};
use crate::trials::{all_ways, fresh_table, number, show_table, FRAMINGS, FRAMINGS_AND_RULES};

/// What a made frame is: well-formed, or with one thing wrong.
#[derive(Clone, Copy)]
enum Kind {
    Unknown,
    Known,
    WrongSum,
    /// The length byte is escaped where it need not be.
    EscapedLength,
    /// A byte behind the length is.
    EscapedByte,
    NoDigit,
    NoStop,
    CutShort,
}

fn kinds(framing: Framing) -> &'static [Kind] {
    match framing {
        Binary => &[
            Kind::Unknown,
            Kind::Known,
            Kind::WrongSum,
            Kind::EscapedLength,
            Kind::EscapedByte,
            Kind::CutShort,
        ],
        Ascii => &[Kind::Unknown, Kind::Known, Kind::WrongSum, Kind::NoDigit, Kind::NoStop, Kind::CutShort],
    }
}

/// Lengths of which a frame of each kind is cut at every place.
fn is_telling(length: usize) -> bool {
    matches!(length, 1 | 2 | 17..=20 | 124..=127 | 253..=255)
}

/// A type byte of no number: one that there is not, bit 6 set, or both.
fn unknown(chance: &mut Chance) -> u8 {
    loop {
        let type_byte = match chance.below(3) {
            0 => chance.of(&[0x22, 0xA2]),
            1 => chance.of(&LENGTHS).0 | chance.of(&[0x40, 0xC0]),
            _ => made::byte(chance),
        };
        if length_of(type_byte).is_none() {
            return type_byte;
        }
    }
}

/// A type byte whose number asks for another length.
fn known(chance: &mut Chance, length: usize) -> u8 {
    loop {
        let (number, own) = chance.of(&LENGTHS);
        if own != length {
            return number | chance.of(&[0, 0x80]);
        }
    }
}

fn message(chance: &mut Chance, length: usize, type_byte: u8) -> Vec<u8> {
    let mut message = made::bytes(chance, length);
    message.iter_mut().take(1).for_each(|byte| *byte = type_byte);
    message
}

fn with_wrong_sum(chance: &mut Chance, framing: Framing, message: &[u8]) -> Vec<u8> {
    let mut bytes = summed(message);
    let place = bytes.len() - 1 - chance.below(2);
    bytes[place] ^= 1 + chance.below(255) as u8;
    framed(framing, &bytes)
}

/// In binary. A length that is then a start byte stays as it is.
fn with_escaped_length(line: &[u8]) -> Vec<u8> {
    if line[1] == 0x7D || line[1] ^ 0x20 == start(Binary) {
        return line.to_vec();
    }
    [&[line[0], 0x7D, line[1] ^ 0x20], &line[2..]].concat()
}

/// In binary, with any byte behind the length so escaped.
fn with_escaped_byte(chance: &mut Chance, message: &[u8]) -> Vec<u8> {
    let bytes = summed(message);
    loop {
        let place = 1 + chance.below(bytes.len() - 1);
        if !matches!(bytes[place], 0x5E | 0x7D | 0x7E) {
            let (before, after) = (coded(Binary, &bytes[..place]), coded(Binary, &bytes[place + 1..]));
            return [&[start(Binary)], &before[..], &[0x7D, bytes[place] ^ 0x20], &after].concat();
        }
    }
}

/// In ASCII: with a character behind the length's two that is no digit and no start.
fn with_no_digit(chance: &mut Chance, line: &mut [u8]) {
    let place = 3 + chance.below(line.len() - 4);
    line[place] = chance.of(b"\r/:@G`ag \x00\x7E\xFF");
}

/// The kind's frame of a length, with what follows it where that gives the verdict.
fn line(chance: &mut Chance, framing: Framing, length: usize, kind: Kind) -> Vec<u8> {
    let type_byte = match kind {
        Kind::Known => known(chance, length),
        _ => unknown(chance),
    };
    let message = message(chance, length, type_byte);
    let mut line = frame(framing, &message);
    match kind {
        Kind::Unknown | Kind::Known => {}
        Kind::WrongSum => line = with_wrong_sum(chance, framing, &message),
        Kind::EscapedLength => line = with_escaped_length(&line),
        Kind::EscapedByte => line = with_escaped_byte(chance, &message),
        Kind::NoDigit => with_no_digit(chance, &mut line),
        Kind::NoStop => line[2 * length + 7] = chance.of(b"\x0B0F\x00\x7E\xFF"),
        Kind::CutShort => {
            line.truncate(3 + chance.below(line.len() - 3));
            line.extend(frame(framing, &made::some_good_message(chance)));
        }
    }
    line
}

/// Hands a stream to calls in parts that end at these places; what a call leaves is handed in again.
pub fn in_parts(stream: &[u8], ends: &[usize], mut call: impl FnMut(&[u8]) -> Answer) {
    let mut at = 0;
    for &end in ends {
        while let Answer::Reading(reading) | Answer::Hearing { reading, .. } = call(&stream[at..end]) {
            at += reading.used as usize;
            if reading.verdict == NONE || at == end {
                break;
            }
        }
    }
}

fn read_kept(calls: &mut Calls, bytes: &[u8]) -> Answer {
    calls.call(Call::Read { reader: None, bytes: bytes.to_vec() })
}

fn hear_kept(calls: &mut Calls, bytes: &[u8]) -> Answer {
    calls.call(Call::Hear { with: None, bytes: bytes.to_vec() })
}

/// Each kind's frame of every length, read from a fresh reader, and heard with a good one behind it: the table
/// has what the good one says and nothing of the other. Under both rules of escapes.
pub fn every_length(chance: &mut Chance, calls: &mut Calls, _: u64) {
    fresh_table(calls);
    for (framing, escapes) in FRAMINGS_AND_RULES {
        calls.call(Call::Fresh { framing: number(framing), escapes });
        for length in 1..=LONGEST {
            for &kind in kinds(framing) {
                let mut stream = line(chance, framing, length, kind);
                let reader = Some(Reader::fresh(chance.framing_number(framing), escapes));
                calls.call(Call::Read { reader, bytes: stream.clone() });
                stream.extend(frame(framing, &made::table_message(chance)));
                in_parts(&stream, &[stream.len()], |bytes| hear_kept(calls, bytes));
            }
            show_table(calls);
        }
    }
}

/// A frame of every length, byte by byte: an unknown message is heard, and the kinds take turns to be
/// stepped. Of the telling lengths a frame of each kind is heard and stepped.
pub fn byte_by_byte(chance: &mut Chance, calls: &mut Calls, _: u64) {
    fresh_table(calls);
    for framing in FRAMINGS {
        let kinds = kinds(framing);
        for length in 1..=LONGEST {
            for k in 0..if is_telling(length) { kinds.len() } else { 1 } {
                calls.call(Call::Fresh { framing: number(framing), escapes: chance.escapes() });
                for byte in line(chance, framing, length, kinds[(length + k) % kinds.len()]) {
                    calls.call(Call::Step { reader: None, byte });
                }
                for byte in line(chance, framing, length, kinds[k]) {
                    hear_kept(calls, &[byte]);
                }
            }
        }
        show_table(calls);
    }
}

/// An unknown message's frame of every length, cut in two at every place, from a fresh reader each time.
pub fn cut_in_two(chance: &mut Chance, calls: &mut Calls, _: u64) {
    for framing in FRAMINGS {
        for length in 1..=LONGEST {
            let line = line(chance, framing, length, Kind::Unknown);
            for cut in 0..=line.len() {
                calls.call(Call::Fresh { framing: number(framing), escapes: RULES[cut % 2] });
                in_parts(&line, &[cut, line.len()], |bytes| read_kept(calls, bytes));
            }
        }
    }
}

/// Frames of every kind and length, cut in two, from the reader that the frame before has left: the kinds take
/// turns in being cut at every place, and the rules of escapes from length to length. Of the telling lengths
/// each kind's frame is cut at every place.
pub fn kinds_cut_in_two(chance: &mut Chance, calls: &mut Calls, _: u64) {
    for framing in FRAMINGS {
        let kinds = kinds(framing);
        for length in 1..=LONGEST {
            calls.call(Call::Fresh { framing: number(framing), escapes: RULES[length % 2] });
            for (k, &kind) in kinds.iter().enumerate() {
                let line = line(chance, framing, length, kind);
                let is_turn = |cut: usize| is_telling(length) || cut % kinds.len() == k;
                for cut in (0..=line.len()).filter(|&cut| is_turn(cut)) {
                    in_parts(&line, &[cut, line.len()], |bytes| read_kept(calls, bytes));
                }
            }
        }
    }
}

/// A frame of each telling length that is broken off at every place, by a start and a good frame; under both
/// rules of escapes.
pub fn broken_off(chance: &mut Chance, calls: &mut Calls, _: u64) {
    fresh_table(calls);
    for (framing, escapes) in FRAMINGS_AND_RULES {
        for length in (1..=LONGEST).filter(|&length| is_telling(length)) {
            calls.call(Call::Fresh { framing: number(framing), escapes });
            let line = line(chance, framing, length, Kind::Unknown);
            for end in 1..line.len() {
                let good = frame(framing, &made::table_message(chance));
                let stream = [&line[..end], &good].concat();
                let first = end + chance.below(3);
                in_parts(&stream, &[first, stream.len()], |bytes| hear_kept(calls, bytes));
            }
        }
        show_table(calls);
    }
}

/// Every escape at the length's place: a 7Dh, then any byte, and as many bytes as it then says.
pub fn escaped_lengths(chance: &mut Chance, calls: &mut Calls, _: u64) {
    for (escapes, byte) in RULES.iter().flat_map(|&e| (0..=255).map(move |byte| (e, byte))) {
        calls.call(Call::Fresh { framing: number(Binary), escapes });
        let message = message(chance, usize::from(byte ^ 0x20), 0x22);
        let stream = [&[start(Binary), 0x7D, byte], &coded(Binary, &summed(&message)[1..])[..]].concat();
        for cut in 0..4 {
            in_parts(&stream, &[cut, stream.len()], |bytes| read_kept(calls, bytes));
        }
    }
}

/// Type bytes of each sort: unknown, known, flag set, bit 6 set, and such as are escaped.
const TYPES: [u8; 16] =
    [0x00, 0x02, 0x03, 0x04, 0x1D, 0x22, 0x3F, 0x44, 0x5D, 0x7D, 0x7E, 0x84, 0x9D, 0xA2, 0xC4, 0xFF];

/// Some type bytes at every length through the writer, the reader, the table and the line of commands.
pub fn message_lengths(chance: &mut Chance, calls: &mut Calls, _: u64) {
    fresh_table(calls);
    for type_byte in TYPES {
        for length in 0..=LONGEST + 2 {
            let message = message(chance, length, type_byte);
            FRAMINGS.iter().for_each(|&framing| all_ways(calls, framing, &message));
            lines::take_and_told(chance, calls, length, &message);
        }
    }
    show_table(calls);
}

/// Good messages with so many bytes behind them that their length in 8 or 16 bits is the right one again.
pub fn lengths_that_wrap(chance: &mut Chance, calls: &mut Calls, _: u64) {
    fresh_table(calls);
    for (number, length) in LENGTHS {
        for more in [256, 512, 65_280, 65_536, 65_792] {
            let mut message = made::good_message(chance, number);
            message.resize(length + more, 0);
            FRAMINGS.iter().for_each(|&framing| {
                let (framing, out) = (self::number(framing), vec![0x5A; 44]);
                calls.call(Call::Write { message: message.clone(), framing, out, place: 0 });
            });
            calls.call(Call::Apply { table: None, message: message.clone() });
            lines::take_and_told(chance, calls, length, &message);
        }
    }
    show_table(calls);
}
