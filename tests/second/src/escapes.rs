//! The trials of the two rules of escapes (document 02, No. 5). Those that a planted fault must not pass are
//! written for anything that is asked, so that the self tests can ask a faulty library.

use crate::calls::{Answer, Call};
use crate::driver::Calls;
use crate::long::in_parts;
use crate::made::{self, Chance};
use crate::messages::LONGEST;
use crate::parts::{coded, frame, start, summed, Ascii, Binary, Escapes, Strict, RULES};
use crate::reader::{Reader, Reading, AFTER_7D, DIGIT_PENDING, IN_FRAME};
use crate::table::TABLE_BYTES;
use crate::trials::number;

/// The shortest message; card 4's, with a 7Eh in it and a 7Dh for its first sum; the longest of the 41.
pub const SHORTEST: &[u8] = &[0x1D];
pub const CARD_4: &[u8] = &[0x84, 0x09, 0x7E, 0x10, 0x58, 0x00, 0x01, 0x00];
const LONGEST_OF_41: &[u8] = b"\x03\x7DPump room }~ 5]^";

/// Bytes around those that may follow a 7Dh, and some others.
const AROUND: [u8; 10] = [0x00, 0x20, 0x5C, 0x5D, 0x5E, 0x5F, 0x7C, 0x7D, 0x7E, 0xFF];

/// A frame that has a 7Dh and this byte in place of one recovered byte, a good frame behind it; and how many
/// bytes stand up to the 7Dh.
pub fn with_escape(recovered: &[u8], place: usize, byte: u8) -> (Vec<u8>, usize) {
    let before = [&[start(Binary)], &coded(Binary, &recovered[..place])[..], &[0x7D]].concat();
    let after = [&[byte], &coded(Binary, &recovered[place + 1..])[..], &frame(Binary, SHORTEST)].concat();
    ([&before[..], &after].concat(), before.len())
}

/// Such a stream heard uncut, and read with a cut behind the 7Dh, each from the reader that the one before left.
fn ask_escape(ask: &mut impl FnMut(Call) -> Answer, recovered: &[u8], place: usize, byte: u8) {
    let (stream, cut) = with_escape(recovered, place, byte);
    let end = stream.len();
    in_parts(&stream, &[end], |bytes| ask(Call::Hear { with: None, bytes: bytes.to_vec() }));
    in_parts(&stream, &[cut, end], |bytes| ask(Call::Read { reader: None, bytes: bytes.to_vec() }));
}

fn ask_fresh(ask: &mut impl FnMut(Call) -> Answer, escapes: Escapes) {
    ask(Call::LendTable { table: vec![0; TABLE_BYTES] });
    ask(Call::Fresh { framing: number(Binary), escapes });
}

/// Every byte after a 7Dh at every place of a message's frame, the length's and the sums' too, under both rules.
pub fn ask_every_byte(ask: &mut impl FnMut(Call) -> Answer, message: &[u8]) {
    let recovered = summed(message);
    for escapes in RULES {
        ask_fresh(ask, escapes);
        for place in 0..recovered.len() {
            (0..=255).for_each(|byte| ask_escape(ask, &recovered, place, byte));
        }
        ask(Call::Show { length: TABLE_BYTES });
    }
}

/// Both constructors with every number of a framing, and what their readers make of an escape that was not
/// needed.
pub fn ask_constructors(ask: &mut impl FnMut(Call) -> Answer) {
    for (escapes, framing) in RULES.iter().flat_map(|&e| (0..=255).map(move |framing| (e, framing))) {
        ask(Call::Fresh { framing, escapes });
        ask(Call::Read { reader: None, bytes: vec![0x7E, 0x7D, 0x21, 0x1D, 0x1E, 0x1F] });
        ask(Call::Read { reader: None, bytes: b"\n011D1E1F\r".to_vec() });
    }
}

/// Readers in which the rule has this number: fresh, in a frame, after a 7Dh, with a digit pending; refused for
/// what they hold, and for their mode.
fn readers(escapes: u8) -> Vec<Reader> {
    let fresh = |framing| Reader { escapes, ..Reader::fresh(number(framing), Strict) };
    let mut bytes = [0; LONGEST + 3];
    bytes[..4].copy_from_slice(&[1, 0x1D, 0x1E, 0x1F]);
    let holding = |framing, mode, held| Reader { mode, held, bytes, ..fresh(framing) };
    vec![
        fresh(Binary),
        fresh(Ascii),
        holding(Binary, IN_FRAME, 2),
        holding(Binary, AFTER_7D, 0),
        holding(Binary, AFTER_7D, 3),
        holding(Ascii, DIGIT_PENDING, 2),
        holding(Ascii, IN_FRAME, 4),
        holding(Binary, IN_FRAME, 4),
        holding(Ascii, DIGIT_PENDING + 1, 0),
    ]
}

/// Every number of the rule in readers of each kind: step, read and hear hand it back, refused or not.
pub fn ask_every_number(ask: &mut impl FnMut(Call) -> Answer) {
    for reader in (0..=255).flat_map(readers) {
        for byte in [0x0A, 0x3F, 0x5E, 0x7E] {
            ask(Call::Step { reader: Some(reader.clone()), byte });
        }
        let bytes = vec![0x7D, 0x5F, 0x7E, 0x7D];
        ask(Call::Read { reader: Some(reader.clone()), bytes: vec![] });
        ask(Call::Read { reader: Some(reader.clone()), bytes: bytes.clone() });
        ask(Call::Hear { with: Some((reader.clone(), vec![0; TABLE_BYTES])), bytes: bytes.clone() });
        ask(Call::Hear { with: Some((reader, vec![0; 1])), bytes });
    }
}

/// The reply to 15, whatever type byte is handed in with it.
pub fn ask_replies(ask: &mut impl FnMut(Call) -> Answer) {
    (0..=255).for_each(|type_byte| drop(ask(Call::Reply { verdict: 15, type_byte })));
}

pub fn constructors(_: &mut Chance, calls: &mut Calls, _: u64) {
    ask_constructors(&mut |call| calls.call(call));
}

pub fn every_byte(_: &mut Chance, calls: &mut Calls, _: u64) {
    for message in [SHORTEST, CARD_4, LONGEST_OF_41] {
        ask_every_byte(&mut |call| calls.call(call), message);
    }
}

pub fn every_number(_: &mut Chance, calls: &mut Calls, _: u64) {
    ask_every_number(&mut |call| calls.call(call));
}

/// Unknown messages, one whose length is escaped and a longest one: the bytes around those that may follow a 7Dh,
/// at every place, and the one that makes the byte that was there.
pub fn long_frames(chance: &mut Chance, calls: &mut Calls, _: u64) {
    for length in [126, LONGEST] {
        let mut message = made::bytes(chance, length);
        message[0] = 0x22;
        let recovered = summed(&message);
        for escapes in RULES {
            ask_fresh(&mut |call| calls.call(call), escapes);
            for place in 0..recovered.len() {
                for byte in AROUND.into_iter().chain([recovered[place] ^ 0x20]) {
                    ask_escape(&mut |call| calls.call(call), &recovered, place, byte);
                }
            }
        }
    }
}

/// Readers after a 7Dh, by each framing and several numbers of a rule, that hold none or some of a frame or all
/// but its last byte: every byte.
pub fn after_7d(chance: &mut Chance, calls: &mut Calls, _: u64) {
    for length in [1, 2, 18, 126, LONGEST] {
        let mut bytes = [0; LONGEST + 3];
        let recovered = summed(&made::bytes(chance, length));
        bytes[..length + 3].copy_from_slice(&recovered);
        for held in [0, 1, length as u16, length as u16 + 1, length as u16 + 2] {
            for (framing, escapes) in [(0, 0), (0, 1), (0, 2), (0, 255), (1, 0)] {
                let reader = Reader { framing, mode: AFTER_7D, digit: 0, held, bytes, escapes };
                for byte in 0..=255 {
                    calls.call(Call::Step { reader: Some(reader.clone()), byte });
                }
            }
        }
    }
}

/// A good message is read from its frame, with escapes that were needed or not, and written again.
pub fn round_trips(chance: &mut Chance, calls: &mut Calls, _: u64) {
    for k in 0..3_000 {
        let framing = [Binary, Binary, Ascii][k % 3];
        let message = made::some_good_message(chance);
        let line = match k % 2 {
            0 => frame(framing, &message),
            _ => made::loosely_escaped(chance, framing, &message),
        };
        for escapes in RULES {
            let reader = Some(Reader::fresh(number(framing), escapes));
            let read = calls.call(Call::Read { reader, bytes: line.clone() });
            if let Answer::Reading(Reading { verdict: 0, length, message, .. }) = read {
                let (message, out) = (message[..usize::from(length)].to_vec(), vec![0x5A; line.len()]);
                calls.call(Call::Write { message, framing: number(framing), out, place: 0 });
            }
        }
    }
}
