//! Made logs: sound ones, whatever stands beyond the used bytes, and such with one thing wrong.

use crate::calls::LentLog;
use crate::log::{is_kept, record, KEPT};
use crate::made::{self, Chance};
use crate::messages::{length_of, LENGTHS, LONGEST_KNOWN};

/// The one thing that is wrong with a log.
#[derive(Clone, Copy, Debug, PartialEq)]
pub enum Wrong {
    Nothing,
    TrailerZero,
    TrailerBeyond,
    TrailerOther,
    TrailerOfTwo,
    TrailerOfHalf,
    NoTrailer,
    EmptyRecord,
    ByteBetween,
    CutAtTheEnd,
    CutAtTheBeginning,
    Unrecognised,
    BitSix,
    OtherLength,
    BadOffset,
    BadPartition,
    NotKept,
}

pub const WRONGS: [(Wrong, &str); 17] = [
    (Wrong::Nothing, "nothing"),
    (Wrong::TrailerZero, "a trailer of 0"),
    (Wrong::TrailerBeyond, "a trailer that reaches beyond the beginning"),
    (Wrong::TrailerOther, "another trailer"),
    (Wrong::TrailerOfTwo, "a trailer over two records, which lands"),
    (Wrong::TrailerOfHalf, "a trailer of half a record, which lands"),
    (Wrong::NoTrailer, "a record without its trailer"),
    (Wrong::EmptyRecord, "a record of no message, which lands"),
    (Wrong::ByteBetween, "a byte more"),
    (Wrong::CutAtTheEnd, "the newest record cut"),
    (Wrong::CutAtTheBeginning, "the oldest record cut"),
    (Wrong::Unrecognised, "an unrecognised number"),
    (Wrong::BitSix, "bit 6"),
    (Wrong::OtherLength, "a length that is not its number's"),
    (Wrong::BadOffset, "an offset above 240"),
    (Wrong::BadPartition, "a partition above 7"),
    (Wrong::NotKept, "a good message that is not kept"),
];

/// How many bytes a record of this number has, its trailer included.
pub fn record_length(number: u8) -> usize {
    length_of(number).expect("one of the 41") + 1
}

/// Messages to keep that hold what looks like a record of 04h: two at their end, before the trailer, one before
/// that.
pub fn messages_with_records(chance: &mut Chance) -> [Vec<u8>; 3] {
    // behind a 05h its type byte, with the flag or without, is a good offset
    let inner = record(&made::good_message(chance, 0x04));
    [
        [&[0x05][..], &inner].concat(),
        [&[0x08, chance.byte(), chance.byte()][..], &inner].concat(),
        [&[0x08][..], &inner, &[chance.byte(), chance.byte()]].concat(),
    ]
}

/// A message to keep, at times one that holds what looks like a record.
pub fn message(chance: &mut Chance) -> Vec<u8> {
    if chance.one_in(16) {
        let which = chance.below(3);
        let mut message = messages_with_records(chance)[which].clone();
        message[0] |= chance.of(&[0, 0x80]);
        return message;
    }
    made::table_message(chance)
}

/// So many records, the oldest first.
pub fn records(chance: &mut Chance, count: usize) -> Vec<Vec<u8>> {
    (0..count).map(|_| record(&message(chance))).collect()
}

/// Kept numbers whose records have so many bytes together; none where there are none.
fn fitted(chance: &mut Chance, bytes: usize) -> Option<Vec<u8>> {
    if bytes == 0 {
        return Some(Vec::new());
    }
    let first = chance.below(KEPT.len());
    (0..KEPT.len()).map(|k| KEPT[(first + k) % KEPT.len()]).find_map(|number| {
        let mut numbers = fitted(chance, bytes.checked_sub(record_length(number))?)?;
        numbers.push(number);
        Some(numbers)
    })
}

/// The same of more bytes. From 26 on there are always some, so only the last ones are sought.
pub fn numbers_of(chance: &mut Chance, bytes: usize) -> Option<Vec<u8>> {
    let (mut numbers, mut rest) = (Vec::new(), bytes);
    while rest > 60 {
        numbers.push(chance.of(&KEPT));
        rest -= numbers.last().map_or(0, |&number| record_length(number));
    }
    numbers.extend(fitted(chance, rest)?);
    Some(numbers)
}

/// A sound log of so many bytes; none where no records have as many.
pub fn filled(chance: &mut Chance, bytes: usize) -> Option<Vec<u8>> {
    let numbers = numbers_of(chance, bytes)?;
    Some(numbers.into_iter().flat_map(|number| record(&made::good_message(chance, number))).collect())
}

/// A log of so many bytes in which few records, or the oldest alone, are about a zone.
pub fn sparse(chance: &mut Chance, bytes: usize) -> Vec<u8> {
    let first = chance.of(&[0x04, 0x05]);
    let mut log = record(&made::good_message(chance, first));
    let seldom = chance.of(&[50, 500, 5_000]);
    while log.len() + record_length(0x08) <= bytes {
        let number = if chance.one_in(seldom) { chance.of(&[0x04, 0x05]) } else { chance.of(&[6, 7, 8]) };
        log.extend(record(&made::good_message(chance, number)));
    }
    log
}

/// Lends a log with anything beyond it: nothing, any bytes, zeros, or more records.
pub fn lent(chance: &mut Chance, log: &[u8], wrong: Option<Wrong>) -> LentLog {
    let more = chance.below(30);
    let beyond = match chance.below(4) {
        0 => Vec::new(),
        1 => made::bytes(chance, more),
        2 => vec![0; more],
        _ => records(chance, 3).concat(),
    };
    LentLog { bytes: Some([log, &beyond].concat()), used: log.len() as u64, wrong }
}

/// A length that a record does not have: mostly about as many bytes as the 41 have.
fn other_length(chance: &mut Chance, length: usize) -> usize {
    loop {
        let other = match chance.below(4) {
            0 => chance.of(&[length - 1, length + 1]),
            1 => 1 + chance.below(255),
            _ => 1 + chance.below(LONGEST_KNOWN),
        };
        if other != length {
            return other;
        }
    }
}

fn not_kept(chance: &mut Chance) -> Vec<u8> {
    loop {
        let message = made::some_good_message(chance);
        if !is_kept(message[0]) {
            return message;
        }
    }
}

fn unrecognised(chance: &mut Chance) -> u8 {
    loop {
        let type_byte = chance.byte() & 0xBF;
        if length_of(type_byte).is_none() {
            return type_byte;
        }
    }
}

/// So many bytes that are a good message, where one of the 41 has as many.
fn good_of(chance: &mut Chance, length: usize) -> Option<Vec<u8>> {
    let numbers: Vec<u8> = LENGTHS.iter().filter(|row| row.1 == length).map(|row| row.0).collect();
    if numbers.is_empty() {
        return None;
    }
    let number = chance.of(&numbers);
    Some(made::good_message(chance, number))
}

/// A record as two: a byte within the message is the trailer of what is before it, and the last one of what is
/// behind. Either half is a good message where one is so long; both are never of kept numbers.
fn halved(chance: &mut Chance, record: &mut [u8]) {
    let length = record.len() - 1;
    let first = 1 + chance.below(length - 2);
    let second = length - first - 1;
    let halves = [good_of(chance, first), good_of(chance, second)];
    for (half, at) in halves.iter().zip([0, first + 1]) {
        if let (Some(message), true) = (half, chance.one_in(2)) {
            record[at..at + message.len()].copy_from_slice(message);
        }
    }
    record[first] = first as u8;
    record[length] = second as u8;
}

fn with_trailer(record: &mut [u8], trailer: usize) {
    *record.last_mut().expect("a record has bytes") = trailer as u8;
}

/// A log of so many records that has this wrong with the one at a place; none where it cannot be.
pub fn with(chance: &mut Chance, count: usize, place: usize, wrong: Wrong) -> Option<Vec<u8>> {
    let mut records = records(chance, count);
    let before = records[..place].concat().len();
    match wrong {
        Wrong::Nothing => {}
        Wrong::EmptyRecord => records.insert(place, vec![0]),
        Wrong::ByteBetween => records.insert(place, vec![1 + chance.below(255) as u8]),
        Wrong::TrailerOfTwo => {
            let two = before - records[..place.checked_sub(1)?].concat().len();
            let own = records.get(place)?.len() - 1;
            with_trailer(&mut records[place], two + own);
        }
        Wrong::CutAtTheEnd if place + 1 != count => return None,
        Wrong::CutAtTheBeginning if place != 0 => return None,
        _ => spoil(chance, records.get_mut(place)?, before, wrong)?,
    }
    Some(records.concat())
}

/// What is wrong with one record by itself; so many bytes are before it.
fn spoil(chance: &mut Chance, spoiled: &mut Vec<u8>, before: usize, wrong: Wrong) -> Option<()> {
    let length = spoiled.len() - 1;
    match wrong {
        Wrong::TrailerZero => with_trailer(spoiled, 0),
        Wrong::TrailerBeyond => {
            let least = before + length + 1;
            let more = 255usize.checked_sub(least)?;
            with_trailer(spoiled, least + chance.of(&[0, more]));
        }
        Wrong::TrailerOther => with_trailer(spoiled, other_length(chance, length)),
        Wrong::TrailerOfHalf => halved(chance, spoiled),
        Wrong::NoTrailer => spoiled.truncate(length),
        Wrong::CutAtTheEnd => spoiled.truncate(1 + chance.below(length)),
        Wrong::CutAtTheBeginning => drop(spoiled.drain(..1 + chance.below(length))),
        Wrong::Unrecognised => spoiled[0] = unrecognised(chance),
        Wrong::BitSix => spoiled[0] |= 0x40,
        Wrong::OtherLength => {
            spoiled.truncate(length);
            spoiled.resize(other_length(chance, length), 0);
            *spoiled = record(spoiled);
        }
        Wrong::BadOffset | Wrong::BadPartition => {
            let (number, least) = if wrong == Wrong::BadOffset { (0x05, 241) } else { (0x06, 8) };
            *spoiled = record(&made::good_message(chance, number));
            spoiled[1] =
                if chance.one_in(2) { least } else { least + chance.below(256 - usize::from(least)) as u8 };
        }
        Wrong::NotKept => *spoiled = record(&not_kept(chance)),
        _ => {}
    }
    Some(())
}
