//! Faults in the station log (document 02, No. 6), planted one at a time in the second program's own answers: the
//! trials must tell each from the right ones.

use std::ops::Range;

use crate::calls::{Answer, Call, Library, Second};
use crate::log::{is_about, record, Changed, Found, Kept, KEPT, LOG_MOST};
use crate::log_trials::ASKED;
use crate::made::Chance;
use crate::messages::{length_of, verdict_of};
use crate::planted::{differs, note, note_none};
use crate::Tally;

#[derive(Clone, Copy, PartialEq)]
pub enum Fault {
    Nothing,
    // what a record is about
    Covers(u16),
    NotTheOffset,
    ItsGroup(u8),
    About(u8),
    NotAbout(u8),
    ZonesFromOne,
    NotFlagged,
    // which record is handed out, and as what
    OldestFirst,
    BeyondUsed,
    AtOneOff,
    NotTheTrailer,
    NoneAtTheEnd,
    // soundness
    UpToTheFound,
    Unchecked(u8),
    NumbersUnchecked,
    OldestUnchecked,
    NewestUnchecked,
    ZeroPassed,
    LandsBefore,
    EmptyUnsound,
    // the used length
    NotToTheEnd,
    UsedMost(usize),
    UsedBits(u32),
    NoLongBuffer,
    // what is kept, and where
    Kept(u8),
    NotKept(u8),
    BitSix,
    LengthBits,
    FlagCleared,
    FlagSet,
    TrailerMore,
    ByteBehind,
    NoTrailerAdded,
    RoomWithoutTrailer,
    RoomMost(usize),
    RoomOneMore,
    // the order of refusals, and what they leave
    SeventeenBefore16,
    OwnBefore17,
    EighteenBefore8,
    NineBefore18,
    NineBeforeOwn,
    NineBefore17,
    WrittenAt(u8),
    LengthAt9,
    FoundAt17,
}

pub const FAULTS: [(Fault, &str); 56] = [
    (Fault::Covers(15), "05h covers 15 zones"),
    (Fault::Covers(17), "05h covers 17 zones"),
    (Fault::NotTheOffset, "05h covers all but its offset"),
    (Fault::ItsGroup(0x05), "05h covers its offset's group"),
    (Fault::ItsGroup(0x04), "04h is about its zone's group"),
    (Fault::About(0x06), "06h is about a zone"),
    (Fault::About(0x07), "07h is about a zone"),
    (Fault::About(0x08), "08h is about a zone"),
    (Fault::NotAbout(0x04), "04h is about no zone"),
    (Fault::NotAbout(0x05), "05h is about no zone"),
    (Fault::ZonesFromOne, "zones counted from 1"),
    (Fault::NotFlagged, "a record with the flag is about no zone"),
    (Fault::OldestFirst, "newest from the oldest end"),
    (Fault::BeyondUsed, "records beyond the used bytes"),
    (Fault::AtOneOff, "at is one off"),
    (Fault::NotTheTrailer, "a record handed out without its trailer"),
    (Fault::NoneAtTheEnd, "none with an at"),
    (Fault::UpToTheFound, "soundness up to the record that is found"),
    (Fault::Unchecked(8), "soundness without values"),
    (Fault::Unchecked(7), "soundness without lengths"),
    (Fault::Unchecked(6), "soundness lets bit 6 pass"),
    (Fault::NumbersUnchecked, "soundness without kept numbers"),
    (Fault::OldestUnchecked, "the oldest record unchecked"),
    (Fault::NewestUnchecked, "the newest record unchecked"),
    (Fault::ZeroPassed, "a trailer of 0 passes"),
    (Fault::LandsBefore, "a trailer may reach beyond the beginning"),
    (Fault::EmptyUnsound, "17 for an empty log"),
    (Fault::NotToTheEnd, "16 for a buffer that is used up"),
    (Fault::UsedMost(LOG_MOST - 1), "16 for 65,536 used bytes"),
    (Fault::UsedMost(LOG_MOST + 1), "no 16 for 65,537 used bytes"),
    (Fault::UsedMost(usize::MAX), "16 by the buffer alone"),
    (Fault::UsedBits(16), "used in 16 bits"),
    (Fault::UsedBits(32), "used in 32 bits"),
    (Fault::NoLongBuffer, "16 for a buffer above 65,536"),
    (Fault::Kept(0x09), "09h kept"),
    (Fault::Kept(0x03), "03h kept"),
    (Fault::NotKept(0x08), "08h not kept"),
    (Fault::BitSix, "bit 6 passes"),
    (Fault::LengthBits, "a message's length in 8 bits"),
    (Fault::FlagCleared, "the flag cleared"),
    (Fault::FlagSet, "the flag set"),
    (Fault::TrailerMore, "the trailer is the length and 1"),
    (Fault::ByteBehind, "the byte behind the record cleared"),
    (Fault::NoTrailerAdded, "the trailer not in what was added"),
    (Fault::RoomWithoutTrailer, "the trailer not in the room"),
    (Fault::RoomMost(LOG_MOST - 1), "no room for the byte 65,536"),
    (Fault::RoomMost(LOG_MOST + 1), "room for the byte 65,537"),
    (Fault::RoomOneMore, "9 where the record fills the buffer"),
    (Fault::SeventeenBefore16, "17 before 16"),
    (Fault::OwnBefore17, "4, 6, 7, 8 before 17"),
    (Fault::EighteenBefore8, "18 before 8"),
    (Fault::NineBefore18, "9 before 18"),
    (Fault::NineBeforeOwn, "9 before 4, 6, 7, 8"),
    (Fault::NineBefore17, "9 before 17"),
    (Fault::LengthAt9, "a length with 9"),
    (Fault::FoundAt17, "a record with 17"),
];

/// Refusals at which a byte is written all the same.
const WRITTEN: [u8; 8] = [4, 6, 7, 8, 9, 16, 17, 18];

/// The records of a log, the newest first, as far as walking back came; and whether the log is sound.
struct Walked {
    records: Vec<Range<usize>>,
    is_sound: bool,
}

/// The second program with a fault.
pub struct Faulty {
    fault: Fault,
    right: Second,
}

impl Faulty {
    pub fn new(fault: Fault) -> Faulty {
        Faulty { fault, right: Second::new() }
    }

    fn has(&self, fault: Fault) -> bool {
        self.fault == fault
    }

    fn verdict(&self, message: &[u8]) -> u8 {
        match self.fault {
            Fault::BitSix => {
                let mut message = message.to_vec();
                message.iter_mut().take(1).for_each(|byte| *byte &= 0xBF);
                verdict_of(&message)
            }
            Fault::LengthBits => verdict_of(&message[..message.len() % 256]),
            _ => verdict_of(message),
        }
    }

    fn is_kept(&self, type_byte: u8) -> bool {
        let number = type_byte & 0x3F;
        match self.fault {
            Fault::Kept(other) if number == other => true,
            Fault::NotKept(other) if number == other => false,
            _ => KEPT.contains(&number),
        }
    }

    /// Whether what stands in a log is a record's message.
    fn is_record(&self, message: &[u8], is_oldest: bool, is_newest: bool) -> bool {
        let verdict = self.verdict(message);
        let passes = match self.fault {
            Fault::OldestUnchecked => is_oldest,
            Fault::NewestUnchecked => is_newest,
            Fault::ZeroPassed => message.is_empty(),
            Fault::NumbersUnchecked => verdict == 0,
            Fault::Unchecked(other) => verdict == other && self.is_kept(message[0]),
            _ => false,
        };
        passes || (verdict == 0 && self.is_kept(message[0]))
    }

    fn walk(&self, used: &[u8]) -> Walked {
        let mut walked = Walked { records: Vec::new(), is_sound: false };
        let mut end = used.len();
        while end > 0 {
            let trailer = end - 1;
            let at = match trailer.checked_sub(usize::from(used[trailer])) {
                None if self.has(Fault::LandsBefore) => break,
                None => return walked,
                Some(at) => at,
            };
            if !self.is_record(&used[at..trailer], at == 0, end == used.len()) {
                return walked;
            }
            walked.records.push(at..end);
            end = at;
        }
        walked.is_sound = !(self.has(Fault::EmptyUnsound) && used.is_empty());
        walked
    }

    fn used(&self, used: u64) -> u64 {
        match self.fault {
            Fault::UsedBits(bits) => used & ((1 << bits) - 1),
            _ => used,
        }
    }

    /// 16, 17 or 0, and the records as far as walking back came.
    pub fn lent(&self, log: &[u8], used: u64) -> (u8, Vec<Range<usize>>) {
        let (used, length) = (self.used(used), log.len() as u64);
        let most = if let Fault::UsedMost(most) = self.fault { most } else { LOG_MOST };
        let beyond = match self.fault {
            Fault::NotToTheEnd => used >= length,
            Fault::NoLongBuffer => used > length || log.len() > LOG_MOST,
            _ => used > length,
        };
        let walked = self.walk(&log[..used.min(length) as usize]);
        let number = match walked.is_sound {
            false if self.has(Fault::SeventeenBefore16) => 17,
            _ if beyond || used > most as u64 => 16,
            false => 17,
            true => 0,
        };
        (number, walked.records)
    }

    fn has_room(&self, log: &[u8], used: u64, length: usize) -> bool {
        let trailer = usize::from(!self.has(Fault::RoomWithoutTrailer));
        let most = if let Fault::RoomMost(most) = self.fault { most } else { LOG_MOST };
        let end = u128::from(used) + (length + trailer) as u128;
        let buffer = (log.len() as u128).saturating_sub(u128::from(self.has(Fault::RoomOneMore)));
        end <= buffer && end <= most as u128
    }

    fn refusal(&self, log: &[u8], used: u64, message: &[u8]) -> u8 {
        let (lent, own) = (self.lent(log, used).0, self.verdict(message));
        let kept = message.first().map_or(false, |&type_byte| self.is_kept(type_byte));
        let not_kept = if kept { 0 } else { 18 };
        let room = if self.has_room(log, self.used(used), message.len()) { 0 } else { 9 };
        let only = |number: u8, other: u8| if number == other { number } else { 0 };
        let order = match self.fault {
            Fault::OwnBefore17 => vec![only(lent, 16), own, lent, not_kept, room],
            Fault::EighteenBefore8 => vec![lent, if own == 8 { not_kept } else { own }, own, not_kept, room],
            Fault::NineBefore18 => vec![lent, own, room, not_kept],
            Fault::NineBeforeOwn => vec![lent, room, own, not_kept],
            Fault::NineBefore17 => vec![only(lent, 16), room, lent, own, not_kept],
            _ => vec![lent, own, not_kept, room],
        };
        order.into_iter().find(|&number| number != 0).unwrap_or(0)
    }

    /// What a refused call leaves.
    fn refused(&self, log: &[u8], used: u64, message: &[u8], number: u8) -> Kept {
        let mut after = log.to_vec();
        if self.has(Fault::WrittenAt(number)) {
            let place = (used as usize).min(log.len().saturating_sub(1));
            after.iter_mut().skip(place).take(1).for_each(|byte| *byte ^= 1);
        }
        let length = if self.has(Fault::LengthAt9) && number == 9 { message.len() as u64 + 1 } else { 0 };
        Kept { number, length, log: after }
    }

    fn keep(&self, log: &[u8], used: u64, message: &[u8]) -> Kept {
        let number = self.refusal(log, used, message);
        if number != 0 {
            return self.refused(log, used, message, number);
        }
        let mut record = record(message);
        let length = record.len() - usize::from(self.has(Fault::NoTrailerAdded));
        match self.fault {
            Fault::FlagCleared => record[0] &= 0x7F,
            Fault::FlagSet => record[0] |= 0x80,
            Fault::TrailerMore => record[message.len()] += 1,
            Fault::ByteBehind => record.push(0),
            _ => {}
        }
        let mut after = log.to_vec();
        let places = after.iter_mut().skip(self.used(used) as usize);
        places.zip(record).for_each(|(place, byte)| *place = byte);
        Kept { number, length: length as u64, log: after }
    }

    fn is_about(&self, message: &[u8], zone: u8) -> bool {
        let (type_byte, first) = match message {
            [type_byte, second, ..] => (*type_byte, u16::from(*second)),
            _ => return false,
        };
        let (number, wide) = (type_byte & 0x3F, u16::from(zone));
        match self.fault {
            Fault::Covers(zones) if number == 0x05 => (first..first + zones).contains(&wide),
            Fault::NotTheOffset if number == 0x05 => (first + 1..first + 16).contains(&wide),
            Fault::ItsGroup(other) if number == other => first / 16 == wide / 16,
            Fault::About(other) if number == other => first == wide,
            Fault::NotAbout(other) if number == other => false,
            Fault::NotFlagged if type_byte >= 0x80 => false,
            Fault::ZonesFromOne => is_about(message, zone.wrapping_sub(1)),
            _ => is_about(message, zone),
        }
    }

    /// The records that stand behind the used bytes, as if they were used, too.
    fn beyond(&self, log: &[u8], used: u64) -> Vec<Range<usize>> {
        let (mut records, mut at) = (Vec::new(), used as usize);
        while let Some(length) = log.get(at).and_then(|&type_byte| length_of(type_byte)) {
            match log.get(at..at + length + 1) {
                Some(bytes) if self.walk(bytes).is_sound => records.insert(0, at..at + length + 1),
                _ => break,
            }
            at += length + 1;
        }
        records
    }

    fn newest(&self, log: &[u8], used: u64, zone: u8) -> Found {
        let (number, mut records) = self.lent(log, used);
        match self.fault {
            Fault::OldestFirst => records.reverse(),
            Fault::BeyondUsed if number == 0 => {
                records = [self.beyond(log, used), records].concat();
            }
            _ => {}
        }
        let found = records.into_iter().find(|r| self.is_about(&log[r.start..r.end - 1], zone));
        let none_at = if self.has(Fault::NoneAtTheEnd) { used } else { 0 };
        let (at, length) = found.map_or((none_at, 0), |r| {
            let (at, trailer) = (self.has(Fault::AtOneOff), self.has(Fault::NotTheTrailer));
            (r.start as u64 + u64::from(at), r.len() as u64 - u64::from(trailer))
        });
        match number {
            17 if self.has(Fault::UpToTheFound) && length > 0 => Found { number: 0, at, length },
            17 if self.has(Fault::FoundAt17) => Found { number, at, length },
            0 => Found { number, at, length },
            _ => Found { number, at: 0, length: 0 },
        }
    }
}

impl Library for Faulty {
    fn call(&mut self, call: &Call) -> Answer {
        match call {
            Call::Keep { log, message } => {
                let kept = self.keep(self.right.log_of(log), log.used, message);
                self.right.kept(log, kept)
            }
            Call::Newest { log, zone } => {
                let found = self.newest(self.right.log_of(log), log.used, *zone);
                Answer::Found { found, changed: Changed::default() }
            }
            _ => self.right.call(call),
        }
    }
}

/// Whether some answer in a trial of the log differs from the right one.
fn is_found(seed: u64, fault: Fault) -> bool {
    ASKED.iter().any(|trial| differs(Faulty::new(fault), |ask| trial(&mut Chance::new(seed), ask)))
}

pub fn run(seed: u64, tally: &mut Tally) {
    note_none(tally, "log: ", Faulty::new(Fault::Nothing), is_found(seed, Fault::Nothing));
    for (fault, name) in FAULTS {
        note(tally, "log: ", name, Faulty::new(fault), is_found(seed, fault));
    }
    for number in WRITTEN {
        let (fault, name) = (Fault::WrittenAt(number), format!("a byte written at {number}"));
        note(tally, "log: ", &name, Faulty::new(fault), is_found(seed, fault));
    }
}
