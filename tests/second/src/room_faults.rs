//! Faults in making room (document 02, No. 7), planted one at a time in the second program's own answers: the
//! trials must tell each from the right ones.

use std::collections::HashSet;
use std::ops::Range;

use crate::calls::{Answer, Call, Library, Second};
use crate::log::{records, Kept, COVERED};
use crate::log_faults::{self, Fault as OfTheLog};
use crate::made::Chance;
use crate::planted::{differs, note, note_none};
use crate::room_counts::Later;
use crate::room_trials::ASKED;
use crate::Tally;

#[derive(Clone, Copy, PartialEq)]
enum Fault {
    Nothing,
    // what goes
    Never(u8),
    Enough(usize),
    Ends,
    OneCoversAll,
    NotFor04,
    NotFor05,
    Covers(u16),
    Forgotten(usize),
    ForA05,
    ItsGroup,
    InSevenBits,
    ForA07,
    ForEight06,
    ForAny06,
    OtherNumbers,
    EqualAlone,
    OfItsFlag,
    NotFlagged,
    NextAlone,
    ForEarlier,
    OldestStays,
    NewestBytes(usize),
    UnlessFull,
    OneAtATime,
    // where what stays stands, and what is said
    Reversed,
    AtTheEnd,
    MovedUp,
    FromBehind,
    FlagCleared,
    ClearedToUsed,
    ClearedToTheEnd,
    OneCleared,
    SaysMore,
    SaysLess,
    SaysNewLength,
    SaysRecords,
    SaysBits(u32),
    NineAtNothing,
    // refusals
    UsedLess,
    Exchanged,
    LengthAt(u8),
    WrittenAt(u8),
    Lent(OfTheLog),
}

const FAULTS: [(Fault, &str); 50] = [
    (Fault::Never(0x04), "04h never goes"),
    (Fault::Never(0x05), "05h never goes"),
    (Fault::Never(0x06), "06h never goes"),
    (Fault::Never(0x07), "07h never goes"),
    (Fault::Never(0x08), "08h never goes"),
    (Fault::Enough(15), "05h goes for 15 of its 16 zones"),
    (Fault::Enough(1), "05h goes for one of its zones"),
    (Fault::Ends, "05h goes for its first and last zones"),
    (Fault::OneCoversAll, "05h goes for one of its offset alone"),
    (Fault::NotFor04, "05h does not go for 04h"),
    (Fault::NotFor05, "05h does not go for 05h"),
    (Fault::Covers(15), "05h covers 15 zones"),
    (Fault::Covers(17), "05h covers 17 zones"),
    (Fault::Forgotten(0), "zone 1 forgotten"),
    (Fault::Forgotten(7), "zone 8 forgotten, and partition 8"),
    (Fault::Forgotten(255), "zone 256 forgotten"),
    (Fault::ForA05, "04h goes for a 05h"),
    (Fault::ItsGroup, "04h goes for one of its group"),
    (Fault::InSevenBits, "04h goes for one of its zone in 7 bits"),
    (Fault::ForA07, "06h goes for a 07h"),
    (Fault::ForEight06, "07h goes for eight 06h"),
    (Fault::ForAny06, "06h goes for any 06h"),
    (Fault::OtherNumbers, "04h and 06h go for each other"),
    (Fault::EqualAlone, "a record goes for an equal one alone"),
    (Fault::OfItsFlag, "a record goes for those of its flag"),
    (Fault::NotFlagged, "a record with the flag never goes"),
    (Fault::NextAlone, "a record goes for the next one alone"),
    (Fault::ForEarlier, "a record goes for earlier ones: the first of two equal ones stays"),
    (Fault::OldestStays, "the oldest never goes"),
    (Fault::NewestBytes(32_768), "older ones stay from 32,768 bytes on"),
    (Fault::NewestBytes(65_520), "older ones stay from 65,520 bytes on"),
    (Fault::UnlessFull, "nothing goes while there is room for a record"),
    (Fault::OneAtATime, "one goes at a time: a second call wins more"),
    (Fault::Reversed, "the order reversed"),
    (Fault::AtTheEnd, "what stays stands at the end of what was used"),
    (Fault::MovedUp, "all that is behind a record moves up where it goes"),
    (Fault::FromBehind, "records moved byte by byte from their ends, over themselves"),
    (Fault::FlagCleared, "the flag cleared of what stays"),
    (Fault::ClearedToUsed, "bytes beyond the new length cleared"),
    (Fault::ClearedToTheEnd, "bytes beyond what was used cleared"),
    (Fault::OneCleared, "the byte behind the new length cleared"),
    (Fault::SaysMore, "one byte more said"),
    (Fault::SaysLess, "one byte fewer said"),
    (Fault::SaysNewLength, "the new length said"),
    (Fault::SaysRecords, "records counted and not bytes"),
    (Fault::SaysBits(8), "what was won in 8 bits"),
    (Fault::SaysBits(15), "what was won in 15 bits"),
    (Fault::NineAtNothing, "9 where nothing was won"),
    (Fault::UsedLess, "one byte fewer used"),
    (Fault::Exchanged, "16 and 17 exchanged"),
];

/// Faults of the station log that a call which makes room may have, too: in what is sound, and in the used
/// length.
fn of_the_log() -> impl Iterator<Item = (Fault, &'static str)> {
    let is_lent = |fault: &OfTheLog| {
        use OfTheLog::*;
        matches!(fault, Unchecked(_) | NumbersUnchecked | OldestUnchecked | NewestUnchecked | ZeroPassed)
            || matches!(fault, LandsBefore | EmptyUnsound | NotToTheEnd | UsedMost(_) | UsedBits(_))
            || matches!(fault, NoLongBuffer | SeventeenBefore16 | Kept(_) | NotKept(_) | BitSix)
    };
    let lent = log_faults::FAULTS.into_iter().filter(move |(fault, _)| is_lent(fault));
    lent.map(|(fault, name)| (Fault::Lent(fault), name))
}

/// All that is behind what goes moves up, gap by gap from the oldest.
fn move_up(log: &mut [u8], used: usize, left: &[Range<usize>]) {
    let (mut at, mut end, mut moved) = (0, used, 0);
    for record in left {
        let gap = record.start - moved - at;
        log.copy_within(at + gap..end, at);
        at += record.len();
        end -= gap;
        moved += gap;
    }
}

/// Records move by themselves, but each from its last byte to its first.
fn move_from_behind(log: &mut [u8], left: &[Range<usize>]) {
    let mut at = 0;
    for record in left {
        (0..record.len()).rev().for_each(|k| log[at + k] = log[record.start + k]);
        at += record.len();
    }
}

/// The second program with a fault.
struct Faulty {
    fault: Fault,
    log: log_faults::Faulty,
    right: Second,
}

impl Faulty {
    fn new(fault: Fault) -> Faulty {
        let log = if let Fault::Lent(fault) = fault { fault } else { OfTheLog::Nothing };
        Faulty { fault, log: log_faults::Faulty::new(log), right: Second::new() }
    }

    fn has(&self, fault: Fault) -> bool {
        self.fault == fault
    }

    fn zone_is_covered(&self, zone: usize, later: &Later) -> bool {
        match self.fault {
            Fault::Forgotten(forgotten) if forgotten == zone => false,
            Fault::NotFor04 => later.covered[zone],
            Fault::NotFor05 => later.seen[0x04][zone],
            _ => later.seen[0x04][zone] || later.covered[zone],
        }
    }

    fn snapshot_goes(&self, offset: usize, later: &Later) -> bool {
        let zones = offset..offset + usize::from(COVERED);
        let covered = zones.filter(|&zone| self.zone_is_covered(zone, later)).count();
        let is_covered = |zone: usize| self.zone_is_covered(zone, later);
        match self.fault {
            Fault::Enough(least) => covered >= least,
            Fault::Ends => is_covered(offset) && is_covered(offset + 15),
            Fault::OneCoversAll => later.seen[0x05][offset],
            _ => covered == usize::from(COVERED),
        }
    }

    fn goes(&self, message: &[u8], later: &Later) -> bool {
        let (number, second) = (message[0] & 0x3F, usize::from(message[1]));
        let group = second / 16 * 16..second / 16 * 16 + 16;
        let own = match number {
            0x04 | 0x06 => later.seen[usize::from(number)][second] && !self.has(Fault::Forgotten(second)),
            0x05 => self.snapshot_goes(second, later),
            _ => later.has(number),
        };
        match (self.fault, number) {
            (Fault::Never(other), _) if other == number => false,
            (Fault::NotFlagged, _) if message[0] >= 0x80 => false,
            (Fault::ForA05, 0x04) => own || later.covered[second],
            (Fault::ItsGroup, 0x04) => later.seen[0x04][group].contains(&true),
            (Fault::InSevenBits, 0x04) => own || later.seen[0x04][second ^ 0x80],
            (Fault::ForA07, 0x06) => own || later.has(0x07),
            (Fault::ForAny06, 0x06) => later.has(0x06),
            (Fault::ForEight06, 0x07) => own || later.has_all_06(),
            (Fault::OtherNumbers, 0x04 | 0x06) => later.seen[0x04][second] || later.seen[0x06][second],
            _ => own,
        }
    }

    /// Which records stay, of records that are handed in newest first.
    fn stay(&self, log: &[u8], records: &[Range<usize>]) -> Vec<bool> {
        let zones = if let Fault::Covers(zones) = self.fault { zones } else { COVERED };
        let used = records.first().map_or(0, |newest| newest.end);
        let (mut later, mut equal) = ([Later::new(), Later::new()], HashSet::new());
        let mut stays = |record: &Range<usize>| {
            let message = &log[record.start..record.end - 1];
            let flag = usize::from(self.has(Fault::OfItsFlag) && message[0] >= 0x80);
            let is_equal = !equal.insert(message);
            let goes = match self.fault {
                Fault::EqualAlone => is_equal,
                Fault::OldestStays if record.start == 0 => false,
                Fault::NewestBytes(bytes) if used - record.start > bytes => false,
                _ => self.goes(message, &later[flag]),
            };
            if self.has(Fault::NextAlone) {
                later[flag] = Later::new();
            }
            later[flag].add(message, zones);
            !goes
        };
        if self.has(Fault::ForEarlier) {
            let mut stay: Vec<bool> = records.iter().rev().map(&mut stays).collect();
            stay.reverse();
            return stay;
        }
        records.iter().map(&mut stays).collect()
    }

    /// The records that stay, in the order in which they will stand.
    fn left(&self, log: &[u8], records: &[Range<usize>]) -> Vec<Range<usize>> {
        let mut stay = self.stay(log, records);
        let used = records.first().map_or(0, |newest| newest.end);
        match self.fault {
            Fault::OneAtATime => {
                let last = stay.iter().rposition(|stays| !stays);
                stay.iter_mut().enumerate().for_each(|(k, stays)| *stays = Some(k) != last);
            }
            Fault::UnlessFull if log.len() - used >= 13 => stay.fill(true),
            _ => {}
        }
        let mut left: Vec<_> =
            records.iter().zip(stay).filter(|(_, stays)| *stays).map(|(r, _)| r.clone()).collect();
        if !self.has(Fault::Reversed) {
            left.reverse();
        }
        left
    }

    fn said(&self, used: u64, length: u64, went: u64) -> u64 {
        let won = used - length;
        match self.fault {
            Fault::SaysMore => won + 1,
            Fault::SaysLess => won.saturating_sub(1),
            Fault::SaysNewLength => length,
            Fault::SaysRecords => went,
            Fault::SaysBits(bits) => won & ((1 << bits) - 1),
            _ => won,
        }
    }

    fn refused(&self, log: &[u8], used: u64, number: u8) -> Kept {
        let mut after = log.to_vec();
        if self.has(Fault::WrittenAt(number)) {
            after.iter_mut().take(1).for_each(|byte| *byte ^= 1);
        }
        let length = if self.has(Fault::LengthAt(number)) { used } else { 0 };
        let number = if self.has(Fault::Exchanged) { 16 + 17 - number } else { number };
        Kept { number, length, log: after }
    }

    /// Puts what is left of a log where it will stand.
    fn put(&self, log: &mut [u8], used: usize, left: &[Range<usize>]) {
        let bytes: Vec<u8> = left.iter().flat_map(|record| log[record.clone()].to_vec()).collect();
        let length = bytes.len();
        match self.fault {
            Fault::AtTheEnd => return log[used - length..used].copy_from_slice(&bytes),
            Fault::MovedUp => return move_up(log, used, left),
            Fault::FromBehind => return move_from_behind(log, left),
            Fault::ClearedToUsed => log[length..used].fill(0),
            Fault::ClearedToTheEnd => log[used..].fill(0),
            Fault::OneCleared => log.iter_mut().skip(length).take(1).for_each(|byte| *byte = 0),
            _ => {}
        }
        log[..length].copy_from_slice(&bytes);
        if self.has(Fault::FlagCleared) {
            log.iter_mut().take(length.min(1)).for_each(|byte| *byte &= 0x7F);
        }
    }

    fn make_room(&self, log: &[u8], used: u64) -> Kept {
        let used = if self.has(Fault::UsedLess) { used.saturating_sub(1) } else { used };
        let (number, found) = self.log.lent(log, used);
        if number != 0 {
            return self.refused(log, used, number);
        }
        let used = found.first().map_or(0, |newest| newest.end);
        let mut after = log.to_vec();
        if records(&log[..used]).is_none() {
            // a log that should have been refused
            return Kept { number, length: 0, log: after };
        }
        let left = self.left(log, &found);
        let (length, went) = (left.iter().map(Range::len).sum::<usize>(), found.len() - left.len());
        self.put(&mut after, used, &left);
        let said = self.said(used as u64, length as u64, went as u64);
        let number = if self.has(Fault::NineAtNothing) && length == used { 9 } else { 0 };
        Kept { number, length: said, log: after }
    }
}

impl Library for Faulty {
    fn call(&mut self, call: &Call) -> Answer {
        match call {
            Call::MakeRoom { log } => {
                let kept = self.make_room(self.right.log_of(log), log.used);
                self.right.kept(log, kept)
            }
            _ => self.right.call(call),
        }
    }
}

/// Whether some answer in a trial of making room differs from the right one.
fn is_found(seed: u64, fault: Fault) -> bool {
    ASKED.iter().any(|trial| differs(Faulty::new(fault), |ask| trial(&mut Chance::new(seed), ask)))
}

pub fn run(seed: u64, tally: &mut Tally) {
    note_none(tally, "room: ", Faulty::new(Fault::Nothing), is_found(seed, Fault::Nothing));
    for (fault, name) in FAULTS.into_iter().chain(of_the_log()) {
        note(tally, "room: ", name, Faulty::new(fault), is_found(seed, fault));
    }
    for number in [16, 17] {
        let written = (Fault::WrittenAt(number), format!("a byte written at {number}"));
        let length = (Fault::LengthAt(number), format!("a length with {number}"));
        for (fault, name) in [written, length] {
            note(tally, "room: ", &name, Faulty::new(fault), is_found(seed, fault));
        }
    }
}
