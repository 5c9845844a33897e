//! The station log (document 02, No. 6): good messages of numbers 04 to 08, one after another in a lent buffer.

use std::ops::Range;

use crate::messages::{number_of, verdict_of};

/// "a lent buffer of at most 64 KiB": so many bytes of a buffer are used at most.
pub const LOG_MOST: usize = 65_536;
/// "Good messages of numbers 04 to 08 are kept".
pub const KEPT: [u8; 5] = [0x04, 0x05, 0x06, 0x07, 0x08];
/// A 05h says so many zones, from its offset on.
pub const COVERED: u16 = 16;

/// The fields of nx584_written, and the log afterwards: when a message was kept, or room was made.
pub struct Kept {
    pub number: u8,
    pub length: u64,
    pub log: Vec<u8>,
}

/// The fields of nx584_found.
#[derive(Clone, Copy, Debug, PartialEq)]
pub struct Found {
    pub number: u8,
    pub at: u64,
    pub length: u64,
}

/// What a call changed of a lent log: the bytes from the first that differs to the last.
#[derive(Clone, Debug, Default, PartialEq)]
pub struct Changed {
    pub at: u64,
    pub bytes: Vec<u8>,
}

impl Changed {
    pub fn between(before: &[u8], after: &[u8]) -> Changed {
        if before == after {
            return Changed::default();
        }
        let differs = |k: &usize| before[*k] != after[*k];
        let first = (0..after.len()).find(differs).unwrap_or(0);
        let end = (first..after.len()).rev().find(differs).map_or(first, |last| last + 1);
        Changed { at: first as u64, bytes: after[first..end].to_vec() }
    }

    /// Puts what changed into the log as it was before.
    pub fn put(&self, log: &mut [u8]) {
        let places = log.iter_mut().skip(self.at as usize);
        places.zip(&self.bytes).for_each(|(place, &byte)| *place = byte);
    }

    /// The log afterwards.
    pub fn after(&self, before: &[u8]) -> Vec<u8> {
        let mut log = before.to_vec();
        self.put(&mut log);
        log
    }
}

pub fn is_kept(type_byte: u8) -> bool {
    number_of(type_byte).map_or(false, |number| KEPT.contains(&number))
}

/// "Each record is the message and then a trailer byte that holds its length".
pub fn record(message: &[u8]) -> Vec<u8> {
    [message, &[message.len() as u8]].concat()
}

/// Where each record stands in the used bytes of a log, its trailer included, the newest first; none where the
/// log is not sound. "A log is sound if walking back by its trailers lands on its beginning and every record
/// has a kept number and passes 4, 6, 7 and 8."
pub fn records(used: &[u8]) -> Option<Vec<Range<usize>>> {
    let mut records = Vec::new();
    let mut end = used.len();
    while end > 0 {
        let trailer = end - 1;
        let at = trailer.checked_sub(usize::from(used[trailer]))?;
        let message = &used[at..trailer];
        if verdict_of(message) != 0 || !is_kept(message[0]) {
            return None;
        }
        records.push(at..end);
        end = at;
    }
    Some(records)
}

/// "04h of that zone, or 05h covering it".
pub fn is_about(message: &[u8], zone: u8) -> bool {
    // of both, the byte that document 003 counts as the second
    let first = u16::from(message[1]);
    match message[0] & 0x3F {
        0x04 => u16::from(zone) == first,
        0x05 => (first..first + COVERED).contains(&u16::from(zone)),
        _ => false,
    }
}

/// The most bytes that can be used of a buffer.
fn most(log: &[u8]) -> usize {
    log.len().min(LOG_MOST)
}

/// The records of a lent log, the newest first, or 16 or 17.
pub fn lent_records(log: &[u8], used: u64) -> Result<Vec<Range<usize>>, u8> {
    if used > most(log) as u64 {
        return Err(16);
    }
    records(&log[..used as usize]).ok_or(17)
}

/// "Refusals in order: 16 .. 17 .. then the message's own; 18 number not kept; 9 no room".
fn refusal(log: &[u8], used: u64, message: &[u8]) -> u8 {
    if let Err(number) = lent_records(log, used) {
        return number;
    }
    match verdict_of(message) {
        0 if !is_kept(message[0]) => 18,
        0 if used as usize + record(message).len() > most(log) => 9,
        verdict => verdict,
    }
}

/// Keeps a message: its record stands at the end of the used bytes, and every other byte stays.
pub fn keep(log: &[u8], used: u64, message: &[u8]) -> Kept {
    let mut after = log.to_vec();
    let number = refusal(log, used, message);
    if number != 0 {
        return Kept { number, length: 0, log: after };
    }
    let record = record(message);
    after[used as usize..][..record.len()].copy_from_slice(&record);
    Kept { number, length: record.len() as u64, log: after }
}

/// "The newest record about a given zone .. is handed out as that part of the log itself, or "none" exactly if
/// the log has none."
pub fn newest(log: &[u8], used: u64, zone: u8) -> Found {
    match lent_records(log, used) {
        Err(number) => Found { number, at: 0, length: 0 },
        Ok(records) => match records.into_iter().find(|r| is_about(&log[r.start..r.end - 1], zone)) {
            None => Found { number: 0, at: 0, length: 0 },
            Some(record) => Found { number: 0, at: record.start as u64, length: record.len() as u64 },
        },
    }
}
