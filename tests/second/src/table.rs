//! The table, the overview and the host's one call (document 01, "The table" and "The overview").

use crate::messages::verdict_of;
use crate::reader::{read, refused, Reader, Reading};
use crate::writer::reply;

pub const TABLE_BYTES: usize = 2132;
/// "All zero is fresh."
static FRESH: [u8; TABLE_BYTES] = [0; TABLE_BYTES];
pub const ZONE_BYTES: usize = 8;
const PARTITIONS: usize = 256 * ZONE_BYTES;
const PARTITION_BYTES: usize = 9;
const SYSTEM: usize = PARTITIONS + 8 * PARTITION_BYTES;

/// Where the mark and the short byte of a record stand.
pub const MARK: usize = 0;
pub const ZONE_SHORT: usize = 7;
const PARTITION_SHORT: usize = 8;

fn zone(number: usize) -> usize {
    ZONE_BYTES * number
}

fn partition(number: usize) -> usize {
    PARTITIONS + PARTITION_BYTES * number
}

fn is_mark(place: usize) -> bool {
    if place < PARTITIONS {
        place % ZONE_BYTES == MARK
    } else if place < SYSTEM {
        (place - PARTITIONS) % PARTITION_BYTES == MARK
    } else {
        place == SYSTEM + MARK
    }
}

/// The short flags that a zone status says, from its two condition bytes.
fn short_flags(condition1: u8, condition2: u8) -> u8 {
    let bit = |k: u8| condition1 >> k & 1 == 1;
    let faulted = bit(0);
    let bypass = bit(3) || bit(4);
    let trouble = bit(1) || bit(2) || bit(5) || bit(6);
    let alarm_memory = condition2 & 1 == 1;
    u8::from(faulted) | u8::from(bypass) << 1 | u8::from(trouble) << 2 | u8::from(alarm_memory) << 3
}

/// What a good message writes: a place, and what the byte there becomes.
fn writes(table: &[u8], message: &[u8]) -> Vec<(usize, u8)> {
    // the bytes of a message as document 003 counts them, from 1
    let byte = |n: usize| message[n - 1];
    let mut writes = Vec::new();
    match message[0] & 0x3F {
        0x04 => {
            let record = zone(usize::from(byte(2)));
            writes.push((record + MARK, table[record + MARK] | 0b11));
            writes.extend((3..=8).map(|n| (record + n - 2, byte(n))));
            writes.push((record + ZONE_SHORT, short_flags(byte(7), byte(8))));
        }
        0x05 => {
            for k in 0..16 {
                let record = zone(usize::from(byte(2)) + k);
                let pair = byte(3 + k / 2);
                let flags = if k % 2 == 0 { pair & 0x0F } else { pair >> 4 };
                writes.push((record + MARK, table[record + MARK] | 0b01));
                writes.push((record + ZONE_SHORT, flags));
            }
        }
        0x06 => {
            let record = partition(usize::from(byte(2)));
            writes.push((record + MARK, table[record + MARK] | 0b10));
            writes.extend((3..=9).map(|n| (record + n - 2, byte(n))));
        }
        0x07 => {
            for k in 0..8 {
                let record = partition(k);
                writes.push((record + MARK, table[record + MARK] | 0b01));
                writes.push((record + PARTITION_SHORT, byte(2 + k)));
            }
        }
        0x08 => {
            writes.push((SYSTEM + MARK, 1));
            writes.extend((2..=12).map(|n| (SYSTEM + n - 1, byte(n))));
        }
        _ => {}
    }
    writes
}

/// What a good message writes, whatever it says: a place, and which bits of the byte there. Of a mark those that
/// it sets, of any other byte all.
pub fn decided(message: &[u8]) -> Vec<(usize, u8)> {
    let bits = |(place, value)| (place, if is_mark(place) { value } else { 0xFF });
    writes(&FRESH, message).into_iter().map(bits).collect()
}

/// Puts a message into a table: 0, or 11, 4, 6, 7, 8 with every byte left alone.
pub fn apply(table: &mut [u8], message: &[u8]) -> u8 {
    if table.len() != TABLE_BYTES {
        return 11;
    }
    let verdict = verdict_of(message);
    if verdict == 0 {
        for (place, value) in writes(table, message) {
            table[place] = value;
        }
    }
    verdict
}

/// Of a record in a table: 0, its mark, its short byte if it has one, and its bytes in between.
fn record_at(table: &[u8], place: usize, bytes: usize, short: Option<usize>) -> Vec<u8> {
    let mut record = vec![0, table[place + MARK]];
    record.extend(short.map(|s| table[place + s]));
    record.extend(&table[place + 1..place + 1 + bytes]);
    record
}

/// A refused record: the number, all else zero.
fn refused_record(number: u8, length: usize) -> Vec<u8> {
    let mut record = vec![0; length];
    record[0] = number;
    record
}

/// The fields of nx584_zone_record: the mark, the short flags, mask to condition 2. Zone 0 is zone 1.
pub fn zone_record(table: &[u8], number: u8) -> Vec<u8> {
    if table.len() != TABLE_BYTES {
        return refused_record(11, 9);
    }
    record_at(table, zone(usize::from(number)), 6, Some(ZONE_SHORT))
}

/// The fields of nx584_partition_record: the mark, the short byte, the seven bytes of 06h. Refusals: 11, then 8.
pub fn partition_record(table: &[u8], number: u8) -> Vec<u8> {
    if table.len() != TABLE_BYTES {
        return refused_record(11, 10);
    }
    if number > 7 {
        return refused_record(8, 10);
    }
    record_at(table, partition(usize::from(number)), 7, Some(PARTITION_SHORT))
}

/// The fields of nx584_system_record: the mark, bytes 2-12 of 08h.
pub fn system_record(table: &[u8]) -> Vec<u8> {
    if table.len() != TABLE_BYTES {
        return refused_record(11, 13);
    }
    record_at(table, SYSTEM, 11, None)
}

/// The fields of nx584_group.
#[derive(Clone, Copy, Debug)]
pub struct Group {
    pub heard: u16,
    pub faulted: u16,
    pub known: u8,
    pub share: f64,
}

/// The fields of nx584_overview: the site stands after the sixteen groups.
#[derive(Clone, Debug)]
pub struct Overview {
    pub number: u8,
    pub groups: [Group; 17],
}

impl Group {
    fn of(heard: u16, faulted: u16) -> Group {
        let known = heard > 0;
        let share = if known { f64::from(faulted) / f64::from(heard) } else { f64::NAN };
        Group { heard, faulted, known: u8::from(known), share }
    }

    /// Alike bit for bit; where nothing is heard, any NaN serves.
    pub fn is_met_by(&self, answered: &Group) -> bool {
        let share = if self.known == 1 {
            self.share.to_bits() == answered.share.to_bits()
        } else {
            answered.share.is_nan()
        };
        (self.heard, self.faulted, self.known) == (answered.heard, answered.faulted, answered.known) && share
    }
}

/// The sixteen groups and the site, or 11.
pub fn view(table: &[u8]) -> Overview {
    let mut groups = [Group::of(0, 0); 17];
    if table.len() != TABLE_BYTES {
        return Overview { number: 11, groups };
    }
    for (k, group) in groups.iter_mut().take(16).enumerate() {
        let heard: Vec<usize> = (16 * k..16 * k + 16).filter(|&z| table[zone(z)] & 1 == 1).collect();
        let faulted = heard.iter().filter(|&&z| table[zone(z) + ZONE_SHORT] & 1 == 1).count();
        *group = Group::of(heard.len() as u16, faulted as u16);
    }
    let total = |count: fn(&Group) -> u16| groups[..16].iter().map(count).sum();
    groups[16] = Group::of(total(|g| g.heard), total(|g| g.faulted));
    Overview { number: 0, groups }
}

/// A reading with its reply. Refusals: 11, then 12.
pub fn hear(reader: &Reader, table: &mut [u8], bytes: &[u8]) -> (Reading, u8) {
    if table.len() != TABLE_BYTES {
        return (refused(reader, 11), 0);
    }
    let reading = read(reader, bytes);
    if reading.verdict == 0 {
        let applied = apply(table, &reading.message[..usize::from(reading.length)]);
        assert_eq!(applied, 0, "a good message is taken");
    }
    let reply = reply(reading.verdict, reading.type_byte);
    (reading, reply)
}
