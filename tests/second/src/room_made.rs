//! Made logs in which much goes, nothing does, or all but one zone of a 05h is covered.

use crate::log::{record, COVERED, KEPT};
use crate::log_made::record_length;
use crate::made::{self, Chance};

/// The last offset that a 05h may have.
pub const LAST_OFFSET: u8 = 240;
/// The most bytes that stay: of a number all zones or partitions that there are, of 05h all offsets.
pub const MOST_THAT_STAYS: usize = 256 * 9 + 241 * 11 + 8 * 10 + 10 + 13;
/// "a buffer of NX584_LOG_ENOUGH bytes or more is never full after this call".
pub const LOG_ENOUGH: usize = 5_236;

pub fn shuffle<T>(chance: &mut Chance, items: &mut [T]) {
    (1..items.len()).for_each(|k| items.swap(k, chance.below(k + 1)));
}

/// A good message of a number with this second byte: its zone, offset or partition.
pub fn about(chance: &mut Chance, number: u8, second: u8) -> Vec<u8> {
    let mut message = made::good_message(chance, number);
    message[1] = second;
    message
}

/// The second bytes that a number may have.
pub fn seconds(number: u8) -> Vec<u8> {
    match number {
        0x05 => (0..=LAST_OFFSET).collect(),
        0x06 => (0..=7).collect(),
        _ => (0..=255).collect(),
    }
}

/// A message to keep whose second byte is one of these, where its number allows that.
pub fn message_of(chance: &mut Chance, among: &[u8]) -> Vec<u8> {
    let number = chance.of(&[4, 4, 4, 5, 5, 6, 7, 8]);
    let second = chance.of(among);
    match number {
        0x05 => about(chance, number, second.min(LAST_OFFSET)),
        0x06 => about(chance, number, second & 7),
        _ => about(chance, number, second),
    }
}

/// Second bytes that lie near each other, few or many.
pub fn few_seconds(chance: &mut Chance) -> Vec<u8> {
    let (first, width) = (chance.byte(), chance.of(&[1, 2, 3, 16, 17, 40, 256]));
    (0..width).map(|k| first.wrapping_add(k as u8)).collect()
}

/// A log of at most so many bytes, of messages that say each other over, more or less.
pub fn crowded(chance: &mut Chance, bytes: usize) -> Vec<u8> {
    let among = few_seconds(chance);
    let mut log = Vec::new();
    loop {
        let next = record(&message_of(chance, &among));
        if log.len() + next.len() > bytes {
            return log;
        }
        log.extend(next);
    }
}

/// A log of at most so many bytes, of one number alone.
pub fn of_one_number(chance: &mut Chance, number: u8, bytes: usize) -> Vec<u8> {
    (0..bytes / record_length(number)).flat_map(|_| record(&made::good_message(chance, number))).collect()
}

/// The longest log of which nothing goes. A 05h goes where a later one has its offset, so that there are at
/// most 241 of them; each has a zone that no later one covers, its first or, the other way round, its last.
pub fn longest_that_stays(chance: &mut Chance) -> Vec<u8> {
    let is_up = chance.one_in(2);
    let turned = |place: u8, last: u8| if is_up { place } else { last - place };
    let behind_all = usize::from(LAST_OFFSET) + 1;
    let mut older = vec![Vec::new(); behind_all + 1];
    for place in 0..=255 {
        // not behind the 05h whose zone it is
        let before = chance.below(usize::from(place).min(behind_all) + 1);
        older[before].push(about(chance, 0x04, turned(place, 255)));
    }
    let mut messages = Vec::new();
    for (place, zones) in (0..).zip(older) {
        messages.extend(zones);
        if place <= LAST_OFFSET {
            messages.push(about(chance, 0x05, turned(place, LAST_OFFSET)));
        }
    }
    for (number, second) in (0..8).map(|partition| (0x06, partition)).chain([(0x07, 0), (0x08, 0)]) {
        messages.insert(chance.below(messages.len() + 1), about(chance, number, second));
    }
    messages.iter().flat_map(|message| record(message)).collect()
}

/// What covers the zones of a 05h.
#[derive(Clone, Copy, Debug, PartialEq)]
pub enum By {
    Zones,
    Snapshots,
    Both,
}

pub const ALL_BY: [By; 3] = [By::Zones, By::Snapshots, By::Both];

/// Messages that cover the zones of a 05h but those that are missing, which are counted from its offset: 05h
/// where some fit between the missing ones, 04h for the zones that are left.
pub fn covering(chance: &mut Chance, offset: u8, missing: &[u8], by: By) -> Vec<Vec<u8>> {
    let is_missing = |zone: u8| missing.iter().any(|&k| offset + k == zone);
    let covers = |first: u8, zone: u8| (first..=first + 15).contains(&zone);
    let mut left: Vec<u8> = (offset..=offset + 15).filter(|&zone| !is_missing(zone)).collect();
    let mut firsts: Vec<u8> = (offset.saturating_sub(15)..=(offset + 15).min(LAST_OFFSET))
        .filter(|&first| (first..=first + 15).all(|zone| !is_missing(zone)))
        .collect();
    shuffle(chance, &mut firsts);
    let mut messages = Vec::new();
    for first in firsts {
        let wanted = match by {
            By::Zones => false,
            By::Snapshots => left.iter().any(|&zone| covers(first, zone)),
            By::Both => chance.one_in(12),
        };
        if wanted {
            left.retain(|&zone| !covers(first, zone));
            messages.push(about(chance, 0x05, first));
        }
    }
    messages.extend(left.into_iter().map(|zone| about(chance, 0x04, zone)));
    shuffle(chance, &mut messages);
    messages
}

/// A message that covers no zone of a 05h of this offset: about zones around, partitions or the system.
pub fn beside(chance: &mut Chance, offset: u8) -> Vec<u8> {
    let below = (0..offset).map(|zone| (0x04, zone));
    let above = (offset..=LAST_OFFSET - 1).map(|k| (0x04, k + 16));
    let under = (0..(offset + 1).saturating_sub(16)).map(|first| (0x05, first));
    let over = (offset..=LAST_OFFSET).filter(|first| first - offset >= 16).map(|first| (0x05, first));
    let other = [(0x06, chance.below(8) as u8), (0x07, chance.byte()), (0x08, chance.byte())];
    let all: Vec<(u8, u8)> = below.chain(above).chain(under).chain(over).chain(other).collect();
    let (number, second) = if chance.one_in(2) { chance.of(&other) } else { chance.of(&all) };
    about(chance, number, second)
}

/// Every pair of kept numbers.
pub fn pairs() -> impl Iterator<Item = (u8, u8)> {
    KEPT.into_iter().flat_map(|first| KEPT.into_iter().map(move |second| (first, second)))
}

/// Second bytes of a later message, for one of this second byte: as near as to reach it, or not quite; any
/// where it has neither zone nor partition.
pub fn near(chance: &mut Chance, number: u8, first: u8) -> Vec<u8> {
    let all = seconds(number);
    if matches!(number, 0x07 | 0x08) {
        return vec![chance.of(&all), first];
    }
    let distance = |second: u8| u16::from(first.max(second) - first.min(second));
    all.into_iter().filter(|&second| distance(second) <= COVERED + 1).collect()
}
