//! The trials of the station log (document 02, No. 6). Those that a planted fault must not pass are written for
//! anything that is asked, so that the self tests can ask a faulty library.

use crate::calls::{Answer, Call, LentLog};
use crate::driver::Calls;
use crate::log::{is_kept, record, KEPT, LOG_MOST};
use crate::log_counts::ODD_LOGS;
use crate::log_made::{self, filled, lent, numbers_of, sparse, WRONGS};
use crate::made::{self, Chance};
use crate::messages::{length_of, LONGEST, LONGEST_KNOWN};

/// Anything that takes calls.
pub type Ask<'a> = dyn FnMut(Call) -> Answer + 'a;

/// What is asked of anything, as trials of the library.
macro_rules! as_trials {
    ($($trial:ident: $ask:ident,)*) => {
        $(pub fn $trial(chance: &mut Chance, calls: &mut Calls, _: u64) {
            $ask(chance, &mut |call| calls.call(call));
        })*
    };
}
pub(crate) use as_trials;

/// The trials with a fixed number of calls.
pub const ASKED: [fn(&mut Chance, &mut Ask); 11] = [
    ask_wrongs,
    ask_rooms,
    ask_edges,
    ask_zones,
    ask_cuts,
    ask_damaged,
    ask_types,
    ask_many,
    ask_full,
    ask_full_damaged,
    ask_full_cut,
];

/// A buffer that is longer than any log.
pub const LONG_BUFFER: usize = 70_000;
/// A log of more bytes than this is lent once and kept for several calls.
const KEPT_FROM: usize = 1_000;
/// Each thing is made wrong so often with each record of a log of up to four.
const WRONG_TURNS: u64 = ODD_LOGS;

pub fn kept(used: usize) -> LentLog {
    LentLog { bytes: None, used: used as u64, wrong: None }
}

fn lend(ask: &mut Ask, bytes: Vec<u8>, used: u64) -> LentLog {
    if bytes.len() <= KEPT_FROM {
        return LentLog { bytes: Some(bytes), used, wrong: None };
    }
    ask(Call::LendLog { log: bytes });
    LentLog { bytes: None, used, wrong: None }
}

/// Keeps a message, and says how many bytes that added.
pub fn keep(ask: &mut Ask, log: &LentLog, message: &[u8]) -> usize {
    match ask(Call::Keep { log: log.clone(), message: message.to_vec() }) {
        Answer::Kept { length, .. } => length as usize,
        _ => 0,
    }
}

pub fn newest(ask: &mut Ask, log: &LentLog, zone: u8) {
    ask(Call::Newest { log: log.clone(), zone });
}

fn every_zone(ask: &mut Ask, log: &LentLog) {
    (0..=255).for_each(|zone| newest(ask, log, zone));
}

/// A message that is kept, more often than not.
pub fn offered(chance: &mut Chance) -> Vec<u8> {
    match chance.below(8) {
        0 => made::some_good_message(chance),
        1 => made::doubtful_message(chance),
        _ => log_made::message(chance),
    }
}

/// A zone that some record is about, where there is one: a byte behind what may be the type byte of a 04h or 05h.
fn told_zone(chance: &mut Chance, log: &[u8]) -> u8 {
    let told = |pair: &[u8]| if matches!(pair[0] & 0x7F, 0x04 | 0x05) { Some(pair[1]) } else { None };
    let zones: Vec<u8> = log.windows(2).filter_map(told).collect();
    if zones.is_empty() || chance.one_in(8) {
        return chance.byte();
    }
    chance.of(&zones).saturating_add(chance.of(&[0, 0, 0, 1, 15, 16]))
}

/// So many bytes of a buffer, a log first and anything behind it.
pub fn padded(chance: &mut Chance, mut log: Vec<u8>, length: usize) -> Vec<u8> {
    let more = length - log.len();
    log.extend(made::bytes(chance, more));
    log
}

// ---- the message

/// Messages under a type byte: zeros and FFh of every length to 20 and around 256; good ones where it has a
/// number; and good ones with so many bytes behind them that their length in 8 or 16 bits is right again.
fn messages_of(chance: &mut Chance, type_byte: u8) -> Vec<Vec<u8>> {
    let mut messages = Vec::new();
    for length in (0..=LONGEST_KNOWN + 2).chain(LONGEST..=LONGEST + 2) {
        messages.extend([vec![0; length], vec![0xFF; length]]);
    }
    if length_of(type_byte).is_some() {
        messages.extend((0..4).map(|_| made::good_message(chance, type_byte & 0x3F)));
    }
    if is_kept(type_byte) {
        for more in [256, 65_536] {
            let mut message = made::good_message(chance, type_byte & 0x3F);
            message.resize(message.len() + more, 0);
            messages.push(message);
        }
    }
    messages.iter_mut().flat_map(|message| message.first_mut()).for_each(|byte| *byte = type_byte);
    messages
}

/// Sound logs with room, without and empty; then 17; 16 with a sound log and an unsound one.
fn circumstances(chance: &mut Chance) -> [LentLog; 6] {
    let log = log_made::records(chance, 2).concat();
    let (with_room, used) = (padded(chance, log.clone(), log.len() + 40), log.len() as u64);
    let mut unsound = with_room.clone();
    unsound[0] |= 0x40;
    let lent = |bytes: &[u8], used| LentLog { bytes: Some(bytes.to_vec()), used, wrong: None };
    [
        lent(&with_room, used),
        lent(&log, used),
        lent(&[], 0),
        lent(&unsound, used),
        lent(&log, used + 1),
        lent(&unsound[..log.len()], used + 1),
    ]
}

fn ask_types(chance: &mut Chance, ask: &mut Ask) {
    for type_byte in 0..=255 {
        let logs = circumstances(chance);
        for message in messages_of(chance, type_byte) {
            for log in &logs {
                keep(ask, log, &message);
            }
        }
    }
}

// ---- the buffer and its used bytes

/// Used lengths at every edge of a buffer, of what a log may use, and of numbers of 16, 32 and 64 bits.
pub fn edges(length: usize) -> Vec<u64> {
    let (length, most) = (length as u64, LOG_MOST as u64);
    let mut edges = vec![0, 1, 8, 9, 10, 13, length.saturating_sub(1), length, length + 1];
    edges.extend([most - 1, most, most + 1, most + 9, 1 << 32, (1 << 32) + 9, 1 << 63, (1 << 63) + 9]);
    edges.extend([u64::MAX - 8, u64::MAX]);
    edges.sort_unstable();
    edges.dedup();
    edges
}

/// A buffer's bytes: sound up to so many used ones, whole or in 16 or in 32 bits, where there are as many; any.
pub fn contents(chance: &mut Chance, length: usize, used: u64) -> Vec<Vec<u8>> {
    let mut sound = vec![used, used & 0xFFFF, used & 0xFFFF_FFFF];
    sound.dedup();
    let logs: Vec<_> = sound.iter().filter_map(|&s| filled(chance, (s as usize).min(length))).collect();
    logs.into_iter().chain([Vec::new()]).map(|log| padded(chance, log, length)).collect()
}

fn ask_edges(chance: &mut Chance, ask: &mut Ask) {
    let around = [LOG_MOST - 1, LOG_MOST, LOG_MOST + 1, LONG_BUFFER];
    for length in [0, 1, 8, 9, 10, 13, 14, 22].into_iter().chain(around) {
        for used in edges(length) {
            for bytes in contents(chance, length, used) {
                let zone = told_zone(chance, &bytes[bytes.len().saturating_sub(13)..]);
                let log = lend(ask, bytes, used);
                newest(ask, &log, zone);
                newest(ask, &log, chance.byte());
                keep(ask, &log, &log_made::message(chance));
                keep(ask, &log, &offered(chance));
            }
        }
    }
}

/// Room for a record, to the byte and a few more or fewer, in the buffer and within what a log may use; for each
/// kept number, for one that is not kept and for a wrong value.
fn ask_rooms(chance: &mut Chance, ask: &mut Ask) {
    let around = [LOG_MOST - 1, LOG_MOST, LOG_MOST + 1, LOG_MOST + 14, LONG_BUFFER];
    for length in (9..=40).chain(around) {
        let most = length.min(LOG_MOST);
        for left in 0..=most.min(15) {
            if let Some(log) = filled(chance, most - left) {
                let log = lend(ask, padded(chance, log, length), (most - left) as u64);
                for number in KEPT.into_iter().chain([0x09]) {
                    keep(ask, &log, &made::good_message(chance, number));
                }
                keep(ask, &log, &[0x05, 241, 0, 0, 0, 0, 0, 0, 0, 0]);
                newest(ask, &log, chance.byte());
            }
        }
    }
}

// ---- the log

fn ask_wrongs(chance: &mut Chance, ask: &mut Ask) {
    for (wrong, _) in WRONGS {
        for (count, place) in (0..=4).flat_map(|count| (0..=count).map(move |place| (count, place))) {
            for _ in 0..WRONG_TURNS {
                if let Some(log) = log_made::with(chance, count, place, wrong) {
                    let lent = lent(chance, &log, Some(wrong));
                    newest(ask, &lent, told_zone(chance, &log));
                    newest(ask, &lent, told_zone(chance, &log));
                    keep(ask, &lent, &offered(chance));
                }
            }
        }
    }
}

/// Logs of one record, of each number's, and of messages in which a record seems to stand: every value at every
/// place.
fn ask_damaged(chance: &mut Chance, ask: &mut Ask) {
    let each: Vec<u8> = KEPT.iter().flat_map(|&n| record(&made::good_message(chance, n))).collect();
    let inner = log_made::messages_with_records(chance);
    let logs = [each[..9].to_vec(), each, inner.iter().flat_map(|message| record(message)).collect()];
    for log in logs {
        for (place, value) in (0..log.len()).flat_map(|place| (0..=255).map(move |value| (place, value))) {
            let mut damaged = log.clone();
            damaged[place] = value;
            let lent = lent(chance, &damaged, None);
            newest(ask, &lent, value);
            newest(ask, &lent, told_zone(chance, &log));
            keep(ask, &lent, &log_made::message(chance));
        }
    }
}

/// Logs that end, and begin, at every place.
fn ask_cuts(chance: &mut Chance, ask: &mut Ask) {
    for turn in 0..60 {
        let log = log_made::records(chance, turn % 20).concat();
        for place in 0..=log.len() + 2 {
            let end = LentLog { bytes: Some(log.clone()), used: place as u64, wrong: None };
            let rest = log.get(place..).unwrap_or(&[]);
            let begun = lent(chance, rest, None);
            for cut in [end, begun] {
                newest(ask, &cut, told_zone(chance, &log));
                keep(ask, &cut, &offered(chance));
            }
        }
    }
}

/// A record alone, and every zone: 05h at every offset, 04h of zones at the edges, and those about no zone.
fn ask_zones(chance: &mut Chance, ask: &mut Ask) {
    let mut alone = |number: u8, second: u8| {
        let mut message = made::good_message(chance, number);
        message[1] = second;
        every_zone(ask, &lent(chance, &record(&message), None));
    };
    (0..=240).for_each(|offset| alone(0x05, offset));
    for zone in [0, 1, 9, 15, 16, 17, 127, 128, 239, 240, 254, 255] {
        alone(0x04, zone);
        alone(0x06, zone & 7);
        alone(0x07, zone);
        alone(0x08, zone);
    }
}

/// Logs of more and more records, and such with few about a zone, up to full ones: every zone.
fn ask_many(chance: &mut Chance, ask: &mut Ask) {
    let mut logs: Vec<Vec<u8>> = (0..40).map(|count| log_made::records(chance, count).concat()).collect();
    logs.extend((0..20).map(|_| sparse(chance, 900)));
    logs.extend((0..4).map(|_| sparse(chance, LOG_MOST)));
    logs.extend(filled(chance, LOG_MOST));
    for log in logs {
        let used = log.len() as u64;
        let log = lend(ask, log, used);
        every_zone(ask, &log);
    }
}

/// From an empty log to one of 65,536 bytes by keeping alone, in a longer buffer; then nothing fits.
fn ask_full(chance: &mut Chance, ask: &mut Ask) {
    ask(Call::LendLog { log: made::bytes(chance, LONG_BUFFER) });
    let numbers = numbers_of(chance, LOG_MOST).expect("records have as many bytes");
    let mut used = 0;
    for (k, number) in numbers.into_iter().enumerate() {
        used += keep(ask, &kept(used), &made::good_message(chance, number));
        if k % 16 == 0 {
            newest(ask, &kept(used), chance.byte());
        }
    }
    every_zone(ask, &kept(used));
    for _ in 0..50 {
        used += keep(ask, &kept(used), &offered(chance));
        newest(ask, &kept(used + 1), chance.byte());
    }
}

/// Lends a full log in a longer buffer, and says its bytes.
pub fn lend_full(chance: &mut Chance, ask: &mut Ask) -> Vec<u8> {
    let log = filled(chance, LOG_MOST).expect("records have as many bytes");
    ask(Call::LendLog { log: padded(chance, log.clone(), LONG_BUFFER) });
    log
}

/// A full log that is damaged at a byte, in the oldest records first and then anywhere, and mended again.
fn ask_full_damaged(chance: &mut Chance, ask: &mut Ask) {
    let log = lend_full(chance, ask);
    for turn in 0..2_000 {
        let place = if turn < 100 { turn } else { chance.below(LOG_MOST) };
        ask(Call::Change { place, byte: made::byte(chance) });
        newest(ask, &kept(LOG_MOST), told_zone(chance, &log[LOG_MOST - 200..]));
        keep(ask, &kept(LOG_MOST), &offered(chance));
        ask(Call::Change { place, byte: log[place] });
    }
}

/// A full log that ends at every place.
fn ask_full_cut(chance: &mut Chance, ask: &mut Ask) {
    let log = lend_full(chance, ask);
    for used in 0..=LOG_MOST + 2 {
        let end = used.min(LOG_MOST);
        newest(ask, &kept(used), told_zone(chance, &log[end.saturating_sub(50)..end]));
    }
}

// ---- as trials of the library

as_trials! {
    all_types: ask_types,
    all_edges: ask_edges,
    all_rooms: ask_rooms,
    all_wrongs: ask_wrongs,
    damaged: ask_damaged,
    cuts: ask_cuts,
    all_zones: ask_zones,
    many_records: ask_many,
    full: ask_full,
    full_damaged: ask_full_damaged,
    full_cut: ask_full_cut,
}

/// Messages kept and zones asked for, one log from run to run, as a host has it: what was added is added to what
/// is used, refused or not.
pub fn runs_from_empty(chance: &mut Chance, calls: &mut Calls, budget: u64) {
    while calls.made < budget {
        let length = chance.of(&[0, 8, 30, 200, 1_000, 5_000, 20_000, LOG_MOST]);
        calls.call(Call::LendLog { log: made::bytes(chance, length) });
        let mut used = 0;
        for _ in 0..100 + chance.below(length.min(3_000) + 1) {
            let mut ask = |call| calls.call(call);
            if chance.one_in(3) {
                newest(&mut ask, &kept(used), chance.byte());
            } else {
                used += keep(&mut ask, &kept(used), &offered(chance));
            }
        }
    }
}

/// A log of any kind: sound, with one thing wrong, or damaged at a byte or two.
pub fn any_log(chance: &mut Chance) -> LentLog {
    let count = 1 + chance.below(12);
    let (place, wrong) = (chance.below(count), chance.of(&WRONGS).0);
    let mut log = log_made::with(chance, count, place, wrong).unwrap_or_default();
    for _ in 0..chance.below(3) {
        let at = chance.below(log.len().max(1));
        let value = made::byte(chance);
        log.iter_mut().skip(at).take(1).for_each(|byte| *byte = value);
    }
    let mut lent = lent(chance, &log, None);
    if chance.one_in(4) {
        lent.used = chance.below(log.len() + 20) as u64;
    }
    lent
}

pub fn any_logs(chance: &mut Chance, calls: &mut Calls, budget: u64) {
    while calls.made < budget {
        let log = any_log(chance);
        let zone = told_zone(chance, log.bytes.as_deref().unwrap_or(&[]));
        let mut ask = |call| calls.call(call);
        newest(&mut ask, &log, zone);
        keep(&mut ask, &log, &offered(chance));
    }
}
