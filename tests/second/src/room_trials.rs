//! The trials of making room (document 02, No. 7), written for anything that is asked, so that the self tests
//! can ask a faulty library. What a log says must be the same before and after, so it is asked about both
//! times.

use crate::calls::{Answer, Call, LentLog};
use crate::driver::Calls;
use crate::log::{record, records, KEPT, LOG_MOST};
use crate::log_counts::ODD_LOGS;
use crate::log_made::{self, filled, lent, record_length, sparse, WRONGS};
use crate::log_trials::{any_log, as_trials, contents, edges, keep, kept, lend_full, newest, offered};
use crate::log_trials::{padded, Ask, LONG_BUFFER};
use crate::made::{self, Chance};
use crate::room_made::{
    about, beside, covering, crowded, few_seconds, longest_that_stays, message_of, near, of_one_number,
    pairs, seconds, shuffle, By, ALL_BY, LAST_OFFSET, LOG_ENOUGH, MOST_THAT_STAYS,
};
use crate::table::TABLE_BYTES;

/// The trials with a fixed number of calls, those first that find most faults soonest.
pub const ASKED: [fn(&mut Chance, &mut Ask); 13] = [
    ask_again,
    ask_partitions,
    ask_cuts,
    ask_wrongs,
    ask_edges,
    ask_sixteens,
    ask_rooms,
    ask_pairs,
    ask_damaged,
    ask_many,
    ask_full,
    ask_full_damaged,
    ask_full_cut,
];

/// Makes room, and says what was won.
fn make_room(ask: &mut Ask, log: &LentLog) -> usize {
    match ask(Call::MakeRoom { log: log.clone() }) {
        Answer::Kept { length, .. } => length as usize,
        _ => 0,
    }
}

fn joined(messages: &[Vec<u8>]) -> Vec<u8> {
    messages.iter().flat_map(|message| record(message)).collect()
}

/// A fresh table takes the messages of a log, the oldest first.
fn apply_all(ask: &mut Ask, log: &[u8]) {
    ask(Call::LendTable { table: vec![0; TABLE_BYTES] });
    for record in records(log).unwrap_or_default().into_iter().rev() {
        ask(Call::Apply { table: None, message: log[record.start..record.end - 1].to_vec() });
    }
    ask(Call::Show { length: TABLE_BYTES });
}

/// The log that is kept says the same before and after: its table, and the newest about these zones. Then
/// there is nothing more to win. Says how many bytes are used.
fn room_in_kept(ask: &mut Ask, log: &[u8], zones: &[u8]) -> usize {
    let said_of = |ask: &mut Ask, log: &[u8]| {
        zones.iter().for_each(|&zone| newest(ask, &kept(log.len()), zone));
        apply_all(ask, log);
    };
    said_of(ask, log);
    let answer = ask(Call::MakeRoom { log: kept(log.len()) });
    if let Answer::Kept { length, changed, .. } = answer {
        let after = &changed.after(log)[..log.len() - length as usize];
        said_of(ask, after);
        make_room(ask, &kept(after.len()));
        return after.len();
    }
    log.len()
}

/// Zones that these messages are just about, or just not; at most eight of them.
fn told_zones(chance: &mut Chance, messages: &[Vec<u8>]) -> Vec<u8> {
    let told = messages.iter().filter(|message| matches!(message[0] & 0x3F, 0x04 | 0x05));
    let mut zones: Vec<u8> =
        told.flat_map(|message| [0, 15, 16].map(|more| message[1].saturating_add(more))).collect();
    shuffle(chance, &mut zones);
    zones.truncate(8);
    zones
}

/// Room is made in a log of these messages, with anything beyond it; at times what it says is asked, too.
fn room_in(chance: &mut Chance, ask: &mut Ask, messages: &[Vec<u8>]) {
    let log = joined(messages);
    let lent = lent(chance, &log, None);
    match lent.bytes {
        Some(bytes) if chance.one_in(32) => {
            ask(Call::LendLog { log: bytes });
            room_in_kept(ask, &log, &told_zones(chance, messages));
        }
        bytes => drop(make_room(ask, &LentLog { bytes, ..lent })),
    }
}

// ---- what goes

/// Every number behind every other, with zones, offsets and partitions at every distance that reaches, and a
/// little more; at times with a record between.
fn ask_pairs(chance: &mut Chance, ask: &mut Ask) {
    for (first, second) in pairs() {
        for place in seconds(first) {
            for other in near(chance, second, place) {
                let mut messages = vec![about(chance, first, place), about(chance, second, other)];
                if chance.one_in(4) {
                    let between = chance.of(&[0x04, 0x06, 0x08]);
                    messages.insert(1, about(chance, between, place & 7));
                }
                room_in(chance, ask, &messages);
            }
        }
    }
}

/// Records before a 05h, it itself, and those that cover it, others that do not among them.
fn around(chance: &mut Chance, offset: u8, mut later: Vec<Vec<u8>>) -> Vec<Vec<u8>> {
    for _ in 0..chance.below(4) {
        later.insert(chance.below(later.len() + 1), beside(chance, offset));
    }
    let mut messages = if chance.one_in(2) { vec![beside(chance, offset)] } else { Vec::new() };
    messages.push(about(chance, 0x05, offset));
    messages.extend(later);
    messages
}

/// A 05h that has later records for all of its zones, for all but each one in turn, and for any of them: 04h
/// alone, as many 05h as fit, both.
fn ask_sixteens(chance: &mut Chance, ask: &mut Ask) {
    let offsets: Vec<u8> = (0..=LAST_OFFSET).filter(|offset| matches!(offset % 16, 0 | 1 | 8 | 15)).collect();
    for (offset, by) in offsets.iter().flat_map(|&offset| ALL_BY.map(|by| (offset, by))) {
        let mut missing: Vec<Vec<u8>> = (0..16).map(|k| vec![k]).chain([vec![]]).collect();
        missing.extend((0..4).map(|_| (0..16).filter(|_| chance.one_in(2)).collect()));
        for missing in missing {
            let later = covering(chance, offset, &missing, by);
            let messages = around(chance, offset, later);
            room_in(chance, ask, &messages);
        }
        ask_by_one_that_goes(chance, ask, offset, by);
    }
}

/// A 05h that is covered by one that goes itself, with the zones that this leaves: with all of them, and
/// without one.
fn ask_by_one_that_goes(chance: &mut Chance, ask: &mut Ask, offset: u8, by: By) {
    let firsts = offset.saturating_sub(15)..=(offset + 15).min(LAST_OFFSET);
    for first in firsts.filter(|&first| first != offset) {
        let mut later = covering(chance, first, &[], by);
        let left = (offset..=offset + 15).filter(|zone| !(first..=first + 15).contains(zone));
        later.extend(left.map(|zone| about(chance, 0x04, zone)));
        if chance.one_in(2) {
            later.remove(chance.below(later.len()));
        }
        shuffle(chance, &mut later);
        later.insert(0, about(chance, 0x05, first));
        let messages = around(chance, offset, later);
        room_in(chance, ask, &messages);
    }
}

/// 06h of any partitions before a 07h and behind one, between two, and before 06h of any others; all eight.
fn ask_partitions(chance: &mut Chance, ask: &mut Ask) {
    for set in 0..=255u8 {
        let mut of = |set: u8| -> Vec<Vec<u8>> {
            let mut all: Vec<u8> = (0..8).filter(|p| set >> p & 1 == 1).collect();
            shuffle(chance, &mut all);
            all.into_iter().map(|partition| about(chance, 0x06, partition)).collect()
        };
        let (some, others, eight) = (of(set), of(!set | set << 1), of(0xFF));
        let [all, again] = [0x07, 0x07].map(|number| vec![made::good_message(chance, number)]);
        let logs = [
            [&some[..], &all, &others],
            [&all, &some, &again],
            [&some, &others, &some],
            [&some, &all, &eight],
        ];
        for log in logs {
            room_in(chance, ask, &log.concat());
        }
    }
}

/// The same record again and again, and with other bytes or another flag, with records between.
fn ask_again(chance: &mut Chance, ask: &mut Ask) {
    for turn in 0..2_000 {
        let number = KEPT[turn % KEPT.len()];
        let message = made::good_message(chance, number);
        let mut messages: Vec<Vec<u8>> = (0..chance.below(4)).map(|_| log_made::message(chance)).collect();
        for _ in 0..2 + chance.below(3) {
            let mut again = message.clone();
            match chance.below(4) {
                0 => again[0] ^= 0x80,
                1 => again[2..].iter_mut().for_each(|byte| *byte = chance.byte()),
                _ => {}
            }
            messages.insert(chance.below(messages.len() + 1), again);
        }
        room_in(chance, ask, &messages);
    }
}

// ---- the room that is won

/// A record for which there is no room, to the byte: then room is made, and it is kept if that is enough.
fn ask_room_for(chance: &mut Chance, ask: &mut Ask, log: &[u8], length: usize) {
    for number in KEPT {
        let message = made::good_message(chance, number);
        ask(Call::LendLog { log: padded(chance, log.to_vec(), length) });
        let used = log.len() + keep(ask, &kept(log.len()), &message);
        let used = used - make_room(ask, &kept(used));
        keep(ask, &kept(used), &message);
    }
}

/// Logs that win nothing, or a record of each number, with few bytes left in the buffer or within what a log
/// may use.
fn ask_rooms(chance: &mut Chance, ask: &mut Ask) {
    for left in 0..=13 {
        for number in KEPT {
            let message = made::good_message(chance, number);
            let twice = joined(&[message.clone(), message.clone()]);
            ask_room_for(chance, ask, &record(&message), record_length(number) + left);
            ask_room_for(chance, ask, &twice, twice.len() + left);
        }
        let log = filled(chance, LOG_MOST - left).expect("records have as many bytes");
        ask_room_for(chance, ask, &log, LONG_BUFFER);
    }
    let longest = longest_that_stays(chance);
    for more in [0, 12, 13, LOG_ENOUGH - MOST_THAT_STAYS] {
        ask_room_for(chance, ask, &longest, longest.len() + more);
    }
}

// ---- the buffer, its used bytes, and unsound logs

/// Room is made twice in the kept log. Says how many bytes are used.
fn make_room_twice(ask: &mut Ask, used: u64) -> u64 {
    (0..2).fold(used, |used, _| used - make_room(ask, &LentLog { bytes: None, used, wrong: None }) as u64)
}

fn ask_edges(chance: &mut Chance, ask: &mut Ask) {
    let around = [LOG_MOST - 1, LOG_MOST, LOG_MOST + 1, LONG_BUFFER];
    for length in [0, 1, 8, 9, 10, 13, 14, 18, 22, 27].into_iter().chain(around) {
        for used in edges(length) {
            for bytes in contents(chance, length, used) {
                ask(Call::LendLog { log: bytes });
                make_room_twice(ask, used);
            }
        }
    }
}

fn ask_wrongs(chance: &mut Chance, ask: &mut Ask) {
    for (wrong, _) in WRONGS {
        for (count, place) in (0..=4).flat_map(|count| (0..=count).map(move |place| (count, place))) {
            for _ in 0..ODD_LOGS {
                if let Some(log) = log_made::with(chance, count, place, wrong) {
                    // a record twice behind what is wrong would go, and is met before that
                    let twice = record(&log_made::message(chance)).repeat(2);
                    make_room(ask, &lent(chance, &log, Some(wrong)));
                    make_room(ask, &lent(chance, &[log, twice].concat(), None));
                }
            }
        }
    }
}

/// Logs of records twice, and of messages in which a record seems to stand: every value at every place.
fn ask_damaged(chance: &mut Chance, ask: &mut Ask) {
    let each = joined(&KEPT.map(|number| made::good_message(chance, number)));
    let inner = joined(&log_made::messages_with_records(chance));
    let same = joined(&[9, 9, 9].map(|zone| about(chance, 0x04, zone)));
    for log in [each.repeat(2), inner.repeat(2), same] {
        for (place, value) in (0..log.len()).flat_map(|place| (0..=255).map(move |value| (place, value))) {
            let mut damaged = log.clone();
            damaged[place] = value;
            make_room(ask, &lent(chance, &damaged, None));
        }
    }
}

/// Logs that end, and begin, at every place.
fn ask_cuts(chance: &mut Chance, ask: &mut Ask) {
    for turn in 0..60 {
        let log = crowded(chance, 4 * turn);
        for place in 0..=log.len() + 2 {
            let end = LentLog { bytes: Some(log.clone()), used: place as u64, wrong: None };
            let rest = log.get(place..).unwrap_or(&[]);
            let begun = lent(chance, rest, None);
            make_room(ask, &end);
            make_room(ask, &begun);
        }
    }
}

// ---- many records

/// Logs of more and more records: what every zone says, and the table.
fn ask_many(chance: &mut Chance, ask: &mut Ask) {
    let mut logs: Vec<Vec<u8>> = (0..40).map(|count| log_made::records(chance, count).concat()).collect();
    logs.extend((0..60).map(|turn| crowded(chance, 30 * turn)));
    logs.extend((0..10).map(|_| sparse(chance, 900)));
    let zones: Vec<u8> = (0..=255).collect();
    for log in logs {
        let more = chance.below(40);
        ask(Call::LendLog { log: padded(chance, log.clone(), log.len() + more) });
        room_in_kept(ask, &log, &zones);
    }
}

/// Full logs: of few zones, of all, of one number alone; and the longest that stays, alone, twice, and behind
/// others.
fn full_logs(chance: &mut Chance) -> Vec<Vec<u8>> {
    let full = |chance: &mut Chance, bytes| filled(chance, bytes).expect("records have as many bytes");
    let mut logs: Vec<Vec<u8>> = (0..6).map(|_| crowded(chance, LOG_MOST)).collect();
    logs.extend((0..3).map(|_| full(chance, LOG_MOST)));
    logs.extend(KEPT.map(|number| of_one_number(chance, number, LOG_MOST)));
    logs.extend((0..3).map(|_| sparse(chance, LOG_MOST)));
    let longest = longest_that_stays(chance);
    assert_eq!(longest.len(), MOST_THAT_STAYS);
    let rest = LOG_MOST - longest.len();
    logs.push([full(chance, rest), longest.clone()].concat());
    logs.push([longest.clone(), full(chance, rest)].concat());
    logs.push(longest.repeat(2));
    logs.push(longest_that_stays(chance));
    logs
}

fn ask_full(chance: &mut Chance, ask: &mut Ask) {
    for (turn, log) in full_logs(chance).into_iter().enumerate() {
        ask(Call::LendLog { log: padded(chance, log.clone(), LONG_BUFFER) });
        let used = match turn % 3 {
            0 => room_in_kept(ask, &log, &[0, 1, 127, 128, 255]),
            _ => make_room_twice(ask, log.len() as u64) as usize,
        };
        keep(ask, &kept(used), &offered(chance));
    }
}

/// A full log that is damaged where it matters, in the oldest records first and then anywhere, and mended
/// again.
fn ask_full_damaged(chance: &mut Chance, ask: &mut Ask) {
    let log = lend_full(chance, ask);
    let mut starts: Vec<usize> =
        records(&log).unwrap_or_default().iter().map(|record| record.start).collect();
    shuffle(chance, &mut starts);
    for place in (0..60).chain(starts.into_iter().take(300)) {
        ask(Call::Change { place, byte: log[place] ^ 0x40 });
        let mut damaged = log.clone();
        damaged[place] ^= 0x40;
        if records(&damaged).is_none() {
            make_room(ask, &kept(LOG_MOST));
        }
        ask(Call::Change { place, byte: log[place] });
    }
}

/// A full log that ends at any place: nothing changes where that is within a record.
fn ask_full_cut(chance: &mut Chance, ask: &mut Ask) {
    let log = lend_full(chance, ask);
    let ends: Vec<usize> = records(&log).unwrap_or_default().iter().map(|record| record.end).collect();
    for used in (0..600).map(|k| LOG_MOST - 109 * k).chain(LOG_MOST - 50..=LOG_MOST + 2) {
        if used > 0 && !ends.contains(&used) {
            make_room(ask, &kept(used));
        }
    }
    make_room_twice(ask, ends[ends.len() / 2] as u64);
}

// ---- as trials of the library

as_trials! {
    all_pairs: ask_pairs,
    all_sixteens: ask_sixteens,
    all_partitions: ask_partitions,
    again: ask_again,
    all_rooms: ask_rooms,
    all_edges: ask_edges,
    all_wrongs: ask_wrongs,
    damaged: ask_damaged,
    cuts: ask_cuts,
    many_records: ask_many,
    full: ask_full,
    full_damaged: ask_full_damaged,
    full_cut: ask_full_cut,
}

/// A message is kept; where that is refused, room is made and it is offered again. Says how many bytes are
/// used.
fn keep_or_make_room(ask: &mut Ask, used: usize, message: &[u8]) -> usize {
    match keep(ask, &kept(used), message) {
        0 => {
            let used = used - make_room(ask, &kept(used));
            used + keep(ask, &kept(used), message)
        }
        added => used + added,
    }
}

/// A buffer's length for a log of messages of so many second bytes: about as many as may stay, or any.
fn soon_full(chance: &mut Chance, seconds: usize) -> usize {
    let may_stay = 20 * seconds + 10 * seconds.min(8) + 23;
    match chance.below(4) {
        0 => chance.of(&[0, 8, 9, 13, 20, 30, 60, MOST_THAT_STAYS, 20_000]),
        1 => may_stay / 2 + chance.below(may_stay / 2),
        _ => may_stay + chance.below(40),
    }
}

/// Messages kept, zones asked for and room made, in buffers that are soon full, one log from run to run: what
/// was added is added to what is used and what was won is taken from it, refused or not.
pub fn runs_from_empty(chance: &mut Chance, calls: &mut Calls, budget: u64) {
    while calls.made < budget {
        let (mut used, among) = (0, few_seconds(chance));
        let length = soon_full(chance, among.len());
        calls.call(Call::LendLog { log: made::bytes(chance, length) });
        for _ in 0..100 + chance.below(length.min(2_000) + 1) {
            let ask: &mut Ask = &mut |call| calls.call(call);
            match chance.below(16) {
                0 => used -= make_room(ask, &kept(used)),
                1 => newest(ask, &kept(used), chance.of(&among)),
                2 => used -= make_room(ask, &kept(length + 1)),
                3 => used += keep(ask, &kept(used), &offered(chance)),
                _ => used = keep_or_make_room(ask, used, &message_of(chance, &among)),
            }
        }
    }
}

/// Logs in as many bytes as are enough, or a few more, empty at first or the longest that stays: once room
/// was made there is room for every message.
pub fn runs_in_enough(chance: &mut Chance, calls: &mut Calls, budget: u64) {
    while calls.made < budget {
        let length = LOG_ENOUGH + chance.of(&[0, 0, 0, 1, 13, 100]);
        let log = if chance.one_in(4) { Vec::new() } else { longest_that_stays(chance) };
        let mut used = log.len();
        calls.call(Call::LendLog { log: padded(chance, log, length) });
        for _ in 0..600 {
            let ask: &mut Ask = &mut |call| calls.call(call);
            used = keep_or_make_room(ask, used, &made::table_message(chance));
        }
    }
}

pub fn any_logs(chance: &mut Chance, calls: &mut Calls, budget: u64) {
    while calls.made < budget {
        let log = any_log(chance);
        make_room(&mut |call| calls.call(call), &log);
    }
}
