//! What must hold of the second program's own answers where room is made (document 02, No. 7).

use std::ops::Range;

use crate::log::{is_about, keep, newest, record, records, KEPT, LOG_MOST};
use crate::log_made::{self, filled};
use crate::made::{self, Chance};
use crate::room::{make_room, stay};
use crate::room_made::{about, covering, crowded, longest_that_stays, ALL_BY, LAST_OFFSET, LOG_ENOUGH};
use crate::room_made::{of_one_number, MOST_THAT_STAYS};
use crate::table::{apply, TABLE_BYTES};
use crate::Tally;

/// A sound log, in which more or less goes.
fn some_log(chance: &mut Chance) -> Vec<u8> {
    let (count, bytes) = (chance.below(20), chance.below(400));
    match chance.below(3) {
        0 => log_made::records(chance, count).concat(),
        1 => crowded(chance, bytes),
        _ => {
            let offset = chance.below(usize::from(LAST_OFFSET) + 1) as u8;
            let missing: Vec<u8> = (0..16).filter(|_| chance.one_in(16)).collect();
            let by = chance.of(&ALL_BY);
            let later = covering(chance, offset, &missing, by);
            [vec![about(chance, 0x05, offset)], later].concat().iter().flat_map(|m| record(m)).collect()
        }
    }
}

/// The messages of a log, the oldest first.
fn messages_in(log: &[u8]) -> Vec<Vec<u8>> {
    let message = |record: Range<usize>| log[record.start..record.end - 1].to_vec();
    records(log).unwrap_or_default().into_iter().rev().map(message).collect()
}

fn table_of(messages: &[Vec<u8>]) -> Vec<u8> {
    let mut table = vec![0; TABLE_BYTES];
    messages.iter().for_each(|message| assert_eq!(apply(&mut table, message), 0, "a log's message is taken"));
    table
}

/// The message with every bit set of what it says.
fn loud(message: &[u8]) -> Vec<u8> {
    let said_from = if matches!(message[0] & 0x3F, 0x07 | 0x08) { 1 } else { 2 };
    let mut loud = message.to_vec();
    loud[said_from..].fill(0xFF);
    loud
}

/// Whether a fresh table that takes later messages tells nothing of this one before them, had it said all it
/// can.
fn is_unseen(message: &[u8], later: &[Vec<u8>]) -> bool {
    table_of(&[vec![loud(message)], later.to_vec()].concat()) == table_of(later)
}

/// The sentences of nx584.h.
fn goes_by_the_header(message: &[u8], later: &[Vec<u8>]) -> bool {
    let (number, second) = (message[0] & 0x3F, message[1]);
    let is_later = |m: &Vec<u8>| m[0] & 0x3F == number;
    match number {
        0x04 | 0x06 => later.iter().any(|m| is_later(m) && m[1] == second),
        0x05 => (second..=second + 15).all(|zone| later.iter().any(|m| is_about(m, zone))),
        _ => later.iter().any(is_later),
    }
}

/// Which messages stay, the oldest first.
fn which_stay(log: &[u8]) -> Vec<bool> {
    let records = records(log).expect("a sound log");
    let mut which = stay(log, &records);
    which.reverse();
    which
}

/// What goes by what a message writes is what no table tells, and what the header says; of each number some
/// go and some stay.
fn what_goes_is_unseen(chance: &mut Chance) -> bool {
    let mut met = [[0; 2]; KEPT.len()];
    let alike = (0..4_000).all(|_| {
        let log = some_log(chance);
        let messages = messages_in(&log);
        which_stay(&log).into_iter().enumerate().all(|(k, stays)| {
            let (message, later) = (&messages[k], &messages[k + 1..]);
            met[usize::from(message[0] & 0x3F) - 4][usize::from(stays)] += 1;
            is_unseen(message, later) != stays && goes_by_the_header(message, later) != stays
        })
    });
    alike && met.iter().flatten().all(|&count| count > 500)
}

/// Later ones that go need not be counted: those that stay cover as much.
fn what_goes_covers_nothing(chance: &mut Chance) -> bool {
    (0..2_000).all(|_| {
        let log = some_log(chance);
        let (messages, which) = (messages_in(&log), which_stay(&log));
        (0..messages.len()).all(|k| {
            let left = (k + 1..messages.len()).filter(|&later| which[later]);
            is_unseen(&messages[k], &left.map(|later| messages[later].clone()).collect::<Vec<_>>())
                != which[k]
        })
    })
}

/// The bytes of the newest record about each zone, none of them where there is none.
fn newest_of_all(log: &[u8], used: usize) -> Vec<Vec<u8>> {
    let found = (0..=255).map(|zone| newest(log, used as u64, zone));
    found.map(|found| log[found.at as usize..][..found.length as usize].to_vec()).collect()
}

/// Whether some items are among others, in the same order.
fn are_in_order(some: &[Vec<u8>], all: &[Vec<u8>]) -> bool {
    let mut rest = all.iter();
    some.iter().all(|item| rest.any(|other| other == item))
}

/// The table and the newest about each zone are what they were; the order stays, and what is beyond; a second
/// call wins nothing and changes nothing.
fn logs_say_the_same(chance: &mut Chance) -> bool {
    let mut shorter = 0;
    let same = (0..600).all(|_| {
        let (log, more) = (some_log(chance), chance.below(30));
        let (used, before) = (log.len(), [log, made::bytes(chance, more)].concat());
        let made = make_room(&before, used as u64);
        let left = used - made.length as usize;
        let (was, is) = (messages_in(&before[..used]), messages_in(&made.log[..left]));
        let again = make_room(&made.log, left as u64);
        shorter += usize::from(left < used);
        (made.number, again.number, again.length) == (0, 0, 0)
            && again.log == made.log
            && made.log[left..] == before[left..]
            && are_in_order(&is, &was)
            && is.last() == was.last()
            && table_of(&is) == table_of(&was)
            && newest_of_all(&made.log, left) == newest_of_all(&before, used)
    });
    same && shorter > 300
}

/// Of no log more than 5,058 bytes stay, and of one so many; with the longest record that is at most 5,236.
fn enough_is_enough(chance: &mut Chance) -> bool {
    let longest = longest_that_stays(chance);
    let mut logs: Vec<Vec<u8>> = KEPT.map(|number| of_one_number(chance, number, LOG_MOST)).to_vec();
    logs.extend((0..10).filter_map(|_| filled(chance, LOG_MOST)));
    logs.push(longest.repeat(12));
    let left = |log: &Vec<u8>| log.len() - make_room(log, log.len() as u64).length as usize;
    logs.iter().all(|log| left(log) <= MOST_THAT_STAYS)
        && left(&longest) == longest.len()
        && longest.len() == 5_058
        && MOST_THAT_STAYS + 13 <= LOG_ENOUGH
}

/// A unit with a log of 5,236 bytes that makes room where there is none: every message is kept then, none is
/// refused with 17, and the log tells the table of all that was heard.
fn enough_tells_the_table(chance: &mut Chance) -> bool {
    (0..4).all(|turn| {
        let (mut log, mut used) = (made::bytes(chance, LOG_ENOUGH), 0);
        let (mut table, mut made_room) = (vec![0; TABLE_BYTES], 0);
        if turn % 2 == 1 {
            let longest = longest_that_stays(chance);
            log[..longest.len()].copy_from_slice(&longest);
            (table, used) = (table_of(&messages_in(&longest)), longest.len() as u64);
        }
        let heard = (0..3_000).all(|_| {
            let message = made::table_message(chance);
            let mut kept = keep(&log, used, &message);
            if kept.number == 9 {
                let made = make_room(&log, used);
                used -= made.length;
                made_room += 1;
                kept = keep(&made.log, used, &message);
            }
            used += kept.length;
            log = kept.log;
            kept.number == 0 && apply(&mut table, &message) == 0
        });
        heard && made_room > 5 && table_of(&messages_in(&log[..used as usize])) == table
    })
}

/// A 05h stays exactly if a zone of it is left out, whatever covers the others.
fn sixteens_are_told(chance: &mut Chance) -> bool {
    (0..=LAST_OFFSET).all(|offset| {
        ALL_BY.iter().all(|&by| {
            let missing: Vec<u8> = (0..16).filter(|_| chance.one_in(20)).collect();
            let later = covering(chance, offset, &missing, by);
            let messages = [vec![about(chance, 0x05, offset)], later].concat();
            let log: Vec<u8> = messages.iter().flat_map(|message| record(message)).collect();
            which_stay(&log)[0] != missing.is_empty()
        })
    })
}

pub fn run(chance: &mut Chance, tally: &mut Tally) {
    tally.note("room: what goes is what no table tells, and as the header says", what_goes_is_unseen(chance));
    tally.note("room: what goes need not be counted as later", what_goes_covers_nothing(chance));
    tally.note("room: 05h stays exactly if a zone is left out", sixteens_are_told(chance));
    tally.note("room: the same table and newest, order and bytes beyond; twice", logs_say_the_same(chance));
    tally.note("room: at most 5,058 bytes stay, and so many may", enough_is_enough(chance));
    tally.note(
        "room: in 5,236 bytes every message is kept, and the table told",
        enough_tells_the_table(chance),
    );
}
