//! How often each answer of the station log was met, and at which edges; and which must have been.

use crate::calls::{Answer, Call, LentLog};
use crate::log::{is_kept, Found, LOG_MOST};
use crate::log_made::{Wrong, WRONGS};
use crate::messages::{length_of, verdict_of, LONGEST_KNOWN};
use crate::rows::{decimal, hex, print_least, Row, Rows};

/// Calls on logs with each thing wrong, and on logs with none, that a run must have made.
pub const ODD_LOGS: u64 = 100;

/// The message's own refusals, none among them.
const OWN: &[u8] = &[0, 4, 6, 7, 8, 18];
pub const TYPES_KEPT: &[u8] = &[0x04, 0x05, 0x06, 0x07, 0x08, 0x84, 0x85, 0x86, 0x87, 0x88];
const RECORD: &[u8] = &[1, 2, 3, 4, 5, 6, 7, 8, 9, 10, 11, 12, 13];
const WHY_16: [&str; 4] = ["", "beyond the buffer", "above 65,536", "both"];
const STANDS: [&str; 5] = ["none", "the only one", "at the oldest end", "between", "at the newest end"];

const ROWS: [Row; 15] = [
    Row { name: "keep: number", wanted: &[0, 4, 6, 7, 8, 9, 16, 17, 18], show: decimal },
    Row { name: "keep: type byte that was kept", wanted: TYPES_KEPT, show: hex },
    Row { name: "keep, 16: why", wanted: &[1, 2, 3], show: why },
    Row { name: "keep, 16 before the message's own", wanted: OWN, show: decimal },
    Row { name: "keep, 17 before the message's own", wanted: OWN, show: decimal },
    Row { name: "keep with no room for it: number", wanted: &[4, 6, 7, 8, 9, 18], show: decimal },
    Row { name: "kept: bytes left in the buffer, 3 for more", wanted: &[0, 1, 2, 3], show: decimal },
    Row { name: "kept: bytes left within 65,536, 3 for more", wanted: &[0, 1, 2, 3], show: decimal },
    Row { name: "keep, 9: bytes that the buffer has not", wanted: RECORD, show: decimal },
    Row { name: "keep, 9: bytes above 65,536 in a buffer that has them", wanted: RECORD, show: decimal },
    Row { name: "keep, a message above 18: number", wanted: &[4, 6, 7, 16, 17], show: decimal },
    Row { name: "newest: number", wanted: &[0, 16, 17], show: decimal },
    Row { name: "newest, 16: why", wanted: &[1, 2, 3], show: why },
    Row { name: "newest: bytes of the record", wanted: &[0, 9, 11], show: decimal },
    Row { name: "newest: where it stands", wanted: &[0, 1, 2, 3, 4], show: stands },
];
const KEEP: usize = 0;
const TYPE: usize = 1;
const KEEP_16: usize = 2;
const OWN_AT_16: usize = 3;
const OWN_AT_17: usize = 4;
const NO_ROOM: usize = 5;
const LEFT_IN_BUFFER: usize = 6;
const LEFT_IN_MOST: usize = 7;
const BUFFER_SHORT: usize = 8;
const MOST_SHORT: usize = 9;
const LONG: usize = 10;
const NEWEST: usize = 11;
const NEWEST_16: usize = 12;
const BYTES: usize = 13;
const STANDS_AT: usize = 14;

pub fn why(number: u8) -> String {
    WHY_16[usize::from(number)].to_string()
}

fn stands(number: u8) -> String {
    STANDS[usize::from(number)].to_string()
}

/// Calls by what is wrong with the lent log.
pub struct Wrongs([u64; WRONGS.len()]);

impl Wrongs {
    pub fn new() -> Wrongs {
        Wrongs([0; WRONGS.len()])
    }

    pub fn add(&mut self, other: &Wrongs) {
        self.0.iter_mut().zip(&other.0).for_each(|(mine, theirs)| *mine += theirs);
    }

    /// Sound logs refuse nothing by themselves, the others everything.
    pub fn count(&mut self, lent: &LentLog, number: u8) {
        if let Some(wrong) = lent.wrong {
            if (number == 17) != (wrong == Wrong::Nothing) {
                self.0[wrong as usize] += 1;
            }
        }
    }

    pub fn print(&self, calls: &str, missing: &mut Vec<String>) {
        let by_wrong = WRONGS.iter().zip(&self.0);
        let met: Vec<String> =
            by_wrong.clone().map(|((_, name), count)| format!("{name} x {count}")).collect();
        println!("  {calls}: what is wrong with made logs, 17 but for nothing: {}", met.join(", "));
        let few = by_wrong.filter(|(_, &count)| count < ODD_LOGS);
        missing.extend(
            few.map(|((_, name), _)| {
                format!("{calls}: fewer than {ODD_LOGS} on logs with this wrong: {name}")
            }),
        );
    }
}

/// Why 16 was given, as WHY_16 has it.
pub fn why_16(lent: &LentLog, length: usize) -> u8 {
    u8::from(lent.used > length as u64) + 2 * u8::from(lent.used > LOG_MOST as u64)
}

pub struct LogCounts {
    rows: Rows,
    wrong: Wrongs,
    /// By zone: that a record was found, and that there is none.
    zones: [[u64; 256]; 2],
    /// 18, by type byte.
    not_kept: [u64; 256],
    /// The bytes of the driver's kept log.
    kept: usize,
}

/// The message's own refusal, 18 among them, or 0.
fn own(message: &[u8]) -> u8 {
    match verdict_of(message) {
        0 if !is_kept(message[0]) => 18,
        verdict => verdict,
    }
}

/// Where a record that was found stands, as STANDS has it.
fn place(found: &Found, used: u64) -> u8 {
    match (found.at == 0, found.at + found.length == used) {
        _ if found.length == 0 => 0,
        (true, true) => 1,
        (true, false) => 2,
        (false, false) => 3,
        (false, true) => 4,
    }
}

impl LogCounts {
    pub fn new() -> LogCounts {
        LogCounts {
            rows: Rows::new(&ROWS),
            wrong: Wrongs::new(),
            zones: [[0; 256]; 2],
            not_kept: [0; 256],
            kept: 0,
        }
    }

    pub fn add(&mut self, other: &LogCounts) {
        self.rows.add(&other.rows);
        self.wrong.add(&other.wrong);
        let mine = self.zones.iter_mut().flatten().chain(self.not_kept.iter_mut());
        let theirs = other.zones.iter().flatten().chain(other.not_kept.iter());
        mine.zip(theirs).for_each(|(mine, theirs)| *mine += theirs);
    }

    /// Counts by the room that a record has: in the buffer, and within what a log may use.
    fn count_room(&mut self, number: u8, length: u64, end: u64) {
        let most = LOG_MOST as u64;
        if end > length.min(most) {
            self.rows.met(NO_ROOM, number);
        }
        match number {
            0 => {
                self.rows.met_bytes(LEFT_IN_BUFFER, (length - end).min(3));
                self.rows.met_bytes(LEFT_IN_MOST, (most - end).min(3));
            }
            9 if end > length => self.rows.met_bytes(BUFFER_SHORT, end - length),
            9 => self.rows.met_bytes(MOST_SHORT, end - most),
            _ => {}
        }
    }

    fn count_keep(&mut self, lent: &LentLog, message: &[u8], number: u8) {
        let length = lent.bytes.as_ref().map_or(self.kept, Vec::len);
        self.rows.met(KEEP, number);
        self.wrong.count(lent, number);
        match number {
            16 => {
                self.rows.met(KEEP_16, why_16(lent, length));
                self.rows.met(OWN_AT_16, own(message));
            }
            17 => self.rows.met(OWN_AT_17, own(message)),
            _ => self.count_room(number, length as u64, lent.used + message.len() as u64 + 1),
        }
        match (number, message.first()) {
            (0, Some(&type_byte)) => self.rows.met(TYPE, type_byte),
            (18, Some(&type_byte)) => self.not_kept[usize::from(type_byte)] += 1,
            _ => {}
        }
        if message.len() > LONGEST_KNOWN {
            self.rows.met(LONG, number);
        }
    }

    fn count_newest(&mut self, lent: &LentLog, zone: u8, found: &Found) {
        let length = lent.bytes.as_ref().map_or(self.kept, Vec::len);
        self.rows.met(NEWEST, found.number);
        self.wrong.count(lent, found.number);
        match found.number {
            16 => self.rows.met(NEWEST_16, why_16(lent, length)),
            0 => {
                self.rows.met_bytes(BYTES, found.length);
                self.rows.met(STANDS_AT, place(found, lent.used));
                self.zones[usize::from(found.length == 0)][usize::from(zone)] += 1;
            }
            _ => {}
        }
    }

    pub fn count(&mut self, call: &Call, answer: &Answer) {
        match (call, answer) {
            (Call::LendLog { log }, _) => self.kept = log.len(),
            (Call::Keep { log, message }, Answer::Kept { number, .. }) => {
                self.count_keep(log, message, *number);
            }
            (Call::Newest { log, zone }, Answer::Found { found, .. }) => {
                self.count_newest(log, *zone, found);
            }
            _ => {}
        }
    }

    /// Prints all counts, and says what should have been met and was not.
    pub fn print(&self, missing: &mut Vec<String>) {
        self.rows.print(missing);
        let [found, none] = &self.zones;
        print_least("newest, each of 256 zones: found", found.iter().copied(), missing);
        print_least("newest, each of 256 zones: none", none.iter().copied(), missing);
        let others = (0..=255).filter(|&byte| length_of(byte).is_some() && !is_kept(byte));
        let refused = others.map(|byte| self.not_kept[usize::from(byte)]);
        print_least("keep, 18 by each of 72 type bytes", refused, missing);
        self.wrong.print("keep and newest", missing);
    }
}
