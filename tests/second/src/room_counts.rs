//! How often each answer was met where room was made, and what went and stayed; and which must have been.

use crate::calls::{Answer, Call, LentLog};
use crate::log::{is_kept, records, Changed, COVERED, LOG_MOST};
use crate::log_counts::{why, why_16, Wrongs, TYPES_KEPT};
use crate::room::stay;
use crate::room_made::{seconds, LOG_ENOUGH};
use crate::rows::{decimal, hex, print_least, Row, Rows};

const TO_15: &[u8] = &[0, 1, 2, 3, 4, 5, 6, 7, 8, 9, 10, 11, 12, 13, 14, 15];
const TO_16: &[u8] = &[0, 1, 2, 3, 4, 5, 6, 7, 8, 9, 10, 11, 12, 13, 14, 15, 16];
/// A distance from -15 to 15, counted as a number from 0 to 30.
const DISTANCES: &[u8] = &[
    0, 1, 2, 3, 4, 5, 6, 7, 8, 9, 10, 11, 12, 13, 14, 15, 16, 17, 18, 19, 20, 21, 22, 23, 24, 25, 26, 27, 28,
    29, 30,
];
const FOR: [&str; 4] = ["04h", "05h", "either", "both together"];
const ALL_THE_SAME: [&str; 3] = ["04h before a 05h over it", "06h before a 07h", "07h before eight 06h"];
const WON: [&str; 4] = ["nothing of nothing", "nothing", "some", "all but one record"];

const ROWS: [Row; 14] = [
    Row { name: "make_room: number", wanted: &[0, 16, 17], show: decimal },
    Row { name: "make_room, 16: why", wanted: &[1, 2, 3], show: why },
    Row { name: "make_room: won", wanted: &[0, 1, 2, 3], show: won },
    Row { name: "make_room, 65,536 used: won", wanted: &[2], show: won },
    Row { name: "make_room: type byte that went", wanted: TYPES_KEPT, show: hex },
    Row { name: "make_room: type byte that stayed", wanted: TYPES_KEPT, show: hex },
    Row { name: "make_room: zones of a 05h that later ones cover", wanted: TO_16, show: decimal },
    Row { name: "make_room: the one zone of a 05h that none covers", wanted: TO_15, show: decimal },
    Row { name: "make_room: 05h that went for later", wanted: &[0, 1, 2, 3], show: went_for },
    Row { name: "make_room: zones from a 05h to the next one", wanted: DISTANCES, show: distance },
    Row { name: "make_room: stayed all the same", wanted: &[0, 1, 2], show: all_the_same },
    Row { name: "make_room at once again: won", wanted: &[0], show: decimal },
    Row { name: "keep after 9 and make_room: number", wanted: &[0, 9], show: decimal },
    Row { name: "keep after make_room in 5,236 bytes or more: number", wanted: &[0], show: decimal },
];
const NUMBER: usize = 0;
const WHY: usize = 1;
const ROOM_WON: usize = 2;
const FULL_WON: usize = 3;
const WENT: usize = 4;
const STAYED: usize = 5;
const ZONES_COVERED: usize = 6;
const ZONE_LEFT: usize = 7;
const WENT_FOR: usize = 8;
const NEXT_05: usize = 9;
const STAYED_ALL_THE_SAME: usize = 10;
const AGAIN: usize = 11;
const AFTER_9: usize = 12;
const ENOUGH: usize = 13;

fn won(number: u8) -> String {
    WON[usize::from(number)].to_string()
}

fn went_for(number: u8) -> String {
    FOR[usize::from(number)].to_string()
}

fn all_the_same(number: u8) -> String {
    ALL_THE_SAME[usize::from(number)].to_string()
}

fn distance(number: u8) -> String {
    format!("{:+}", i16::from(number) - 15)
}

/// What there is behind a record: by number and second byte, and by zone a 05h that covers it.
pub struct Later {
    pub seen: [[bool; 256]; 9],
    pub covered: [bool; 256],
    next_05: Option<u8>,
}

impl Later {
    pub fn new() -> Later {
        Later { seen: [[false; 256]; 9], covered: [false; 256], next_05: None }
    }

    /// A message, of which a 05h covers so many zones.
    pub fn add(&mut self, message: &[u8], zones: u16) {
        let (number, second) = (message[0] & 0x3F, usize::from(message[1]));
        self.seen[usize::from(number)][second] = true;
        if number == 0x05 {
            self.covered[second..].iter_mut().take(usize::from(zones)).for_each(|is| *is = true);
            self.next_05 = Some(message[1]);
        }
    }

    /// Whether there is one of a number.
    pub fn has(&self, number: u8) -> bool {
        self.seen[usize::from(number)].contains(&true)
    }

    /// Whether there is a 06h of each partition.
    pub fn has_all_06(&self) -> bool {
        self.seen[0x06][..8] == [true; 8]
    }
}

pub struct RoomCounts {
    rows: Rows,
    wrong: Wrongs,
    /// By number, 04h to 06h, whether it stayed, and zone, offset or partition.
    seconds: [[[u64; 256]; 2]; 3],
    /// The driver's kept log.
    kept: Vec<u8>,
    /// The message for which it had no room.
    waits: Option<Vec<u8>>,
    /// How many of its bytes are used since room was made.
    made: Option<u64>,
}

impl RoomCounts {
    pub fn new() -> RoomCounts {
        RoomCounts {
            rows: Rows::new(&ROWS),
            wrong: Wrongs::new(),
            seconds: [[[0; 256]; 2]; 3],
            kept: Vec::new(),
            waits: None,
            made: None,
        }
    }

    pub fn add(&mut self, other: &RoomCounts) {
        self.rows.add(&other.rows);
        self.wrong.add(&other.wrong);
        let theirs = other.seconds.iter().flatten().flatten();
        self.seconds.iter_mut().flatten().flatten().zip(theirs).for_each(|(mine, theirs)| *mine += theirs);
    }

    /// A 05h by the zones that later ones cover.
    fn count_05(&mut self, offset: u8, later: &Later) {
        let zones = usize::from(offset)..usize::from(offset) + usize::from(COVERED);
        let (by_04, by_05) = (&later.seen[0x04][zones.clone()], &later.covered[zones]);
        let left: Vec<u8> = (0..16).filter(|&k| !by_04[usize::from(k)] && !by_05[usize::from(k)]).collect();
        self.rows.met(ZONES_COVERED, 16 - left.len() as u8);
        if let [zone] = left[..] {
            self.rows.met(ZONE_LEFT, zone);
        }
        let all = |covered: &[bool]| covered.iter().all(|&is| is);
        match (all(by_04), all(by_05)) {
            _ if !left.is_empty() => {}
            (true, false) => self.rows.met(WENT_FOR, 0),
            (false, true) => self.rows.met(WENT_FOR, 1),
            (true, true) => self.rows.met(WENT_FOR, 2),
            (false, false) => self.rows.met(WENT_FOR, 3),
        }
        if let Some(next) = later.next_05 {
            let number = i16::from(next) - i16::from(offset) + 15;
            if (0..=30).contains(&number) {
                self.rows.met(NEXT_05, number as u8);
            }
        }
    }

    fn count_record(&mut self, message: &[u8], stays: bool, later: &Later) {
        let (number, second) = (message[0] & 0x3F, usize::from(message[1]));
        self.rows.met(if stays { STAYED } else { WENT }, message[0]);
        if number <= 0x06 {
            self.seconds[usize::from(number - 0x04)][usize::from(stays)][second] += 1;
        }
        match number {
            0x04 if stays && later.covered[second] => self.rows.met(STAYED_ALL_THE_SAME, 0),
            0x05 => self.count_05(message[1], later),
            0x06 if stays && later.has(0x07) => self.rows.met(STAYED_ALL_THE_SAME, 1),
            0x07 if stays && later.has_all_06() => self.rows.met(STAYED_ALL_THE_SAME, 2),
            _ => {}
        }
    }

    fn count_records(&mut self, used: &[u8]) {
        let records = records(used).unwrap_or_default();
        let stay = stay(used, &records);
        let won = match stay.iter().filter(|&&stays| stays).count() {
            0 => 0,
            kept if kept == stay.len() => 1,
            1 => 3,
            _ => 2,
        };
        self.rows.met(ROOM_WON, won);
        if used.len() == LOG_MOST {
            self.rows.met(FULL_WON, won);
        }
        let mut later = Later::new();
        for (record, stays) in records.into_iter().zip(stay) {
            let message = &used[record.start..record.end - 1];
            self.count_record(message, stays, &later);
            later.add(message, COVERED);
        }
    }

    fn count_room(&mut self, lent: &LentLog, number: u8, length: u64) {
        let log = lent.bytes.as_ref().unwrap_or(&self.kept).clone();
        self.rows.met(NUMBER, number);
        self.wrong.count(lent, number);
        match number {
            16 => self.rows.met(WHY, why_16(lent, log.len())),
            0 => self.count_records(&log[..lent.used as usize]),
            _ => {}
        }
        if lent.bytes.is_none() && number == 0 {
            if self.made == Some(lent.used) {
                self.rows.met_bytes(AGAIN, length);
            }
            self.made = Some(lent.used - length);
        }
    }

    /// A keep in the kept log, by whether room was made right before it.
    fn count_keep(&mut self, lent: &LentLog, message: &[u8], number: u8) {
        if self.made == Some(lent.used) && matches!(number, 0 | 9) {
            if self.waits.as_deref() == Some(message) {
                self.rows.met(AFTER_9, number);
            }
            if self.kept.len() >= LOG_ENOUGH && is_kept(message[0]) {
                self.rows.met(ENOUGH, number);
            }
        }
        self.made = None;
        self.waits = if number == 9 { Some(message.to_vec()) } else { None };
    }

    fn keep(&mut self, lent: &LentLog, changed: &Changed) {
        if lent.bytes.is_none() {
            changed.put(&mut self.kept);
        }
    }

    pub fn count(&mut self, call: &Call, answer: &Answer) {
        match (call, answer) {
            (Call::LendLog { log }, _) => {
                self.kept = log.clone();
                self.made = None;
                self.waits = None;
            }
            (Call::Change { place, byte }, _) => {
                self.kept[*place] = *byte;
                self.made = None;
            }
            (Call::Keep { log, message }, Answer::Kept { number, changed, .. }) => {
                if log.bytes.is_none() {
                    self.count_keep(log, message, *number);
                }
                self.keep(log, changed);
            }
            (Call::MakeRoom { log }, Answer::Kept { number, length, changed }) => {
                self.count_room(log, *number, *length);
                self.keep(log, changed);
            }
            _ => {}
        }
    }

    /// Prints all counts, and says what should have been met and was not, or should not and was.
    pub fn print(&self, missing: &mut Vec<String>) {
        self.rows.print(missing);
        self.rows.print_others(AGAIN, missing);
        self.rows.print_others(ENOUGH, missing);
        for (number, by_stay) in (0x04..).zip(&self.seconds) {
            for (counts, what) in by_stay.iter().zip(["went", "stayed"]) {
                let seconds = seconds(number);
                let name =
                    format!("make_room, each of {} second bytes of {number:02X}h: {what}", seconds.len());
                print_least(&name, seconds.into_iter().map(|second| counts[usize::from(second)]), missing);
            }
        }
        self.wrong.print("make_room", missing);
    }
}
