//! How often each verdict, refusal, reply and way of ending was answered, and which must have been.

use crate::calls::{Answer, Call, Lent};
use crate::commands::{from_memory, waiting, Sending, GIVEN_UP};
use crate::grid_counts::GridCounts;
use crate::log_counts::LogCounts;
use crate::messages::{LENGTHS, LONGEST, LONGEST_KNOWN};
use crate::odd::{Wrong, WRONGS};
use crate::parts::{length_in, unstuffed, Strict};
use crate::reader::{escapes_of, framing_of, Reader, NONE};
use crate::room_counts::RoomCounts;

/// What is counted apart, and the numbers that a run must have met in it.
const ROWS: [(&str, &[u8]); 34] = [
    ("read and step, binary, strict: verdict", &[0, 1, 4, 5, 6, 7, 8, 12, 15, NONE]),
    ("read and step, binary, old rule: verdict", &[0, 1, 4, 5, 6, 7, 8, 12, NONE]),
    ("read and step, ASCII, strict: verdict", &[0, 1, 2, 3, 4, 5, 6, 7, 8, 12, NONE]),
    ("read and step, ASCII, old rule: verdict", &[0, 1, 2, 3, 4, 5, 6, 7, 8, 12, NONE]),
    ("hear, strict: verdict", &[0, 1, 2, 3, 4, 5, 6, 7, 8, 11, 12, 15, NONE]),
    ("hear, old rule: verdict", &[0, 1, 2, 3, 4, 5, 6, 7, 8, 11, 12, NONE]),
    ("hear: reply", &[0, 0x1D, 0x1E, 0x1F]),
    ("write, binary: number", &[0, 4, 6, 7, 8, 9]),
    ("write, ASCII: number", &[0, 4, 6, 7, 8, 9]),
    ("apply: number", &[0, 4, 6, 7, 8, 11]),
    ("view: number", &[0, 11]),
    ("reply", &[0, 0x1D, 0x1E, 0x1F]),
    ("zone: number", &[0, 11]),
    ("partition: number", &[0, 8, 11]),
    ("system: number", &[0, 11]),
    ("take: number", &[0, 4, 6, 7, 8, 13, 14, 22]),
    ("take: ended by", &[0]),
    ("take: what goes out", &GOES_OUT),
    ("tick: number", &[0, 22]),
    ("tick: ended by", &[0, GIVEN_UP]),
    ("tick: what goes out", &GOES_OUT),
    ("told: number", &[0, 4, 6, 7, 8, 22]),
    ("told: ended by", &[0, GIVEN_UP, 0x12, 0x1C, 0x1D, 0x1F]),
    ("told: what goes out", &GOES_OUT),
    ("taken: how many wait then", &[1, 2, 3, 4, 5, 6, 7, 8]),
    ("frames above 18, binary, strict: verdict", LONG_VERDICTS[0]),
    ("frames above 18, binary, old rule: verdict", LONG_VERDICTS[1]),
    ("frames above 18, ASCII, strict: verdict", LONG_VERDICTS[2]),
    ("frames above 18, ASCII, old rule: verdict", LONG_VERDICTS[3]),
    ("frames above 18, hear: reply", &[0x1E, 0x1F]),
    ("messages above 18, write: number", &[4, 6, 7]),
    ("messages above 18, apply: number", &[4, 6, 7, 11]),
    ("messages above 18, take: number", &[4, 6, 7, 22]),
    ("messages above 18, told: number", &[4, 6, 7, 22]),
];
/// By framing and rule of escapes, as a reader has them.
const KINDS: [&str; 4] = ["binary, strict", "binary, old rule", "ASCII, strict", "ASCII, old rule"];
/// What becomes of a frame that is longer than each of the 41, and of some frame of every length, by kind.
const LONG_VERDICTS: [&[u8]; 4] =
    [&[1, 5, 6, 7, 15], &[1, 5, 6, 7], &[1, 2, 3, 5, 6, 7], &[1, 2, 3, 5, 6, 7]];
/// The rows of each call; of take, tick and told: number, ended, what goes out.
const READ: usize = 0;
const HEAR: usize = 4;
const HEAR_REPLY: usize = 6;
const WRITE: usize = 7;
const APPLY: usize = 9;
const VIEW: usize = 10;
const REPLY: usize = 11;
const ZONE: usize = 12;
const PARTITION: usize = 13;
const SYSTEM: usize = 14;
const TAKE: usize = 15;
const TICK: usize = 18;
const TOLD: usize = 21;
const WAITING: usize = 24;
const LONG_FRAMES: usize = 25;
const LONG_REPLIES: usize = 29;
const LONG_WRITE: usize = 30;
const LONG_APPLY: usize = 31;
const LONG_TAKE: usize = 32;
const LONG_TOLD: usize = 33;
/// Where a bad escape stood, and whether its 7Dh was heard by the call before.
const PLACES: [&str; 3] = ["the length", "the message", "the sums"];
const CUTS: [&str; 2] = ["uncut", "cut after 7Dh"];
/// Nothing, and the 14 with their flag set.
const GOES_OUT: [u8; 15] =
    [0, 0xA9, 0xAB, 0xAC, 0xB1, 0xB4, 0xB5, 0xB6, 0xB7, 0xBA, 0xBB, 0xBC, 0xBD, 0xBE, 0xBF];
/// Calls on slots with each thing wrong, and on slots with none, that a run must have made.
pub const ODD_SLOTS: u64 = 100;
/// Good frames of each number that a run must have read, in each framing and by each rule of escapes.
pub const GOOD_FRAMES: u64 = 500;

pub struct Counts {
    rows: [[u64; 256]; ROWS.len()],
    good: [[u64; 64]; KINDS.len()],
    wrong: [u64; WRONGS.len()],
    /// By kind, verdict and length.
    lengths: [[[u64; 256]; 16]; KINDS.len()],
    /// Verdicts 15, by place, cut and the byte that decides them.
    bad_escapes: [[[u64; 256]; CUTS.len()]; PLACES.len()],
    /// The driver's kept reader, which a call may go on with.
    kept: Reader,
    log: LogCounts,
    room: RoomCounts,
    grid: GridCounts,
}

/// A verdict that fell, and the part in which it did, as far as that had come before the byte that decides.
struct Fallen {
    kind: usize,
    verdict: u8,
    part: Vec<u8>,
    byte: u8,
    /// Whether the byte was the first of its call.
    first: bool,
}

/// Prints how often each number of a row was met, and says which of the wanted was not.
pub fn print_row(
    name: &str,
    wanted: &[u8],
    row: &[u64; 256],
    show: impl Fn(u8) -> String,
    missing: &mut Vec<String>,
) {
    let met: Vec<String> = (0..=255u8)
        .filter(|&n| row[usize::from(n)] > 0)
        .map(|n| format!("{} x {}", show(n), row[usize::from(n)]))
        .collect();
    println!("  {name}: {}", met.join(", "));
    missing.extend(
        wanted
            .iter()
            .filter(|&&n| row[usize::from(n)] == 0)
            .map(|&n| format!("{name} {} was never answered", show(n))),
    );
}

fn is_lenient(reader: &Reader) -> usize {
    usize::from(escapes_of(reader.escapes) != Strict)
}

/// The kind's place in KINDS.
fn kind(reader: &Reader) -> usize {
    2 * usize::from(reader.framing != 0) + is_lenient(reader)
}

impl Counts {
    pub fn new() -> Counts {
        Counts {
            rows: [[0; 256]; ROWS.len()],
            good: [[0; 64]; KINDS.len()],
            wrong: [0; WRONGS.len()],
            lengths: [[[0; 256]; 16]; KINDS.len()],
            bad_escapes: [[[0; 256]; CUTS.len()]; PLACES.len()],
            kept: Reader::fresh(0, Strict),
            log: LogCounts::new(),
            room: RoomCounts::new(),
            grid: GridCounts::new(),
        }
    }

    pub fn add(&mut self, other: &Counts) {
        let mine = self.rows.iter_mut().flatten().chain(self.good.iter_mut().flatten());
        let theirs = other.rows.iter().flatten().chain(other.good.iter().flatten());
        mine.zip(theirs).for_each(|(mine, theirs)| *mine += theirs);
        self.wrong.iter_mut().zip(&other.wrong).for_each(|(mine, theirs)| *mine += theirs);
        let mine = self.lengths.iter_mut().flatten().chain(self.bad_escapes.iter_mut().flatten());
        let theirs = other.lengths.iter().flatten().chain(other.bad_escapes.iter().flatten());
        mine.flatten().zip(theirs.flatten()).for_each(|(mine, theirs)| *mine += theirs);
        self.log.add(&other.log);
        self.room.add(&other.room);
        self.grid.add(&other.grid);
    }

    fn fallen(&self, call: &Call, answer: &Answer) -> Option<Fallen> {
        let (own, bytes) = match call {
            Call::Step { reader, byte } => (reader.as_ref(), std::slice::from_ref(byte)),
            Call::Read { reader, bytes } => (reader.as_ref(), &bytes[..]),
            Call::Hear { with, bytes } => (with.as_ref().map(|w| &w.0), &bytes[..]),
            _ => return None,
        };
        match answer {
            Answer::Reading(r) | Answer::Hearing { reading: r, .. } if matches!(r.verdict, 0..=8 | 15) => {
                let used = &bytes[..r.used as usize];
                let part = own.unwrap_or(&self.kept).part_heard(used)?;
                let (kind, verdict, first) = (kind(&r.reader), r.verdict, used.len() == 1);
                Some(Fallen { kind, verdict, part, byte: *used.last()?, first })
            }
            _ => None,
        }
    }

    fn count_bad_escape(&mut self, fallen: &Fallen) {
        let held = unstuffed(&fallen.part).0;
        let place = match held.first() {
            None => 0,
            Some(length) => 1 + usize::from(held.len() > usize::from(length.byte)),
        };
        self.bad_escapes[place][usize::from(fallen.first)][usize::from(fallen.byte)] += 1;
    }

    /// Counts by the frame in which a verdict fell. Before a length had come it has none.
    fn count_fallen(&mut self, fallen: &Fallen, answer: &Answer) {
        let (kind, verdict) = (fallen.kind, usize::from(fallen.verdict));
        if fallen.verdict == 15 {
            self.count_bad_escape(fallen);
        }
        if let Some(length) = length_in(framing_of(u8::from(kind >= 2)), &fallen.part).map(usize::from) {
            self.lengths[kind][verdict][length] += 1;
            if length > LONGEST_KNOWN {
                self.rows[LONG_FRAMES + kind][verdict] += 1;
                if let Answer::Hearing { reply, .. } = answer {
                    self.rows[LONG_REPLIES][usize::from(*reply)] += 1;
                }
            }
        }
    }

    /// Counts by the length of a frame or of a message.
    fn count_length(&mut self, call: &Call, answer: &Answer) {
        if let Some(fallen) = self.fallen(call, answer) {
            self.count_fallen(&fallen, answer);
        }
        let (row, message, number) = match (call, answer) {
            (Call::Write { message, .. }, Answer::Written(w)) => (LONG_WRITE, message, w.number),
            (Call::Apply { message, .. }, Answer::Applied { number, .. }) => (LONG_APPLY, message, *number),
            (Call::Take { message, .. }, Answer::Sending { sending, .. }) => {
                (LONG_TAKE, message, sending.number)
            }
            (Call::Told { message, .. }, Answer::Sending { sending, .. }) => {
                (LONG_TOLD, message, sending.number)
            }
            _ => return,
        };
        if message.len() > LONGEST_KNOWN {
            self.rows[row][usize::from(number)] += 1;
        }
    }

    /// Keeps the reader that the driver keeps.
    fn keep(&mut self, call: &Call, answer: &Answer) {
        match answer {
            Answer::Reader(reader) => self.kept = reader.clone(),
            Answer::Reading(r) | Answer::Hearing { reading: r, .. } if call.is_kept() => {
                self.kept = r.reader.clone();
            }
            _ => {}
        }
    }

    fn count_sending(&mut self, row: usize, sending: &Sending, lent: &Option<Lent>) {
        self.rows[row][usize::from(sending.number)] += 1;
        self.rows[row + 1][usize::from(sending.ended)] += 1;
        self.rows[row + 2][usize::from(sending.message[0])] += 1;
        if let Some(Lent { wrong, .. }) = lent {
            // sound slots refuse nothing by themselves, the others everything
            if (sending.number == 22) != (*wrong == Wrong::Nothing) {
                self.wrong[*wrong as usize] += 1;
            }
        }
    }

    pub fn count(&mut self, call: &Call, answer: &Answer) {
        self.count_length(call, answer);
        self.keep(call, answer);
        self.count_numbers(call, answer);
        self.log.count(call, answer);
        self.room.count(call, answer);
        self.grid.count(call, answer);
    }

    fn count_numbers(&mut self, call: &Call, answer: &Answer) {
        let mut add = |row: usize, number: u8| self.rows[row][usize::from(number)] += 1;
        match (call, answer) {
            (_, Answer::Reading(r)) => {
                let kind = kind(&r.reader);
                add(READ + kind, r.verdict);
                if r.verdict == 0 {
                    self.good[kind][usize::from(r.type_byte & 0x3F)] += 1;
                }
            }
            (_, Answer::Hearing { reading, reply, .. }) => {
                add(HEAR + is_lenient(&reading.reader), reading.verdict);
                add(HEAR_REPLY, *reply);
            }
            (Call::Write { framing, .. }, Answer::Written(w)) => {
                add(WRITE + usize::from(*framing != 0), w.number);
            }
            (_, Answer::Applied { number, .. }) => add(APPLY, *number),
            (_, Answer::View(overview)) => add(VIEW, overview.number),
            (_, Answer::Reply(number)) => add(REPLY, *number),
            (Call::Zone { .. }, Answer::Record(record)) => add(ZONE, record[0]),
            (Call::Partition { .. }, Answer::Record(record)) => add(PARTITION, record[0]),
            (Call::System { .. }, Answer::Record(record)) => add(SYSTEM, record[0]),
            (Call::Take { slots: lent, .. }, Answer::Sending { sending, slots }) => {
                if sending.number == 0 {
                    add(WAITING, waiting(&from_memory(slots)) as u8);
                }
                self.count_sending(TAKE, sending, lent);
            }
            (Call::Tick { slots }, Answer::Sending { sending, .. }) => {
                self.count_sending(TICK, sending, slots);
            }
            (Call::Told { slots, .. }, Answer::Sending { sending, .. }) => {
                self.count_sending(TOLD, sending, slots);
            }
            _ => {}
        }
    }

    /// Prints how often each verdict fell in frames of the length that had it the least.
    fn print_lengths(&self, missing: &mut Vec<String>) {
        for ((lengths, kind), verdicts) in self.lengths.iter().zip(KINDS).zip(LONG_VERDICTS) {
            let fewest = |verdict: u8| lengths[usize::from(verdict)][1..=LONGEST].iter().min();
            let met: Vec<_> = verdicts.iter().map(|&v| (v, fewest(v).copied().unwrap_or(0))).collect();
            let shown: Vec<String> = met.iter().map(|(v, count)| format!("{v} x {count}")).collect();
            println!("  frames of each length 1 to 255, {kind}: at least {}", shown.join(", "));
            missing.extend(
                met.iter()
                    .filter(|(_, count)| *count == 0)
                    .map(|(verdict, _)| format!("some length has no frame with verdict {verdict}: {kind}")),
            );
        }
    }

    /// Prints how often the byte that did it the least gave 15. All do but the two escapes and the start.
    fn print_bad_escapes(&self, missing: &mut Vec<String>) {
        for (by_cut, place) in self.bad_escapes.iter().zip(PLACES) {
            for (by_byte, cut) in by_cut.iter().zip(CUTS) {
                let bad = (0..=255).filter(|byte| !matches!(byte, 0x5D | 0x5E | 0x7E));
                let fewest = bad.map(|byte: u8| by_byte[usize::from(byte)]).min().unwrap_or(0);
                println!("  15 by each of 253 bytes after 7Dh, at {place}, {cut}: at least {fewest}");
                if fewest == 0 {
                    missing.push(format!("some byte after 7Dh was never 15 at {place}, {cut}"));
                }
            }
        }
    }

    /// Prints all counts; gives what should have been met and was not.
    pub fn print(&self) -> Vec<String> {
        let mut missing = Vec::new();
        for ((name, wanted), row) in ROWS.iter().zip(&self.rows) {
            let ends = name.ends_with("ended by");
            let in_hex = ends || name.ends_with("reply") || name.ends_with("goes out");
            let show = |number: u8| match number {
                NONE => "none".to_string(),
                0 if in_hex => "none".to_string(),
                GIVEN_UP if ends => "given up".to_string(),
                _ if in_hex => format!("{number:02X}"),
                _ => number.to_string(),
            };
            print_row(name, wanted, row, show, &mut missing);
        }
        let by_wrong = WRONGS.iter().zip(&self.wrong);
        let met: Vec<String> =
            by_wrong.clone().map(|((_, name), count)| format!("{name} x {count}")).collect();
        println!("  what is wrong with made slots, 22 but for nothing: {}", met.join(", "));
        missing.extend(
            by_wrong.filter(|(_, &count)| count < ODD_SLOTS).map(|((_, name), _)| {
                format!("fewer than {ODD_SLOTS} calls on slots with this wrong: {name}")
            }),
        );
        let fewest = |good: &[u64; 64]| LENGTHS.iter().map(|row| good[usize::from(row.0)]).min();
        for (good, kind) in self.good.iter().zip(KINDS) {
            let fewest = fewest(good).unwrap_or(0);
            println!("  good frames read of each number, {kind}: at least {fewest}");
            if fewest < GOOD_FRAMES {
                missing.push(format!("some number has fewer than {GOOD_FRAMES} good frames: {kind}"));
            }
        }
        self.print_lengths(&mut missing);
        self.print_bad_escapes(&mut missing);
        self.log.print(&mut missing);
        self.room.print(&mut missing);
        self.grid.print(&mut missing);
        missing
    }
}
