//! The trials of the library: made calls, each of which the second program answers too.

use crate::calls::{Answer, Call};
use crate::counts::GOOD_FRAMES;
use crate::driver::Calls;
use crate::escapes;
use crate::grid_trials;
use crate::lines;
use crate::log_trials;
use crate::long;
use crate::made::{self, Chance};
use crate::messages::{LENGTHS, LONGEST, LONGEST_KNOWN};
use crate::parts::{frame, Ascii, Binary, Escapes, Framing, Lenient, Strict, RULES};
use crate::reader::{framing_of, Reader, Reading, NONE};
use crate::room_trials;
use crate::table::TABLE_BYTES;

/// A trial makes its calls: all there are, or as many as it is given.
pub struct Trial {
    pub name: &'static str,
    /// Of every hundred calls that are not fixed in number; 0 for a trial that is.
    pub share: u64,
    pub make: fn(&mut Chance, &mut Calls, u64),
}

pub const TRIALS: [Trial; 72] = [
    Trial { name: "reply: all 65,536 pairs", share: 0, make: all_replies },
    Trial { name: "every type byte at every length to 20", share: 0, make: all_types_and_lengths },
    Trial { name: "every value of every byte of every message", share: 0, make: all_values },
    Trial { name: "X-10: every function with units", share: 0, make: all_x10 },
    Trial { name: "good frames of every number", share: 0, make: good_frames },
    Trial { name: "readers at every edge of held", share: 0, make: edge_readers },
    Trial { name: "long: a frame of each kind at every length", share: 0, make: long::every_length },
    Trial { name: "long: byte by byte", share: 0, make: long::byte_by_byte },
    Trial { name: "long: unknown messages cut in two at every place", share: 0, make: long::cut_in_two },
    Trial { name: "long: frames of each kind cut in two", share: 0, make: long::kinds_cut_in_two },
    Trial { name: "long: broken off at every place", share: 0, make: long::broken_off },
    Trial { name: "long: every escape at the length's place", share: 0, make: long::escaped_lengths },
    Trial { name: "long: some type bytes at every length to 257", share: 0, make: long::message_lengths },
    Trial { name: "long: lengths that wrap", share: 0, make: long::lengths_that_wrap },
    Trial {
        name: "commands: every type byte at every length to 20, taken and told",
        share: 0,
        make: lines::all_types,
    },
    Trial { name: "commands: every message told to every front", share: 0, make: lines::all_fronts },
    Trial { name: "commands: slots with one thing wrong", share: 0, make: lines::all_wrongs },
    Trial { name: "ASCII: every byte at every place of a frame", share: 0, make: all_characters },
    Trial { name: "escapes: both constructors, every framing", share: 0, make: escapes::constructors },
    Trial { name: "escapes: every byte after 7Dh at every place", share: 0, make: escapes::every_byte },
    Trial { name: "escapes: telling bytes after 7Dh in long frames", share: 0, make: escapes::long_frames },
    Trial { name: "escapes: every byte to readers after a 7Dh", share: 0, make: escapes::after_7d },
    Trial { name: "escapes: every number of a rule in a reader", share: 0, make: escapes::every_number },
    Trial { name: "escapes: frames read and written again", share: 0, make: escapes::round_trips },
    Trial { name: "log: every type byte at every length to 20, kept", share: 0, make: log_trials::all_types },
    Trial { name: "log: every edge of the used length", share: 0, make: log_trials::all_edges },
    Trial { name: "log: room to the byte", share: 0, make: log_trials::all_rooms },
    Trial { name: "log: logs with one thing wrong", share: 0, make: log_trials::all_wrongs },
    Trial { name: "log: every value at every place", share: 0, make: log_trials::damaged },
    Trial { name: "log: cut at every place", share: 0, make: log_trials::cuts },
    Trial { name: "log: every zone of a record alone", share: 0, make: log_trials::all_zones },
    Trial { name: "log: every zone of many records", share: 0, make: log_trials::many_records },
    Trial { name: "log: kept from empty to full", share: 0, make: log_trials::full },
    Trial { name: "log: a full one damaged at a byte", share: 0, make: log_trials::full_damaged },
    Trial { name: "log: a full one cut at every place", share: 0, make: log_trials::full_cut },
    Trial { name: "room: every two records that may meet", share: 0, make: room_trials::all_pairs },
    Trial { name: "room: 05h covered but for any zones", share: 0, make: room_trials::all_sixteens },
    Trial { name: "room: 06h of any partitions, and 07h", share: 0, make: room_trials::all_partitions },
    Trial { name: "room: the same record again", share: 0, make: room_trials::again },
    Trial { name: "room: to the byte, and used", share: 0, make: room_trials::all_rooms },
    Trial { name: "room: every edge of the used length", share: 0, make: room_trials::all_edges },
    Trial { name: "room: logs with one thing wrong", share: 0, make: room_trials::all_wrongs },
    Trial { name: "room: every value at every place", share: 0, make: room_trials::damaged },
    Trial { name: "room: cut at every place", share: 0, make: room_trials::cuts },
    Trial {
        name: "room: every zone and the table of many records",
        share: 0,
        make: room_trials::many_records,
    },
    Trial { name: "room: full logs", share: 0, make: room_trials::full },
    Trial { name: "room: a full one damaged at a byte", share: 0, make: room_trials::full_damaged },
    Trial { name: "room: a full one cut", share: 0, make: room_trials::full_cut },
    Trial { name: "grid: each zone alone", share: 0, make: grid_trials::all_zones },
    Trial { name: "grid: each block, row and column", share: 0, make: grid_trials::all_shapes },
    Trial { name: "grid: tables of one value, and any", share: 0, make: grid_trials::all_tables },
    Trial { name: "grid: every mark with every short byte", share: 0, make: grid_trials::all_bits },
    Trial { name: "grid: every pair of counts in every cell", share: 0, make: grid_trials::all_pairs },
    Trial { name: "grid: every width, with a table and without", share: 0, make: grid_trials::all_widths },
    Trial { name: "grid: room to the byte", share: 0, make: grid_trials::all_rooms },
    Trial { name: "streams cut at random, read and step", share: 22, make: cut_streams },
    Trial { name: "streams cut at random, hear", share: 13, make: heard_streams },
    Trial { name: "the same streams under both rules of escapes", share: 9, make: same_streams },
    Trial { name: "readers of any kind", share: 13, make: any_readers },
    Trial { name: "write around the edges of the buffer", share: 12, make: edge_writes },
    Trial { name: "apply to any table", share: 5, make: any_applies },
    Trial { name: "view of any table", share: 4, make: any_views },
    Trial { name: "version, every zone and partition of any table", share: 5, make: any_records },
    Trial { name: "commands: runs from empty slots", share: 5, make: lines::runs_from_empty },
    Trial { name: "commands: runs from any sound slots", share: 3, make: lines::runs_from_any },
    Trial { name: "log: runs from an empty log", share: 3, make: log_trials::runs_from_empty },
    Trial { name: "log: any log", share: 2, make: log_trials::any_logs },
    Trial { name: "room: runs from an empty log", share: 2, make: room_trials::runs_from_empty },
    Trial { name: "room: runs in 5,236 bytes", share: 1, make: room_trials::runs_in_enough },
    Trial { name: "room: any log", share: 1, make: room_trials::any_logs },
    Trial { name: "grid: a level after each message", share: 2, make: grid_trials::runs_from_fresh },
    Trial { name: "grid: any table, width and buffers", share: 2, make: grid_trials::any_grids },
];

pub const FRAMINGS: [Framing; 2] = [Binary, Ascii];
pub const FRAMINGS_AND_RULES: [(Framing, Escapes); 4] =
    [(Binary, Strict), (Binary, Lenient), (Ascii, Strict), (Ascii, Lenient)];

pub fn number(framing: Framing) -> u8 {
    u8::from(framing == Ascii)
}

fn all_replies(_: &mut Chance, calls: &mut Calls, _: u64) {
    for pair in 0..=u16::MAX {
        let [verdict, type_byte] = pair.to_be_bytes();
        calls.call(Call::Reply { verdict, type_byte });
    }
}

/// One message through the writer, readers of both rules and the table.
pub fn all_ways(calls: &mut Calls, framing: Framing, message: &[u8]) {
    let line = frame(framing, message);
    let out = vec![0x5A; line.len()];
    calls.call(Call::Write { message: message.to_vec(), framing: number(framing), out, place: 0 });
    read_by_both(calls, number(framing), &line);
    calls.call(Call::Apply { table: None, message: message.to_vec() });
}

/// The same bytes by fresh readers of both rules.
fn read_by_both(calls: &mut Calls, framing: u8, bytes: &[u8]) {
    for escapes in RULES {
        calls.call(Call::Read { reader: Some(Reader::fresh(framing, escapes)), bytes: bytes.to_vec() });
    }
}

pub fn fresh_table(calls: &mut Calls) {
    calls.call(Call::LendTable { table: vec![0; TABLE_BYTES] });
}

pub fn show_table(calls: &mut Calls) {
    calls.call(Call::Show { length: TABLE_BYTES });
}

fn all_types_and_lengths(_: &mut Chance, calls: &mut Calls, _: u64) {
    fresh_table(calls);
    for type_byte in 0..=255 {
        for length in 0..=LONGEST_KNOWN + 2 {
            let mut message = vec![0; length];
            message.iter_mut().take(1).for_each(|b| *b = type_byte);
            FRAMINGS.iter().for_each(|&framing| all_ways(calls, framing, &message));
        }
    }
    show_table(calls);
}

fn all_values(chance: &mut Chance, calls: &mut Calls, _: u64) {
    fresh_table(calls);
    for (number, length) in LENGTHS {
        for place in 1..length {
            for value in 0..=255 {
                let mut message = made::good_message(chance, number);
                message[place] = value;
                all_ways(calls, chance.framing(), &message);
            }
        }
        show_table(calls);
    }
}

fn all_x10(chance: &mut Chance, calls: &mut Calls, _: u64) {
    fresh_table(calls);
    for number in [0x09, 0x29] {
        for function in 0..=255 {
            for unit in [0, 14, 15, 16, 255] {
                for house in [15, 16] {
                    all_ways(calls, chance.framing(), &[number, house, unit, function]);
                }
            }
        }
    }
    show_table(calls);
}

fn good_frames(chance: &mut Chance, calls: &mut Calls, _: u64) {
    for framing in FRAMINGS {
        for (number, _) in LENGTHS {
            fresh_table(calls);
            calls.call(Call::Fresh { framing: self::number(framing), escapes: chance.escapes() });
            for k in 0..2 * GOOD_FRAMES {
                let message = made::good_message(chance, number);
                let line = frame(framing, &message);
                let (room, place) = (line.len() + chance.below(4), chance.below(3) as u64);
                let out = made::bytes(chance, room);
                let framing = chance.framing_number(framing);
                calls.call(Call::Write { message, framing, out, place });
                calls.call(Call::Hear { with: None, bytes: line.clone() });
                let reader = Some(Reader::fresh(framing, RULES[(k % 2) as usize]));
                calls.call(Call::Read { reader, bytes: line });
            }
            show_table(calls);
            calls.call(Call::View { table: None });
        }
    }
}

/// In ASCII frames of the shortest and longest messages and of two between, every byte at every place behind the
/// start; read at once by readers of both rules of escapes, and cut behind that place by one of them in turn.
fn all_characters(chance: &mut Chance, calls: &mut Calls, _: u64) {
    for number in [0x1D, 0x04, 0x08, 0x03] {
        let line = frame(Ascii, &made::good_message(chance, number));
        for (place, byte) in (1..line.len()).flat_map(|place| (0..=255).map(move |byte| (place, byte))) {
            let mut line = line.clone();
            line[place] = byte;
            let (before, after) = line.split_at(place + 1);
            read_by_both(calls, self::number(Ascii), &line);
            let fresh = Reader::fresh(self::number(Ascii), RULES[place % 2]);
            let first = calls.call(Call::Read { reader: Some(fresh), bytes: before.to_vec() });
            if let Answer::Reading(Reading { reader, .. }) = first {
                calls.call(Call::Read { reader: Some(reader), bytes: after.to_vec() });
            }
        }
    }
}

/// Counts of bytes held around the bound of a length, around what there is room for, and such of which only
/// the low byte is within the bound.
fn edge_counts(length: u16) -> Vec<u16> {
    let wraps = [256, 512, 65_280].map(|more| more + length);
    let room = LONGEST as u16 + 3;
    let mut counts = vec![0, 1, 2, 22, 65_535];
    counts.extend(length.saturating_sub(1)..=length + 4);
    counts.extend(room - 3..=room + 1);
    counts.extend(wraps);
    if length <= 20 {
        counts.extend(0..length);
    }
    counts.sort_unstable();
    counts.dedup();
    counts
}

/// A reader of any kind in an empty read, and then a byte of each telling kind.
fn step_telling(calls: &mut Calls, reader: &Reader) {
    calls.call(Call::Read { reader: Some(reader.clone()), bytes: vec![] });
    for byte in [0x0A, 0x0D, 0x30, 0x46, 0x47, 0x5D, 0x5E, 0x7D, 0x7E] {
        calls.call(Call::Step { reader: Some(reader.clone()), byte });
    }
}

/// Every telling length, every count held around its bound, every mode; in binary under both rules of escapes.
fn edge_readers(_: &mut Chance, calls: &mut Calls, _: u64) {
    let modes = [(0, 0), (0, 99), (1, 0), (2, 0), (3, 0), (3, 15), (3, 16), (4, 0), (255, 0)];
    for (framing, escapes) in [(0, 0), (0, 1), (1, 0), (2, 255)] {
        for length in [0, 1, 2, 10, 17, 18, 19, 20, 124, 125, 126, 127, 253, 254, 255] {
            for held in edge_counts(u16::from(length)) {
                for (mode, digit) in modes {
                    let mut bytes = [0x30; LONGEST + 3];
                    bytes[0] = length;
                    step_telling(calls, &Reader { framing, mode, digit, held, bytes, escapes });
                }
            }
        }
    }
}

/// Lengths of reads: often a byte or none, at times the rest of the stream.
fn read_length(chance: &mut Chance, rest: usize) -> usize {
    let wanted = match chance.below(6) {
        0 => 1,
        1 => 0,
        2 => rest,
        _ => 1 + chance.below(24),
    };
    wanted.min(rest)
}

/// Hands a stream to calls of any length; what a call leaves is handed in again, alone or with more.
fn in_reads(chance: &mut Chance, stream: &[u8], mut call: impl FnMut(&mut Chance, &[u8]) -> Answer) {
    let (mut at, mut end) = (0, 0);
    while at < stream.len() || end < stream.len() {
        end += read_length(chance, stream.len() - end);
        loop {
            let reading = match call(chance, &stream[at..end]) {
                Answer::Reading(reading) | Answer::Hearing { reading, .. } => reading,
                _ => return,
            };
            at += reading.used as usize;
            if reading.verdict == NONE || chance.one_in(4) {
                break;
            }
        }
    }
}

fn cut_streams(chance: &mut Chance, calls: &mut Calls, budget: u64) {
    while calls.made < budget {
        let framing = chance.framing();
        let pieces = 1 + chance.below(12);
        let mut stream = made::stream(chance, framing, pieces);
        calls.call(Call::Fresh { framing: chance.framing_number(framing), escapes: chance.escapes() });
        if chance.one_in(1000) {
            stream.extend(made::long_noise(chance, framing));
            stream.extend(made::stream(chance, framing, pieces));
        }
        if stream.len() < 1000 && chance.one_in(4) {
            for &byte in &stream {
                calls.call(Call::Step { reader: None, byte });
            }
        } else {
            in_reads(chance, &stream, |chance, bytes| {
                if bytes.len() == 1 && chance.one_in(2) {
                    calls.call(Call::Step { reader: None, byte: bytes[0] })
                } else {
                    calls.call(Call::Read { reader: None, bytes: bytes.to_vec() })
                }
            });
        }
    }
}

fn heard_streams(chance: &mut Chance, calls: &mut Calls, budget: u64) {
    while calls.made < budget {
        let framing = chance.framing();
        let table = if chance.one_in(4) { made::table(chance) } else { vec![0; TABLE_BYTES] };
        calls.call(Call::LendTable { table });
        calls.call(Call::Fresh { framing: chance.framing_number(framing), escapes: chance.escapes() });
        for _ in 0..20 {
            let mut stream = made::piece(chance, framing);
            stream.extend(frame(framing, &made::table_message(chance)));
            in_reads(chance, &stream, |_, bytes| {
                calls.call(Call::Hear { with: None, bytes: bytes.to_vec() })
            });
        }
        show_table(calls);
        calls.call(Call::View { table: None });
    }
}

/// Each stream twice, by a reader of either rule and into a fresh table.
fn same_streams(chance: &mut Chance, calls: &mut Calls, budget: u64) {
    while calls.made < budget {
        let framing = chance.of(&[Binary, Binary, Binary, Ascii]);
        let stream = made::stream(chance, framing, 20);
        let cuts = chance.number();
        for escapes in RULES {
            fresh_table(calls);
            calls.call(Call::Fresh { framing: number(framing), escapes });
            in_reads(&mut Chance::new(cuts), &stream, |_, bytes| {
                calls.call(Call::Hear { with: None, bytes: bytes.to_vec() })
            });
            show_table(calls);
        }
    }
}

fn any_readers(chance: &mut Chance, calls: &mut Calls, budget: u64) {
    while calls.made < budget {
        let (reader, mut bytes) = match chance.below(4) {
            0 => made::reader_and_rest(chance),
            _ => {
                let length = if chance.one_in(16) { chance.below(600) } else { chance.below(48) };
                (made::reader(chance), made::bytes(chance, length))
            }
        };
        if chance.one_in(3) {
            bytes.extend(made::piece(chance, framing_of(reader.framing)));
        }
        match chance.below(16) {
            0 => {
                let table = if chance.one_in(3) { made::no_table(chance) } else { made::table(chance) };
                calls.call(Call::Hear { with: Some((reader, table)), bytes });
            }
            1..=4 => {
                calls.call(Call::Step { reader: Some(reader), byte: made::byte(chance) });
            }
            _ => {
                calls.call(Call::Read { reader: Some(reader), bytes });
            }
        }
    }
}

fn edge_writes(chance: &mut Chance, calls: &mut Calls, budget: u64) {
    while calls.made < budget {
        let framing = chance.framing();
        let message = match chance.below(4) {
            0 => made::doubtful_message(chance),
            _ => made::some_good_message(chance),
        };
        let length = frame(framing, &message).len();
        let place = match chance.below(8) {
            0 => chance.of(&[u64::MAX, u64::MAX - 1, u64::MAX - length as u64 + 1, 1 << 63, 1 << 32]),
            1 | 2 => 0,
            _ => chance.below(60) as u64,
        };
        let around = (place.min(100) as usize + length + chance.below(3)).saturating_sub(1);
        let room = match chance.below(4) {
            0 => chance.below(64),
            1 => chance.of(&[0, 1, length, (place % 100) as usize]),
            _ => around,
        };
        let out = made::bytes(chance, room);
        calls.call(Call::Write { message, framing: chance.framing_number(framing), out, place });
    }
}

fn any_applies(chance: &mut Chance, calls: &mut Calls, budget: u64) {
    while calls.made < budget {
        let message = match chance.below(4) {
            0 => made::some_good_message(chance),
            1 => made::doubtful_message(chance),
            _ => made::table_message(chance),
        };
        let table = match chance.below(12) {
            0 => made::no_table(chance),
            _ => made::table(chance),
        };
        calls.call(Call::Apply { table: Some(table), message });
    }
}

fn any_views(chance: &mut Chance, calls: &mut Calls, budget: u64) {
    while calls.made < budget {
        let table = match chance.below(12) {
            0 => made::no_table(chance),
            _ => made::table(chance),
        };
        calls.call(Call::View { table: Some(table) });
    }
}

/// Every zone and partition of a table, those that there are not too, and some of a buffer that is no table.
fn any_records(chance: &mut Chance, calls: &mut Calls, budget: u64) {
    while calls.made < budget {
        calls.call(Call::LendTable { table: made::table(chance) });
        (0..=255).for_each(|zone| drop(calls.call(Call::Zone { table: None, zone })));
        (0..=255).for_each(|partition| drop(calls.call(Call::Partition { table: None, partition })));
        calls.call(Call::System { table: None });
        calls.call(Call::Version);
        for table in [made::table(chance), made::no_table(chance), made::no_table(chance)] {
            calls.call(Call::Zone { table: Some(table.clone()), zone: chance.byte() });
            calls.call(Call::Partition { table: Some(table.clone()), partition: chance.byte() & 15 });
            calls.call(Call::System { table: Some(table) });
        }
    }
}
