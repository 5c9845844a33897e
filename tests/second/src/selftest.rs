//! What must hold of the second program's own answers, beside the cards.

use std::collections::VecDeque;
use std::ops::Range;

use crate::calls::{Answer, Call, Library, Second};
use crate::commands::{take, tick, told, waiting, Sending, Slot, GIVEN_UP, NOT_ENDED, SLOTS};
use crate::log::{is_kept, keep, newest, record, records, Found};
use crate::log_trials::any_log;
use crate::made::{self, Chance};
use crate::messages::{length_of, sums, sums_in_eight_bits, verdict_of, LENGTHS, LONGEST, LONGEST_KNOWN};
use crate::odd;
use crate::parts::{frame, verdicts, Ascii, Binary, Escapes, Framing, Judged, Lenient, Strict, RULES};
use crate::reader::{read, Reader, AFTER_7D, NONE};
use crate::table::{apply, partition_record, system_record, zone_record, TABLE_BYTES};
use crate::trials::{number, FRAMINGS_AND_RULES};
use crate::writer::write;
use crate::Tally;

/// Document 003's worked zone status: its sums.
fn worked_example() -> bool {
    let message = [0x84, 0x09, 0x7E, 0x10, 0x58, 0x01, 0x00];
    let ascii = b"\n0784097E105801007CD1\r";
    sums(&[0x07, 0x84, 0x09, 0x7E, 0x10, 0x58, 0x01, 0x00]) == (0x7C, 0xD1)
        && frame(Ascii, &message) == ascii
        && frame(Binary, &message) == [0x7E, 0x07, 0x84, 0x09, 0x7D, 0x5E, 0x10, 0x58, 0x01, 0x00, 0x7C, 0xD1]
        && verdicts(Ascii, Strict, ascii).map(|j| (j.verdict, j.type_byte)).eq([(7, Some(0x84))])
}

fn sums_are_the_pseudo_code(chance: &mut Chance) -> bool {
    (0..20_000).all(|k| {
        let bytes = made::bytes(chance, k % (LONGEST + 2));
        sums(&bytes) == sums_in_eight_bits(&bytes)
    })
}

/// The table of 41 says what document 01's list says: its numbers and their total length.
fn lengths_add_up() -> bool {
    LENGTHS.windows(2).all(|pair| pair[0].0 < pair[1].0)
        && LENGTHS.iter().map(|row| row.1).sum::<usize>() == 226
        && LENGTHS.iter().all(|row| row.0 < 64)
        && LENGTHS.iter().map(|row| row.1).max() == Some(LONGEST_KNOWN)
}

/// A written frame has at most 41 or 44 bytes, and gives its message back, after noise too and by either rule.
fn frames_are_read_back(chance: &mut Chance) -> bool {
    (0..20_000).all(|k| {
        let framing = [Binary, Ascii][k % 2];
        let message = made::some_good_message(chance);
        let written = write(&message, (k % 2) as u8, &[0; 44], 0);
        let line = &written.out[..written.length as usize];
        let noise_length = chance.below(40);
        let stream = [made::bytes(chance, noise_length), line.to_vec()].concat();
        let last = |escapes| verdicts(framing, escapes, &stream).last();
        verdict_of(&message) == 0
            && written.number == 0
            && line.len() <= [41, 44][k % 2]
            && RULES.iter().all(|&e| last(e).map_or(false, |j| j.verdict == 0 && j.message == message))
    })
}

/// The verdict of each length byte with a 22h and zeros behind it, as many bytes as it says and then its
/// sums: 4 at the length for 0, 6 at the last byte for every other, silence where that is missing.
fn every_length_is_read(framing: Framing, escapes: Escapes) -> bool {
    let judged =
        |line: &[u8]| verdicts(framing, escapes, line).map(|j| (j.verdict, j.at)).collect::<Vec<_>>();
    let last = |line: &[u8]| line.len() - 1;
    let start_and_0 = &frame(framing, &[])[..if framing == Ascii { 3 } else { 2 }];
    judged(start_and_0) == [(4, last(start_and_0))]
        && (1..=LONGEST).all(|length| {
            let mut message = vec![0; length];
            message[0] = 0x22;
            let line = frame(framing, &message);
            judged(&line) == [(6, last(&line))] && judged(&line[..last(&line)]).is_empty()
        })
}

/// The verdicts of a stream that is read in cuts, unused bytes handed in again.
fn verdicts_in_cuts(chance: &mut Chance, framing: Framing, escapes: Escapes, stream: &[u8]) -> Vec<Judged> {
    let mut second = Second::new();
    let mut judged = Vec::new();
    second.call(&Call::Fresh { framing: number(framing), escapes });
    let (mut at, mut end) = (0, 0);
    while at < stream.len() {
        end = stream.len().min(end + chance.below(9));
        let bytes = stream[at..end].to_vec();
        if let Answer::Reading(r) = second.call(&Call::Read { reader: None, bytes }) {
            at += r.used as usize;
            if r.verdict != NONE {
                let carries = matches!(r.verdict, 0 | 6..=8);
                judged.push(Judged {
                    verdict: r.verdict,
                    at: at - 1,
                    type_byte: if carries { Some(r.type_byte) } else { None },
                    message: r.message[..usize::from(r.length)].to_vec(),
                });
            }
        }
    }
    judged
}

fn cuts_do_not_matter(chance: &mut Chance, escapes: Escapes) -> bool {
    (0..3_000).all(|_| {
        let framing = chance.framing();
        let stream = made::stream(chance, framing, 6);
        let whole: Vec<Judged> = verdicts(framing, escapes, &stream).collect();
        verdicts_in_cuts(chance, framing, escapes, &stream) == whole
    })
}

/// The verdicts of a binary stream by the strict rule, from readers of the old one, byte by byte: document 02's
/// sentence on the byte after a 7Dh is looked at first, and after a 15 all is skipped up to the next start.
fn strict_by_steps(stream: &[u8]) -> Vec<(u8, usize)> {
    let mut reader = Reader::fresh(0, Lenient);
    let mut given = Vec::new();
    for (at, &byte) in stream.iter().enumerate() {
        if reader.mode == AFTER_7D && ![0x5E, 0x5D, 0x7E].contains(&byte) {
            given.push((15, at));
            reader = Reader::fresh(0, Lenient);
        } else {
            let reading = read(&reader, &[byte]);
            given.extend((reading.verdict != NONE).then(|| (reading.verdict, at)));
            reader = reading.reader;
        }
    }
    given
}

fn strict_is_a_look_more(chance: &mut Chance) -> bool {
    let mut fifteens = 0;
    (0..1_000).all(|_| {
        let stream = made::stream(chance, Binary, 6);
        let judged: Vec<Judged> = verdicts(Binary, Strict, &stream).collect();
        let bare = |j: &Judged| j.type_byte.is_none() && j.message.is_empty();
        fifteens += judged.iter().filter(|j| j.verdict == 15).count();
        judged.iter().all(|j| j.verdict != 15 || bare(j))
            && judged.iter().map(|j| (j.verdict, j.at)).eq(strict_by_steps(&stream))
    }) && fifteens > 200
}

/// Whether each 7Dh on a binary line stands before what it must: every pair is looked at from the left.
fn escapes_are_needed(line: &[u8]) -> bool {
    match line {
        [0x7D, 0x5D | 0x5E, rest @ ..] => escapes_are_needed(rest),
        [0x7D, 0x7E, ..] | [0x7D] => escapes_are_needed(&line[1..]),
        [0x7D, ..] => false,
        [_, rest @ ..] => escapes_are_needed(rest),
        [] => true,
    }
}

/// Streams whose every escape was needed have the same verdicts by either rule; so has every one in ASCII.
fn needed_escapes_are_read_alike(chance: &mut Chance) -> bool {
    let mut escaped = 0;
    (0..6_000).all(|k| {
        let framing = [Binary, Binary, Ascii][k % 3];
        let stream = made::stream(chance, framing, 3);
        if framing == Binary && !escapes_are_needed(&stream) {
            return true;
        }
        escaped += usize::from(framing == Binary && stream.contains(&0x7D));
        verdicts(framing, Strict, &stream).eq(verdicts(framing, Lenient, &stream))
    }) && escaped > 500
}

/// Demand 2's second round trip: a good message that was read from a frame, written again in the same framing,
/// gives that frame. By the strict rule always, by the old one exactly if its escapes were needed.
fn read_frames_are_written_again(chance: &mut Chance) -> bool {
    let mut unneeded = 0;
    (0..20_000).all(|k| {
        let framing = [Binary, Binary, Ascii][k % 3];
        let message = made::some_good_message(chance);
        let line = made::loosely_escaped(chance, framing, &message);
        let needed = framing == Ascii || escapes_are_needed(&line);
        unneeded += usize::from(!needed);
        RULES.iter().all(|&escapes| {
            let reading = read(&Reader::fresh(number(framing), escapes), &line);
            let message = &reading.message[..usize::from(reading.length)];
            let again = write(message, number(framing), &vec![0; line.len()], 0);
            match (reading.verdict, escapes) {
                (0, Strict) => needed && again.out == line,
                (0, Lenient) => again.number == 0 && (again.out == line) == needed,
                (verdict, _) => verdict == 15 && escapes == Strict && !needed,
            }
        })
    }) && unneeded > 5_000
}

/// A record has what the messages about it said, and nothing of another's.
fn records_are_what_was_said() -> bool {
    let mut table = vec![0; TABLE_BYTES];
    let messages: [&[u8]; 5] = [
        &[0x04, 9, 0x21, 0x22, 0x23, 0x24, 0x01, 0x01],
        &[0x05, 16, 0x02, 0, 0, 0, 0, 0, 0, 0xC0],
        &[0x06, 2, 0x31, 0x32, 0x33, 0x34, 0x35, 0x36, 0x37],
        &[0x07, 0x40, 0x41, 0x42, 0x43, 0x44, 0x45, 0x46, 0x47],
        &[0x08, 0x51, 0x52, 0x53, 0x54, 0x55, 0x56, 0x57, 0x58, 0x59, 0x5A, 0x5B],
    ];
    messages.iter().all(|message| apply(&mut table, message) == 0)
        && zone_record(&table, 9) == [0, 3, 9, 0x21, 0x22, 0x23, 0x24, 0x01, 0x01]
        && zone_record(&table, 16) == [0, 1, 2, 0, 0, 0, 0, 0, 0]
        && zone_record(&table, 31) == [0, 1, 12, 0, 0, 0, 0, 0, 0]
        && zone_record(&table, 32) == [0; 9]
        && partition_record(&table, 2) == [0, 3, 0x42, 0x31, 0x32, 0x33, 0x34, 0x35, 0x36, 0x37]
        && partition_record(&table, 7) == [0, 1, 0x47, 0, 0, 0, 0, 0, 0, 0]
        && partition_record(&table, 8) == [8, 0, 0, 0, 0, 0, 0, 0, 0, 0]
        && partition_record(&table[1..], 8)[0] == 11
        && system_record(&table) == [0, 1, 0x51, 0x52, 0x53, 0x54, 0x55, 0x56, 0x57, 0x58, 0x59, 0x5A, 0x5B]
}

/// A command to which nothing answers goes out four times, six ticks apart, and is given up.
fn silence_gives_up() -> bool {
    let mut slots = vec![Slot::default(); SLOTS];
    let taken = take(&mut slots, &[0x3F, 0x09]);
    let ticked: Vec<Sending> = (0..30).map(|_| tick(&mut slots)).collect();
    let after = |wanted: fn(&Sending) -> bool| -> Vec<usize> {
        (1..=30).filter(|&k| wanted(&ticked[k - 1])).collect()
    };
    (taken.length, taken.message[..2].to_vec()) == (2, vec![0xBF, 0x09])
        && after(|a| a.length > 0) == [6, 12, 18]
        && after(|a| a.ended == GIVEN_UP) == [24]
        && after(|a| a.ended != NOT_ENDED) == [24]
        && slots == vec![Slot::default(); SLOTS]
}

/// A command that waits: the message, the ticks in which it must have ended, how often it went out.
struct Waits {
    message: Vec<u8>,
    ticks_left: usize,
    sent: usize,
}

/// What document 02 says of a line as a whole, held to the answers of a run.
struct Book {
    waits: VecDeque<Waits>,
    taken: usize,
    ended: usize,
    holds: bool,
}

impl Book {
    fn take(&mut self, said: &Sending, message: &[u8]) {
        if said.number == 0 {
            let mut message = message.to_vec();
            message[0] |= 0x80;
            let ticks_left = 24 * (self.waits.len() + 1);
            self.waits.push_back(Waits { message, ticks_left, sent: 0 });
            self.taken += 1;
        }
    }

    fn tick(&mut self) {
        self.waits.iter_mut().for_each(|w| w.ticks_left -= 1);
    }

    /// The oldest alone goes out, at most four times; whoever waits still has time; nobody is lost.
    fn check(&mut self, said: &Sending, slots: &[Slot]) {
        if said.ended != NOT_ENDED {
            self.waits.pop_front();
            self.ended += 1;
        }
        let went_out = match self.waits.front_mut() {
            Some(front) if said.length > 0 => {
                front.sent += 1;
                front.sent <= 4 && front.message == said.message[..usize::from(said.length)]
            }
            _ => said.length == 0,
        };
        self.holds &= went_out
            && said.number != 22
            && self.waits.iter().all(|w| w.ticks_left > 0)
            && self.waits.iter().skip(1).all(|w| w.sent == 0)
            && self.waits.len() == waiting(slots)
            && self.taken == self.ended + waiting(slots);
    }
}

fn lines_keep_their_word(chance: &mut Chance) -> bool {
    (0..300).all(|_| {
        let mut book = Book { waits: VecDeque::new(), taken: 0, ended: 0, holds: true };
        let mut slots = vec![Slot::default(); SLOTS];
        let busy = 2 + chance.below(20);
        for _ in 0..500 {
            let said = match chance.below(busy) {
                0 => {
                    let message = odd::command(chance);
                    let said = take(&mut slots, &message);
                    book.take(&said, &message);
                    said
                }
                1 => told(&mut slots, &made::some_good_message(chance)),
                _ => {
                    book.tick();
                    tick(&mut slots)
                }
            };
            book.check(&said, &slots);
        }
        book.holds && book.taken > 0 && book.ended > 0
    })
}

/// The records of a log as it is read from its beginning, the oldest first: each type byte says how far away the
/// trailer is. None where it cannot be read to its end.
fn records_forwards(used: &[u8]) -> Option<Vec<Range<usize>>> {
    let (mut records, mut at) = (Vec::new(), 0);
    while at < used.len() {
        let length = length_of(used[at])?;
        let message = used.get(at..at + length)?;
        if !is_kept(message[0]) || verdict_of(message) != 0 || used.get(at + length) != Some(&(length as u8))
        {
            return None;
        }
        records.push(at..at + length + 1);
        at += length + 1;
    }
    Some(records)
}

/// No bytes are two logs: those that are read back to the beginning have the same records from there.
fn logs_are_read_both_ways(chance: &mut Chance) -> bool {
    let mut sound = 0;
    (0..20_000).all(|_| {
        let lent = any_log(chance);
        let bytes = lent.bytes.unwrap_or_default();
        let used = &bytes[..bytes.len().min(lent.used as usize)];
        let backwards = records(used).map(|records| records.into_iter().rev().collect::<Vec<_>>());
        sound += usize::from(backwards.is_some());
        backwards == records_forwards(used)
    }) && (2_000..18_000).contains(&sound)
}

/// The zones that a message says something of.
fn zones_of(message: &[u8]) -> Vec<u8> {
    match message[0] & 0x3F {
        0x04 => vec![message[1]],
        0x05 => (0..16).map(|k| message[1] + k).collect(),
        _ => Vec::new(),
    }
}

/// A log that began empty and was changed by keeping alone: what was kept, joined, and for each zone where the
/// last that says something of it stands, and its length; 0 and 0 where none does.
struct Diary {
    log: Vec<u8>,
    joined: Vec<u8>,
    last: Vec<(u64, u64)>,
}

impl Diary {
    /// Keeps a message, and says the number.
    fn keep(&mut self, message: &[u8]) -> u8 {
        let (used, record) = (self.joined.len() as u64, record(message));
        let kept = keep(&self.log, used, message);
        if kept.number == 0 {
            let zones = zones_of(message).into_iter().map(usize::from);
            zones.for_each(|zone| self.last[zone] = (used, record.len() as u64));
            self.joined.extend(record);
        }
        self.log = kept.log;
        kept.number
    }

    /// The used bytes are what was kept, those beyond are as they were, and the newest are the last.
    fn holds(&self, before: &[u8]) -> bool {
        let used = self.joined.len();
        self.log == [&self.joined, &before[used..]].concat()
            && (0..=255).zip(&self.last).all(|(zone, &(at, length))| {
                newest(&self.log, used as u64, zone) == Found { number: 0, at, length }
            })
    }
}

fn logs_keep_their_word(chance: &mut Chance) -> bool {
    let mut full = 0;
    (0..100).all(|_| {
        let length = chance.below(400);
        let before = made::bytes(chance, length);
        let mut diary = Diary { log: before.clone(), joined: Vec::new(), last: vec![(0, 0); 256] };
        (0..50).all(|_| {
            let number = diary.keep(&made::table_message(chance));
            full += usize::from(number == 9);
            matches!(number, 0 | 9) && diary.holds(&before)
        })
    }) && full > 1_000
}

/// A unit that puts every good message into its table and into its log can make the table again from the log.
fn logs_tell_the_table(chance: &mut Chance) -> bool {
    (0..200).all(|_| {
        let (mut table, mut again) = (vec![0; TABLE_BYTES], vec![0; TABLE_BYTES]);
        let (mut log, mut used) = (made::bytes(chance, 4_000), 0);
        let heard = (0..300).all(|k| {
            let message =
                if k % 3 == 0 { made::some_good_message(chance) } else { made::table_message(chance) };
            let kept = keep(&log, used, &message);
            used += kept.length;
            log = kept.log;
            apply(&mut table, &message) == 0 && matches!(kept.number, 0 | 18)
        });
        let kept = records(&log[..used as usize]).unwrap_or_default();
        let taken = kept.iter().rev().all(|r| apply(&mut again, &log[r.start..r.end - 1]) == 0);
        heard && taken && kept.len() >= 200 && table == again
    })
}

pub fn run(chance: &mut Chance, tally: &mut Tally) {
    tally.note("document 003's worked example", worked_example());
    tally.note("sums are those of document 003's pseudo-code", sums_are_the_pseudo_code(chance));
    tally.note("41 lengths", lengths_add_up());
    tally.note("written frames are read back, by either rule of escapes", frames_are_read_back(chance));
    tally.note("every length is read", FRAMINGS_AND_RULES.iter().all(|&(f, e)| every_length_is_read(f, e)));
    tally.note("cuts do not matter, strict", cuts_do_not_matter(chance, Strict));
    tally.note("cuts do not matter, by the old rule", cuts_do_not_matter(chance, Lenient));
    tally.note("strict is the old rule with a look at each escape", strict_is_a_look_more(chance));
    tally.note("needed escapes are read alike by either rule", needed_escapes_are_read_alike(chance));
    tally.note("read frames are written again", read_frames_are_written_again(chance));
    tally.note("records are what was said", records_are_what_was_said());
    tally.note("a silent gateway: sent four times, given up", silence_gives_up());
    tally.note("commands: in time, oldest first, none lost", lines_keep_their_word(chance));
    tally.note("log: the same records from its beginning", logs_are_read_both_ways(chance));
    tally.note("log: what was kept, joined; the newest about each zone", logs_keep_their_word(chance));
    tally.note("log: the table made again from it", logs_tell_the_table(chance));
}
