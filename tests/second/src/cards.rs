//! Document 01's bench cards, the expected values typed from its page, and some for document 02, Nos. 2 and 5 to
//! 8. They are asked of the second program itself, and of the library where there is one. All that are read hold
//! under both rules of escapes, but for those of No. 5.

use crate::calls::{Answer, Call, LentLog, Library};
use crate::grid_cards;
use crate::parts::{Escapes, Lenient, Strict, RULES};
use crate::reader::{Reader, Reading, NONE};
use crate::report::report;
use crate::table::{Group, TABLE_BYTES};

const CARD_1: &[u8] = &[0x7E, 0x01, 0x1D, 0x1E, 0x1F];
const CARD_2: &[u8] = b"\n011D1E1F\r";
const CARD_3: &[u8] = &[0x7E, 0x07, 0x84, 0x09, 0x7D, 0x5E, 0x10, 0x58, 0x01, 0x00, 0x7C, 0xD1];
const CARD_4: &[u8] = &[0x7E, 0x08, 0x84, 0x09, 0x7D, 0x5E, 0x10, 0x58, 0x00, 0x01, 0x00, 0x7D, 0x5D, 0x56];
const CARD_5: &[u8] = &[0x7E, 0x0A, 0x05, 0x00, 0x01, 0x00, 0x00, 0x00, 0x00, 0x00, 0x00, 0x00, 0x10, 0xA8];
const CARD_6: &[u8] = &[0x7E, 0x01, 0x1D, 0x1E, 0x20];
const CARD_7: &[u8] = &[0x7E, 0x7E, 0x01, 0x1D, 0x1E, 0x1F];
const CARD_8: &[u8] = &[0x7E, 0x01, 0x7D, 0x7E, 0x01, 0x1D, 0x1E, 0x1F];
const CARD_13: &str = "0 05 --\n0 1D --\n1 16 1\n2 0 -9999\n3 0 -9999\n4 0 -9999\n5 0 -9999\n\
    6 0 -9999\n7 0 -9999\n8 0 -9999\n9 0 -9999\n10 0 -9999\n11 0 -9999\n12 0 -9999\n13 0 -9999\n\
    14 0 -9999\n15 0 -9999\n16 0 -9999\n";

/// The unknown number 22h and bytes that count up from 01h, 19 in all: the second sum is 7Eh.
const LONG_19: &[u8] = &[
    0x7E, 0x13, 0x22, 0x01, 0x02, 0x03, 0x04, 0x05, 0x06, 0x07, 0x08, 0x09, 0x0A, 0x0B, 0x0C, 0x0D, 0x0E,
    0x0F, 0x10, 0x11, 0x12, 0xE0, 0x7D, 0x5E,
];
const LONG_19_ASCII: &[u8] = b"\n13220102030405060708090A0B0C0D0E0F101112E07E\r";
/// The same with the number 03h, which asks for 18; and with another second sum.
const LONG_03: &[u8] = &[
    0x7E, 0x13, 0x03, 0x01, 0x02, 0x03, 0x04, 0x05, 0x06, 0x07, 0x08, 0x09, 0x0A, 0x0B, 0x0C, 0x0D, 0x0E,
    0x0F, 0x10, 0x11, 0x12, 0xC1, 0x2F,
];
const LONG_03_DAMAGED: &[u8] = &[
    0x7E, 0x13, 0x03, 0x01, 0x02, 0x03, 0x04, 0x05, 0x06, 0x07, 0x08, 0x09, 0x0A, 0x0B, 0x0C, 0x0D, 0x0E,
    0x0F, 0x10, 0x11, 0x12, 0xC1, 0x30,
];

/// Card 4 after noise has made 5F of 5E.
const CARD_4_NOISY: &[u8] =
    &[0x7E, 0x08, 0x84, 0x09, 0x7D, 0x5F, 0x10, 0x58, 0x00, 0x01, 0x00, 0x7D, 0x5D, 0x56];
/// Card 1 with each of its bytes behind the start escaped, though none need be.
const CARD_1_ESCAPED: [&[u8]; 4] = [
    &[0x7E, 0x7D, 0x21, 0x1D, 0x1E, 0x1F],
    &[0x7E, 0x01, 0x7D, 0x3D, 0x1E, 0x1F],
    &[0x7E, 0x01, 0x1D, 0x7D, 0x3E, 0x1F],
    &[0x7E, 0x01, 0x1D, 0x1E, 0x7D, 0x3F],
];
/// "7D 7D gives 5Dh": a log event request.
const LOG_EVENT_5D: &[u8] = &[0x7E, 0x02, 0x2A, 0x7D, 0x7D, 0x89, 0xB7];

/// Card 4's message and card 5's, and a log of both: card 5's first, each with its length behind it.
const MESSAGE_4: &[u8] = &[0x84, 0x09, 0x7E, 0x10, 0x58, 0x00, 0x01, 0x00];
const MESSAGE_5: &[u8] = &[0x05, 0x00, 0x01, 0x00, 0x00, 0x00, 0x00, 0x00, 0x00, 0x00];
const LOG_OF_BOTH: &[u8] = &[
    0x05, 0x00, 0x01, 0x00, 0x00, 0x00, 0x00, 0x00, 0x00, 0x00, 0x0A, 0x84, 0x09, 0x7E, 0x10, 0x58, 0x00,
    0x01, 0x00, 0x08,
];

/// What a host hears: the verdict, its type byte, the message and the reply; then how many bytes it used.
type Heard = (u8, u8, Vec<u8>, u8, u64);

/// Everything that a fresh host of a rule hears in these bytes, unused ones handed in again; the table is kept.
/// A last entry with no verdict says that a read without one left bytes unused.
fn heard_by(library: &mut impl Library, escapes: Escapes, framing: u8, bytes: &[u8]) -> Vec<Heard> {
    let mut heard = Vec::new();
    library.call(&Call::Fresh { framing, escapes });
    library.call(&Call::LendTable { table: vec![0; TABLE_BYTES] });
    let mut rest = bytes;
    while heard.len() <= bytes.len() {
        match library.call(&Call::Hear { with: None, bytes: rest.to_vec() }) {
            Answer::Hearing { reading: r, .. } if r.verdict == NONE && r.used == rest.len() as u64 => break,
            Answer::Hearing { reading: r, reply, .. } => {
                let message = r.message.iter().take(usize::from(r.length)).copied().collect();
                heard.push((r.verdict, r.type_byte, message, reply, r.used));
                rest = rest.get(r.used as usize..).unwrap_or(&[]);
            }
            _ => break,
        }
    }
    heard
}

/// Whether a fresh host hears this, by either rule.
fn hears(library: &mut impl Library, framing: u8, bytes: &[u8], wanted: &[Heard]) -> bool {
    RULES.iter().all(|&escapes| heard_by(library, escapes, framing, bytes) == wanted)
}

fn kept_table(library: &mut impl Library) -> Vec<u8> {
    match library.call(&Call::Show { length: TABLE_BYTES }) {
        Answer::Table(table) => table,
        _ => Vec::new(),
    }
}

fn kept_groups(library: &mut impl Library) -> Vec<Group> {
    match library.call(&Call::View { table: None }) {
        Answer::View(view) => view.groups.to_vec(),
        _ => Vec::new(),
    }
}

/// The verdict and used bytes of one read from a fresh reader.
fn read_by(library: &mut impl Library, escapes: Escapes, framing: u8, bytes: &[u8]) -> (u8, u64) {
    let reader = Some(Reader::fresh(framing, escapes));
    match library.call(&Call::Read { reader, bytes: bytes.to_vec() }) {
        Answer::Reading(Reading { verdict, used, .. }) => (verdict, used),
        _ => (NONE, 0),
    }
}

/// Whether one read from a fresh reader has this verdict and uses so many bytes, by either rule.
fn reads(library: &mut impl Library, framing: u8, bytes: &[u8], wanted: (u8, u64)) -> bool {
    RULES.iter().all(|&escapes| read_by(library, escapes, framing, bytes) == wanted)
}

fn written(
    library: &mut impl Library,
    message: &[u8],
    framing: u8,
    room: usize,
    place: u64,
) -> (u8, u64, Vec<u8>) {
    let call = Call::Write { message: message.to_vec(), framing, out: vec![0xEE; room], place };
    match library.call(&call) {
        Answer::Written(w) => (w.number, w.length, w.out),
        _ => (NONE, 0, Vec::new()),
    }
}

fn good(message: &[u8], reply: u8, used: usize) -> Heard {
    (0, message[0], message.to_vec(), reply, used as u64)
}

fn card_4_in_the_table(library: &mut impl Library, escapes: Escapes) -> bool {
    let message = [0x84, 0x09, 0x7E, 0x10, 0x58, 0x00, 0x01, 0x00];
    let heard = heard_by(library, escapes, 0, CARD_4);
    let mut table = vec![0; TABLE_BYTES];
    table[72..80].copy_from_slice(&[0b11, 0x7E, 0x10, 0x58, 0x00, 0x01, 0x00, 0x01]);
    heard == [good(&message, 0x1D, 14)] && kept_table(library) == table
}

fn card_5_in_the_table(library: &mut impl Library, escapes: Escapes) -> bool {
    let message = [0x05, 0x00, 0x01, 0, 0, 0, 0, 0, 0, 0];
    let heard = heard_by(library, escapes, 0, CARD_5);
    let mut table = vec![0; TABLE_BYTES];
    (0..16).for_each(|zone| table[8 * zone] = 1);
    table[7] = 1;
    let groups = kept_groups(library);
    let others = &groups[1..16];
    heard == [good(&message, 0, 14)]
        && kept_table(library) == table
        && [groups[0], groups[16]]
            .iter()
            .all(|g| (g.heard, g.faulted, g.known, g.share) == (16, 1, 1, 1.0 / 16.0))
        && others.iter().all(|g| (g.heard, g.faulted, g.known) == (0, 0, 0) && g.share.is_nan())
}

/// Card 1 cut after each byte in turn: in two reads, and byte by byte.
fn card_10(library: &mut impl Library, escapes: Escapes) -> bool {
    let mut ok = true;
    for cut in 0..=CARD_1.len() {
        library.call(&Call::Fresh { framing: 0, escapes });
        let mut verdicts = Vec::new();
        for bytes in [&CARD_1[..cut], &CARD_1[cut..]] {
            if let Answer::Reading(r) = library.call(&Call::Read { reader: None, bytes: bytes.to_vec() }) {
                ok &= r.used == bytes.len() as u64;
                verdicts
                    .extend((r.verdict != NONE).then(|| (r.verdict, r.type_byte, r.length, r.message[0])));
            }
        }
        ok &= verdicts == [(0, 0x1D, 1, 0x1D)];
    }
    library.call(&Call::Fresh { framing: 0, escapes });
    let steps: Vec<u8> = CARD_1
        .iter()
        .filter_map(|&byte| match library.call(&Call::Step { reader: None, byte }) {
            Answer::Reading(r) => Some(r.verdict),
            _ => None,
        })
        .collect();
    ok && steps == [NONE, NONE, NONE, NONE, 0]
}

fn card_11(library: &mut impl Library) -> bool {
    let mut frame_at_3 = vec![0xEE; 8];
    frame_at_3[3..].copy_from_slice(CARD_1);
    written(library, &[0x1D], 0, 8, 3) == (0, 5, frame_at_3)
        && written(library, &[0x1D], 0, 7, 3) == (9, 0, vec![0xEE; 7])
}

fn card_12(library: &mut impl Library) -> bool {
    let frame_240 = [0x7E, 0x02, 0x25, 0xF0, 0x18, 0x41];
    let frame_241 = [0x7E, 0x02, 0x25, 0xF1, 0x19, 0x42];
    written(library, &[0x25, 240], 0, 6, 0) == (0, 6, frame_240.to_vec())
        && written(library, &[0x25, 241], 0, 6, 0).0 == 8
        && hears(library, 0, &frame_240, &[good(&[0x25, 240], 0x1F, 6)])
        && hears(library, 0, &frame_241, &[(8, 0x25, vec![], 0x1F, 6)])
}

/// Bytes that count up.
fn up(from: u8, to: u8) -> Vec<u8> {
    (from..=to).collect()
}

fn digits(bytes: &[u8]) -> String {
    bytes.iter().map(|byte| format!("{byte:02X}")).collect()
}

/// 126 and 255 bytes that count up behind 22h, in both framings: the length 126 is escaped.
fn long_126() -> [Vec<u8>; 2] {
    let binary = [&[0x7E, 0x7D, 0x5E, 0x22], &up(0x01, 0x7C)[..], &[0x7D, 0x5D, 0x82, 0xE7]].concat();
    [binary, format!("\n7E22{}82E7\r", digits(&up(0x01, 0x7D))).into_bytes()]
}

fn long_255() -> [Vec<u8>; 2] {
    let parts = [
        &[0x7E, 0xFF, 0x22],
        &up(0x01, 0x7C)[..],
        &[0x7D, 0x5D, 0x7D, 0x5E],
        &up(0x7F, 0xFE)[..],
        &[0x22, 0x55],
    ];
    [parts.concat(), format!("\nFF22{}2255\r", digits(&up(0x01, 0xFE))).into_bytes()]
}

/// Frames of the unknown number 22h: 6 with reply 1Fh at the last byte, nothing before it, no byte of the table.
fn is_rejected(library: &mut impl Library, frames: &[Vec<u8>; 2]) -> bool {
    (0..2).all(|framing| {
        let frame = &frames[usize::from(framing)];
        let used = frame.len() as u64;
        hears(library, framing, frame, &[(6, 0x22, vec![], 0x1F, used)])
            && kept_table(library) == vec![0; TABLE_BYTES]
            && reads(library, framing, &frame[..frame.len() - 1], (NONE, used - 1))
    })
}

/// The writer's refusals: 4 for an empty message or one above 255, else what the number says.
fn long_writes(library: &mut impl Library) -> bool {
    let refusals = [
        (0x22, 0, 4),
        (0x22, 19, 6),
        (0x22, 255, 6),
        (0x22, 256, 4),
        (0x03, 19, 7),
        (0x03, 255, 7),
        (0x03, 256, 4),
    ];
    refusals.iter().all(|&(number, length, refusal)| {
        let mut message = vec![0; length];
        message.iter_mut().take(1).for_each(|byte| *byte = number);
        (0..2).all(|framing| written(library, &message, framing, 600, 0) == (refusal, 0, vec![0xEE; 600]))
    })
}

/// Each of these frames of card 1: strict, 15 at the byte after 7Dh and silence behind it; by the old rule, good.
fn card_1_escaped(library: &mut impl Library) -> bool {
    (0..4).all(|k| {
        let (frame, at) = (CARD_1_ESCAPED[k], k as u64 + 3);
        heard_by(library, Strict, 0, frame) == [(15, 0, vec![], 0x1E, at)]
            && heard_by(library, Lenient, 0, frame) == [good(&[0x1D], 0, 6)]
    })
}

/// Strict, after 15 the next start is looked for: the frame is skipped, the one behind it read.
fn card_4_noisy(library: &mut impl Library) -> bool {
    let then_card_1 = [CARD_4_NOISY, CARD_1].concat();
    let fifteen = (15, 0, vec![], 0x1E, 6);
    heard_by(library, Strict, 0, CARD_4_NOISY) == [fifteen.clone()]
        && kept_table(library) == vec![0; TABLE_BYTES]
        && heard_by(library, Strict, 0, &then_card_1) == [fifteen, good(&[0x1D], 0, 13)]
}

/// The number, the bytes added and the log afterwards of a keep.
fn kept(library: &mut impl Library, log: &[u8], used: u64, message: &[u8]) -> (u8, u64, Vec<u8>) {
    let lent = LentLog { bytes: Some(log.to_vec()), used, wrong: None };
    match library.call(&Call::Keep { log: lent, message: message.to_vec() }) {
        Answer::Kept { number, length, changed } => (number, length, changed.after(log)),
        _ => (NONE, 0, Vec::new()),
    }
}

/// The number, the place and the length of the newest record about a zone.
fn newest(library: &mut impl Library, log: &[u8], used: u64, zone: u8) -> (u8, u64, u64) {
    let lent = LentLog { bytes: Some(log.to_vec()), used, wrong: None };
    match library.call(&Call::Newest { log: lent, zone }) {
        Answer::Found { found, changed } if changed.bytes.is_empty() => {
            (found.number, found.at, found.length)
        }
        _ => (NONE, 0, 0),
    }
}

/// Card 5's message is kept in 20 bytes of 00h, then card 4's, and then none has room.
fn log_of_both(library: &mut impl Library) -> bool {
    let (first, rest) = (&LOG_OF_BOTH[..11], vec![0; 9]);
    let after_5 = kept(library, &[0; 20], 0, MESSAGE_5);
    let after_4 = kept(library, &after_5.2, 11, MESSAGE_4);
    after_5 == (0, 11, [first, &rest].concat())
        && after_4 == (0, 9, LOG_OF_BOTH.to_vec())
        && kept(library, LOG_OF_BOTH, 20, MESSAGE_4) == (9, 0, LOG_OF_BOTH.to_vec())
        && kept(library, &[0; 8], 0, MESSAGE_4) == (9, 0, vec![0; 8])
}

/// Zone 10 was last heard in card 4, zones 1 to 9 and 11 to 16 in card 5, the others not.
fn newest_of_both(library: &mut impl Library) -> bool {
    (0..=255).all(|zone| {
        let wanted = match zone {
            9 => (0, 11, 9),
            0..=15 => (0, 0, 11),
            _ => (0, 0, 0),
        };
        newest(library, LOG_OF_BOTH, 20, zone) == wanted
            && newest(library, LOG_OF_BOTH, 11, zone) == (0, 0, if zone < 16 { 11 } else { 0 })
            && newest(library, LOG_OF_BOTH, 0, zone) == (0, 0, 0)
    })
}

/// 16 for one byte more than there is; 17 for a log that is cut, or that has one byte wrong: a trailer of 9 or of
/// 0, an offset of 241, another number, bit 6. In all but the first two the record about zone 10 is as it was.
fn unsound_logs(library: &mut impl Library) -> bool {
    let refused = |number| (number, 0, 0);
    let changed = [(19, 0x09), (10, 0x00), (1, 241), (0, 0x04), (0, 0x0A), (0, 0x45)];
    newest(library, LOG_OF_BOTH, 21, 9) == refused(16)
        && newest(library, LOG_OF_BOTH, 19, 9) == refused(17)
        && changed.iter().all(|&(place, byte)| {
            let mut log = LOG_OF_BOTH.to_vec();
            log[place] = byte;
            newest(library, &log, 20, 9) == refused(17) && kept(library, &log, 20, &[]) == (17, 0, log)
        })
}

/// The message's own refusals, then 18, then 9.
fn log_refusals(library: &mut impl Library) -> bool {
    let offset_241 = [0x05, 241, 0, 0, 0, 0, 0, 0, 0, 0];
    let house_16 = [0x09, 16, 0, 0x08];
    let refusals: [(&[u8], u8); 7] = [
        (&[], 4),
        (&[0x44, 9, 0, 0, 0, 0, 0, 0], 6),
        (&[0x04, 9, 0, 0, 0, 0, 0], 7),
        (&offset_241, 8),
        (&house_16, 8),
        (&[0x09, 15, 0, 0x08], 18),
        (&[0x1D], 18),
    ];
    refusals.iter().all(|&(message, refusal)| {
        kept(library, LOG_OF_BOTH, 20, message) == (refusal, 0, LOG_OF_BOTH.to_vec())
            && kept(library, &[0xEE; 40], 0, message) == (refusal, 0, vec![0xEE; 40])
    })
}

fn log_cards(library: &mut impl Library) -> [(&'static str, bool); 4] {
    [
        ("log: card 5's message and card 4's kept, then 9", log_of_both(library)),
        ("log: the newest about each zone", newest_of_both(library)),
        ("log: 16 and 17", unsound_logs(library)),
        ("log: 4, 6, 7, 8 and 18 before 9", log_refusals(library)),
    ]
}

/// The number, the bytes won and the log afterwards where room is made.
fn made_room(library: &mut impl Library, log: &[u8], used: usize) -> (u8, u64, Vec<u8>) {
    let lent = LentLog { bytes: Some(log.to_vec()), used: used as u64, wrong: None };
    match library.call(&Call::MakeRoom { log: lent }) {
        Answer::Kept { number, length, changed } => (number, length, changed.after(log)),
        _ => (NONE, 0, Vec::new()),
    }
}

fn log_of(messages: &[Vec<u8>]) -> Vec<u8> {
    messages.iter().flat_map(|message| [&message[..], &[message.len() as u8]].concat()).collect()
}

/// Of a log of these messages, with EE EE EE beyond it, those that are named by their places stay, in their
/// order; the bytes beyond them are what they were, and a second call wins nothing.
fn these_stay(library: &mut impl Library, messages: &[Vec<u8>], stay: &[usize]) -> bool {
    let used = log_of(messages).len();
    let log = [log_of(messages), vec![0xEE; 3]].concat();
    let kept = log_of(&stay.iter().map(|&place| messages[place].clone()).collect::<Vec<_>>());
    let after = [&kept[..], &log[kept.len()..]].concat();
    made_room(library, &log, used) == (0, (used - kept.len()) as u64, after.clone())
        && made_room(library, &after, kept.len()) == (0, 0, after)
}

/// 04h of a zone, 05h of an offset, 06h of a partition, 07h and 08h that say what tells them from others.
fn zone(zone: u8, says: u8) -> Vec<u8> {
    vec![0x04, zone, says, 0, 0, 0, 0, 0]
}

fn sixteen(offset: u8) -> Vec<u8> {
    vec![0x85, offset, 0x10, 0, 0, 0, 0, 0, 0, 0x01]
}

fn partition(partition: u8, says: u8) -> Vec<u8> {
    vec![0x06, partition, says, 0, 0, 0, 0, 0, 0]
}

fn partitions(says: u8) -> Vec<u8> {
    vec![0x87, says, 0, 0, 0, 0, 0, 0, 0]
}

fn system(says: u8) -> Vec<u8> {
    vec![0x08, says, 0, 0, 0, 0, 0, 0, 0, 0, 0, 0]
}

/// 04h of each of these zones behind a 05h of offset 0.
fn sixteen_and(zones: &[u8]) -> Vec<Vec<u8>> {
    [vec![sixteen(0)], zones.iter().map(|&k| zone(k, 0)).collect()].concat()
}

/// An 04h goes for a later one of its zone, and for nothing else.
fn zones_that_go(library: &mut impl Library) -> bool {
    let many = [zone(9, 1), zone(8, 2), zone(9, 3), zone(10, 4), zone(9, 5), zone(10, 6)];
    these_stay(library, &[MESSAGE_4.to_vec(), zone(9, 1)], &[1])
        && these_stay(library, &[zone(9, 1), zone(9, 1)], &[1])
        && these_stay(library, &many, &[1, 4, 5])
        && these_stay(library, &[zone(9, 1), zone(10, 2), zone(9, 3)], &[1, 2])
        && these_stay(library, &[zone(9, 1), sixteen(0)], &[0, 1])
        && these_stay(library, &[zone(255, 1), sixteen(240), zone(255, 2)], &[1, 2])
}

/// A zone of a 05h that no later one covers: the last, the first, the eighth, the one between two others.
fn fifteen_of_sixteen(library: &mut impl Library) -> bool {
    let all_but_8th = sixteen_and(&[0, 1, 2, 3, 4, 5, 6, 8, 9, 10, 11, 12, 13, 14, 15]);
    these_stay(library, &[sixteen(1), sixteen(0)], &[0, 1])
        && these_stay(library, &[sixteen(0), sixteen(1)], &[0, 1])
        && these_stay(library, &all_but_8th, &[0, 1, 2, 3, 4, 5, 6, 7, 8, 9, 10, 11, 12, 13, 14, 15])
        && these_stay(library, &[sixteen(16), sixteen(0), sixteen(17)], &[0, 1, 2])
}

/// Sixteen 04h, two 05h, some of both, and the same 05h again.
fn all_sixteen(library: &mut impl Library) -> bool {
    let by_zones = sixteen_and(&[15, 14, 13, 12, 11, 10, 9, 8, 7, 6, 5, 4, 3, 2, 1, 0]);
    let mut by_both = sixteen_and(&[0, 1, 2, 3, 4, 5, 6, 7]);
    by_both.insert(5, sixteen(8));
    these_stay(library, &by_zones, &[1, 2, 3, 4, 5, 6, 7, 8, 9, 10, 11, 12, 13, 14, 15, 16])
        && these_stay(library, &by_both, &[1, 2, 3, 4, 5, 6, 7, 8, 9])
        && these_stay(library, &[sixteen(16), sixteen(8), sixteen(24)], &[1, 2])
        && these_stay(library, &[sixteen(0), sixteen(0), sixteen(0)], &[2])
}

/// 06h and 07h say nothing of each other over, as many as there may be.
fn partitions_and_system(library: &mut impl Library) -> bool {
    let eight: Vec<Vec<u8>> = (0..8).map(|k| partition(k, 0)).collect();
    let then_eight = [vec![partitions(1)], eight].concat();
    these_stay(library, &[partition(2, 1), partitions(2)], &[0, 1])
        && these_stay(library, &then_eight, &[0, 1, 2, 3, 4, 5, 6, 7, 8])
        && these_stay(library, &[partition(7, 1), partition(0, 2), partition(7, 3)], &[1, 2])
        && these_stay(library, &[partitions(1), partition(2, 2), partitions(3)], &[1, 2])
        && these_stay(library, &[system(1), partitions(2), system(3)], &[1, 2])
}

/// Nothing is won in an empty log, whatever stands beyond it; 16 and 17 leave all as it was.
fn room_refused(library: &mut impl Library) -> bool {
    let log = log_of(&[zone(9, 1), zone(9, 2)]);
    let mut unsound = log.clone();
    unsound[8] = 9;
    made_room(library, &[], 0) == (0, 0, vec![])
        && made_room(library, &log, 0) == (0, 0, log.clone())
        && made_room(library, &log, 19) == (16, 0, log.clone())
        && made_room(library, &log, 17) == (17, 0, log.clone())
        && made_room(library, &unsound, 18) == (17, 0, unsound.clone())
        && made_room(library, &unsound, 19) == (16, 0, unsound)
}

/// Two 04h of a zone fill 18 bytes: card 4's message has no room, then there is some, and it is kept.
fn room_for_card_4(library: &mut impl Library) -> bool {
    let log = log_of(&[zone(9, 1), zone(9, 2)]);
    let won = made_room(library, &log, 18);
    kept(library, &log, 18, MESSAGE_4) == (9, 0, log)
        && won == (0, 9, log_of(&[zone(9, 2), zone(9, 2)]))
        && kept(library, &won.2, 9, MESSAGE_4) == (0, 9, log_of(&[zone(9, 2), MESSAGE_4.to_vec()]))
}

fn room_cards(library: &mut impl Library) -> [(&'static str, bool); 6] {
    [
        ("room: 04h twice, and before a 05h", zones_that_go(library)),
        ("room: 05h with 15 of its 16 zones covered stays", fifteen_of_sixteen(library)),
        ("room: 05h with all 16 covered together goes", all_sixteen(library)),
        ("room: 06h, 07h and 08h", partitions_and_system(library)),
        ("room: an empty log, 16 and 17", room_refused(library)),
        ("room: 9, room made, card 4's message kept", room_for_card_4(library)),
    ]
}

/// Each card's name, and whether the library answers as the card says.
pub fn cards(library: &mut impl Library) -> Vec<(&'static str, bool)> {
    [
        protocol_cards(library),
        log_cards(library).to_vec(),
        room_cards(library).to_vec(),
        grid_cards::cards(library).to_vec(),
    ]
    .concat()
}

fn protocol_cards(library: &mut impl Library) -> Vec<(&'static str, bool)> {
    let card_1 = good(&[0x1D], 0, 5);
    let request_5d = good(&[0x2A, 0x5D], 0x1F, 7);
    vec![
        ("card 1: 0, no reply", hears(library, 0, CARD_1, &[card_1])),
        ("card 1 written", written(library, &[0x1D], 0, 5, 0) == (0, 5, CARD_1.to_vec())),
        ("card 2: the same in ASCII", hears(library, 1, CARD_2, &[good(&[0x1D], 0, 10)])),
        ("card 2 written", written(library, &[0x1D], 1, 10, 0) == (0, 10, CARD_2.to_vec())),
        ("card 3: 7, reply 1E", hears(library, 0, CARD_3, &[(7, 0x84, vec![], 0x1E, 12)])),
        (
            "card 4: 0, reply 1D, zone 10 short flags 1",
            RULES.iter().all(|&escapes| card_4_in_the_table(library, escapes)),
        ),
        (
            "card 4 written",
            written(library, &[0x84, 0x09, 0x7E, 0x10, 0x58, 0x00, 0x01, 0x00], 0, 14, 0)
                == (0, 14, CARD_4.to_vec()),
        ),
        (
            "card 5: 0, zones 1-16 heard, zone 1 faulted",
            RULES.iter().all(|&escapes| card_5_in_the_table(library, escapes)),
        ),
        ("card 6: 5, reply 1E", hears(library, 0, CARD_6, &[(5, 0, vec![], 0x1E, 5)])),
        ("card 7: 1, then 0", hears(library, 0, CARD_7, &[(1, 0, vec![], 0x1E, 2), good(&[0x1D], 0, 4)])),
        ("card 8: 1, then 0", hears(library, 0, CARD_8, &[(1, 0, vec![], 0x1E, 4), good(&[0x1D], 0, 4)])),
        ("card 9: 7E 00 is 4", reads(library, 0, &[0x7E, 0x00], (4, 2))),
        ("card 9: 7E 12 is nothing yet", reads(library, 0, &[0x7E, 0x12], (NONE, 2))),
        ("card 9: 7E 13 is nothing yet", reads(library, 0, &[0x7E, 0x13], (NONE, 2))),
        (
            "card 10: card 1 cut after each byte in turn",
            RULES.iter().all(|&escapes| card_10(library, escapes)),
        ),
        ("card 11: card 1 at place 3 of 8 and of 7 bytes", card_11(library)),
        ("card 12: offset 240 in 25h passes, 241 gives 8", card_12(library)),
        (
            "long: 19 bytes of 22h, 6, reply 1F",
            is_rejected(library, &[LONG_19.to_vec(), LONG_19_ASCII.to_vec()]),
        ),
        ("long: 126 bytes of 22h, 6, reply 1F", is_rejected(library, &long_126())),
        ("long: 255 bytes of 22h, 6, reply 1F", is_rejected(library, &long_255())),
        ("long: 19 bytes of 03h, 7, reply 1E", hears(library, 0, LONG_03, &[(7, 0x03, vec![], 0x1E, 23)])),
        ("long: another sum, 5, reply 1E", hears(library, 0, LONG_03_DAMAGED, &[(5, 0, vec![], 0x1E, 23)])),
        ("long: the writer refuses 4, 6 and 7", long_writes(library)),
        ("escapes: card 4 with 5F for 5E, strict, 15 at byte 6, reply 1E", card_4_noisy(library)),
        (
            "escapes: the same by the old rule, 5, reply 1E",
            heard_by(library, Lenient, 0, CARD_4_NOISY) == [(5, 0, vec![], 0x1E, 14)],
        ),
        ("escapes: 7E 7D 20, strict, 15", read_by(library, Strict, 0, &[0x7E, 0x7D, 0x20]) == (15, 3)),
        ("escapes: the same by the old rule, 4", read_by(library, Lenient, 0, &[0x7E, 0x7D, 0x20]) == (4, 3)),
        ("escapes: 7E 7D is nothing yet", reads(library, 0, &[0x7E, 0x7D], (NONE, 2))),
        ("escapes: 7E 7D 7E is 1", reads(library, 0, &[0x7E, 0x7D, 0x7E, 0x01], (1, 3))),
        ("escapes: card 1 with each byte escaped", card_1_escaped(library)),
        (
            "escapes: 7D 7D, strict, 15",
            heard_by(library, Strict, 0, LOG_EVENT_5D) == [(15, 0, vec![], 0x1E, 5)],
        ),
        (
            "escapes: the same by the old rule, 5Dh",
            heard_by(library, Lenient, 0, LOG_EVENT_5D) == [request_5d],
        ),
    ]
}

/// Card 13's capture, and its report.
pub fn card_13() -> (Vec<u8>, &'static str) {
    ([CARD_5, CARD_1].concat(), CARD_13)
}

pub fn card_13_is_reported() -> bool {
    let (capture, text) = card_13();
    report(&capture) == text
}
