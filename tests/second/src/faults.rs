//! Faults in the rules of escapes (document 02, No. 5), planted one at a time in the second program's own
//! answers: the trials must tell each from the right ones.

use crate::calls::{Answer, Call, Library, Second};
use crate::escapes::{ask_constructors, ask_every_byte, ask_every_number, ask_replies, SHORTEST};
use crate::parts::{Escapes, Lenient, Strict};
use crate::planted::{differs, note, note_none};
use crate::reader::{escapes_of, read, refused, Reader, Reading, AFTER_7D, IN_FRAME, NONE, SKIPPING};
use crate::table::{apply, TABLE_BYTES};
use crate::writer::reply;
use crate::Tally;

#[derive(Clone, Copy, PartialEq)]
enum Fault {
    Nothing,
    GivenFor(u8),
    LetThrough(u8),
    FourFirst,
    SumsFirst,
    NotAtTheLength,
    NotAtTheSums,
    LostAtCuts,
    BehindTheFrame,
    InAscii,
    OneByteEarly,
    FrameGoesOn,
    OpensTheNext,
    CarriesTheType,
    StrictWhenLenient,
    LenientWhenStrict,
    OthersAreStrict,
    NotAsItWas,
    NotAsItWasRefused,
    Reply(u8),
}

const FAULTS: [(Fault, &str); 23] = [
    (Fault::GivenFor(0x7E), "15 for 7D 7E"),
    (Fault::GivenFor(0x5E), "15 for 7D 5E"),
    (Fault::GivenFor(0x5D), "15 for 7D 5D"),
    (Fault::LetThrough(0x5F), "7D 5F let through"),
    (Fault::LetThrough(0x5C), "7D 5C let through"),
    (Fault::LetThrough(0x7D), "7D 7D let through"),
    (Fault::FourFirst, "4 before 15"),
    (Fault::SumsFirst, "0 and 5 to 8 before 15, at the last sum"),
    (Fault::NotAtTheLength, "no 15 at the length's place"),
    (Fault::NotAtTheSums, "no 15 at the sums"),
    (Fault::LostAtCuts, "no 15 where the 7Dh came with the read before"),
    (Fault::BehindTheFrame, "15 in what is skipped"),
    (Fault::InAscii, "15 in ASCII"),
    (Fault::OneByteEarly, "15 says one byte too few"),
    (Fault::FrameGoesOn, "the frame goes on after 15"),
    (Fault::OpensTheNext, "15 opens the next frame"),
    (Fault::CarriesTheType, "15 carries the type byte"),
    (Fault::StrictWhenLenient, "the lenient constructor is strict"),
    (Fault::LenientWhenStrict, "the constructor is lenient"),
    (Fault::OthersAreStrict, "a rule above 1 is strict"),
    (Fault::NotAsItWas, "a rule above 1 comes back as 1"),
    (Fault::NotAsItWasRefused, "a rule above 1 comes back as 1, with 11 and 12 alone"),
    (Fault::Reply(0x1F), "reply 1F to 15"),
];

/// The second program with a fault.
struct Faulty {
    fault: Fault,
    right: Second,
    reader: Reader,
    table: Vec<u8>,
}

/// What is known of a byte that is read: the byte before it in the same read, if there is one.
struct Heard {
    byte: u8,
    before: Option<u8>,
}

/// The reading that says 15, and leaves the reader in this mode.
fn fifteen(reader: &Reader, mode: u8) -> Reading {
    Reading { reader: Reader { mode, held: 0, digit: 0, ..reader.clone() }, used: 1, ..refused(reader, 15) }
}

/// The byte by the old rule; the reader keeps its own.
fn by_the_old_rule(reader: &Reader, byte: u8) -> Reading {
    let mut reading = read(&Reader { escapes: 1, ..reader.clone() }, &[byte]);
    reading.reader.escapes = reader.escapes;
    reading
}

impl Faulty {
    fn new(fault: Fault) -> Faulty {
        Faulty { fault, right: Second::new(), reader: Reader::fresh(0, Strict), table: Vec::new() }
    }

    fn fresh(&self, framing: u8, escapes: Escapes) -> Reader {
        match self.fault {
            Fault::StrictWhenLenient => Reader::fresh(framing, Strict),
            Fault::LenientWhenStrict => Reader::fresh(framing, Lenient),
            _ => Reader::fresh(framing, escapes),
        }
    }

    /// One byte to a sound reader.
    fn step(&self, reader: &Reader, heard: &Heard) -> Reading {
        let (byte, held) = (heard.byte, usize::from(reader.held));
        let (binary, strict) = (reader.framing == 0, escapes_of(reader.escapes) == Strict);
        let after_7d = binary && reader.mode == AFTER_7D;
        let may_follow = [0x5E, 0x5D, 0x7E].contains(&byte);
        let bad = after_7d && strict && !may_follow;
        let skipped = binary && strict && reader.mode == SKIPPING && heard.before == Some(0x7D);
        let length = usize::from(reader.bytes[0]);
        let as_before = match self.fault {
            Fault::LetThrough(other) => byte == other,
            Fault::FourFirst => held == 0 && byte == 0x20,
            Fault::SumsFirst => held == length + 2,
            Fault::NotAtTheLength => held == 0,
            Fault::NotAtTheSums => held > length,
            Fault::LostAtCuts => heard.before.is_none(),
            _ => false,
        };
        let too_often = match self.fault {
            Fault::GivenFor(other) => after_7d && strict && byte == other,
            Fault::BehindTheFrame => skipped && !may_follow,
            Fault::InAscii => !binary && strict && reader.mode != SKIPPING && byte == 0x7D,
            Fault::OthersAreStrict => after_7d && reader.escapes > 1 && !may_follow,
            _ => false,
        };
        match self.fault {
            _ if bad && as_before => by_the_old_rule(reader, byte),
            _ if too_often => fifteen(reader, SKIPPING),
            Fault::FrameGoesOn if bad => {
                Reading { reader: by_the_old_rule(reader, byte).reader, ..fifteen(reader, SKIPPING) }
            }
            Fault::OpensTheNext if bad => fifteen(reader, IN_FRAME),
            Fault::CarriesTheType if bad && held > 1 => {
                Reading { type_byte: reader.bytes[1], ..fifteen(reader, SKIPPING) }
            }
            _ => read(reader, &[byte]),
        }
    }

    fn read(&self, reader: &Reader, bytes: &[u8]) -> Reading {
        let mut reading = read(reader, &[]);
        for (k, &byte) in bytes.iter().enumerate() {
            if reading.verdict == NONE {
                let before = k.checked_sub(1).map(|k| bytes[k]);
                reading = self.step(&reading.reader, &Heard { byte, before });
                reading.used += k as u64;
            }
        }
        if self.fault == Fault::OneByteEarly && reading.verdict == 15 {
            reading.used -= 1;
        }
        self.handed_back(reading)
    }

    fn handed_back(&self, mut reading: Reading) -> Reading {
        let is_refused = matches!(reading.verdict, 11 | 12);
        if self.fault == Fault::NotAsItWas || (self.fault == Fault::NotAsItWasRefused && is_refused) {
            reading.reader.escapes = reading.reader.escapes.min(1);
        }
        reading
    }

    fn reply(&self, verdict: u8, type_byte: u8) -> u8 {
        match self.fault {
            Fault::Reply(number) if verdict == 15 => number,
            _ => reply(verdict, type_byte),
        }
    }

    fn reading(&mut self, own: &Option<Reader>, bytes: &[u8]) -> Answer {
        let reading = self.read(own.as_ref().unwrap_or(&self.reader), bytes);
        if own.is_none() {
            self.reader = reading.reader.clone();
        }
        Answer::Reading(reading)
    }

    /// A hearing, and the table afterwards.
    fn hear(&self, reader: &Reader, mut table: Vec<u8>, bytes: &[u8]) -> (Reading, u8, Vec<u8>) {
        if table.len() != TABLE_BYTES {
            return (self.handed_back(refused(reader, 11)), 0, table);
        }
        let reading = self.read(reader, bytes);
        if reading.verdict == 0 {
            apply(&mut table, &reading.message[..usize::from(reading.length)]);
        }
        let reply = self.reply(reading.verdict, reading.type_byte);
        (reading, reply, table)
    }
}

impl Library for Faulty {
    fn call(&mut self, call: &Call) -> Answer {
        match call {
            Call::Fresh { framing, escapes } => {
                self.reader = self.fresh(*framing, *escapes);
                Answer::Reader(self.reader.clone())
            }
            Call::Step { reader, byte } => self.reading(reader, &[*byte]),
            Call::Read { reader, bytes } => self.reading(reader, bytes),
            Call::Reply { verdict, type_byte } => Answer::Reply(self.reply(*verdict, *type_byte)),
            Call::Hear { with: Some((reader, table)), bytes } => {
                let (reading, reply, table) = self.hear(reader, table.clone(), bytes);
                Answer::Hearing { reading, reply, table }
            }
            Call::Hear { with: None, bytes } => {
                let (reading, reply, table) = self.hear(&self.reader, self.table.clone(), bytes);
                self.reader = reading.reader.clone();
                self.table = table;
                Answer::Hearing { reading, reply, table: Vec::new() }
            }
            Call::LendTable { table } => {
                self.table = table.clone();
                Answer::Nothing
            }
            Call::Show { .. } => Answer::Table(self.table.clone()),
            Call::View { table: None } => self.right.call(&Call::View { table: Some(self.table.clone()) }),
            _ => self.right.call(call),
        }
    }
}

/// Whether some answer in a trial of the rules differs from the right one.
fn is_found(fault: Fault) -> bool {
    differs(Faulty::new(fault), |mut ask| {
        ask_replies(&mut ask);
        ask_constructors(&mut ask);
        ask_every_byte(&mut ask, SHORTEST);
        ask_every_number(&mut ask);
    })
}

pub fn run(tally: &mut Tally) {
    note_none(tally, "", Faulty::new(Fault::Nothing), is_found(Fault::Nothing));
    for (fault, name) in FAULTS {
        note(tally, "", name, Faulty::new(fault), is_found(fault));
    }
}
