//! The calls of nx584.h, their answers, and both on the wire of tests/driver.c.

use std::fmt;
use std::io::{self, Read};

use crate::commands::{from_memory, take, tick, to_memory, told, Sending, Slot, LONGEST_COMMAND};
use crate::commands::{SLOTS, SLOT_BYTES};
use crate::grid::{grid, Gridded};
use crate::log::{keep, newest, Changed, Found, Kept};
use crate::log_made;
use crate::messages::LONGEST;
use crate::odd::Wrong;
use crate::parts::{Escapes, Lenient, Strict};
use crate::reader::{read, Reader, Reading};
use crate::room::make_room;
use crate::table::{self, apply, hear, view, Group, Overview};
use crate::writer::{reply, write, Written};

/// Slots as they stand in memory, and what is wrong with them.
#[derive(Clone, Debug)]
pub struct Lent {
    pub bytes: Vec<u8>,
    pub wrong: Wrong,
}

/// A log as it is lent: its bytes, None for the driver's kept ones; how many of them are used; and what is
/// wrong with those, where that is known.
#[derive(Clone, Debug)]
pub struct LentLog {
    pub bytes: Option<Vec<u8>>,
    pub used: u64,
    pub wrong: Option<log_made::Wrong>,
}

/// A call. Where the reader, the table or the slots are None, the driver's kept ones are meant; LendSlots keeps
/// eight of them. Change puts a byte into the kept log, ChangeTable into the kept table.
#[derive(Clone, Debug)]
pub enum Call {
    Fresh { framing: u8, escapes: Escapes },
    Step { reader: Option<Reader>, byte: u8 },
    Read { reader: Option<Reader>, bytes: Vec<u8> },
    Write { message: Vec<u8>, framing: u8, out: Vec<u8>, place: u64 },
    Reply { verdict: u8, type_byte: u8 },
    Apply { table: Option<Vec<u8>>, message: Vec<u8> },
    View { table: Option<Vec<u8>> },
    Hear { with: Option<(Reader, Vec<u8>)>, bytes: Vec<u8> },
    LendTable { table: Vec<u8> },
    Show { length: usize },
    Version,
    Zone { table: Option<Vec<u8>>, zone: u8 },
    Partition { table: Option<Vec<u8>>, partition: u8 },
    System { table: Option<Vec<u8>> },
    LendSlots { slots: Vec<u8> },
    Take { slots: Option<Lent>, message: Vec<u8> },
    Tick { slots: Option<Lent> },
    Told { slots: Option<Lent>, message: Vec<u8> },
    LendLog { log: Vec<u8> },
    Change { place: usize, byte: u8 },
    Keep { log: LentLog, message: Vec<u8> },
    Newest { log: LentLog, zone: u8 },
    MakeRoom { log: LentLog },
    ChangeTable { place: usize, byte: u8 },
    Grid { table: Option<Vec<u8>>, width: u8, header: Vec<u8>, cells: Vec<u8> },
}

/// The version of nx584.h that is meant here.
const VERSION: u32 = 6;
/// The bytes of nx584_zone_record, nx584_partition_record and nx584_system_record.
const ZONE_RECORD: usize = 9;
const PARTITION_RECORD: usize = 10;
const SYSTEM_RECORD: usize = 13;

/// What a call answers. A table is there where the call brought its own.
#[derive(Clone, Debug)]
pub enum Answer {
    Reader(Reader),
    Reading(Reading),
    Written(Written),
    Reply(u8),
    Applied {
        number: u8,
        table: Vec<u8>,
    },
    View(Overview),
    Hearing {
        reading: Reading,
        reply: u8,
        table: Vec<u8>,
    },
    Nothing,
    Table(Vec<u8>),
    Version(u32),
    /// The bytes of a record, in the header's order.
    Record(Vec<u8>),
    /// What is said, and all slots as they stand in memory.
    Sending {
        sending: Sending,
        slots: Vec<u8>,
    },
    /// What is said of a log, and what changed of it: by a keep, or where room was made.
    Kept {
        number: u8,
        length: u64,
        changed: Changed,
    },
    Found {
        found: Found,
        changed: Changed,
    },
    Gridded(Gridded),
    /// A byte beside a lent buffer was touched.
    Beside,
}

/// Something that takes calls: the second program itself, or the library behind the driver.
pub trait Library {
    fn call(&mut self, call: &Call) -> Answer;
}

/// The second program's own answers.
pub struct Second {
    reader: Reader,
    table: Vec<u8>,
    slots: Vec<u8>,
    log: Vec<u8>,
}

impl Second {
    pub fn new() -> Second {
        let reader = Reader::fresh(0, Strict);
        Second { reader, table: Vec::new(), slots: Vec::new(), log: Vec::new() }
    }

    fn sending(&mut self, own: &Option<Lent>, call: impl FnOnce(&mut Vec<Slot>) -> Sending) -> Answer {
        let mut slots = from_memory(own.as_ref().map_or(&self.slots, |lent| &lent.bytes));
        let sending = call(&mut slots);
        let slots = to_memory(&slots);
        if own.is_none() {
            self.slots = slots.clone();
        }
        Answer::Sending { sending, slots }
    }

    pub fn log_of<'a>(&'a self, lent: &'a LentLog) -> &'a [u8] {
        lent.bytes.as_ref().unwrap_or(&self.log)
    }

    /// Answers what became of a lent log; the kept one is kept as it comes back.
    pub fn kept(&mut self, lent: &LentLog, kept: Kept) -> Answer {
        let changed = Changed::between(self.log_of(lent), &kept.log);
        if lent.bytes.is_none() {
            self.log = kept.log;
        }
        Answer::Kept { number: kept.number, length: kept.length, changed }
    }

    pub fn own<'a>(&'a self, table: &'a Option<Vec<u8>>) -> &'a [u8] {
        table.as_ref().unwrap_or(&self.table)
    }

    fn reading(&mut self, own: &Option<Reader>, bytes: &[u8]) -> Answer {
        Answer::Reading(match own {
            Some(reader) => read(reader, bytes),
            None => {
                let reading = read(&self.reader, bytes);
                self.reader = reading.reader.clone();
                reading
            }
        })
    }
}

impl Library for Second {
    fn call(&mut self, call: &Call) -> Answer {
        match call {
            Call::Fresh { framing, escapes } => {
                self.reader = Reader::fresh(*framing, *escapes);
                Answer::Reader(self.reader.clone())
            }
            Call::Step { reader, byte } => self.reading(reader, &[*byte]),
            Call::Read { reader, bytes } => self.reading(reader, bytes),
            Call::Write { message, framing, out, place } => {
                Answer::Written(write(message, *framing, out, *place))
            }
            Call::Reply { verdict, type_byte } => Answer::Reply(reply(*verdict, *type_byte)),
            Call::Apply { table: Some(table), message } => {
                let mut table = table.clone();
                Answer::Applied { number: apply(&mut table, message), table }
            }
            Call::Apply { table: None, message } => {
                Answer::Applied { number: apply(&mut self.table, message), table: Vec::new() }
            }
            Call::View { table } => Answer::View(view(self.own(table))),
            Call::Hear { with: Some((reader, table)), bytes } => {
                let mut table = table.clone();
                let (reading, reply) = hear(reader, &mut table, bytes);
                Answer::Hearing { reading, reply, table }
            }
            Call::Hear { with: None, bytes } => {
                let (reading, reply) = hear(&self.reader, &mut self.table, bytes);
                self.reader = reading.reader.clone();
                Answer::Hearing { reading, reply, table: Vec::new() }
            }
            Call::LendTable { table } => {
                self.table = table.clone();
                Answer::Nothing
            }
            Call::Show { .. } => Answer::Table(self.table.clone()),
            Call::Version => Answer::Version(VERSION),
            Call::Zone { table, zone } => Answer::Record(table::zone_record(self.own(table), *zone)),
            Call::Partition { table, partition } => {
                Answer::Record(table::partition_record(self.own(table), *partition))
            }
            Call::System { table } => Answer::Record(table::system_record(self.own(table))),
            Call::LendSlots { slots } => {
                self.slots = slots.clone();
                Answer::Nothing
            }
            Call::Take { slots, message } => self.sending(slots, |slots| take(slots, message)),
            Call::Tick { slots } => self.sending(slots, tick),
            Call::Told { slots, message } => self.sending(slots, |slots| told(slots, message)),
            Call::LendLog { log } => {
                self.log = log.clone();
                Answer::Nothing
            }
            Call::Change { place, byte } => {
                self.log[*place] = *byte;
                Answer::Nothing
            }
            Call::Keep { log, message } => {
                let kept = keep(self.log_of(log), log.used, message);
                self.kept(log, kept)
            }
            Call::Newest { log, zone } => {
                let found = newest(self.log_of(log), log.used, *zone);
                Answer::Found { found, changed: Changed::default() }
            }
            Call::MakeRoom { log } => {
                let kept = make_room(self.log_of(log), log.used);
                self.kept(log, kept)
            }
            Call::ChangeTable { place, byte } => {
                self.table[*place] = *byte;
                Answer::Nothing
            }
            Call::Grid { table, width, header, cells } => {
                Answer::Gridded(grid(self.own(table), *width, header, cells))
            }
        }
    }
}

fn is_refusal(verdict: u8) -> bool {
    verdict == 11 || verdict == 12
}

fn reading_is_met(expected: &Reading, answered: &Reading) -> bool {
    let reader = if is_refusal(expected.verdict) {
        expected.reader == answered.reader
    } else {
        expected.reader.is_met_by(&answered.reader)
    };
    let rest = |r: &Reading| (r.used, r.verdict, r.type_byte, r.length, r.message);
    reader && rest(expected) == rest(answered)
}

impl Answer {
    /// Whether what the library answered is what is expected.
    pub fn is_met_by(&self, answered: &Answer) -> bool {
        match (self, answered) {
            (Answer::Reader(e), Answer::Reader(a)) => e.is_met_by(a),
            (Answer::Reading(e), Answer::Reading(a)) => reading_is_met(e, a),
            (Answer::Written(e), Answer::Written(a)) => e == a,
            (Answer::Reply(e), Answer::Reply(a)) => e == a,
            (Answer::Applied { number: e, table: t }, Answer::Applied { number: a, table: u }) => {
                e == a && t == u
            }
            (Answer::View(e), Answer::View(a)) => {
                e.number == a.number && e.groups.iter().zip(&a.groups).all(|(e, a)| e.is_met_by(a))
            }
            (
                Answer::Hearing { reading: e, reply: r, table: t },
                Answer::Hearing { reading: a, reply: s, table: u },
            ) => reading_is_met(e, a) && r == s && t == u,
            (Answer::Nothing, Answer::Nothing) => true,
            (Answer::Table(e), Answer::Table(a)) => e == a,
            (Answer::Version(e), Answer::Version(a)) => e == a,
            (Answer::Record(e), Answer::Record(a)) => e == a,
            (Answer::Sending { sending: e, slots: s }, Answer::Sending { sending: a, slots: t }) => {
                e == a && s == t
            }
            (
                Answer::Kept { number: e, length: n, changed: c },
                Answer::Kept { number: a, length: m, changed: d },
            ) => e == a && n == m && c == d,
            (Answer::Found { found: e, changed: c }, Answer::Found { found: a, changed: d }) => {
                e == a && c == d
            }
            (Answer::Gridded(e), Answer::Gridded(a)) => e == a,
            _ => false,
        }
    }
}

// ---- on the wire

const NULLS: u8 = 0x40;
const KEPT: u8 = 0x80;

fn put_buffer(line: &mut Vec<u8>, buffer: &[u8]) {
    line.extend((buffer.len() as u32).to_le_bytes());
    line.extend(buffer);
}

fn put_reader(line: &mut Vec<u8>, reader: &Reader) {
    line.extend([reader.framing, reader.mode, reader.digit]);
    line.extend(reader.held.to_le_bytes());
    line.extend(reader.bytes);
    line.push(reader.escapes);
}

fn put_log(line: &mut Vec<u8>, log: &LentLog) {
    log.bytes.iter().for_each(|bytes| put_buffer(line, bytes));
    line.extend(log.used.to_le_bytes());
}

impl Call {
    pub fn is_kept(&self) -> bool {
        matches!(
            self,
            Call::Step { reader: None, .. }
                | Call::Read { reader: None, .. }
                | Call::Apply { table: None, .. }
                | Call::View { table: None }
                | Call::Hear { with: None, .. }
                | Call::Zone { table: None, .. }
                | Call::Partition { table: None, .. }
                | Call::System { table: None }
                | Call::Take { slots: None, .. }
                | Call::Tick { slots: None }
                | Call::Told { slots: None, .. }
                | Call::Keep { log: LentLog { bytes: None, .. }, .. }
                | Call::Newest { log: LentLog { bytes: None, .. }, .. }
                | Call::MakeRoom { log: LentLog { bytes: None, .. } }
                | Call::Grid { table: None, .. }
        )
    }

    fn function(&self) -> u8 {
        match self {
            Call::Fresh { escapes: Strict, .. } => 1,
            Call::Fresh { escapes: Lenient, .. } => 19,
            Call::Step { .. } => 2,
            Call::Read { .. } => 3,
            Call::Write { .. } => 4,
            Call::Reply { .. } => 5,
            Call::Apply { .. } => 6,
            Call::View { .. } => 7,
            Call::Hear { .. } => 8,
            Call::LendTable { .. } => 9,
            Call::Show { .. } => 10,
            Call::Version => 11,
            Call::Zone { .. } => 12,
            Call::Partition { .. } => 13,
            Call::System { .. } => 14,
            Call::LendSlots { .. } => 15,
            Call::Take { .. } => 16,
            Call::Tick { .. } => 17,
            Call::Told { .. } => 18,
            Call::LendLog { .. } => 20,
            Call::Change { .. } => 21,
            Call::Keep { .. } => 22,
            Call::Newest { .. } => 23,
            Call::MakeRoom { .. } => 24,
            Call::ChangeTable { .. } => 25,
            Call::Grid { .. } => 26,
        }
    }

    /// Appends the call as the driver reads it; nulls: whether an empty buffer is passed as NULL.
    pub fn put(&self, line: &mut Vec<u8>, nulls: bool) {
        let kept = if self.is_kept() { KEPT } else { 0 };
        line.push(self.function() | kept | if nulls { NULLS } else { 0 });
        match self {
            Call::Fresh { framing, .. } => line.push(*framing),
            Call::Step { reader, byte } => {
                reader.iter().for_each(|r| put_reader(line, r));
                line.push(*byte);
            }
            Call::Read { reader, bytes } => {
                reader.iter().for_each(|r| put_reader(line, r));
                put_buffer(line, bytes);
            }
            Call::Write { message, framing, out, place } => {
                put_buffer(line, message);
                line.push(*framing);
                put_buffer(line, out);
                line.extend(place.to_le_bytes());
            }
            Call::Reply { verdict, type_byte } => line.extend([*verdict, *type_byte]),
            Call::Apply { table, message } => {
                table.iter().for_each(|t| put_buffer(line, t));
                put_buffer(line, message);
            }
            Call::View { table } | Call::System { table } => table.iter().for_each(|t| put_buffer(line, t)),
            Call::Zone { table, zone: number } | Call::Partition { table, partition: number } => {
                table.iter().for_each(|t| put_buffer(line, t));
                line.push(*number);
            }
            Call::Hear { with, bytes } => {
                if let Some((reader, table)) = with {
                    put_reader(line, reader);
                    put_buffer(line, table);
                }
                put_buffer(line, bytes);
            }
            Call::LendTable { table } => put_buffer(line, table),
            Call::LendSlots { slots } => put_buffer(line, slots),
            Call::LendLog { log } => put_buffer(line, log),
            Call::Change { place, byte } | Call::ChangeTable { place, byte } => {
                line.extend((*place as u64).to_le_bytes());
                line.push(*byte);
            }
            Call::Keep { log, message } => {
                put_log(line, log);
                put_buffer(line, message);
            }
            Call::Newest { log, zone } => {
                put_log(line, log);
                line.push(*zone);
            }
            Call::MakeRoom { log } => put_log(line, log),
            Call::Grid { table, width, header, cells } => {
                table.iter().for_each(|t| put_buffer(line, t));
                line.push(*width);
                put_buffer(line, header);
                put_buffer(line, cells);
            }
            Call::Take { slots, message } | Call::Told { slots, message } => {
                slots.iter().for_each(|lent| put_buffer(line, &lent.bytes));
                put_buffer(line, message);
            }
            Call::Tick { slots } => slots.iter().for_each(|lent| put_buffer(line, &lent.bytes)),
            Call::Show { .. } | Call::Version => {}
        }
    }

    /// The answer to this call as the driver writes it.
    pub fn take_answer(&self, from: &mut impl Read) -> io::Result<Answer> {
        let mut taken = Taken { from };
        Ok(match self {
            Call::Fresh { .. } => Answer::Reader(taken.reader()?),
            Call::Step { .. } | Call::Read { .. } => Answer::Reading(taken.reading(false)?.0),
            Call::Write { out, .. } => {
                let (number, length) = (taken.byte()?, taken.number(8)?);
                match taken.lent(out.len())? {
                    Some(out) => Answer::Written(Written { number, length, out }),
                    None => Answer::Beside,
                }
            }
            Call::Reply { .. } => Answer::Reply(taken.byte()?),
            Call::Apply { table, .. } => {
                let number = taken.byte()?;
                match taken.lent(table.as_ref().map_or(0, Vec::len))? {
                    Some(table) => Answer::Applied { number, table },
                    None => Answer::Beside,
                }
            }
            Call::View { .. } => Answer::View(taken.overview()?),
            Call::Hear { with, .. } => {
                let (reading, reply) = taken.reading(true)?;
                match taken.lent(with.as_ref().map_or(0, |w| w.1.len()))? {
                    Some(table) => Answer::Hearing { reading, reply, table },
                    None => Answer::Beside,
                }
            }
            Call::LendTable { .. } | Call::LendSlots { .. } | Call::LendLog { .. } => Answer::Nothing,
            Call::Change { .. } | Call::ChangeTable { .. } => Answer::Nothing,
            Call::Take { slots, .. } | Call::Tick { slots } | Call::Told { slots, .. } => {
                let sending = taken.sending()?;
                match taken.lent(slots.as_ref().map_or(SLOTS * SLOT_BYTES, |lent| lent.bytes.len()))? {
                    Some(slots) => Answer::Sending { sending, slots },
                    None => Answer::Beside,
                }
            }
            Call::Show { length } => Answer::Table(taken.bytes(*length)?),
            Call::Version => Answer::Version(taken.number(4)? as u32),
            Call::Zone { .. } => Answer::Record(taken.bytes(ZONE_RECORD)?),
            Call::Partition { .. } => Answer::Record(taken.bytes(PARTITION_RECORD)?),
            Call::System { .. } => Answer::Record(taken.bytes(SYSTEM_RECORD)?),
            Call::Keep { .. } | Call::MakeRoom { .. } => {
                let (number, length) = (taken.byte()?, taken.number(8)?);
                match taken.changed()? {
                    Some(changed) => Answer::Kept { number, length, changed },
                    None => Answer::Beside,
                }
            }
            Call::Newest { .. } => {
                let (number, at, length) = (taken.byte()?, taken.number(8)?, taken.number(8)?);
                match taken.changed()? {
                    Some(changed) => Answer::Found { found: Found { number, at, length }, changed },
                    None => Answer::Beside,
                }
            }
            Call::Grid { header, cells, .. } => {
                let (number, header_length, cells_length) =
                    (taken.byte()?, taken.number(8)?, taken.number(8)?);
                match (taken.lent(header.len())?, taken.lent(cells.len())?) {
                    (Some(header), Some(cells)) => {
                        Answer::Gridded(Gridded { number, header_length, cells_length, header, cells })
                    }
                    _ => Answer::Beside,
                }
            }
        })
    }
}

struct Taken<'a, R: Read> {
    from: &'a mut R,
}

impl<R: Read> Taken<'_, R> {
    fn bytes(&mut self, length: usize) -> io::Result<Vec<u8>> {
        let mut bytes = vec![0; length];
        self.from.read_exact(&mut bytes)?;
        Ok(bytes)
    }

    fn byte(&mut self) -> io::Result<u8> {
        let mut byte = [0];
        self.from.read_exact(&mut byte)?;
        Ok(byte[0])
    }

    fn number(&mut self, width: usize) -> io::Result<u64> {
        let mut bytes = [0; 8];
        self.from.read_exact(&mut bytes[..width])?;
        Ok(u64::from_le_bytes(bytes))
    }

    /// A lent buffer's bytes; none where one beside it was touched.
    fn lent(&mut self, length: usize) -> io::Result<Option<Vec<u8>>> {
        let untouched = self.byte()? == 1;
        let bytes = self.bytes(length)?;
        Ok(if untouched { Some(bytes) } else { None })
    }

    /// What changed of a lent log; none where a byte beside it was touched.
    fn changed(&mut self) -> io::Result<Option<Changed>> {
        let untouched = self.byte()? == 1;
        let (at, length) = (self.number(8)?, self.number(4)?);
        let bytes = self.bytes(length as usize)?;
        Ok(if untouched { Some(Changed { at, bytes }) } else { None })
    }

    fn reader(&mut self) -> io::Result<Reader> {
        let (framing, mode, digit) = (self.byte()?, self.byte()?, self.byte()?);
        let held = self.number(2)? as u16;
        let mut bytes = [0; LONGEST + 3];
        self.from.read_exact(&mut bytes)?;
        let escapes = self.byte()?;
        Ok(Reader { framing, mode, digit, held, bytes, escapes })
    }

    fn reading(&mut self, with_reply: bool) -> io::Result<(Reading, u8)> {
        let (reader, used) = (self.reader()?, self.number(8)?);
        let (verdict, type_byte) = (self.byte()?, self.byte()?);
        let reply = if with_reply { self.byte()? } else { 0 };
        let length = self.byte()?;
        let mut message = [0; LONGEST];
        self.from.read_exact(&mut message)?;
        Ok((Reading { reader, used, verdict, type_byte, length, message }, reply))
    }

    fn sending(&mut self) -> io::Result<Sending> {
        let (number, ended, length) = (self.byte()?, self.byte()?, self.byte()?);
        let mut message = [0; LONGEST_COMMAND];
        self.from.read_exact(&mut message)?;
        Ok(Sending { number, ended, length, message })
    }

    fn group(&mut self) -> io::Result<Group> {
        let (heard, faulted) = (self.number(2)? as u16, self.number(2)? as u16);
        let (known, share) = (self.byte()?, f64::from_bits(self.number(8)?));
        Ok(Group { heard, faulted, known, share })
    }

    fn overview(&mut self) -> io::Result<Overview> {
        let number = self.byte()?;
        let mut groups = [Group { heard: 0, faulted: 0, known: 0, share: 0.0 }; 17];
        for group in &mut groups {
            *group = self.group()?;
        }
        Ok(Overview { number, groups })
    }
}

// ---- in print

/// Bytes as hex digits, to paste.
pub struct Hex<'a>(pub &'a [u8]);

impl fmt::Display for Hex<'_> {
    fn fmt(&self, f: &mut fmt::Formatter) -> fmt::Result {
        write!(f, "[{}]", self.0.len())?;
        self.0.iter().try_for_each(|b| write!(f, " {b:02X}"))
    }
}

impl fmt::Display for Reader {
    fn fmt(&self, f: &mut fmt::Formatter) -> fmt::Result {
        let Reader { framing, mode, digit, held, bytes, escapes } = self;
        let bytes = Hex(bytes);
        write!(f, "framing {framing} mode {mode} digit {digit} held {held} bytes {bytes} escapes {escapes}")
    }
}

impl fmt::Display for Reading {
    fn fmt(&self, f: &mut fmt::Formatter) -> fmt::Result {
        let Reading { reader, used, verdict, type_byte, length, message } = self;
        let message = Hex(message);
        write!(f, "used {used} verdict {verdict} type {type_byte:02X} length {length} message {message}")?;
        write!(f, " reader: {reader}")
    }
}

impl fmt::Display for Lent {
    fn fmt(&self, f: &mut fmt::Formatter) -> fmt::Result {
        write!(f, "{} (wrong: {:?})", Hex(&self.bytes), self.wrong)
    }
}

impl fmt::Display for LentLog {
    fn fmt(&self, f: &mut fmt::Formatter) -> fmt::Result {
        let bytes = own_or_kept(&self.bytes.as_deref().map(Hex));
        write!(f, "used {} log {bytes} (wrong: {:?})", self.used, self.wrong)
    }
}

impl fmt::Display for Changed {
    fn fmt(&self, f: &mut fmt::Formatter) -> fmt::Result {
        write!(f, "changed from {}: {}", self.at, Hex(&self.bytes))
    }
}

fn own_or_kept(own: &Option<impl fmt::Display>) -> String {
    own.as_ref().map_or_else(|| "the kept one".to_string(), |o| o.to_string())
}

impl fmt::Display for Call {
    fn fmt(&self, f: &mut fmt::Formatter) -> fmt::Result {
        let table_or_kept = |table: &Option<Vec<u8>>| own_or_kept(&table.as_deref().map(Hex));
        match self {
            Call::Fresh { framing, escapes: Strict } => write!(f, "fresh framing {framing}"),
            Call::Fresh { framing, escapes: Lenient } => write!(f, "fresh_lenient framing {framing}"),
            Call::Step { reader, byte } => {
                write!(f, "step byte {byte:02X} reader: {}", own_or_kept(reader))
            }
            Call::Read { reader, bytes } => {
                write!(f, "read bytes {} reader: {}", Hex(bytes), own_or_kept(reader))
            }
            Call::Write { message, framing, out, place } => {
                let (message, out) = (Hex(message), Hex(out));
                write!(f, "write message {message} framing {framing} place {place} out {out}")
            }
            Call::Reply { verdict, type_byte } => {
                write!(f, "reply verdict {verdict} type {type_byte:02X}")
            }
            Call::Apply { table, message } => {
                write!(f, "apply message {} table {}", Hex(message), table_or_kept(table))
            }
            Call::View { table } => write!(f, "view table {}", table_or_kept(table)),
            Call::Hear { with: None, bytes } => {
                write!(f, "hear bytes {}, reader and table: the kept ones", Hex(bytes))
            }
            Call::Hear { with: Some((reader, table)), bytes } => {
                write!(f, "hear bytes {} reader: {reader} table {}", Hex(bytes), Hex(table))
            }
            Call::LendTable { table } => write!(f, "lend table {}", Hex(table)),
            Call::Show { .. } => write!(f, "show the kept table"),
            Call::Version => write!(f, "version"),
            Call::Zone { table, zone } => write!(f, "zone {zone} of table {}", table_or_kept(table)),
            Call::Partition { table, partition } => {
                write!(f, "partition {partition} of table {}", table_or_kept(table))
            }
            Call::System { table } => write!(f, "system of table {}", table_or_kept(table)),
            Call::LendSlots { slots } => write!(f, "lend slots {}", Hex(slots)),
            Call::Take { slots, message } => {
                write!(f, "take message {} slots {}", Hex(message), own_or_kept(slots))
            }
            Call::Tick { slots } => write!(f, "tick slots {}", own_or_kept(slots)),
            Call::Told { slots, message } => {
                write!(f, "told message {} slots {}", Hex(message), own_or_kept(slots))
            }
            Call::LendLog { log } => write!(f, "lend log {}", Hex(log)),
            Call::Change { place, byte } => write!(f, "change place {place} byte {byte:02X}"),
            Call::Keep { log, message } => write!(f, "keep message {} {log}", Hex(message)),
            Call::Newest { log, zone } => write!(f, "newest zone {zone} {log}"),
            Call::MakeRoom { log } => write!(f, "make_room {log}"),
            Call::ChangeTable { place, byte } => write!(f, "change_table place {place} byte {byte:02X}"),
            Call::Grid { table, width, header, cells } => {
                let (header, cells) = (Hex(header), Hex(cells));
                write!(f, "grid width {width} header {header} cells {cells} table {}", table_or_kept(table))
            }
        }
    }
}

impl fmt::Display for Answer {
    fn fmt(&self, f: &mut fmt::Formatter) -> fmt::Result {
        match self {
            Answer::Reader(reader) => write!(f, "{reader}"),
            Answer::Reading(reading) => write!(f, "{reading}"),
            Answer::Written(Written { number, length, out }) => {
                write!(f, "number {number} length {length} out {}", Hex(out))
            }
            Answer::Reply(number) => write!(f, "{number:02X}"),
            Answer::Applied { number, table } => write!(f, "number {number} table {}", Hex(table)),
            Answer::View(Overview { number, groups }) => {
                write!(f, "number {number}")?;
                groups.iter().try_for_each(|g| {
                    write!(f, " {}/{} {} {:016X}", g.faulted, g.heard, g.known, g.share.to_bits())
                })
            }
            Answer::Hearing { reading, reply, table } => {
                write!(f, "reply {reply:02X} {reading} table {}", Hex(table))
            }
            Answer::Nothing => write!(f, "nothing"),
            Answer::Table(table) => write!(f, "table {}", Hex(table)),
            Answer::Version(number) => write!(f, "version {number}"),
            Answer::Record(record) => write!(f, "record {}", Hex(record)),
            Answer::Sending { sending: Sending { number, ended, length, message }, slots } => {
                let (message, slots) = (Hex(message), Hex(slots));
                write!(f, "number {number} ended {ended:02X} length {length} message {message} slots {slots}")
            }
            Answer::Kept { number, length, changed } => {
                write!(f, "number {number} length {length} {changed}")
            }
            Answer::Found { found: Found { number, at, length }, changed } => {
                write!(f, "number {number} at {at} length {length} {changed}")
            }
            Answer::Gridded(Gridded { number, header_length, cells_length, header, cells }) => {
                let (header, cells) = (Hex(header), Hex(cells));
                write!(f, "number {number} header {header_length} cells {cells_length}: {header} {cells}")
            }
            Answer::Beside => write!(f, "a byte beside the lent buffer was touched"),
        }
    }
}
