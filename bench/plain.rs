//! The plain Rust that the bench measures against: nx584.h written directly from documents 01 and 02, with
//! no proof, as one would write it for speed. The second program checks it as it checks the library.

use std::slice;

const VERSION: u32 = 6;
const LONGEST: usize = 255;
/// Of the 41 messages, and so of what is written and handed out.
const LONGEST_GOOD: usize = 18;
const TABLE_BYTES: usize = 2132;
const SLOTS: usize = 8;
const LONGEST_COMMAND: usize = 13;
const LOG_MOST: usize = 65536;
const NONE: u8 = 255;
const STRICT: u8 = 0;
const LENIENT: u8 = 1;

const BINARY_START: u8 = 0x7E;
const ESCAPE: u8 = 0x7D;
const ASCII_START: u8 = 0x0A;
const ASCII_STOP: u8 = 0x0D;

const SKIPPING: u8 = 0;
const IN_FRAME: u8 = 1;
const ESCAPED: u8 = 2;
const DIGIT_PENDING: u8 = 3;

const ZONE: usize = 8;
const PARTITIONS: usize = 2048;
const PARTITION: usize = 9;
const SYSTEM: usize = 2120;

const LENGTHS: [u8; 64] = [
    0, 11, 0, 18, 8, 10, 9, 9, 12, 4, 10, 3, 0, 0, 0, 0, // 00
    13, 0, 7, 0, 0, 0, 0, 0, 0, 0, 0, 0, 1, 1, 1, 1, // 10
    0, 1, 0, 2, 2, 2, 2, 1, 1, 4, 2, 12, 3, 0, 0, 0, // 20
    4, 13, 5, 2, 8, 5, 7, 4, 0, 0, 6, 7, 6, 4, 3, 2, // 30
];

#[repr(C)]
#[derive(Clone, Copy)]
pub struct Reader {
    framing: u8,
    mode: u8,
    digit: u8,
    held: u16,
    bytes: [u8; LONGEST + 3],
    escapes: u8,
}

#[repr(C)]
pub struct Reading {
    reader: Reader,
    used: usize,
    verdict: u8,
    type_byte: u8,
    length: u8,
    message: [u8; LONGEST],
}

#[repr(C)]
pub struct Written {
    number: u8,
    length: usize,
}

impl From<Result<usize, u8>> for Written {
    fn from(answer: Result<usize, u8>) -> Written {
        match answer {
            Ok(length) => Written { number: 0, length },
            Err(number) => Written { number, length: 0 },
        }
    }
}

#[repr(C)]
#[derive(Clone, Copy)]
pub struct Group {
    heard: u16,
    faulted: u16,
    known: u8,
    share: f64,
}

#[repr(C)]
pub struct Overview {
    number: u8,
    groups: [Group; 16],
    site: Group,
}

#[repr(C)]
pub struct Hearing {
    reader: Reader,
    used: usize,
    verdict: u8,
    type_byte: u8,
    reply: u8,
    length: u8,
    message: [u8; LONGEST],
}

#[repr(C)]
pub struct ZoneRecord {
    number: u8,
    mark: u8,
    flags: u8,
    bytes: [u8; 6],
}

#[repr(C)]
pub struct PartitionRecord {
    number: u8,
    mark: u8,
    flags: u8,
    bytes: [u8; 7],
}

#[repr(C)]
pub struct SystemRecord {
    number: u8,
    mark: u8,
    bytes: [u8; 11],
}

#[repr(C)]
#[derive(Clone, Copy)]
pub struct Slot {
    length: u8,
    sent: u8,
    ticks: u8,
    message: [u8; LONGEST_COMMAND],
}

#[repr(C)]
pub struct Sending {
    number: u8,
    ended: u8,
    length: u8,
    message: [u8; LONGEST_COMMAND],
}

#[repr(C)]
pub struct Found {
    number: u8,
    at: usize,
    length: usize,
}

#[repr(C)]
pub struct Gridded {
    number: u8,
    header: usize,
    cells: usize,
}

// ---- messages

fn x10_is_good(m: &[u8]) -> bool {
    match m[3] {
        0x08 | 0x18 | 0x68 => m[1] <= 15,
        0x28 | 0x38 | 0x48 | 0x58 => m[1] <= 15 && m[2] <= 15,
        _ => false,
    }
}

fn clock_is_good(m: &[u8]) -> bool {
    m[1] <= 99
        && (1..=12).contains(&m[2])
        && (1..=31).contains(&m[3])
        && m[4] <= 23
        && m[5] <= 59
        && (1..=7).contains(&m[6])
}

fn values_are_good(m: &[u8]) -> bool {
    match m[0] & 0x3F {
        0x05 | 0x25 => m[1] <= 240,
        0x06 | 0x26 => m[1] <= 7,
        0x09 | 0x29 => x10_is_good(m),
        0x0B => m[2] <= 0x15,
        0x10 => m[2] & 0xA0 == 0,
        0x2B => m[2] == 0,
        0x30 => m[2] & 0xB0 == 0,
        0x31 => m[2] & 0xA0 == 0x20,
        0x3B => clock_is_good(m),
        0x3C => m[4] <= 7,
        0x3D => m[1] <= 7,
        0x3E => m[1] <= 0x0F,
        _ => true,
    }
}

fn length_of(type_byte: u8) -> usize {
    if type_byte & 0x40 != 0 {
        0
    } else {
        usize::from(LENGTHS[usize::from(type_byte & 0x3F)])
    }
}

/// 0, or 4, 6, 7, 8.
fn verdict_of(message: &[u8]) -> u8 {
    if message.is_empty() || message.len() > LONGEST {
        return 4;
    }
    match length_of(message[0]) {
        0 => 6,
        length if length != message.len() => 7,
        _ if !values_are_good(message) => 8,
        _ => 0,
    }
}

/// Both sums; 256 bytes and their prefix sums stay far below 2^32.
fn sums(bytes: &[u8]) -> (u8, u8) {
    let (mut a, mut b) = (0u32, 0u32);
    for &byte in bytes {
        a += u32::from(byte);
        b += a;
    }
    ((a % 255) as u8, (b % 255) as u8)
}

// ---- reader

impl Reader {
    fn fresh(framing: u8, escapes: u8) -> Reader {
        let framing = u8::from(framing != 0);
        Reader { framing, mode: SKIPPING, digit: 0, held: 0, bytes: [0; LONGEST + 3], escapes }
    }

    fn is_sound(&self) -> bool {
        if self.mode > DIGIT_PENDING || (self.mode == DIGIT_PENDING && self.digit > 15) {
            return false;
        }
        if self.held == 0 {
            return true;
        }
        let length = u16::from(self.bytes[0]);
        let stop_due = self.framing != 0 && self.held == length + 3 && self.mode != DIGIT_PENDING;
        length != 0 && (self.held <= length + 2 || stop_due)
    }

    /// What is left of the fields that document 01 does not know: the same reader, each state once.
    fn settle(&mut self) {
        self.framing = u8::from(self.framing != 0);
        if self.mode == if self.framing != 0 { ESCAPED } else { DIGIT_PENDING } {
            self.mode = IN_FRAME;
        }
        if self.mode != DIGIT_PENDING {
            self.digit = 0;
        }
    }
}

impl Reading {
    fn decided(&mut self, used: usize, verdict: u8) {
        self.verdict = verdict;
        self.used = used;
        self.reader.mode = if verdict == 1 { IN_FRAME } else { SKIPPING };
        self.reader.digit = 0;
        self.reader.held = 0;
    }

    /// The verdict of a whole frame: its length byte, message and sums are the reader's bytes.
    fn whole(&mut self, used: usize) {
        let bytes = &self.reader.bytes;
        let n = usize::from(bytes[0]);
        let mut verdict = 5;
        if (bytes[n + 1], bytes[n + 2]) == sums(&bytes[..n + 1]) {
            let message = &bytes[1..n + 1];
            verdict = verdict_of(message);
            self.type_byte = message[0];
            if verdict == 0 {
                self.length = n as u8;
                self.message[..n].copy_from_slice(message);
            }
        }
        self.decided(used, verdict);
    }

    fn read_binary(&mut self, bytes: &[u8], from: usize) {
        let mut held = usize::from(self.reader.held);
        let mut mode = self.reader.mode;
        for (i, &byte) in bytes.iter().enumerate().skip(from) {
            let mut byte = byte;
            if byte == BINARY_START {
                return self.decided(i + 1, 1);
            }
            if mode == ESCAPED {
                byte ^= 0x20;
                if self.reader.escapes == STRICT && !matches!(byte, BINARY_START | ESCAPE) {
                    return self.decided(i + 1, 15);
                }
                mode = IN_FRAME;
            } else if byte == ESCAPE {
                mode = ESCAPED;
                continue;
            }
            if held == 0 && byte == 0 {
                return self.decided(i + 1, 4);
            }
            self.reader.bytes[held] = byte;
            held += 1;
            if held == usize::from(self.reader.bytes[0]) + 3 {
                return self.whole(i + 1);
            }
        }
        self.reader.held = held as u16;
        self.reader.mode = mode;
        self.used = bytes.len();
    }

    fn read_ascii(&mut self, bytes: &[u8], from: usize) {
        let mut held = usize::from(self.reader.held);
        let mut pending = if self.reader.mode == DIGIT_PENDING { Some(self.reader.digit) } else { None };
        for (i, &byte) in bytes.iter().enumerate().skip(from) {
            if byte == ASCII_START {
                return self.decided(i + 1, 1);
            }
            if held != 0 && held == usize::from(self.reader.bytes[0]) + 3 {
                return if byte == ASCII_STOP { self.whole(i + 1) } else { self.decided(i + 1, 3) };
            }
            let digit = match byte {
                b'0'..=b'9' => byte - b'0',
                b'A'..=b'F' => byte - b'A' + 10,
                _ => return self.decided(i + 1, 2),
            };
            match pending.take() {
                None => pending = Some(digit),
                Some(high) => {
                    let value = high << 4 | digit;
                    if held == 0 && value == 0 {
                        return self.decided(i + 1, 4);
                    }
                    self.reader.bytes[held] = value;
                    held += 1;
                }
            }
        }
        self.reader.held = held as u16;
        self.reader.mode = if pending.is_some() { DIGIT_PENDING } else { IN_FRAME };
        self.reader.digit = pending.unwrap_or(0);
        self.used = bytes.len();
    }
}

fn read(reader: Reader, bytes: &[u8]) -> Reading {
    let mut reading =
        Reading { reader, used: 0, verdict: NONE, type_byte: 0, length: 0, message: [0; LONGEST] };
    if !reading.reader.is_sound() {
        reading.verdict = 12;
        return reading;
    }
    reading.reader.settle();
    let ascii = reading.reader.framing != 0;
    let mut from = 0;
    if reading.reader.mode == SKIPPING {
        let start = if ascii { ASCII_START } else { BINARY_START };
        match bytes.iter().position(|&byte| byte == start) {
            None => {
                reading.used = bytes.len();
                return reading;
            }
            Some(at) => from = at + 1,
        }
        reading.reader.mode = IN_FRAME;
        reading.reader.held = 0;
    }
    if ascii {
        reading.read_ascii(bytes, from);
    } else {
        reading.read_binary(bytes, from);
    }
    reading
}

// ---- writer

struct Frame {
    bytes: [u8; 2 * (LONGEST_GOOD + 3) + 2],
    length: usize,
}

impl Frame {
    fn push(&mut self, byte: u8) {
        self.bytes[self.length] = byte;
        self.length += 1;
    }

    fn binary(&mut self, body: &[u8]) {
        self.push(BINARY_START);
        for &byte in body {
            if byte == BINARY_START || byte == ESCAPE {
                self.push(ESCAPE);
                self.push(byte ^ 0x20);
            } else {
                self.push(byte);
            }
        }
    }

    fn ascii(&mut self, body: &[u8]) {
        const DIGITS: &[u8; 16] = b"0123456789ABCDEF";
        self.push(ASCII_START);
        for &byte in body {
            self.push(DIGITS[usize::from(byte >> 4)]);
            self.push(DIGITS[usize::from(byte & 15)]);
        }
        self.push(ASCII_STOP);
    }
}

fn write(message: &[u8], framing: u8, out: &mut [u8], place: usize) -> Result<usize, u8> {
    match verdict_of(message) {
        0 => {}
        verdict => return Err(verdict),
    }
    let n = message.len();
    let mut body = [0; LONGEST_GOOD + 3];
    body[0] = n as u8;
    body[1..n + 1].copy_from_slice(message);
    let (sum1, sum2) = sums(&body[..n + 1]);
    body[n + 1] = sum1;
    body[n + 2] = sum2;
    let mut frame = Frame { bytes: [0; 2 * (LONGEST_GOOD + 3) + 2], length: 0 };
    if framing == 0 {
        frame.binary(&body[..n + 3]);
    } else {
        frame.ascii(&body[..n + 3]);
    }
    let part = out.get_mut(place..).ok_or(9)?;
    part.get_mut(..frame.length).ok_or(9)?.copy_from_slice(&frame.bytes[..frame.length]);
    Ok(frame.length)
}

// ---- replies, table, overview

fn reply(verdict: u8, type_byte: u8) -> u8 {
    match verdict {
        6 | 8 => 0x1F,
        1..=7 | 15 => 0x1E,
        0 if length_of(type_byte) != 0 => match type_byte & 0x3F {
            0x20..=0x3F => 0x1F,
            0x1C..=0x1F => 0,
            _ if type_byte & 0x80 != 0 => 0x1D,
            _ => 0,
        },
        _ => 0,
    }
}

fn store_zone(table: &mut [u8], m: &[u8]) {
    let at = ZONE * usize::from(m[1]);
    let zone = &mut table[at..at + ZONE];
    let condition = m[6];
    zone[0] |= 3;
    zone[1..7].copy_from_slice(&m[2..8]);
    zone[7] = condition & 1
        | u8::from(condition & 0x18 != 0) << 1
        | u8::from(condition & 0x66 != 0) << 2
        | (m[7] & 1) << 3;
}

fn store(table: &mut [u8; TABLE_BYTES], m: &[u8]) {
    match m[0] & 0x3F {
        0x04 => store_zone(table, m),
        0x05 => {
            let at = ZONE * usize::from(m[1]);
            let zones = table[at..at + 16 * ZONE].chunks_exact_mut(2 * ZONE);
            for (pair, flags) in zones.zip(&m[2..10]) {
                pair[0] |= 1;
                pair[7] = flags & 15;
                pair[8] |= 1;
                pair[15] = flags >> 4;
            }
        }
        0x06 => {
            let at = PARTITIONS + PARTITION * usize::from(m[1]);
            let partition = &mut table[at..at + PARTITION];
            partition[0] |= 2;
            partition[1..8].copy_from_slice(&m[2..9]);
        }
        0x07 => {
            let partitions = table[PARTITIONS..SYSTEM].chunks_exact_mut(PARTITION);
            for (partition, &short) in partitions.zip(&m[1..9]) {
                partition[0] |= 1;
                partition[8] = short;
            }
        }
        0x08 => {
            table[SYSTEM] = 1;
            table[SYSTEM + 1..].copy_from_slice(&m[1..12]);
        }
        _ => {}
    }
}

fn apply(table: &mut [u8], message: &[u8]) -> u8 {
    let table: &mut [u8; TABLE_BYTES] = match table.try_into() {
        Ok(table) => table,
        Err(_) => return 11,
    };
    let verdict = verdict_of(message);
    if verdict == 0 {
        store(table, message);
    }
    verdict
}

fn group(heard: u16, faulted: u16) -> Group {
    let known = heard > 0;
    let share = if known { f64::from(faulted) / f64::from(heard) } else { f64::NAN };
    Group { heard, faulted, known: u8::from(known), share }
}

fn view(table: &[u8]) -> Overview {
    let mut overview = Overview { number: 0, groups: [group(0, 0); 16], site: group(0, 0) };
    if table.len() != TABLE_BYTES {
        overview.number = 11;
        return overview;
    }
    let (mut all_heard, mut all_faulted) = (0, 0);
    for (zones, answer) in table[..PARTITIONS].chunks_exact(16 * ZONE).zip(&mut overview.groups) {
        let (mut heard, mut faulted) = (0, 0);
        for zone in zones.chunks_exact(ZONE) {
            heard += u16::from(zone[0] & 1);
            faulted += u16::from(zone[0] & zone[7] & 1);
        }
        *answer = group(heard, faulted);
        all_heard += heard;
        all_faulted += faulted;
    }
    overview.site = group(all_heard, all_faulted);
    overview
}

fn hear(reader: Reader, table: &mut [u8], bytes: &[u8]) -> Hearing {
    let table: &mut [u8; TABLE_BYTES] = match table.try_into() {
        Ok(table) => table,
        Err(_) => {
            let message = [0; LONGEST];
            return Hearing { reader, used: 0, verdict: 11, type_byte: 0, reply: 0, length: 0, message };
        }
    };
    let Reading { reader, used, verdict, type_byte, length, message } = read(reader, bytes);
    if verdict == 0 {
        store(table, &message[..usize::from(length)]);
    }
    Hearing { reader, used, verdict, type_byte, reply: reply(verdict, type_byte), length, message }
}

// ---- questions of a table; a refused one is all zero but for its number

/// 0 and the N bytes from a place on; or the refusal and zeros.
fn part<const N: usize>(table: &[u8], refusal: u8, place: usize) -> (u8, [u8; N]) {
    if table.len() != TABLE_BYTES {
        (11, [0; N])
    } else if refusal != 0 {
        (refusal, [0; N])
    } else {
        let mut bytes = [0; N];
        bytes.copy_from_slice(&table[place..place + N]);
        (0, bytes)
    }
}

fn zone(table: &[u8], zone: u8) -> ZoneRecord {
    let (number, [mark, b @ .., flags]) = part::<ZONE>(table, 0, ZONE * usize::from(zone));
    ZoneRecord { number, mark, flags, bytes: b }
}

fn partition(table: &[u8], partition: u8) -> PartitionRecord {
    let refusal = if partition > 7 { 8 } else { 0 };
    let place = PARTITIONS + PARTITION * usize::from(partition);
    let (number, [mark, b @ .., flags]) = part::<PARTITION>(table, refusal, place);
    PartitionRecord { number, mark, flags, bytes: b }
}

fn system(table: &[u8]) -> SystemRecord {
    let (number, [mark, b @ ..]) = part::<12>(table, 0, SYSTEM);
    SystemRecord { number, mark, bytes: b }
}

// ---- the line of commands

const FREE: Slot = Slot { length: 0, sent: 0, ticks: 0, message: [0; LONGEST_COMMAND] };
const GIVEN_UP: u8 = 1;

fn is_command(type_byte: u8) -> bool {
    matches!(type_byte & 0x3F, 0x29 | 0x2B | 0x2C | 0x31 | 0x34..=0x37 | 0x3A..=0x3F)
}

impl Slot {
    fn is_used(&self) -> bool {
        self.length != 0
    }

    fn holds_command(&self) -> bool {
        match self.message.get(..usize::from(self.length)) {
            Some(message) => verdict_of(message) == 0 && is_command(message[0]),
            None => false,
        }
    }

    fn is_idle(&self) -> bool {
        self.sent == 0 && self.ticks == 0
    }
}

impl Sending {
    fn of(number: u8, ended: u8) -> Sending {
        Sending { number, ended, length: 0, message: [0; LONGEST_COMMAND] }
    }
}

/// How many wait; none where the slots are not sound.
fn waiting(slots: &[Slot; SLOTS]) -> Option<usize> {
    let count = slots.iter().position(|s| !s.is_used()).unwrap_or(SLOTS);
    let [front, behind @ ..] = slots;
    let front_is_sound = match count {
        0 => front.is_idle(),
        _ => (1..=4).contains(&front.sent) && front.ticks <= 5,
    };
    let sound = front_is_sound
        && behind.iter().all(Slot::is_idle)
        && slots[..count].iter().all(Slot::holds_command)
        && !slots[count..].iter().any(Slot::is_used);
    sound.then_some(count)
}

/// The slots and how many of them wait, or 22.
fn sound(slots: &mut [Slot]) -> Result<(&mut [Slot; SLOTS], usize), Sending> {
    let slots: &mut [Slot; SLOTS] = slots.try_into().map_err(|_| Sending::of(22, 0))?;
    let count = waiting(slots).ok_or(Sending::of(22, 0))?;
    Ok((slots, count))
}

fn send_front(slots: &mut [Slot; SLOTS], ended: u8) -> Sending {
    let front = &mut slots[0];
    let mut sending = Sending { length: front.length, ..Sending::of(0, ended) };
    let n = usize::from(front.length).min(LONGEST_COMMAND);
    front.sent += 1;
    front.ticks = 0;
    sending.message[..n].copy_from_slice(&front.message[..n]);
    sending.message[0] |= 0x80;
    sending
}

fn end_front(slots: &mut [Slot; SLOTS], count: usize, ended: u8) -> Sending {
    slots.copy_within(1..count, 0);
    slots[count - 1] = FREE;
    if count > 1 {
        send_front(slots, ended)
    } else {
        Sending::of(0, ended)
    }
}

fn repeat_front(slots: &mut [Slot; SLOTS], count: usize) -> Sending {
    if slots[0].sent < 4 {
        send_front(slots, 0)
    } else {
        end_front(slots, count, GIVEN_UP)
    }
}

fn take(slots: &mut [Slot], message: &[u8]) -> Sending {
    let (slots, count) = match sound(slots) {
        Ok(sound) => sound,
        Err(refused) => return refused,
    };
    let number = match verdict_of(message) {
        0 if !is_command(message[0]) => 13,
        0 if count == SLOTS => 14,
        verdict => verdict,
    };
    if number != 0 {
        return Sending::of(number, 0);
    }
    let mut slot = Slot { length: message.len() as u8, ..FREE };
    slot.message[..message.len()].copy_from_slice(message);
    slot.message[0] |= 0x80;
    slots[count] = slot;
    if count == 0 {
        send_front(slots, 0)
    } else {
        Sending::of(0, 0)
    }
}

fn tick(slots: &mut [Slot]) -> Sending {
    match sound(slots) {
        Err(refused) => refused,
        Ok((_, 0)) => Sending::of(0, 0),
        Ok((slots, count)) if slots[0].ticks == 5 => repeat_front(slots, count),
        Ok((slots, _)) => {
            slots[0].ticks += 1;
            Sending::of(0, 0)
        }
    }
}

fn told(slots: &mut [Slot], message: &[u8]) -> Sending {
    let (slots, count) = match sound(slots) {
        Ok(sound) => sound,
        Err(refused) => return refused,
    };
    let verdict = verdict_of(message);
    if verdict != 0 || count == 0 {
        return Sending::of(verdict, 0);
    }
    match (message[0] & 0x3F, slots[0].message[0] & 0x3F) {
        (end @ (0x1C | 0x1D | 0x1F), _) | (end @ 0x12, 0x34 | 0x35) => end_front(slots, count, end),
        (0x1E, _) => repeat_front(slots, count),
        _ => Sending::of(0, 0),
    }
}

// ---- the station log

fn is_kept(type_byte: u8) -> bool {
    matches!(type_byte & 0x3F, 0x04..=0x08)
}

fn is_about(message: &[u8], zone: u8) -> bool {
    match message[0] & 0x3F {
        0x04 => message[1] == zone,
        0x05 => (message[1]..=message[1] + 15).contains(&zone),
        _ => false,
    }
}

/// What stands before a log's newest record, and that record's message; none where it is not good.
fn split_newest(log: &[u8]) -> Option<(&[u8], &[u8])> {
    let (&trailer, rest) = log.split_last()?;
    let (older, message) = rest.split_at(rest.len().checked_sub(usize::from(trailer))?);
    (verdict_of(message) == 0 && is_kept(message[0])).then_some((older, message))
}

/// Each record from the newest one back: where it begins, and its message. 17 where the log is not sound.
fn walk(log: &[u8], mut visit: impl FnMut(usize, &[u8])) -> Result<(), u8> {
    let mut left = log;
    while !left.is_empty() {
        let (older, message) = split_newest(left).ok_or(17)?;
        visit(older.len(), message);
        left = older;
    }
    Ok(())
}

/// What is used of a log, or 16.
fn used_part(log: &[u8], used: usize) -> Result<&[u8], u8> {
    log.get(..used).filter(|part| part.len() <= LOG_MOST).ok_or(16)
}

fn keep(log: &mut [u8], used: usize, message: &[u8]) -> Result<usize, u8> {
    walk(used_part(log, used)?, |_, _| {})?;
    match verdict_of(message) {
        0 if !is_kept(message[0]) => return Err(18),
        0 => {}
        verdict => return Err(verdict),
    }
    let most = log.len().min(LOG_MOST);
    let record = log[used..most].get_mut(..message.len() + 1).ok_or(9)?;
    record[..message.len()].copy_from_slice(message);
    record[message.len()] = message.len() as u8;
    Ok(record.len())
}

/// Where the record begins, and its length; 0 and 0 where there is none.
fn newest(log: &[u8], used: usize, zone: u8) -> Result<(usize, usize), u8> {
    let mut found = None;
    walk(used_part(log, used)?, |at, message| {
        if found.is_none() && is_about(message, zone) {
            found = Some((at, message.len() + 1));
        }
    })?;
    Ok(found.unwrap_or((0, 0)))
}

// ---- making room: the marks of a table's zones, partitions and system. A bit of a mark has its own bytes of
// the table, which every message writes that sets it, and no other does: so a record goes where later ones
// set all its bits.

const PARTITION_MARKS: usize = 256;
const SYSTEM_MARK: usize = 264;
const MARKS: usize = 265;
/// Of 04h to 08h.
const STAY_MOST: usize = 256 + 256 + 8 + 1 + 1;

/// Whether one of the marks has not all of the bits; then they all have.
fn set_marks(marks: &mut [u8], bits: u8) -> bool {
    let mut is_new = false;
    for mark in marks {
        is_new |= *mark & bits != bits;
        *mark |= bits;
    }
    is_new
}

/// Whether a record sets a bit that no later one does.
fn is_needed(later: &mut [u8; MARKS], message: &[u8]) -> bool {
    let (zones, others) = later.split_at_mut(PARTITION_MARKS);
    let (partitions, system) = others.split_at_mut(SYSTEM_MARK - PARTITION_MARKS);
    let at = usize::from(message[1]);
    match message[0] & 0x3F {
        0x04 => set_marks(&mut zones[at..at + 1], 3),
        0x05 => set_marks(&mut zones[at..at + 16], 1),
        0x06 => set_marks(&mut partitions[at..at + 1], 2),
        0x07 => set_marks(partitions, 1),
        _ => set_marks(system, 1),
    }
}

/// How many bytes are won.
fn make_room(log: &mut [u8], used: usize) -> Result<usize, u8> {
    let mut later = [0; MARKS];
    let mut places = [0; STAY_MOST];
    let mut count = 0;
    walk(used_part(log, used)?, |at, message| {
        if is_needed(&mut later, message) {
            places[count] = at as u16;
            count += 1;
        }
    })?;
    let mut end = 0;
    for &place in places[..count].iter().rev() {
        let at = usize::from(place);
        let n = length_of(log[at]) + 1;
        log.copy_within(at..at + n, end);
        end += n;
    }
    Ok(used - end)
}

// ---- zone maps as float grids: a level's cells are blocks of the map, whose zones stand in 16 rows of 16

const MAP: usize = 16;
const NOTHING_HEARD: f32 = -9999.0;

macro_rules! header {
    ($width:literal, $size:literal) => {
        concat!(
            "ncols ",
            $width,
            "\nnrows ",
            $width,
            "\nxllcorner 0\nyllcorner 0\ncellsize ",
            $size,
            "\nNODATA_value -9999\nbyteorder LSBFIRST\n"
        )
    };
}

/// The header of the level so many cells wide.
fn header_of(width: u8) -> Option<&'static str> {
    match width {
        16 => Some(header!(16, 1)),
        8 => Some(header!(8, 2)),
        4 => Some(header!(4, 4)),
        2 => Some(header!(2, 8)),
        1 => Some(header!(1, 16)),
        _ => None,
    }
}

/// The cells of the level whose blocks have SIZE zones in a row. A count is at most 256 and so an f32
/// exactly: the division is the only rounding.
fn put_cells<const SIZE: usize>(zones: &[u8], cells: &mut [u8]) {
    let rows = zones.chunks_exact(SIZE * MAP * ZONE).zip(cells.chunks_exact_mut(4 * (MAP / SIZE)));
    for (rows_of_zones, row) in rows {
        let mut heard = [0u16; MAP];
        let mut faulted = [0u16; MAP];
        for row_of_zones in rows_of_zones.chunks_exact(MAP * ZONE) {
            for (column, zone) in row_of_zones.chunks_exact(ZONE).enumerate() {
                heard[column / SIZE] += u16::from(zone[0] & 1);
                faulted[column / SIZE] += u16::from(zone[0] & zone[7] & 1);
            }
        }
        for ((cell, &heard), &faulted) in row.chunks_exact_mut(4).zip(&heard).zip(&faulted) {
            let share = if heard > 0 { f32::from(faulted) / f32::from(heard) } else { NOTHING_HEARD };
            cell.copy_from_slice(&share.to_le_bytes());
        }
    }
}

/// How many bytes of the header, and of the cells.
fn grid(table: &[u8], width: u8, header: &mut [u8], cells: &mut [u8]) -> Result<(usize, usize), u8> {
    let table: &[u8; TABLE_BYTES] = table.try_into().map_err(|_| 11)?;
    let text = header_of(width).ok_or(8)?;
    let header = header.get_mut(..text.len()).ok_or(9)?;
    let cells = cells.get_mut(..4 * usize::from(width) * usize::from(width)).ok_or(9)?;
    let zones = &table[..PARTITIONS];
    header.copy_from_slice(text.as_bytes());
    match width {
        16 => put_cells::<1>(zones, cells),
        8 => put_cells::<2>(zones, cells),
        4 => put_cells::<4>(zones, cells),
        2 => put_cells::<8>(zones, cells),
        _ => put_cells::<16>(zones, cells),
    }
    Ok((header.len(), cells.len()))
}

// ---- what C calls

/// The bytes that C lends; NULL comes with length 0.
unsafe fn lent<'a>(bytes: *const u8, length: usize) -> &'a [u8] {
    if length == 0 {
        &[]
    } else {
        slice::from_raw_parts(bytes, length)
    }
}

unsafe fn lent_mut<'a, T>(bytes: *mut T, length: usize) -> &'a mut [T] {
    if length == 0 {
        &mut []
    } else {
        slice::from_raw_parts_mut(bytes, length)
    }
}

#[no_mangle]
pub extern "C" fn nx584_fresh(framing: u8) -> Reader {
    Reader::fresh(framing, STRICT)
}

#[no_mangle]
pub extern "C" fn nx584_fresh_lenient(framing: u8) -> Reader {
    Reader::fresh(framing, LENIENT)
}

#[no_mangle]
pub extern "C" fn nx584_step(reader: Reader, byte: u8) -> Reading {
    read(reader, &[byte])
}

/// # Safety
/// As nx584.h says: pointers are valid for their lengths.
#[no_mangle]
pub unsafe extern "C" fn nx584_read(reader: Reader, bytes: *const u8, length: usize) -> Reading {
    read(reader, lent(bytes, length))
}

/// # Safety
/// As nx584.h says: pointers are valid for their lengths, and the buffers do not overlap.
#[no_mangle]
pub unsafe extern "C" fn nx584_write(
    message: *const u8,
    message_length: usize,
    framing: u8,
    out: *mut u8,
    out_length: usize,
    place: usize,
) -> Written {
    write(lent(message, message_length), framing, lent_mut(out, out_length), place).into()
}

#[no_mangle]
pub extern "C" fn nx584_reply(verdict: u8, type_byte: u8) -> u8 {
    reply(verdict, type_byte)
}

/// # Safety
/// As nx584.h says: pointers are valid for their lengths, and the buffers do not overlap.
#[no_mangle]
pub unsafe extern "C" fn nx584_apply(
    table: *mut u8,
    table_length: usize,
    message: *const u8,
    message_length: usize,
) -> u8 {
    apply(lent_mut(table, table_length), lent(message, message_length))
}

/// # Safety
/// As nx584.h says: pointers are valid for their lengths.
#[no_mangle]
pub unsafe extern "C" fn nx584_view(table: *const u8, length: usize) -> Overview {
    view(lent(table, length))
}

/// # Safety
/// As nx584.h says: pointers are valid for their lengths, and the buffers do not overlap.
#[no_mangle]
pub unsafe extern "C" fn nx584_hear(
    reader: Reader,
    table: *mut u8,
    table_length: usize,
    bytes: *const u8,
    bytes_length: usize,
) -> Hearing {
    hear(reader, lent_mut(table, table_length), lent(bytes, bytes_length))
}

#[no_mangle]
pub extern "C" fn nx584_version() -> u32 {
    VERSION
}

/// # Safety
/// As nx584.h says: pointers are valid for their lengths.
#[no_mangle]
pub unsafe extern "C" fn nx584_zone(table: *const u8, length: usize, number: u8) -> ZoneRecord {
    zone(lent(table, length), number)
}

/// # Safety
/// As nx584.h says: pointers are valid for their lengths.
#[no_mangle]
pub unsafe extern "C" fn nx584_partition(table: *const u8, length: usize, number: u8) -> PartitionRecord {
    partition(lent(table, length), number)
}

/// # Safety
/// As nx584.h says: pointers are valid for their lengths.
#[no_mangle]
pub unsafe extern "C" fn nx584_system(table: *const u8, length: usize) -> SystemRecord {
    system(lent(table, length))
}

/// # Safety
/// As nx584.h says: pointers are valid for their lengths, and the buffers do not overlap.
#[no_mangle]
pub unsafe extern "C" fn nx584_take(
    slots: *mut Slot,
    slots_length: usize,
    message: *const u8,
    message_length: usize,
) -> Sending {
    take(lent_mut(slots, slots_length), lent(message, message_length))
}

/// # Safety
/// As nx584.h says: pointers are valid for their lengths.
#[no_mangle]
pub unsafe extern "C" fn nx584_tick(slots: *mut Slot, length: usize) -> Sending {
    tick(lent_mut(slots, length))
}

/// # Safety
/// As nx584.h says: pointers are valid for their lengths, and the buffers do not overlap.
#[no_mangle]
pub unsafe extern "C" fn nx584_told(
    slots: *mut Slot,
    slots_length: usize,
    message: *const u8,
    message_length: usize,
) -> Sending {
    told(lent_mut(slots, slots_length), lent(message, message_length))
}

/// # Safety
/// As nx584.h says: pointers are valid for their lengths, and the buffers do not overlap.
#[no_mangle]
pub unsafe extern "C" fn nx584_keep(
    log: *mut u8,
    log_length: usize,
    used: usize,
    message: *const u8,
    message_length: usize,
) -> Written {
    keep(lent_mut(log, log_length), used, lent(message, message_length)).into()
}

/// # Safety
/// As nx584.h says: pointers are valid for their lengths.
#[no_mangle]
pub unsafe extern "C" fn nx584_newest(log: *const u8, log_length: usize, used: usize, zone: u8) -> Found {
    match newest(lent(log, log_length), used, zone) {
        Ok((at, length)) => Found { number: 0, at, length },
        Err(number) => Found { number, at: 0, length: 0 },
    }
}

/// # Safety
/// As nx584.h says: pointers are valid for their lengths.
#[no_mangle]
pub unsafe extern "C" fn nx584_make_room(log: *mut u8, log_length: usize, used: usize) -> Written {
    make_room(lent_mut(log, log_length), used).into()
}

/// # Safety
/// As nx584.h says: pointers are valid for their lengths, and the buffers do not overlap.
#[no_mangle]
pub unsafe extern "C" fn nx584_grid(
    table: *const u8,
    table_length: usize,
    width: u8,
    header: *mut u8,
    header_length: usize,
    cells: *mut u8,
    cells_length: usize,
) -> Gridded {
    let (header, cells) = (lent_mut(header, header_length), lent_mut(cells, cells_length));
    match grid(lent(table, table_length), width, header, cells) {
        Ok((header, cells)) => Gridded { number: 0, header, cells },
        Err(number) => Gridded { number, header: 0, cells: 0 },
    }
}
