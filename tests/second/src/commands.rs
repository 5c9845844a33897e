//! The line of commands that are repeated until acknowledged (document 02, No. 1).

use crate::messages::{number_of, verdict_of};

pub const SLOTS: usize = 8;
pub const SLOT_BYTES: usize = 16;
pub const LONGEST_COMMAND: usize = 13;
/// A command that was sent so often is given up in place of the next sending.
pub const MOST_SENT: u8 = 4;
/// So many ticks after a sending comes the next.
pub const TICKS: u8 = 6;

/// "It takes the 14 numbers".
pub const COMMANDS: [u8; 14] =
    [0x29, 0x2B, 0x2C, 0x31, 0x34, 0x35, 0x36, 0x37, 0x3A, 0x3B, 0x3C, 0x3D, 0x3E, 0x3F];

/// How a front ends, in the numbers of nx584.h, beside the messages that end it.
pub const NOT_ENDED: u8 = 0;
pub const GIVEN_UP: u8 = 1;

#[derive(Clone, Copy, Debug, Default, PartialEq)]
pub struct Slot {
    pub length: u8,
    pub sent: u8,
    pub ticks: u8,
    pub message: [u8; LONGEST_COMMAND],
}

/// What a call answers beside the slots.
#[derive(Clone, Debug, PartialEq)]
pub struct Sending {
    pub number: u8,
    pub ended: u8,
    pub length: u8,
    pub message: [u8; LONGEST_COMMAND],
}

impl Slot {
    pub fn is_used(&self) -> bool {
        self.length != 0
    }

    /// The message that it holds; none where its length is more than it has bytes.
    fn held(&self) -> Option<&[u8]> {
        self.message.get(..usize::from(self.length))
    }

    fn holds_a_command(&self) -> bool {
        self.held().map_or(false, |message| verdict_of(message) == 0 && is_command(message[0]))
    }
}

pub fn is_command(type_byte: u8) -> bool {
    number_of(type_byte).map_or(false, |number| COMMANDS.contains(&number))
}

/// The slots as they stand in memory.
pub fn from_memory(bytes: &[u8]) -> Vec<Slot> {
    let slot = |b: &[u8]| {
        let mut message = [0; LONGEST_COMMAND];
        message.copy_from_slice(&b[3..]);
        Slot { length: b[0], sent: b[1], ticks: b[2], message }
    };
    bytes.chunks_exact(SLOT_BYTES).map(slot).collect()
}

pub fn to_memory(slots: &[Slot]) -> Vec<u8> {
    slots.iter().flat_map(|s| [&[s.length, s.sent, s.ticks][..], &s.message].concat()).collect()
}

/// The commands that wait: the slots up to the first free one.
pub fn waiting(slots: &[Slot]) -> usize {
    slots.iter().position(|slot| !slot.is_used()).unwrap_or(slots.len())
}

/// "Slots are sound when there are eight, the used ones stand first and each holds a good one of the 14,
/// and only the first has been sent, one to four times, with 0 to 5 ticks counted."
pub fn is_sound(slots: &[Slot]) -> bool {
    let (used, free) = slots.split_at(waiting(slots));
    let outstanding = usize::from(!used.is_empty());
    slots.len() == SLOTS
        && used.iter().all(Slot::holds_a_command)
        && !free.iter().any(Slot::is_used)
        && slots[..outstanding].iter().all(|s| (1..=MOST_SENT).contains(&s.sent) && s.ticks < TICKS)
        && slots[outstanding..].iter().all(|s| (s.sent, s.ticks) == (0, 0))
}

/// What becomes of the front.
enum Front {
    Stays,
    GoesOut,
    Ends(u8),
}

/// "again after each 6 ticks .. and at once on a good 1Eh; after four sendings the next 1Eh or sixth tick
/// gives it up"
fn once_more(front: &Slot) -> Front {
    if front.sent == MOST_SENT {
        Front::Ends(GIVEN_UP)
    } else {
        Front::GoesOut
    }
}

fn with_flag(message: &[u8]) -> [u8; LONGEST_COMMAND] {
    let mut array = [0; LONGEST_COMMAND];
    array[..message.len()].copy_from_slice(message);
    array[0] |= 0x80;
    array
}

fn answer(number: u8, ended: u8) -> Sending {
    Sending { number, ended, length: 0, message: [0; LONGEST_COMMAND] }
}

/// Does with the front what becomes of it: where it ends, those behind it move up, the slot that the last
/// of them leaves is all zero, and the new front, if there is one, goes out.
fn done(slots: &mut Vec<Slot>, front: Front) -> Sending {
    let (ended, goes_out) = match front {
        Front::Stays => (NOT_ENDED, false),
        Front::GoesOut => (NOT_ENDED, true),
        Front::Ends(how) => {
            let last = waiting(slots) - 1;
            slots.remove(0);
            slots.insert(last, Slot::default());
            (how, last > 0)
        }
    };
    let mut said = answer(0, ended);
    if goes_out {
        let front = &mut slots[0];
        front.sent += 1;
        front.ticks = 0;
        said.length = front.length;
        said.message = with_flag(front.held().expect("a sound slot holds its message"));
    }
    said
}

/// The first refusal that holds, or 0.
fn first_of(refusals: &[(bool, u8)]) -> u8 {
    refusals.iter().find(|(holds, _)| *holds).map_or(0, |(_, number)| *number)
}

pub fn take(slots: &mut Vec<Slot>, message: &[u8]) -> Sending {
    let verdict = verdict_of(message);
    let refusal = first_of(&[
        (!is_sound(slots), 22),
        (verdict != 0, verdict),
        (!message.first().map_or(false, |&type_byte| is_command(type_byte)), 13),
        (waiting(slots) == SLOTS, 14),
    ]);
    if refusal != 0 {
        return answer(refusal, NOT_ENDED);
    }
    let place = waiting(slots);
    slots[place] = Slot { length: message.len() as u8, sent: 0, ticks: 0, message: with_flag(message) };
    done(slots, if place == 0 { Front::GoesOut } else { Front::Stays })
}

pub fn tick(slots: &mut Vec<Slot>) -> Sending {
    if !is_sound(slots) {
        return answer(22, NOT_ENDED);
    }
    if !slots[0].is_used() {
        return answer(0, NOT_ENDED);
    }
    slots[0].ticks += 1;
    let front = if slots[0].ticks == TICKS { once_more(&slots[0]) } else { Front::Stays };
    done(slots, front)
}

pub fn told(slots: &mut Vec<Slot>, message: &[u8]) -> Sending {
    let verdict = verdict_of(message);
    let refusal = first_of(&[(!is_sound(slots), 22), (verdict != 0, verdict)]);
    if refusal != 0 || !slots[0].is_used() {
        return answer(refusal, NOT_ENDED);
    }
    let front = match (message[0] & 0x3F, slots[0].message[0] & 0x3F) {
        (number @ (0x1C | 0x1D | 0x1F), _) => Front::Ends(number),
        (number @ 0x12, 0x34 | 0x35) => Front::Ends(number),
        (0x1E, _) => once_more(&slots[0]),
        _ => Front::Stays,
    };
    done(slots, front)
}
