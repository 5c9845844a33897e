//! Made slots: sound ones, whatever stands where anything may, and such with one thing wrong.

use crate::commands::{Slot, COMMANDS, LONGEST_COMMAND, MOST_SENT, SLOTS, TICKS};
use crate::made::{self, Chance};
use crate::messages::{checked_bytes, length_of, verdict_of, LENGTHS};

/// The one thing that is wrong with slots.
#[derive(Clone, Copy, Debug, PartialEq)]
pub enum Wrong {
    Nothing,
    SlotsMissing,
    SlotsMore,
    LengthOfAnother,
    LengthAbove13,
    UsedBehindFree,
    BadValue,
    NotOneOfThe14,
    Unrecognised,
    FrontNotSent,
    FrontSentFive,
    FrontTicksSix,
    SentBehind,
    TicksBehind,
    SentFree,
    TicksFree,
    SentFreeFirst,
    TicksFreeFirst,
}

pub const WRONGS: [(Wrong, &str); 18] = [
    (Wrong::Nothing, "nothing"),
    (Wrong::SlotsMissing, "fewer than eight"),
    (Wrong::SlotsMore, "more than eight"),
    (Wrong::LengthOfAnother, "a wrong length"),
    (Wrong::LengthAbove13, "a length of 14 to 255"),
    (Wrong::UsedBehindFree, "a used one behind a free one"),
    (Wrong::BadValue, "a checked value"),
    (Wrong::NotOneOfThe14, "a good message that is none of the 14"),
    (Wrong::Unrecognised, "an unrecognised number"),
    (Wrong::FrontNotSent, "the front sent 0 times"),
    (Wrong::FrontSentFive, "the front sent 5 times or more"),
    (Wrong::FrontTicksSix, "the front with 6 ticks or more"),
    (Wrong::SentBehind, "sent at another used slot"),
    (Wrong::TicksBehind, "ticks at another used slot"),
    (Wrong::SentFree, "sent at a free slot behind others"),
    (Wrong::TicksFree, "ticks at a free slot behind others"),
    (Wrong::SentFreeFirst, "sent at a free first slot"),
    (Wrong::TicksFreeFirst, "ticks at a free first slot"),
];

/// A slot's 13 bytes, anything beyond the message.
pub fn laid(chance: &mut Chance, message: &[u8]) -> Slot {
    let mut slot = Slot { length: message.len() as u8, ..Slot::default() };
    slot.message.iter_mut().for_each(|byte| *byte = if chance.one_in(4) { 0 } else { made::byte(chance) });
    slot.message[..message.len()].copy_from_slice(message);
    slot
}

pub fn command(chance: &mut Chance) -> Vec<u8> {
    let number = chance.of(&COMMANDS);
    made::good_message(chance, number)
}

/// Sound slots of which so many are used.
pub fn sound(chance: &mut Chance, used: usize) -> Vec<Slot> {
    let mut slots: Vec<Slot> = (0..SLOTS)
        .map(|k| {
            let message = if k < used { command(chance) } else { Vec::new() };
            laid(chance, &message)
        })
        .collect();
    if used > 0 {
        slots[0].sent = 1 + chance.below(usize::from(MOST_SENT)) as u8;
        slots[0].ticks = chance.below(usize::from(TICKS)) as u8;
    }
    slots
}

/// A byte from least on.
fn from(chance: &mut Chance, least: u8) -> u8 {
    match chance.below(3) {
        0 => least,
        1 => 255,
        _ => least + chance.below(256 - usize::from(least)) as u8,
    }
}

/// A length of 1 to 13 that is not this one.
fn another_length(chance: &mut Chance, length: u8) -> u8 {
    let other = 1 + chance.below(LONGEST_COMMAND - 1) as u8;
    other + u8::from(other >= length)
}

/// A command with a checked value that is wrong.
fn with_bad_value(chance: &mut Chance) -> Vec<u8> {
    loop {
        let mut message = command(chance);
        if let checked @ [_, ..] = checked_bytes(message[0] & 0x3F) {
            message[chance.of(&checked.iter().map(|c| c.0 - 1).collect::<Vec<_>>())] = chance.byte();
        }
        if verdict_of(&message) == 8 {
            return message;
        }
    }
}

fn good_but_no_command(chance: &mut Chance) -> Vec<u8> {
    loop {
        let number = chance.of(&LENGTHS).0;
        let message = made::good_message(chance, number);
        if message.len() <= LONGEST_COMMAND && !COMMANDS.contains(&number) {
            return message;
        }
    }
}

/// The message of a command under a type byte that is no number's.
fn unrecognised(chance: &mut Chance) -> Vec<u8> {
    let mut message = command(chance);
    while length_of(message[0]).is_some() {
        message[0] = if chance.one_in(2) { message[0] | 0x40 } else { chance.byte() };
    }
    message
}

/// A place from least on and below the end; none where there is none.
fn place(chance: &mut Chance, least: usize, end: usize) -> Option<usize> {
    if least < end {
        Some(least + chance.below(end - least))
    } else {
        None
    }
}

/// Slots of which so many are used and this is wrong; none where it cannot be.
pub fn with(chance: &mut Chance, used: usize, wrong: Wrong) -> Option<Vec<Slot>> {
    let mut slots = sound(chance, used);
    let front = place(chance, 0, used.min(1));
    let (any_used, behind) = (place(chance, 0, used), place(chance, 1, used));
    let (first_free, free_behind) = (place(chance, 0, 1 - used.min(1)), place(chance, used.max(1), SLOTS));
    match wrong {
        Wrong::Nothing => {}
        Wrong::SlotsMissing => slots.truncate(chance.of(&[0, 1, 4, 7, 7, 7])),
        Wrong::SlotsMore => {
            let more = chance.of(&[9, 9, 9, 10, 16]);
            slots.resize(more, Slot::default());
        }
        Wrong::LengthOfAnother => {
            let slot = &mut slots[any_used?];
            slot.length = another_length(chance, slot.length);
        }
        Wrong::LengthAbove13 => {
            let any = chance.below(used.min(SLOTS - 1) + 1);
            slots[any].length = from(chance, LONGEST_COMMAND as u8 + 1);
            slots[0].sent = slots[0].sent.max(1);
        }
        Wrong::UsedBehindFree => {
            let (gap, moved) = (place(chance, 0, used.min(SLOTS - 1))?, slots[0]);
            slots[0] = Slot { sent: 0, ticks: 0, ..moved };
            slots.insert(gap, Slot::default());
            slots.truncate(SLOTS);
            if gap > 0 {
                slots[0] = moved;
            }
        }
        Wrong::BadValue => put(&mut slots[any_used?], with_bad_value(chance)),
        Wrong::NotOneOfThe14 => put(&mut slots[any_used?], good_but_no_command(chance)),
        Wrong::Unrecognised => put(&mut slots[any_used?], unrecognised(chance)),
        Wrong::FrontNotSent => slots[front?].sent = 0,
        Wrong::FrontSentFive => slots[front?].sent = from(chance, MOST_SENT + 1),
        Wrong::FrontTicksSix => slots[front?].ticks = from(chance, TICKS),
        Wrong::SentBehind => slots[behind?].sent = from(chance, 1),
        Wrong::TicksBehind => slots[behind?].ticks = from(chance, 1),
        Wrong::SentFree => slots[free_behind?].sent = from(chance, 1),
        Wrong::TicksFree => slots[free_behind?].ticks = from(chance, 1),
        Wrong::SentFreeFirst => slots[first_free?].sent = from(chance, 1),
        Wrong::TicksFreeFirst => slots[first_free?].ticks = from(chance, 1),
    }
    Some(slots)
}

fn put(slot: &mut Slot, message: Vec<u8>) {
    slot.length = message.len() as u8;
    slot.message[..message.len()].copy_from_slice(&message);
}
