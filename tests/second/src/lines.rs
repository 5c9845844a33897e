//! The trials of the line of commands: single calls on made slots, and runs of calls.

use crate::calls::{Call, Lent};
use crate::commands::{to_memory, Slot, COMMANDS, MOST_SENT, SLOTS, SLOT_BYTES, TICKS};
use crate::counts::ODD_SLOTS;
use crate::driver::Calls;
use crate::made::{self, Chance};
use crate::messages::{length_of, LONGEST_KNOWN};
use crate::odd::{self, Wrong, WRONGS};

fn lent(slots: &[Slot], wrong: Wrong) -> Option<Lent> {
    Some(Lent { bytes: to_memory(slots), wrong })
}

/// Slots with a number of commands that goes round, in which nothing is wrong.
fn sound(chance: &mut Chance, turn: usize) -> Option<Lent> {
    let slots = odd::sound(chance, turn % (SLOTS + 1));
    lent(&slots, Wrong::Nothing)
}

/// A message that has any meaning to the line, more often than not.
fn heard(chance: &mut Chance) -> Vec<u8> {
    match chance.below(8) {
        0 => made::some_good_message(chance),
        1 => made::doubtful_message(chance),
        2 | 3 => made::good_message(chance, 0x1E),
        4 => made::good_message(chance, 0x12),
        _ => {
            let number = chance.of(&[0x1C, 0x1D, 0x1F]);
            made::good_message(chance, number)
        }
    }
}

fn offered(chance: &mut Chance) -> Vec<u8> {
    match chance.below(8) {
        0 => made::some_good_message(chance),
        1 => made::doubtful_message(chance),
        _ => odd::command(chance),
    }
}

/// A message that is taken, and told, with some commands waiting.
pub fn take_and_told(chance: &mut Chance, calls: &mut Calls, turn: usize, message: &[u8]) {
    let slots = sound(chance, turn);
    calls.call(Call::Take { slots, message: message.to_vec() });
    let slots = sound(chance, turn + 1);
    calls.call(Call::Told { slots, message: message.to_vec() });
}

pub fn all_types(chance: &mut Chance, calls: &mut Calls, _: u64) {
    for type_byte in 0..=255 {
        for length in 0..=LONGEST_KNOWN + 2 {
            let mut message = vec![0; length];
            message.iter_mut().take(1).for_each(|b| *b = type_byte);
            take_and_told(chance, calls, length, &message);
        }
    }
}

/// Each of the 14 at the front, with its flag and without, each number of sendings and ticks, alone and
/// before others; each type byte of which there is a good message, and a tick.
pub fn all_fronts(chance: &mut Chance, calls: &mut Calls, _: u64) {
    for number in COMMANDS {
        for (sent, ticks) in (1..=MOST_SENT).flat_map(|s| (0..TICKS).map(move |t| (s, t))) {
            let used = 1 + chance.below(SLOTS);
            let mut slots = odd::sound(chance, used);
            let front = made::good_message(chance, number);
            slots[0] = Slot { sent, ticks, ..odd::laid(chance, &front) };
            calls.call(Call::Tick { slots: lent(&slots, Wrong::Nothing) });
            for type_byte in (0..=255).filter(|&byte| length_of(byte).is_some()) {
                let mut message = made::good_message(chance, type_byte & 0x3F);
                message[0] = type_byte;
                calls.call(Call::Told { slots: lent(&slots, Wrong::Nothing), message });
            }
        }
    }
}

/// Each thing wrong in slots with each number of commands, where it can be, and nothing wrong. What is
/// offered and what was heard is good or not: 22 comes first.
pub fn all_wrongs(chance: &mut Chance, calls: &mut Calls, _: u64) {
    for (wrong, _) in WRONGS {
        for turn in 0..20 * ODD_SLOTS as usize {
            if let Some(slots) = odd::with(chance, turn % (SLOTS + 1), wrong) {
                let slots = lent(&slots, wrong);
                let (command, message) = (offered(chance), heard(chance));
                calls.call(Call::Take { slots: slots.clone(), message: command });
                calls.call(Call::Tick { slots: slots.clone() });
                calls.call(Call::Told { slots, message });
            }
        }
    }
}

/// Calls on the kept slots. Of every ten so many are taken and so many told: the rest are ticks.
fn run(chance: &mut Chance, calls: &mut Calls, length: usize) {
    let (takes, tells) = chance.of(&[(1, 0), (1, 1), (2, 2), (4, 1), (1, 4), (3, 6), (8, 1)]);
    for _ in 0..length {
        match chance.below(10) {
            k if k < takes => calls.call(Call::Take { slots: None, message: offered(chance) }),
            k if k < takes + tells => calls.call(Call::Told { slots: None, message: heard(chance) }),
            _ => calls.call(Call::Tick { slots: None }),
        };
    }
}

/// One line goes on from run to run, and becomes empty again at times.
pub fn runs_from_empty(chance: &mut Chance, calls: &mut Calls, budget: u64) {
    while calls.made < budget {
        calls.call(Call::LendSlots { slots: vec![0; SLOTS * SLOT_BYTES] });
        for _ in 0..20 {
            let length = 50 + chance.below(400);
            run(chance, calls, length);
        }
    }
}

pub fn runs_from_any(chance: &mut Chance, calls: &mut Calls, budget: u64) {
    while calls.made < budget {
        let used = chance.below(SLOTS + 1);
        let slots = odd::sound(chance, used);
        calls.call(Call::LendSlots { slots: to_memory(&slots) });
        let length = 1 + chance.below(200);
        run(chance, calls, length);
    }
}
