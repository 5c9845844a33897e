//! Faults that are planted one at a time in the second program's own answers: the trials must tell each from the
//! right ones.

use crate::calls::{Answer, Call, Library, Second};
use crate::cards::cards;
use crate::Tally;

/// Whether a library with a fault answers a call of a trial otherwise. One difference is enough: nothing more is
/// asked then.
pub fn differs(mut faulty: impl Library, trial: impl FnOnce(&mut dyn FnMut(Call) -> Answer)) -> bool {
    let (mut right, mut found) = (Second::new(), false);
    trial(&mut |call: Call| {
        if found {
            return Answer::Nothing;
        }
        let expected = right.call(&call);
        found = !expected.is_met_by(&faulty.call(&call));
        expected
    });
    found
}

fn failed_cards(mut faulty: impl Library) -> usize {
    cards(&mut faulty).iter().filter(|(_, ok)| !ok).count()
}

/// With none planted, none may be found.
pub fn note_none(tally: &mut Tally, of: &str, library: impl Library, is_found: bool) {
    tally.note(&format!("{of}with no fault planted, none is found"), !is_found && failed_cards(library) == 0);
}

pub fn note(tally: &mut Tally, of: &str, name: &str, library: impl Library, is_found: bool) {
    let failed = failed_cards(library);
    tally.note(&format!("{of}a planted fault is found: {name}; cards that fail: {failed}"), is_found);
}
