//! Making room in a full log (document 02, No. 7): records that later ones say over go.

use std::ops::Range;

use crate::log::{lent_records, Kept};
use crate::table::{decided, TABLE_BYTES};

/// Of each byte of a table, the bits that some messages write or set.
struct Written([u8; TABLE_BYTES]);

impl Written {
    fn has(&self, message: &[u8]) -> bool {
        decided(message).into_iter().all(|(place, bits)| bits & !self.0[place] == 0)
    }

    fn add(&mut self, message: &[u8]) {
        decided(message).into_iter().for_each(|(place, bits)| self.0[place] |= bits);
    }
}

/// Which of a log's records stay, of records that are handed in newest first. "drop a record exactly if every
/// table byte it writes, and every mark bit it sets, is written or set by later ones together."
pub fn stay(log: &[u8], records: &[Range<usize>]) -> Vec<bool> {
    let mut later = Written([0; TABLE_BYTES]);
    let mut stays = |record: &Range<usize>| {
        let message = &log[record.start..record.end - 1];
        let goes = later.has(message);
        later.add(message);
        !goes
    };
    records.iter().map(&mut stays).collect()
}

/// The records that stay, one after another. "The order of the kept records stays."
fn shortened(log: &[u8], records: &[Range<usize>]) -> Vec<u8> {
    let stay = stay(log, records);
    let kept = records.iter().zip(stay).filter(|(_, stays)| *stays);
    kept.rev().flat_map(|(record, _)| log[record.clone()].to_vec()).collect()
}

/// Makes a log smaller where it stands, and says what was won. "bytes beyond the new used length stay. ..
/// Refusals: 16 and 17, as in No. 6."
pub fn make_room(log: &[u8], used: u64) -> Kept {
    let mut after = log.to_vec();
    match lent_records(log, used) {
        Err(number) => Kept { number, length: 0, log: after },
        Ok(records) => {
            let shortened = shortened(log, &records);
            after[..shortened.len()].copy_from_slice(&shortened);
            Kept { number: 0, length: used - shortened.len() as u64, log: after }
        }
    }
}
