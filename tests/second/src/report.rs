//! What nxread prints (document 01, "The overview"). It reads by the old rule of escapes: "the old rule can be
//! asked for; nxread and the technicians' captures now do" (document 02, No. 5).

use crate::parts::{verdicts, Binary, Lenient};
use crate::table::{apply, view, TABLE_BYTES};
use crate::writer::reply;

/// Only so many bytes of a capture count.
pub const CAPTURE: usize = 65_536;

fn hex_or_dashes(value: Option<u8>) -> String {
    value.map_or_else(|| "--".to_string(), |v| format!("{v:02X}"))
}

pub fn report(capture: &[u8]) -> String {
    let mut table = vec![0; TABLE_BYTES];
    let mut text = String::new();
    for judged in verdicts(Binary, Lenient, &capture[..capture.len().min(CAPTURE)]) {
        if judged.verdict == 0 {
            assert_eq!(apply(&mut table, &judged.message), 0, "a good message is taken");
        }
        let type_byte = judged.type_byte.map(|t| t & 0x7F);
        let reply = match reply(judged.verdict, judged.type_byte.unwrap_or(0)) {
            0 => None,
            number => Some(number),
        };
        text += &format!("{} {} {}\n", judged.verdict, hex_or_dashes(type_byte), hex_or_dashes(reply));
    }
    for (k, group) in view(&table).groups[..16].iter().enumerate() {
        text += &match group.heard {
            0 => format!("{} 0 -9999\n", k + 1),
            heard => format!("{} {} {}\n", k + 1, heard, group.faulted),
        };
    }
    text
}
