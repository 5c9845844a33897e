//! The program nxread on whole captures: what it prints is held to the second program's report.

use std::io::Write;
use std::process::{Command, Stdio};
use std::thread;
use std::time::Instant;

use crate::cards::card_13;
use crate::escapes::{with_escape, CARD_4, SHORTEST};
use crate::made::{self, Chance};
use crate::parts::{frame, summed, Binary};
use crate::report::{report, CAPTURE};
use crate::Tally;

/// How a capture reaches the program: at once, or in short writes with pauses.
#[derive(Clone, Copy, PartialEq)]
enum Handed {
    AtOnce,
    InPieces,
}

/// What the program prints when it is handed a capture; none where it does not end well.
fn printed(command: &[String], capture: &[u8], handed: Handed) -> Option<Vec<u8>> {
    let mut child = Command::new(&command[0])
        .args(&command[1..])
        .stdin(Stdio::piped())
        .stdout(Stdio::piped())
        .spawn()
        .ok()?;
    let mut to = child.stdin.take()?;
    let capture = capture.to_vec();
    let writer = thread::spawn(move || {
        let pieces = if handed == Handed::AtOnce { capture.len().max(1) } else { 7 };
        for piece in capture.chunks(pieces) {
            // a program that has its 65,536 bytes need not take the rest
            if to.write_all(piece).is_err() {
                return;
            }
            if handed == Handed::InPieces {
                thread::sleep(std::time::Duration::from_micros(200));
            }
        }
    });
    let output = child.wait_with_output().ok()?;
    writer.join().ok()?;
    if output.status.success() {
        Some(output.stdout)
    } else {
        None
    }
}

fn is_reported(command: &[String], capture: &[u8], handed: Handed) -> bool {
    let wanted = report(capture);
    let ok = printed(command, capture, handed).as_deref() == Some(wanted.as_bytes());
    if !ok {
        let head = &capture[..capture.len().min(400)];
        println!("  DIFFERENCE in a capture, of which the beginning is {}", crate::calls::Hex(head));
    }
    ok
}

/// Standard input closed, not empty: a read that fails, after no byte.
fn closed_input(command: &[String]) -> bool {
    let output = Command::new("sh").args(["-c", "exec \"$@\" <&-", "sh"]).args(command).output();
    output.map_or(false, |o| o.stdout == report(&[]).as_bytes())
}

/// A capture of so many bytes in which a good frame ends with a certain byte.
fn with_a_frame_to(chance: &mut Chance, end: usize, length: usize) -> Vec<u8> {
    let frame = frame(Binary, &[0x1D]);
    let before = made::capture(chance, end - frame.len());
    let after = made::capture(chance, length - end);
    [before, frame, after].concat()
}

/// A message's frames with every byte after a 7Dh at every place behind the start, a good frame behind each.
fn with_every_escape(message: &[u8]) -> Vec<u8> {
    let recovered = summed(message);
    let escapes = (0..recovered.len()).flat_map(|place| (0..=255).map(move |byte| (place, byte)));
    escapes.flat_map(|(place, byte)| with_escape(&recovered, place, byte).0).collect()
}

pub fn run(command: &[String], chance: &mut Chance, captures: u64, tally: &mut Tally) {
    let (capture, text) = card_13();
    let on_card_13 = printed(command, &capture, Handed::AtOnce);
    tally.note("nxread: card 13", on_card_13.as_deref() == Some(text.as_bytes()));
    tally.note("nxread: empty input", is_reported(command, &[], Handed::AtOnce));
    tally.note("nxread: closed input", closed_input(command));
    let some = made::capture(chance, 2000);
    tally.note("nxread: short reads", is_reported(command, &some, Handed::InPieces));
    for end in [CAPTURE - 1, CAPTURE, CAPTURE + 1] {
        for length in [end, 200_000] {
            let capture = with_a_frame_to(chance, end, length);
            let name = format!("nxread: {length} bytes, a frame ends with byte {end}");
            tally.note(&name, is_reported(command, &capture, Handed::AtOnce));
        }
    }
    let escapes = [SHORTEST, CARD_4].iter().all(|message| {
        let capture = with_every_escape(message);
        capture.len() <= CAPTURE && is_reported(command, &capture, Handed::AtOnce)
    });
    tally.note("nxread: every byte after 7Dh, by the old rule of escapes", escapes);
    let began = Instant::now();
    let starts = is_reported(command, &vec![0x7E; CAPTURE], Handed::AtOnce);
    tally.note(&format!("nxread: 65536 start bytes, {:.2} s", began.elapsed().as_secs_f64()), starts);
    let made_captures = (0..captures).all(|k| {
        let length = chance.below(3000) + if k % 8 == 0 { 60_000 } else { 0 };
        let capture = made::capture(chance, length);
        is_reported(command, &capture, Handed::AtOnce)
    });
    tally.note(&format!("nxread: {captures} made captures"), made_captures);
}
