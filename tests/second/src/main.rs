//! The independent second program: the NX-584 protocol written a second time, from documents 01, 02 and 003
//! alone. It judges a stream by its parts and steps nothing. tests/run holds the library's answers to its.

mod calls;
mod cards;
mod commands;
mod counts;
mod driver;
mod escapes;
mod faults;
mod grid;
mod grid_cards;
mod grid_counts;
mod grid_faults;
mod grid_laws;
mod grid_made;
mod grid_parts;
mod grid_trials;
mod lines;
mod log;
mod log_counts;
mod log_faults;
mod log_made;
mod log_trials;
mod long;
mod made;
mod messages;
mod nxread;
mod odd;
mod parts;
mod planted;
mod reader;
mod report;
mod room;
mod room_counts;
mod room_faults;
mod room_laws;
mod room_made;
mod room_trials;
mod rows;
mod selftest;
mod table;
mod trials;
mod writer;

use std::io::{Read, Write};
use std::process::exit;
use std::time::Instant;

use calls::Second;
use counts::Counts;
use driver::{Calls, Driver};
use made::Chance;
use trials::TRIALS;

const USAGE: &str = "usage:
  second self [--seed S]
      its own answers: the cards, and what must hold of them
  second library [--calls N] [--seed S] -- DRIVER [WORDS...]
      the cards and some N made calls, asked of the library behind tests/driver.c
  second nxread [--captures N] [--seed S] -- NXREAD [WORDS...]
      made captures, handed to the program nxread
  second report <CAPTURE
      prints the report that nxread should print
  second capture [--bytes N] [--seed S]
      prints a made binary capture";

/// The words of a command: its numbers by name, and what stands after --.
struct Words {
    numbers: Vec<(String, u64)>,
    command: Vec<String>,
}

impl Words {
    fn parse(words: &[String]) -> Option<Words> {
        let end = words.iter().position(|w| w == "--").unwrap_or(words.len());
        let pairs = words[..end].chunks(2);
        let numbers = pairs.map(|pair| match pair {
            [name, value] => Some((name.clone(), value.parse().ok()?)),
            _ => None,
        });
        let command = words.get(end + 1..).unwrap_or(&[]).to_vec();
        Some(Words { numbers: numbers.collect::<Option<_>>()?, command })
    }

    fn only(&self, names: &[&str]) -> bool {
        self.numbers.iter().all(|(name, _)| names.contains(&name.as_str()))
    }

    fn number(&self, name: &str, otherwise: u64) -> u64 {
        self.numbers.iter().find(|(n, _)| n == name).map_or(otherwise, |(_, value)| *value)
    }

    fn seed(&self) -> u64 {
        self.number("--seed", 1)
    }
}

/// Tests passed and failed, each with its line.
pub struct Tally {
    passed: u64,
    failed: u64,
}

impl Tally {
    fn new() -> Tally {
        Tally { passed: 0, failed: 0 }
    }

    pub fn note(&mut self, name: &str, ok: bool) {
        println!("{}: {name}", if ok { "passed" } else { "FAILED" });
        if ok {
            self.passed += 1;
        } else {
            self.failed += 1;
        }
    }

    fn end(&self) -> ! {
        println!("{} passed, {} failed", self.passed, self.failed);
        exit(i32::from(self.failed > 0))
    }
}

fn run_self(words: &Words) -> ! {
    let mut tally = Tally::new();
    println!("the second program itself, seed {}", words.seed());
    for (name, ok) in cards::cards(&mut Second::new()) {
        tally.note(name, ok);
    }
    tally.note("card 13: the report", cards::card_13_is_reported());
    selftest::run(&mut Chance::new(words.seed()), &mut tally);
    room_laws::run(&mut Chance::new(words.seed()), &mut tally);
    grid_laws::run(&mut Chance::new(words.seed()), &mut tally);
    faults::run(&mut tally);
    log_faults::run(words.seed(), &mut tally);
    room_faults::run(words.seed(), &mut tally);
    grid_faults::run(words.seed(), &mut tally);
    tally.end()
}

fn run_library(words: &Words) -> ! {
    let mut tally = Tally::new();
    let (seed, wanted) = (words.seed(), words.number("--calls", 1_000_000));
    println!("the library, seed {seed}, some {wanted} calls");
    for (name, ok) in cards::cards(&mut Driver::new(&words.command)) {
        tally.note(name, ok);
    }
    let (mut counts, mut fixed, mut made) = (Counts::new(), 0, 0);
    for (k, trial) in TRIALS.iter().enumerate() {
        let began = Instant::now();
        // the trials with a fixed number of calls come first; the others share what is left
        let left = wanted.saturating_sub(fixed).max(100_000);
        let seed = seed.wrapping_mul(1000).wrapping_add(k as u64);
        let mut calls = Calls::new(&words.command);
        (trial.make)(&mut Chance::new(seed), &mut calls, left * trial.share / 100);
        let checked = calls.end();
        made += checked.calls;
        if trial.share == 0 {
            fixed = made;
        }
        counts.add(&checked.counts);
        let name = format!(
            "{} (seed {seed}): {} calls, {} differences, {:.1} s",
            trial.name,
            checked.calls,
            checked.differences,
            began.elapsed().as_secs_f64()
        );
        tally.note(&name, checked.differences == 0);
    }
    println!("{made} calls were answered:");
    let missing = counts.print();
    missing.iter().for_each(|line| println!("  {line}"));
    tally.note("every verdict, refusal, reply and way of ending was met", missing.is_empty());
    tally.end()
}

fn run_nxread(words: &Words) -> ! {
    let mut tally = Tally::new();
    let (seed, captures) = (words.seed(), words.number("--captures", 20));
    println!("nxread, seed {seed}, {captures} made captures");
    nxread::run(&words.command, &mut Chance::new(seed), captures, &mut tally);
    tally.end()
}

fn print(bytes: &[u8]) -> ! {
    exit(i32::from(std::io::stdout().write_all(bytes).is_err()))
}

fn main() {
    let words: Vec<String> = std::env::args().skip(1).collect();
    let command = words.first().map_or("", String::as_str);
    let rest = Words::parse(words.get(1..).unwrap_or(&[]));
    match (command, rest) {
        ("self", Some(w)) if w.only(&["--seed"]) && w.command.is_empty() => run_self(&w),
        ("library", Some(w)) if w.only(&["--calls", "--seed"]) && !w.command.is_empty() => run_library(&w),
        ("nxread", Some(w)) if w.only(&["--captures", "--seed"]) && !w.command.is_empty() => run_nxread(&w),
        ("report", Some(w)) if w.only(&[]) && w.command.is_empty() => {
            let mut capture = Vec::new();
            std::io::stdin().read_to_end(&mut capture).expect("standard input is read");
            print(report::report(&capture).as_bytes())
        }
        ("capture", Some(w)) if w.only(&["--bytes", "--seed"]) && w.command.is_empty() => {
            let length = w.number("--bytes", 4096) as usize;
            print(&made::capture(&mut Chance::new(w.seed()), length))
        }
        _ => {
            eprintln!("{USAGE}");
            exit(2)
        }
    }
}
