//! The library behind tests/driver.c: single calls, and many at a time whose answers are held to the
//! second program's.

use std::io::{BufReader, Write};
use std::process::{Child, ChildStdin, ChildStdout, Command, Stdio};
use std::sync::mpsc::{sync_channel, SyncSender};
use std::thread::{self, JoinHandle};

use crate::calls::{Answer, Call, Library, Second};
use crate::counts::Counts;

/// So many differences of one trial are printed; all are counted.
const PRINTED: u64 = 5;
const CALLS_AT_ONCE: usize = 500;
/// Calls that lend long logs go out before as many are made.
const BYTES_AT_ONCE: usize = 1 << 20;

fn spawn(command: &[String]) -> (Child, ChildStdin, BufReader<ChildStdout>) {
    let mut child = Command::new(&command[0])
        .args(&command[1..])
        .stdin(Stdio::piped())
        .stdout(Stdio::piped())
        .spawn()
        .unwrap_or_else(|e| panic!("{}: {e}", command[0]));
    let to = child.stdin.take().expect("its input is a pipe");
    let from = BufReader::with_capacity(1 << 16, child.stdout.take().expect("its output is a pipe"));
    (child, to, from)
}

/// One call at a time.
pub struct Driver {
    child: Child,
    to: ChildStdin,
    from: BufReader<ChildStdout>,
}

impl Driver {
    pub fn new(command: &[String]) -> Driver {
        let (child, to, from) = spawn(command);
        Driver { child, to, from }
    }
}

impl Library for Driver {
    fn call(&mut self, call: &Call) -> Answer {
        let mut line = Vec::new();
        call.put(&mut line, false);
        let answer = self.to.write_all(&line).and_then(|()| call.take_answer(&mut self.from));
        answer.unwrap_or_else(|ended| {
            println!("  no answer to {call}: {ended}");
            Answer::Nothing
        })
    }
}

impl Drop for Driver {
    fn drop(&mut self) {
        let _ = self.child.kill();
        let _ = self.child.wait();
    }
}

/// A call with the answer that is expected to it.
type Expected = (Call, Answer);

/// Many calls: they go out in bundles while another thread reads and checks the answers.
pub struct Calls {
    pub made: u64,
    second: Second,
    bundle: Vec<Expected>,
    line: Vec<u8>,
    to: Option<ChildStdin>,
    expected: SyncSender<Vec<Expected>>,
    checker: JoinHandle<Checked>,
    child: Child,
}

/// What became of a trial's calls.
pub struct Checked {
    pub calls: u64,
    pub differences: u64,
    pub counts: Counts,
}

impl Calls {
    pub fn new(command: &[String]) -> Calls {
        let (child, to, mut from) = spawn(command);
        let (expected, bundles) = sync_channel::<Vec<Expected>>(4);
        let checker = thread::spawn(move || {
            let mut checked = Checked { calls: 0, differences: 0, counts: Counts::new() };
            for (call, expected) in bundles.iter().flatten() {
                match call.take_answer(&mut from) {
                    Ok(answered) => checked.check(&call, &expected, &answered),
                    Err(ended) => {
                        checked.differ(&call, &expected, &format!("no answer: {ended}"));
                        break;
                    }
                }
            }
            checked
        });
        Calls {
            made: 0,
            second: Second::new(),
            bundle: Vec::new(),
            line: Vec::new(),
            to: Some(to),
            expected,
            checker,
            child,
        }
    }

    /// Sends a call, and gives the answer that is expected.
    pub fn call(&mut self, call: Call) -> Answer {
        let expected = self.second.call(&call);
        self.made += 1;
        call.put(&mut self.line, self.made % 2 == 0);
        self.bundle.push((call, expected.clone()));
        if self.bundle.len() >= CALLS_AT_ONCE || self.line.len() >= BYTES_AT_ONCE {
            self.send();
        }
        expected
    }

    /// A checker or a driver that has ended is seen at the end, by its count of calls.
    fn send(&mut self) {
        let _ = self.expected.send(std::mem::take(&mut self.bundle));
        if let Some(to) = &mut self.to {
            let _ = to.write_all(&self.line);
        }
        self.line.clear();
    }

    /// Waits for the last answer. A driver that does not end well is one difference more.
    pub fn end(mut self) -> Checked {
        self.send();
        drop(self.to.take());
        drop(self.expected);
        let mut checked = self.checker.join().expect("the checker ends");
        let status = self.child.wait().expect("the driver ends");
        if !status.success() || checked.calls != self.made {
            println!("  the driver: {status}, {} of {} calls answered", checked.calls, self.made);
            checked.differences += 1;
        }
        checked
    }
}

impl Checked {
    fn check(&mut self, call: &Call, expected: &Answer, answered: &Answer) {
        self.calls += 1;
        if expected.is_met_by(answered) {
            self.counts.count(call, answered);
        } else {
            self.differ(call, expected, &answered.to_string());
        }
    }

    fn differ(&mut self, call: &Call, expected: &Answer, answered: &str) {
        self.differences += 1;
        if self.differences <= PRINTED {
            println!("  DIFFERENCE at call {}: {call}", self.calls);
            println!("    expected: {expected}");
            println!("    answered: {answered}");
        }
    }
}
