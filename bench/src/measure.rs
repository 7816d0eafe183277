//! Times of programs that are all asked in one way: standard input is a mode byte, a count of 4
//! bytes, little endian, and a feed; what is asked is done so many times.
//!
//! The cost of one time is what so many times take longer than none, so that start-up, reading and
//! the way to the wallet are taken off.

use crate::processor;
use std::io::{ErrorKind, Write};
use std::process::{Command, Stdio};
use std::time::Duration;

/// The minimum of the wallet after the feed; the answer is `AMOUNT PAYMENTS`.
pub const MINIMUM: u8 = b'm';
/// The feed's whole sheet; the answer is its length.
pub const SHEET: u8 = b's';

const RUNS: usize = 6;
/// How long a measurement lasts at least, and about.
const LEAST: Duration = Duration::from_millis(250);
const ABOUT: Duration = Duration::from_millis(500);
/// Of one estimate over the one before; the first ones are mostly noise.
const MOST_GROWTH: f64 = 100.0;

pub struct Measured {
    pub answer: String,
    pub nanoseconds: f64,
}

/// A program's command line.
pub struct Program {
    pub name: String,
    words: Vec<String>,
}

impl Program {
    pub fn of(name: &str, words: &[&str]) -> Program {
        let words = words.iter().map(|word| word.to_string()).collect();
        Program { name: name.to_string(), words }
    }

    /// How many times make a measurement that lasts long enough.
    fn count(&self, mode: u8, feed: &[u8]) -> Result<u32, String> {
        let (idle, _) = self.run(mode, 0, feed)?;
        let mut count = 1;
        loop {
            let (spent, _) = self.run(mode, count, feed)?;
            let worked = spent.saturating_sub(idle);
            if worked >= LEAST || count == u32::MAX {
                return Ok(count);
            }
            let growth = ABOUT.as_secs_f64() / worked.as_secs_f64().max(1e-9);
            count = (f64::from(count) * growth.min(MOST_GROWTH)).ceil() as u32;
        }
    }

    fn run(&self, mode: u8, count: u32, feed: &[u8]) -> Result<(Duration, String), String> {
        let mut asked = vec![mode];
        asked.extend(count.to_le_bytes());
        asked.extend(feed);
        let before = processor::of_ended_programs();
        let output = self.output(&asked).map_err(|error| format!("{}: {error}", self.name))?;
        let spent = processor::of_ended_programs() - before;
        if !output.status.success() {
            return Err(format!("{}: {}", self.name, output.status));
        }
        let answer = String::from_utf8_lossy(&output.stdout).trim_end().to_string();
        Ok((spent, answer))
    }

    fn output(&self, asked: &[u8]) -> std::io::Result<std::process::Output> {
        let (program, words) = self.words.split_first().ok_or(ErrorKind::InvalidInput)?;
        let mut child = Command::new(program)
            .args(words)
            .stdin(Stdio::piped())
            .stdout(Stdio::piped())
            .spawn()?;
        let written = child.stdin.take().map_or(Ok(()), |mut input| input.write_all(asked));
        let output = child.wait_with_output()?;
        // A program that fails before it has read everything is told by its status.
        if output.status.success() {
            written?;
        }
        Ok(output)
    }
}

/// Both programs by turns, so that what else the machine does meets both; the shortest run of each
/// counts, since others can only lengthen one.
pub fn measured(programs: [&Program; 2], mode: u8, feed: &[u8]) -> Result<[Measured; 2], String> {
    let counts = [programs[0].count(mode, feed)?, programs[1].count(mode, feed)?];
    let mut idle = [Duration::MAX; 2];
    let mut spent = [Duration::MAX; 2];
    let mut answers = [String::new(), String::new()];
    for run in 0..RUNS {
        for side in [0, 1] {
            idle[side] = idle[side].min(programs[side].run(mode, 0, feed)?.0);
            let (time, answer) = programs[side].run(mode, counts[side], feed)?;
            spent[side] = spent[side].min(time);
            if run > 0 && answers[side] != answer {
                return Err(format!("{}: two answers to one question", programs[side].name));
            }
            answers[side] = answer;
        }
    }
    let one = |side: usize| {
        spent[side].saturating_sub(idle[side]).as_nanos() as f64 / f64::from(counts[side])
    };
    let [ours, theirs] = answers;
    Ok([
        Measured { answer: ours, nanoseconds: one(0) },
        Measured { answer: theirs, nanoseconds: one(1) },
    ])
}

/// A time to be read: `12.3 us`.
pub fn shown(nanoseconds: f64) -> String {
    match nanoseconds {
        n if n < 1e3 => format!("{n:.0} ns"),
        n if n < 1e6 => format!("{:.1} us", n / 1e3),
        n if n < 1e9 => format!("{:.1} ms", n / 1e6),
        n => format!("{:.2} s", n / 1e9),
    }
}
