//! The comparison: feeds by chance through the programs under test and through this one.

use crate::events;
use crate::generate;
use crate::inside;
use crate::sheet;
use crate::tally::Tally;
use crate::wallet::Wallet;
use std::io::{Read, Write};
use std::process::{Child, Command, ExitStatus, Stdio};
use std::sync::atomic::{AtomicUsize, Ordering};
use std::sync::{mpsc, Mutex};
use std::thread;
use std::time::{Duration, Instant};

/// A program that needs longer for one feed does not end by itself.
const PATIENCE: Duration = Duration::from_secs(120);

struct Comparison<'a> {
    sheet: &'a str,
    inside: &'a str,
    count: usize,
    seed: u64,
    next: AtomicUsize,
    found: Mutex<Found>,
}

#[derive(Default)]
struct Found {
    tally: Tally,
    differences: usize,
}

/// True if nothing differs and everything that matters occurred.
pub fn run(sheet: &str, inside: &str, count: usize, seed: u64) -> bool {
    let found = Mutex::new(Found::default());
    let work = Comparison { sheet, inside, count, seed, next: AtomicUsize::new(0), found };
    let threads = thread::available_parallelism().map_or(1, |threads| threads.get()).min(8);
    thread::scope(|scope| {
        for _ in 0..threads {
            scope.spawn(|| work.take_part());
        }
    });
    let found = match work.found.into_inner() {
        Ok(found) => found,
        Err(_) => return false,
    };
    found.tally.print();
    let missing = found.tally.missing();
    missing.iter().for_each(|name| say!("never occurred: {name}"));
    say!("{count} feeds compared, {} differences", found.differences);
    found.differences == 0 && missing.is_empty()
}

impl Comparison<'_> {
    fn take_part(&self) {
        loop {
            let index = self.next.fetch_add(1, Ordering::Relaxed);
            if index >= self.count {
                return;
            }
            let feed = generate::feed(self.seed, index);
            // Each fourth of the well formed and each fourth of the damaged feeds.
            let looks_inside = index / 2 % 4 == 0;
            let mut tally = Tally::default();
            let (sheet, inside) = own_texts(&feed, &mut tally);
            let mut differences = vec![difference(self.sheet, &feed, &sheet)];
            if looks_inside {
                differences.push(difference(self.inside, &feed, &inside));
            }
            let differences: Vec<String> = differences.into_iter().flatten().collect();
            if let Ok(mut found) = self.found.lock() {
                found.tally.add(&tally);
                found.differences += usize::from(!differences.is_empty());
                differences.iter().for_each(|text| self.report(index, &feed, text));
            }
        }
    }

    fn report(&self, index: usize, feed: &[u8], difference: &str) {
        let name = format!("second-{}-{index:06}.feed", self.seed);
        let path = std::env::temp_dir().join(name);
        if let Err(error) = std::fs::write(&path, feed) {
            say!("the feed could not be kept: {error}");
        }
        say!("difference: {} (seed {}, feed {index})", path.display(), self.seed);
        say!("{difference}");
    }
}

/// This program's sheet and inside text from one run, which is also counted.
fn own_texts(feed: &[u8], tally: &mut Tally) -> (String, String) {
    let mut sheet = String::from(sheet::HEAD);
    let mut inside = String::new();
    let mut before: Option<Wallet> = None;
    let mut rows = 0;
    let last = events::run(feed, |event, wallet| {
        sheet::write_line(&mut sheet, event);
        inside::write_event(&mut inside, event, wallet);
        tally.event(event, before.as_ref().unwrap_or(wallet), wallet);
        before = Some(wallet.clone());
        rows = event.row;
    });
    tally.feed(feed, rows);
    match last {
        Some(last) => {
            inside::write_damages(&mut inside, &last);
            (sheet, inside)
        }
        None => (events::REFUSED.to_string(), events::REFUSED.to_string()),
    }
}

/// The status by which a program tells that the feed is refused; else it is 0.
const TELLS_REFUSED: i32 = 3;

/// Nothing when the program ends by itself with the right status and writes just this text.
fn difference(program: &str, feed: &[u8], wanted: &str) -> Option<String> {
    let (status, written, said) = match answer_of(program, feed) {
        Ok(answer) => answer,
        Err(message) => return Some(format!("  {program}: {message}")),
    };
    let wanted_status = if wanted == events::REFUSED { TELLS_REFUSED } else { 0 };
    if status.code() != Some(wanted_status) {
        return Some(format!("  {program}: {status}, expected {wanted_status}; {}", said.trim_end()));
    }
    if written == wanted.as_bytes() {
        return None;
    }
    let written = String::from_utf8_lossy(&written);
    let mut theirs = written.split('\n');
    let mut ours = wanted.split('\n');
    let mut line = 0;
    loop {
        line += 1;
        let (their_line, our_line) = (theirs.next(), ours.next());
        if their_line != our_line || their_line.is_none() {
            let shown = |text: Option<&str>| text.unwrap_or("(nothing)").to_string();
            let (their_line, our_line) = (shown(their_line), shown(our_line));
            return Some(format!("  {program}, line {line}: {their_line}\n  second: {our_line}"));
        }
    }
}

/// Writing and reading go on side by side, so that neither program waits for the other for ever.
fn answer_of(program: &str, feed: &[u8]) -> Result<(ExitStatus, Vec<u8>, String), String> {
    let mut words = program.split_whitespace();
    let mut child = Command::new(words.next().unwrap_or_default())
        .args(words)
        .stdin(Stdio::piped())
        .stdout(Stdio::piped())
        .stderr(Stdio::piped())
        .spawn()
        .map_err(|error| error.to_string())?;
    let (stdin, stdout, stderr) = (child.stdin.take(), child.stdout.take(), child.stderr.take());
    thread::scope(|scope| {
        // A program may refuse a feed before it has read all of it.
        scope.spawn(move || stdin.map(|mut stdin| stdin.write_all(feed)));
        let said = scope.spawn(move || {
            let mut said = String::new();
            let _ = stderr.map(|mut stderr| stderr.read_to_string(&mut said));
            said
        });
        let (sender, receiver) = mpsc::channel();
        scope.spawn(move || {
            let mut written = Vec::new();
            let read = stdout.map(|mut stdout| stdout.read_to_end(&mut written));
            let _ = sender.send(read.map(|_| written));
        });
        let written = receiver.recv_timeout(PATIENCE).ok().flatten();
        let status = ended(&mut child, written.is_some())?;
        let said = said.join().unwrap_or_default();
        written.map(|written| (status, written, said)).ok_or_else(|| "no end".to_string())
    })
}

/// The status of a program that has closed its output; one that goes on is stopped.
fn ended(child: &mut Child, closed: bool) -> Result<ExitStatus, String> {
    let start = Instant::now();
    while closed && start.elapsed() < PATIENCE {
        match child.try_wait() {
            Ok(Some(status)) => return Ok(status),
            Ok(None) => thread::sleep(Duration::from_micros(100)),
            Err(error) => return Err(error.to_string()),
        }
    }
    let _ = child.kill();
    let _ = child.wait();
    Err(format!("does not end within {} seconds", PATIENCE.as_secs()))
}
