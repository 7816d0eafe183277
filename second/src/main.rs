//! The second program: the paper's rules once more, in plain Rust, to be compared with the proved
//! recorder.

#[macro_use]
mod say;

mod chain;
mod chance;
mod compare;
mod damage;
mod draft;
mod events;
mod feed;
mod generate;
mod inside;
mod minimum;
mod scenes;
mod selftest;
mod sheet;
mod tally;
mod traffic;
mod wallet;

use std::io::{self, Read, Write};
use std::path::Path;
use std::process::ExitCode;
use std::time::Instant;

/// As messages call this program.
const NAME: &str = "second";

const USAGE: &str = "usage: second sheet | inside | time N | selftest |
    generate SEED COUNT DIR | compare SHEET INSIDE COUNT SEED";

fn main() -> ExitCode {
    let arguments: Vec<String> = std::env::args().skip(1).collect();
    let words: Vec<&str> = arguments.iter().map(String::as_str).collect();
    match obey(&words) {
        Ok(code) => code,
        Err(message) => {
            eprintln!("{NAME}: {message}");
            ExitCode::from(2)
        }
    }
}

fn obey(words: &[&str]) -> Result<ExitCode, String> {
    match words {
        ["sheet"] => print(&sheet::sheet(&standard_input()?)),
        ["inside"] => print(&inside::inside(&standard_input()?)),
        ["generate", seed, count, folder] => {
            generate::write(number(seed)?, number(count)? as usize, Path::new(folder))?;
            Ok(ExitCode::SUCCESS)
        }
        ["compare", sheet, inside, count, seed] => {
            Ok(status(compare::run(sheet, inside, number(count)? as usize, number(seed)?)))
        }
        ["time", times] => print(&format!("{}\n", time(number(times)?)?)),
        ["selftest"] => Ok(status(selftest::run())),
        _ => Err(USAGE.to_string()),
    }
}

/// Nanoseconds for one sheet. The sheets' lengths are added up and judged, so that no sheet can be
/// left away.
fn time(times: u64) -> Result<u128, String> {
    let feed = standard_input()?;
    let length = sheet::sheet(&feed).len() as u64;
    let start = Instant::now();
    let written: u64 = (0..times).map(|_| sheet::sheet(&feed).len() as u64).sum();
    let spent = start.elapsed().as_nanos();
    if times == 0 || written != times * length {
        return Err("nothing to time".to_string());
    }
    Ok(spent / u128::from(times))
}

fn number(word: &str) -> Result<u64, String> {
    word.parse().map_err(|_| format!("not a number: {word}"))
}

fn status(good: bool) -> ExitCode {
    if good {
        ExitCode::SUCCESS
    } else {
        ExitCode::FAILURE
    }
}

fn standard_input() -> Result<Vec<u8>, String> {
    let mut feed = Vec::new();
    match io::stdin().lock().read_to_end(&mut feed) {
        Ok(_) => Ok(feed),
        Err(error) => Err(format!("standard input: {error}")),
    }
}

fn print(text: &str) -> Result<ExitCode, String> {
    match io::stdout().lock().write_all(text.as_bytes()) {
        Ok(()) => Ok(ExitCode::SUCCESS),
        Err(error) => Err(format!("standard output: {error}")),
    }
}
