//! The benchmark: the proved program's minimum beside a plain rendering of the definition, its
//! sheets beside the second program's, and the turns of its walk, counted by a model.

// The second program's modules, of which not everything is used here.
#[macro_use]
#[path = "../../second/src/say.rs"]
mod say;
#[allow(dead_code)]
#[path = "../../second/src/chain.rs"]
mod chain;
#[allow(dead_code)]
#[path = "../../second/src/chance.rs"]
mod chance;
#[allow(dead_code)]
#[path = "../../second/src/draft.rs"]
mod draft;
#[allow(dead_code)]
#[path = "../../second/src/events.rs"]
mod events;
#[allow(dead_code)]
#[path = "../../second/src/feed.rs"]
mod feed;
#[allow(dead_code)]
#[path = "../../second/src/minimum.rs"]
mod minimum;
#[allow(dead_code)]
#[path = "../../second/src/sheet.rs"]
mod sheet;
#[allow(dead_code)]
#[path = "../../second/src/wallet.rs"]
mod wallet;

mod asked;
mod feeds;
mod measure;
mod plain;
mod present;
mod processor;
mod ratios;
mod story;
mod tables;
mod tangles;
mod turns;
mod walk;
mod wallets;

use measure::Program;
use std::process::ExitCode;

/// As messages call this program.
const NAME: &str = "bench";

const USAGE: &str = "usage: bench table PARTS NAME COMMAND.. -- RUST.. | plain | second
    PARTS are some of minimum,turns,sheets; NAME and COMMAND are those of the program that is
    judged, RUST is the command line of this one where it is measured";

/// What is judged is called so, or else only stands in for it.
const PROVED: &str = "proved";

fn main() -> ExitCode {
    let arguments: Vec<String> = std::env::args().skip(1).collect();
    let words: Vec<&str> = arguments.iter().map(String::as_str).collect();
    let done = match words[..] {
        ["plain"] => asked::plain().map(printed),
        ["second"] => asked::second().map(printed),
        ["table", parts, name, ref commands @ ..] => table(parts, name, commands),
        _ => Err(USAGE.to_string()),
    };
    done.unwrap_or_else(|message| {
        eprintln!("{NAME}: {message}");
        ExitCode::from(2)
    })
}

fn printed(answer: String) -> ExitCode {
    say!("{answer}");
    ExitCode::SUCCESS
}

fn table(parts: &str, name: &str, commands: &[&str]) -> Result<ExitCode, String> {
    let between = commands.iter().position(|word| *word == "--").ok_or(USAGE)?;
    let proved = Program::of(name, &commands[..between]);
    let rust = |name| Program::of(name, &[&commands[between + 1..], &[name]].concat());
    let mut missed = Vec::new();
    for part in parts.split(',') {
        missed.extend(match part {
            "minimum" => ratios::minimum(&proved, &rust("plain"))?,
            "turns" => turns::run(),
            "sheets" => ratios::sheets(&proved, &rust("second"))?,
            _ => return Err(USAGE.to_string()),
        });
    }
    missed.iter().for_each(|miss| say!("missed: {miss}"));
    if !missed.is_empty() {
        say!("targets not met: {} missed", missed.len());
        return Ok(ExitCode::FAILURE);
    }
    if name != PROVED {
        say!("targets met by the {name}: this says nothing of the proved program");
        return Ok(ExitCode::FAILURE);
    }
    say!("targets met");
    Ok(ExitCode::SUCCESS)
}
