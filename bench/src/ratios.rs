//! The proved program's times beside those of the Rust programs, as ratios.

use crate::feeds;
use crate::measure::{measured, shown, Program, MINIMUM, SHEET};
use crate::wallets::{self, Kind, KINDS, SIZES};

/// How many times as fast as the plain rendering one query has to be.
fn minimum_target(kind: Kind, size: usize) -> Option<f64> {
    match (kind, size) {
        (Kind::Tangled, 16) => Some(50.0),
        (Kind::Independent, 16) | (Kind::BroughtBack, 16) => Some(500.0),
        _ => None,
    }
}

/// How many times as fast as the second program a sheet has to be.
const SHEET_TARGET: f64 = 1.0;

/// Prints the table of the minimum; gives what is missed.
pub fn minimum(proved: &Program, plain: &Program) -> Result<Vec<String>, String> {
    say!("One query of the minimum: how many times as fast as the plain rendering");
    head("pending payments");
    let mut missed = Vec::new();
    for kind in KINDS {
        for size in SIZES {
            let name = format!("{} {size}", kind.name());
            let feed = wallets::told(kind, size).bytes();
            let target = minimum_target(kind, size);
            missed.extend(compared(&name, MINIMUM, &feed, target, [proved, plain])?);
        }
    }
    say!("");
    Ok(missed)
}

/// Prints the table of the sheets; gives what is missed.
pub fn sheets(proved: &Program, second: &Program) -> Result<Vec<String>, String> {
    say!("A whole sheet: how many times as fast as the second program");
    head("feed");
    let mut missed = Vec::new();
    for (name, feed) in feeds::all() {
        missed.extend(compared(name, SHEET, &feed, Some(SHEET_TARGET), [proved, second])?);
    }
    say!("");
    Ok(missed)
}

fn head(name: &str) {
    say!("{name:<20} {:>10} {:>8}   [times of this run]", "ratio", "target");
}

fn compared(
    name: &str,
    mode: u8,
    feed: &[u8],
    target: Option<f64>,
    [proved, other]: [&Program; 2],
) -> Result<Option<String>, String> {
    let [ours, theirs] = measured([proved, other], mode, feed)?;
    let ratio = theirs.nanoseconds / ours.nanoseconds;
    let wanted = target.map_or(String::new(), |target| format!("{target:.0}"));
    let times = [ours.nanoseconds, theirs.nanoseconds].map(shown);
    say!(
        "{name:<20} {ratio:>10.2} {wanted:>8}   [{} {}, {} {}]",
        proved.name,
        times[0],
        other.name,
        times[1]
    );
    if ours.answer != theirs.answer {
        let (ours, theirs) = (ours.answer, theirs.answer);
        return Ok(Some(format!(
            "{name}: {ours} by {}, but {theirs} by {}",
            proved.name, other.name
        )));
    }
    let short = target.filter(|target| ratio.is_nan() || ratio < *target);
    Ok(short.map(|target| format!("{name}: {ratio:.2} times as fast, not {target:.0}")))
}
