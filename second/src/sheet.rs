//! The sheet: one line an event, as the inspector signs it.

use crate::events::{self, Event};
use std::fmt::Write;

pub const HEAD: &str = "event kind answer available total minimum moved\n";

pub fn sheet(feed: &[u8]) -> String {
    let mut text = String::from(HEAD);
    match events::run(feed, |event, _| write_line(&mut text, event)) {
        Some(_) => text,
        None => events::REFUSED.to_string(),
    }
}

/// Writing into a string never fails.
pub fn write_line(text: &mut String, event: &Event) {
    let Event { row, answer, available, total, moved, .. } = event;
    let (kind, minimum) = (event.kind.word(), event.minimum.value);
    let _ = writeln!(text, "{row} {kind} {answer} {available} {total} {minimum} {moved}");
}
