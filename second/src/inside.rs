//! What the sheet does not show: readings, counts and sets after each event, and which damages of
//! the last wallet have to be found out.

use crate::chain::*;
use crate::events::{self, Event};
use crate::wallet::{payments, references, Entries, Wallet, BREAKS_LAYOUT, NOT_SOUND};
use std::fmt::Write;

pub fn inside(feed: &[u8]) -> String {
    let mut text = String::new();
    match events::run(feed, |event, wallet| write_event(&mut text, event, wallet)) {
        Some(last) => {
            write_damages(&mut text, &last);
            text
        }
        None => events::REFUSED.to_string(),
    }
}

/// Five lines. The first has row, kind, the reading of the body (0, or 1 for a fault), the fault's
/// place, the answer, the minimum's count of payments and the number of held states.
/// Writing into a string never fails.
pub fn write_event(text: &mut String, event: &Event, wallet: &Wallet) {
    let present = wallet.present();
    let Event { row, answer, minimum, .. } = event;
    let (reading, place) = match event.body {
        Ok(_) => (0, 0),
        Err(place) => (BREAKS_LAYOUT, place),
    };
    let (kind, count, held) = (event.kind.word(), minimum.count, wallet.states.len());
    let _ = writeln!(text, "{row} {kind} {reading} {place} {answer} {count} {held}");
    write_entries(text, "utxo", &present.utxo);
    write_entries(text, "expected", &present.expected);
    write_entries(text, "available", &present.available());
    text.push_str("pending");
    for payment in &present.pending {
        let _ = write!(text, " {}", payment.number);
    }
    text.push('\n');
}

fn write_entries(text: &mut String, name: &str, entries: &Entries) {
    text.push_str(name);
    for (Reference { number, index }, Coin { address, amount }) in entries {
        let _ = write!(text, " {number}.{index}:{address}:{amount}");
    }
    text.push('\n');
}

/// A line for each damage that this wallet can take: all twelve answers find it out.
pub fn write_damages(text: &mut String, wallet: &Wallet) {
    for damage in applicable_damages(wallet) {
        let _ = write!(text, "damaged {damage}");
        for _ in 0..12 {
            let _ = write!(text, " {NOT_SOUND}");
        }
        text.push('\n');
    }
}

fn applicable_damages(wallet: &Wallet) -> Vec<u32> {
    let own = wallet.own.len();
    let held = wallet.states.len();
    let entries = references(wallet.states.iter()).len();
    let pending = payments(wallet.states.iter()).len();
    let damages = [
        (1, true),                               // own count over its limit
        (2, true),                               // held states over their limit
        (3, true),                               // entry count over its limit
        (4, true),                               // payment count over its limit
        (5, own < OWN_LIMIT),                    // an unused own place not zero
        (6, own >= 2),                           // the first two own addresses exchanged
        (7, entries < ENTRY_LIMIT),              // an unused entry place not zero
        (8, pending < PAYMENT_LIMIT),            // an unused payment place not zero
        (9, entries >= 1),                       // first entry without any mark
        (10, entries >= 1),                      // first entry in both sets of the present state
        (11, entries >= 1 && held < HELD_LIMIT), // first entry in a state that is not held
        (12, entries >= 2),                      // the first two entries exchanged
        (13, entries >= 1),                      // first entry's amount over the limit
        (14, pending >= 1),                      // first payment without any mark
        (15, pending >= 1),                      // first payment without inputs
        (16, pending >= 1),                      // first payment's first output over the limit
        (17, entries >= 1),                      // first entry at an address that is not own
    ];
    let applies = damages.iter().filter(|(_, applies)| *applies);
    applies.map(|(damage, _)| *damage).collect()
}
