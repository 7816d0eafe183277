//! The Rust programs that are measured: the plain rendering and the second program, asked in the
//! same way as the proved one.

use crate::feed::{self, Body};
use crate::measure::{MINIMUM, SHEET};
use crate::minimum;
use crate::plain;
use crate::present::*;
use crate::sheet::sheet;
use crate::wallet::Wallet;
use std::io::Read;

/// The minimum by the plain rendering.
pub fn plain() -> Result<String, String> {
    match question()? {
        (MINIMUM, count, feed) => {
            let state = Present::of(&wallet_after(&feed)?);
            Ok(repeated(count, || plain::minimum(&state)))
        }
        (mode, _, _) => Err(format!("mode {mode} is not known")),
    }
}

/// The minimum or the sheet by the second program.
pub fn second() -> Result<String, String> {
    match question()? {
        (MINIMUM, count, feed) => {
            let wallet = wallet_after(&feed)?;
            Ok(repeated(count, || {
                let found = minimum::minimum(wallet.present(), &wallet.own);
                Least { amount: found.value, payments: found.count }
            }))
        }
        (SHEET, count, feed) => {
            let length = (0..count).map(|_| sheet(&feed).len()).last();
            Ok(length.unwrap_or(0).to_string())
        }
        (mode, _, _) => Err(format!("mode {mode} is not known")),
    }
}

fn question() -> Result<(u8, u32, Vec<u8>), String> {
    let mut asked = Vec::new();
    std::io::stdin().lock().read_to_end(&mut asked).map_err(|error| error.to_string())?;
    match asked[..] {
        [mode, a, b, c, d, ref feed @ ..] => {
            Ok((mode, u32::from_le_bytes([a, b, c, d]), feed.to_vec()))
        }
        _ => Err("standard input is too short".to_string()),
    }
}

/// Every answer is looked at, so that no query can be left away.
fn repeated(count: u32, ask: impl Fn() -> Least) -> String {
    let mut last = Least { amount: 0, payments: 0 };
    for time in 0..count {
        let found = ask();
        assert!(time == 0 || found == last);
        last = found;
    }
    format!("{} {}", last.amount, last.payments)
}

/// The wallet after the feed's events, with no balance worked out on the way.
fn wallet_after(bytes: &[u8]) -> Result<Wallet, String> {
    let feed = feed::open(bytes).ok_or("the feed is refused")?;
    let mut wallet = Wallet::open(&feed.own);
    for row in &feed.rows {
        match feed::read_body(row.kind, row.body) {
            Ok(Body::Block(block)) => wallet.block(&block),
            Ok(Body::Payment(payment)) => wallet.pay(&payment),
            Ok(Body::Rollback) => wallet.roll_back(),
            Ok(Body::Own(_)) | Err(_) => continue,
        };
    }
    Ok(wallet)
}
