//! A feed's run: every row is an event on one wallet.

use crate::feed::{self, Body, Kind, Place};
use crate::minimum::{minimum, Minimum};
use crate::wallet::{Answer, Step, Wallet, ACCEPTED, BREAKS_LAYOUT};

pub struct Event {
    /// Counted from 1.
    pub row: usize,
    pub kind: Kind,
    pub body: Result<Body, Place>,
    pub answer: Answer,
    pub moved: i64,
    pub available: u64,
    pub total: u64,
    pub minimum: Minimum,
}

/// What a refused feed gives instead of its events.
pub const REFUSED: &str = "feed refused 1\n";

/// Hands each event and the wallet after it to the visitor. Gives back the last wallet, or nothing
/// when the feed is refused.
pub fn run(bytes: &[u8], mut visit: impl FnMut(&Event, &Wallet)) -> Option<Wallet> {
    let feed = feed::open(bytes)?;
    let mut wallet = Wallet::open(&feed.own);
    for (row, entry) in (1..).zip(&feed.rows) {
        let body = feed::read_body(entry.kind, entry.body);
        let step = take_step(&mut wallet, &body);
        let present = wallet.present();
        let event = Event {
            row,
            kind: entry.kind,
            body,
            answer: step.answer,
            moved: step.moved,
            available: present.available_balance(),
            total: present.total_balance(&wallet.own),
            minimum: minimum(present, &wallet.own),
        };
        visit(&event, &wallet);
    }
    Some(wallet)
}

fn take_step(wallet: &mut Wallet, body: &Result<Body, Place>) -> Step {
    match body {
        Err(_) => Step::refused(BREAKS_LAYOUT),
        // The feed's opening has read this list already and opened the wallet with it.
        Ok(Body::Own(_)) => Step { answer: ACCEPTED, moved: 0 },
        Ok(Body::Block(block)) => wallet.block(block),
        Ok(Body::Payment(payment)) => wallet.pay(payment),
        Ok(Body::Rollback) => wallet.roll_back(),
    }
}
