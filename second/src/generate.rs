//! Feeds by chance: the even ones well formed and full of meaning, the odd ones damaged.

use crate::chain::*;
use crate::chance::Chance;
use crate::damage;
use crate::draft::*;
use crate::feed::{ROW_LIMIT, ROW_SIZE};
use crate::scenes::{mixed_scene, Scene, THEMES};
use crate::traffic::{shaped, Traffic};
use std::path::Path;

/// How large a feed of 65,536 bytes or near it starts, before it is filled up.
const ROWS_BEFORE_FILLING: usize = 40;

enum Plan {
    Short,
    Long,
    NearlyFull,
    Full,
}

/// The feed with this index, the same one for the same seed.
pub fn feed(seed: u64, index: usize) -> Vec<u8> {
    let mut chance = Chance::new(seed, index as u64);
    let turn = index / 2;
    let damaged = index % 2 == 1;
    let plan = match turn % 50 {
        5 | 30 => Plan::Long,
        20 => Plan::Full,
        35 => Plan::NearlyFull,
        _ => Plan::Short,
    };
    let draft = draft(&mut chance, turn, &plan);
    match (damaged, plan) {
        (false, _) => draft.bytes(),
        (true, Plan::Full) => one_byte_over(draft),
        (true, _) => damage::damaged(&mut chance, &draft, turn),
    }
}

fn draft(chance: &mut Chance, turn: usize, plan: &Plan) -> Draft {
    let short = if chance.one_in(3) { chance.between(30, 60) } else { chance.between(8, 30) };
    let (theme_rows, theme) = THEMES[turn % THEMES.len()];
    let rows = match plan {
        Plan::Short => short.max(theme_rows),
        _ => ROW_LIMIT,
    };
    let mut traffic = Traffic::new(chance, rows);
    match plan {
        Plan::Short | Plan::Long => play(&mut traffic, theme, 0),
        Plan::NearlyFull => {
            play(&mut traffic, theme, ROW_LIMIT - ROWS_BEFORE_FILLING);
            fill(&mut traffic);
        }
        Plan::Full => {
            play(&mut traffic, theme, ROW_LIMIT - ROWS_BEFORE_FILLING);
            fill(&mut traffic);
            fill_exactly(&mut traffic);
        }
    }
    traffic.draft
}

/// The theme whose turn it is, then a mixture, until only so many rows are left.
fn play(traffic: &mut Traffic, theme: Scene, rows_left: usize) {
    for _ in 0..traffic.chance.below(4) {
        mixed_scene(traffic);
    }
    theme(traffic);
    // Scenes that find nothing to do add no row, so their number has an end of its own.
    for _ in 0..4 * ROW_LIMIT {
        if traffic.rows_left() <= rows_left {
            break;
        }
        mixed_scene(traffic);
    }
}

/// A transaction with so many inputs and outputs, all foreign.
fn filler(traffic: &mut Traffic, inputs: usize, outputs: usize) -> Transaction {
    let number = traffic.fresh_number();
    let inputs = (0..inputs as u16).map(|index| Reference { number: 1, index }).collect();
    let made = (0..outputs as u16).map(|index| {
        let coin = Coin { address: traffic.foreign_address(), amount: traffic.amount() };
        Output { index, coin }
    });
    let outputs = made.collect();
    shaped(number, inputs, outputs)
}

/// Blocks of the largest size while there is place for them.
fn fill(traffic: &mut Traffic) {
    loop {
        let block: Vec<Transaction> = (0..BLOCK_LIMIT).map(|_| filler(traffic, 8, 8)).collect();
        let size = ROW_SIZE + block_body(&block).len();
        if traffic.bytes_left() < size + 400 || traffic.rows_left() < 8 {
            return;
        }
        traffic.block(block);
    }
}

/// Smaller blocks, then a payment that ends with the limit's last byte; where no payment has just
/// that length, bytes are left over in it.
fn fill_exactly(traffic: &mut Traffic) {
    while traffic.bytes_left() >= 2 * (ROW_SIZE + 202) && traffic.rows_left() > 1 {
        let block = vec![filler(traffic, 8, 8)];
        traffic.block(block);
    }
    let length = traffic.bytes_left().saturating_sub(ROW_SIZE);
    let mut body = Vec::new();
    for inputs in 1..=INPUT_LIMIT {
        for outputs in 0..=OUTPUT_LIMIT {
            if 10 + 10 * inputs + 14 * outputs == length {
                body = payment_body(&filler(traffic, inputs, outputs));
            }
        }
    }
    body.resize(length, 0);
    traffic.push(PAYMENT, body);
}

fn one_byte_over(mut draft: Draft) -> Vec<u8> {
    if let Some(last) = draft.rows.last_mut() {
        last.body.push(0);
    }
    draft.bytes()
}

pub fn write(seed: u64, count: usize, folder: &Path) -> Result<(), String> {
    std::fs::create_dir_all(folder).map_err(|error| format!("{}: {error}", folder.display()))?;
    for index in 0..count {
        let file = folder.join(format!("{index:06}.feed"));
        std::fs::write(&file, feed(seed, index))
            .map_err(|error| format!("{}: {error}", file.display()))?;
    }
    Ok(())
}
