//! A feed while it is written: rows with their bodies, laid out at the end. Nothing is checked
//! here, so that faulty feeds can be written too.

use crate::chain::*;
use crate::feed::{HEAD_SIZE, ROW_SIZE};

pub const OWN: u8 = 1;
pub const BLOCK: u8 = 2;
pub const PAYMENT: u8 = 3;
pub const ROLLBACK: u8 = 4;

#[derive(Clone)]
pub struct DraftRow {
    pub kind: u8,
    pub body: Vec<u8>,
}

#[derive(Clone, Default)]
pub struct Draft {
    pub rows: Vec<DraftRow>,
}

impl Draft {
    pub fn opened(own: &[u32]) -> Draft {
        let mut draft = Draft::default();
        draft.push(OWN, own_body(own));
        draft
    }

    pub fn push(&mut self, kind: u8, body: Vec<u8>) {
        self.rows.push(DraftRow { kind, body });
    }

    pub fn size(&self) -> usize {
        self.rows.iter().fold(HEAD_SIZE, |size, row| size + ROW_SIZE + row.body.len())
    }

    pub fn bytes(&self) -> Vec<u8> {
        let mut feed = Vec::with_capacity(self.size());
        feed.extend(1_u16.to_le_bytes());
        feed.extend((self.rows.len() as u16).to_le_bytes());
        let mut offset = HEAD_SIZE + ROW_SIZE * self.rows.len();
        for row in &self.rows {
            feed.extend([row.kind, 0]);
            feed.extend((row.body.len() as u16).to_le_bytes());
            feed.extend((offset as u32).to_le_bytes());
            offset += row.body.len();
        }
        self.rows.iter().for_each(|row| feed.extend(&row.body));
        feed
    }
}

pub fn own_body(own: &[u32]) -> Vec<u8> {
    let mut body = vec![own.len() as u8];
    own.iter().for_each(|address| body.extend(address.to_le_bytes()));
    body
}

pub fn block_body(block: &[Transaction]) -> Vec<u8> {
    let mut body = vec![block.len() as u8];
    block.iter().for_each(|transaction| body.extend(payment_body(transaction)));
    body
}

pub fn payment_body(transaction: &Transaction) -> Vec<u8> {
    let mut body = transaction.number.to_le_bytes().to_vec();
    body.extend([transaction.inputs.len() as u8, transaction.outputs.len() as u8]);
    for input in &transaction.inputs {
        body.extend(input.number.to_le_bytes());
        body.extend(input.index.to_le_bytes());
    }
    for output in &transaction.outputs {
        body.extend(output.index.to_le_bytes());
        body.extend(output.coin.address.to_le_bytes());
        body.extend(output.coin.amount.to_le_bytes());
    }
    body
}
