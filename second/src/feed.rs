//! Reading a feed: head, rows and own list decide over the whole feed, every other body over its
//! own event alone.

use crate::chain::*;

pub const FEED_LIMIT: usize = 65_536;
pub const ROW_LIMIT: usize = 256;
pub const HEAD_SIZE: usize = 4;
pub const ROW_SIZE: usize = 8;

#[derive(Clone, Copy, Debug, PartialEq, Eq)]
pub enum Kind {
    Own,
    Block,
    Payment,
    Rollback,
}

impl Kind {
    pub fn from_number(number: u8) -> Option<Kind> {
        match number {
            1 => Some(Kind::Own),
            2 => Some(Kind::Block),
            3 => Some(Kind::Payment),
            4 => Some(Kind::Rollback),
            _ => None,
        }
    }

    pub fn word(self) -> &'static str {
        match self {
            Kind::Own => "own",
            Kind::Block => "block",
            Kind::Payment => "pay",
            Kind::Rollback => "back",
        }
    }
}

pub struct Row<'a> {
    pub kind: Kind,
    pub body: &'a [u8],
}

pub struct Feed<'a> {
    pub own: Vec<u32>,
    pub rows: Vec<Row<'a>>,
}

#[derive(Debug, PartialEq, Eq)]
pub enum Body {
    Own(Vec<u32>),
    Block(Vec<Transaction>),
    Payment(Transaction),
    Rollback,
}

/// A fault's place in a body: the start of the first field that is cut short or breaks a rule, or
/// the first byte left over.
pub type Place = usize;

/// The feed's rows and own list; nothing when the whole feed is refused.
pub fn open(feed: &[u8]) -> Option<Feed<'_>> {
    let rows = read_rows(feed)?;
    match read_body(Kind::Own, rows[0].body) {
        Ok(Body::Own(own)) => Some(Feed { own, rows }),
        _ => None,
    }
}

fn read_rows(feed: &[u8]) -> Option<Vec<Row<'_>>> {
    if feed.len() > FEED_LIMIT {
        return None;
    }
    let mut table = Reader::new(feed);
    let version = table.u16().ok()?;
    let count = usize::from(table.u16().ok()?);
    if version != 1 || count < 1 || count > ROW_LIMIT {
        return None;
    }
    let mut rows = Vec::with_capacity(count);
    let mut next_body = HEAD_SIZE + ROW_SIZE * count;
    for at in 0..count {
        let kind = Kind::from_number(table.u8().ok()?)?;
        let zero = table.u8().ok()?;
        let length = usize::from(table.u16().ok()?);
        let offset = table.u32().ok()? as usize;
        if zero != 0 || offset != next_body || (kind == Kind::Own) != (at == 0) {
            return None;
        }
        next_body += length;
        rows.push(Row { kind, body: feed.get(offset..next_body)? });
    }
    if next_body == feed.len() {
        Some(rows)
    } else {
        None
    }
}

pub fn read_body(kind: Kind, body: &[u8]) -> Result<Body, Place> {
    let mut reader = Reader::new(body);
    let read = match kind {
        Kind::Own => Body::Own(reader.own_list()?),
        Kind::Block => Body::Block(reader.block()?),
        Kind::Payment => Body::Payment(reader.transaction(None)?),
        Kind::Rollback => Body::Rollback,
    };
    if reader.place == body.len() {
        Ok(read)
    } else {
        Err(reader.place)
    }
}

struct Reader<'a> {
    bytes: &'a [u8],
    place: Place,
}

impl<'a> Reader<'a> {
    fn new(bytes: &'a [u8]) -> Self {
        Reader { bytes, place: 0 }
    }

    fn take<const N: usize>(&mut self) -> Result<[u8; N], Place> {
        let end = self.place + N;
        let part = self.bytes.get(self.place..end).ok_or(self.place)?;
        let mut field = [0; N];
        field.copy_from_slice(part);
        self.place = end;
        Ok(field)
    }

    fn u8(&mut self) -> Result<u8, Place> {
        self.take().map(u8::from_le_bytes)
    }

    fn u16(&mut self) -> Result<u16, Place> {
        self.take().map(u16::from_le_bytes)
    }

    fn u32(&mut self) -> Result<u32, Place> {
        self.take().map(u32::from_le_bytes)
    }

    fn u64(&mut self) -> Result<u64, Place> {
        self.take().map(u64::from_le_bytes)
    }

    /// A field that has to keep a rule; breaking it faults at the field's start.
    fn judged<T: Copy>(
        &mut self,
        field: fn(&mut Self) -> Result<T, Place>,
        keeps: impl FnOnce(T) -> bool,
    ) -> Result<T, Place> {
        let start = self.place;
        let value = field(self)?;
        if keeps(value) {
            Ok(value)
        } else {
            Err(start)
        }
    }

    fn count(&mut self, least: usize, most: usize) -> Result<usize, Place> {
        let count = self.judged(Self::u8, |count| (least..=most).contains(&usize::from(count)))?;
        Ok(usize::from(count))
    }

    fn own_list(&mut self) -> Result<Vec<u32>, Place> {
        let count = self.count(0, OWN_LIMIT)?;
        let mut own: Vec<u32> = Vec::with_capacity(count);
        for _ in 0..count {
            let before = own.last().copied();
            own.push(self.judged(Self::u32, |address| above(before, address))?);
        }
        Ok(own)
    }

    fn block(&mut self) -> Result<Vec<Transaction>, Place> {
        let count = self.count(0, BLOCK_LIMIT)?;
        let mut block: Vec<Transaction> = Vec::with_capacity(count);
        for _ in 0..count {
            let before = block.last().map(|transaction| transaction.number);
            block.push(self.transaction(before)?);
        }
        Ok(block)
    }

    fn transaction(&mut self, before: Option<u64>) -> Result<Transaction, Place> {
        let number = self.judged(Self::u64, |number| above(before, number))?;
        let input_count = self.count(1, INPUT_LIMIT)?;
        let output_count = self.count(0, OUTPUT_LIMIT)?;
        let mut inputs: Vec<Reference> = Vec::with_capacity(input_count);
        for _ in 0..input_count {
            let before = inputs.last().copied();
            inputs.push(self.input(before)?);
        }
        let mut outputs: Vec<Output> = Vec::with_capacity(output_count);
        for _ in 0..output_count {
            let before = outputs.last().map(|output| output.index);
            outputs.push(self.output(before)?);
        }
        Ok(Transaction { number, inputs, outputs })
    }

    /// Number and index are two fields: which of them faults depends on where the order breaks.
    fn input(&mut self, before: Option<Reference>) -> Result<Reference, Place> {
        let number = self.judged(Self::u64, |number| match before {
            Some(before) => number >= before.number,
            None => true,
        })?;
        let index = self.judged(Self::u16, |index| match before {
            Some(before) => number > before.number || index > before.index,
            None => true,
        })?;
        Ok(Reference { number, index })
    }

    fn output(&mut self, before: Option<u16>) -> Result<Output, Place> {
        let index = self.judged(Self::u16, |index| above(before, index))?;
        let address = self.u32()?;
        let amount = self.judged(Self::u64, |amount| amount <= AMOUNT_LIMIT)?;
        Ok(Output { index, coin: Coin { address, amount } })
    }
}

fn above<T: Ord>(before: Option<T>, value: T) -> bool {
    match before {
        Some(before) => value > before,
        None => true,
    }
}
