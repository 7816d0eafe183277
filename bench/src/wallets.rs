//! The fixed wallets whose minimum is asked: feeds that leave so many payments pending.

use crate::chain::*;
use crate::story::*;

pub const SIZES: [usize; 5] = [0, 4, 8, 12, 16];

/// Coins that no payment touches stand in every fixed wallet.
const IDLE: u64 = 100;
const COINS: u64 = 200;
const SIBLINGS: u64 = 300;
const PAYMENTS: u64 = 1_000;
const FOREIGN_SPENDS: u64 = 2_000;

#[derive(Clone, Copy, Debug, PartialEq, Eq)]
pub enum Kind {
    /// Nothing is shared.
    Independent,
    /// Confirmed by a block that was rolled back: what the payments make is expected.
    BroughtBack,
    /// One tangle: shared inputs, chains on expected outputs, links from each four to the next.
    Tangled,
    /// A rollback has taken the coins: payments on the outputs of the same expected transactions.
    Siblings,
    /// The same, but each payment also takes a coin that stands.
    HalfExpected,
}

pub const KINDS: [Kind; 5] =
    [Kind::Independent, Kind::BroughtBack, Kind::Tangled, Kind::Siblings, Kind::HalfExpected];

impl Kind {
    pub fn name(self) -> &'static str {
        match self {
            Kind::Independent => "independent",
            Kind::BroughtBack => "brought back",
            Kind::Tangled => "tangled",
            Kind::Siblings => "siblings",
            Kind::HalfExpected => "half expected",
        }
    }
}

pub fn told(kind: Kind, size: usize) -> Story {
    let story = match kind {
        Kind::Independent => independent(size),
        Kind::BroughtBack => brought_back(size),
        Kind::Tangled => tangled(size),
        Kind::Siblings => siblings(size, &[]),
        Kind::HalfExpected => siblings(size, &[0]),
    };
    assert_eq!(story.pending(), size, "{} {size}", kind.name());
    story
}

/// Different amounts without a pattern that an order could profit from.
pub fn amount(place: u64) -> u64 {
    1_000_000 + place * 7_919 % 997 * 10_007
}

fn with_idle_coins() -> Story {
    let mut story = Story::opened();
    let idle = [0, 8].map(|from| (from..from + 8).map(amount).collect::<Vec<u64>>());
    let block = [story.received(IDLE, &idle[0]), story.received(IDLE + 1, &idle[1])];
    story.block(&block);
    story
}

/// Two coins a payment, each from a transaction of its own; some goes to others, the rest comes
/// back.
fn simple_payments(story: &mut Story, size: usize) -> Vec<Transaction> {
    let places = 0..size as u64;
    let coins = |place| [amount(3 * place + 1), amount(3 * place + 2)];
    let block: Vec<Transaction> =
        places.clone().map(|place| story.received(COINS + place, &coins(place))).collect();
    story.block(&block);
    let payment = |place| {
        let rest = coins(place)[0] + coins(place)[1] - 150_000;
        let paid = rest / (2 + place % 3);
        let inputs = [at(COINS + place, 0), at(COINS + place, 1)];
        transaction(PAYMENTS + place, &inputs, &[paid], &[rest - paid])
    };
    places.map(payment).collect()
}

fn independent(size: usize) -> Story {
    let mut story = with_idle_coins();
    let payments = simple_payments(&mut story, size);
    story.pay_all(&payments);
    story
}

fn brought_back(size: usize) -> Story {
    let mut story = with_idle_coins();
    let payments = simple_payments(&mut story, size);
    story.pay_all(&payments);
    story.block(&payments);
    story.back();
    story
}

/// Four payments of a tangle. The first and second share a coin; the third and fourth live on what
/// the second makes and share one of it; the fourth also lives on the second of the next four.
struct Four {
    coins: Transaction,
    first: Transaction,
    second: Transaction,
    third: Transaction,
    fourth: Transaction,
}

impl Four {
    fn of(story: &mut Story, group: u64, groups: u64) -> Four {
        let coin = |place| amount(5 * group + place);
        let number = PAYMENTS + 4 * group;
        let coins = story.received(COINS + group, &[coin(1), coin(2), coin(3)]);
        let inputs = |indices: [u16; 2]| indices.map(|index| at(COINS + group, index));
        let both = coin(1) + coin(2);
        let first = transaction(number, &inputs([0, 1]), &[both / 3], &[both / 2]);
        let change = |group: u64, place: u64| {
            let coin = |place| amount(5 * group + place);
            (coin(2) + coin(3)) * place / 8
        };
        let own = [1, 2, 3].map(|place| change(group, place));
        let second = transaction(number + 1, &inputs([1, 2]), &[change(group, 1)], &own);
        let paid = change(group, 1);
        let third_inputs = [at(number + 1, 1), at(number + 1, 2)];
        let third = transaction(number + 2, &third_inputs, &[paid], &[paid / 3]);
        let next = (group + 1) % groups;
        let fourth_inputs = [at(number + 1, 2), at(PAYMENTS + 4 * next + 1, 3)];
        let kept = change(next, 3) / 4;
        let fourth = transaction(number + 3, &fourth_inputs, &[paid], &[kept, kept / 2]);
        Four { coins, first, second, third, fourth }
    }
}

fn all_of(fours: &[Four], part: impl Fn(&Four) -> &Transaction) -> Vec<Transaction> {
    fours.iter().map(|four| part(four).clone()).collect()
}

/// Foreign transactions that spend the first input of each payment.
fn spends_of(payments: &[Transaction], round: u64) -> Vec<Transaction> {
    let numbers = FOREIGN_SPENDS + 100 * round..;
    let spend = |(number, payment): (u64, &Transaction)| {
        transaction(number, &payment.inputs[..1], &[5], &[amount(number)])
    };
    numbers.zip(payments).map(spend).collect()
}

fn tangled(size: usize) -> Story {
    let mut story = with_idle_coins();
    let groups = size as u64 / 4;
    let fours: Vec<Four> = (0..groups).map(|group| Four::of(&mut story, group, groups)).collect();
    let [firsts, seconds, thirds, fourths] = [
        all_of(&fours, |four| &four.first),
        all_of(&fours, |four| &four.second),
        all_of(&fours, |four| &four.third),
        all_of(&fours, |four| &four.fourth),
    ];
    story.block(&all_of(&fours, |four| &four.coins));
    story.pay_all(&firsts);
    story.block(&spends_of(&firsts, 0));
    story.pay_all(&seconds);
    story.back();
    story.block(&seconds);
    story.pay_all(&thirds);
    story.block(&spends_of(&thirds, 1));
    story.pay_all(&fourths);
    story.back();
    story.back();
    story
}

/// Transactions of eight outputs, each output but the last taken by a payment, which also takes so
/// many coins of its own; then the block with those transactions is rolled back.
fn siblings(size: usize, further: &[u16]) -> Story {
    let mut story = with_idle_coins();
    let numbers = (size as u64 + 6) / 7;
    let coin = |place: u64| amount(3 * place + 1);
    let standing: Vec<Transaction> = (0..size as u64)
        .map(|place| story.received(COINS + place, &vec![coin(place); further.len()]))
        .collect();
    story.block(&standing);
    let coins = |number: u64| (0..8).map(|index| coin(8 * number + index)).collect::<Vec<u64>>();
    let block: Vec<Transaction> =
        (0..numbers).map(|number| story.received(SIBLINGS + number, &coins(number))).collect();
    story.block(&block);
    for place in 0..size as u64 {
        let (number, index) = (place / 7, place % 7);
        let paid = coin(8 * number + index) / (2 + place % 3);
        let mut inputs = vec![at(SIBLINGS + number, index as u16)];
        inputs.extend(further.iter().map(|index| at(COINS + place, *index)));
        story.pay(&transaction(PAYMENTS + place, &inputs, &[paid], &[paid / 2]));
    }
    story.back();
    story
}
