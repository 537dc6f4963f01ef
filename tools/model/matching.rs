//! The figures of a matching. Each is the plain sum or the plain search that the rules name.

use crate::contracts::Contract;

#[derive(Clone, Copy, Debug, PartialEq)]
pub enum Side {
    Buy,
    Sell,
}

impl Side {
    /// A buy counts as it is, and a sell counts against it.
    pub fn sign(self) -> i128 {
        match self {
            Side::Buy => 1,
            Side::Sell => -1,
        }
    }
}

/// An order that has open or filled lots.
#[derive(Clone, Debug)]
pub struct Order {
    pub number: u64,
    pub member: u64,
    pub side: Side,
    pub contract: Contract,
    pub price: i128,
    pub open: i128,
    pub filled: i128,
}

#[derive(Clone, Copy, Debug, PartialEq)]
pub struct Fill {
    pub order: u64,
    pub lots: u64,
}

#[derive(Clone, Copy, Debug, PartialEq)]
pub struct Weight {
    pub price: u64,
    pub weight: u64,
}

/// Lots of an order: those that a proposal fills, or those that were filled before.
pub struct Lots<'a> {
    pub order: &'a Order,
    pub lots: i128,
}

/// The largest figure over all prices, and the lowest price where it is reached.
#[derive(Clone, Copy, Debug, PartialEq)]
pub struct Peak {
    pub owed: i128,
    pub price: u64,
}

/// What the fills give each order that they name. An order that stands nowhere gets nothing.
pub fn given<'a>(orders: &'a [Order], fills: &[Fill]) -> Vec<Lots<'a>> {
    let mut all = Vec::new();
    for fill in fills {
        for order in orders
            .iter()
            .filter(|order| order.number == fill.order && order.open > 0)
        {
            all.push(Lots {
                order,
                lots: i128::from(fill.lots),
            });
        }
    }
    all
}

pub fn filled_before(orders: &[Order]) -> Vec<Lots<'_>> {
    orders
        .iter()
        .map(|order| Lots {
            order,
            lots: order.filled,
        })
        .collect()
}

pub fn cash_now(lots: &[Lots]) -> i128 {
    lots.iter()
        .map(|l| l.order.side.sign() * l.order.price * l.lots)
        .sum()
}

pub fn owed(lots: &[Lots], ceiling: u64, price: u64) -> i128 {
    lots.iter()
        .map(|l| l.order.side.sign() * l.order.contract.payoff(ceiling, price) * l.lots)
        .sum()
}

/// Goes over every whole price from 0 to the ceiling. Going up and keeping only what is
/// strictly larger leaves the lowest price of those that tie.
pub fn peak(ceiling: u64, owed_at: impl Fn(u64) -> i128) -> Peak {
    let mut best = Peak {
        owed: owed_at(0),
        price: 0,
    };
    for price in 1..=ceiling {
        let here = owed_at(price);
        if here > best.owed {
            best = Peak { owed: here, price };
        }
    }
    best
}

pub fn reserve(lots: &[Lots], ceiling: u64) -> Peak {
    peak(ceiling, |price| owed(lots, ceiling, price))
}

pub fn weight_sum(weights: &[Weight]) -> i128 {
    weights.iter().map(|w| i128::from(w.weight)).sum()
}

pub fn value(contract: &Contract, weights: &[Weight], ceiling: u64) -> i128 {
    weights
        .iter()
        .map(|w| i128::from(w.weight) * contract.payoff(ceiling, w.price))
        .sum()
}

/// Over all orders with open lots, whether a proposal names them or not.
pub fn bound(orders: &[Order], weights: &[Weight], ceiling: u64) -> i128 {
    let sum = weight_sum(weights);
    orders
        .iter()
        .map(|order| {
            let better = sum * order.price - value(&order.contract, weights, ceiling);
            order.open * (order.side.sign() * better).max(0)
        })
        .sum()
}
