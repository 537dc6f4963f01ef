//! Finds proposals that pass the clearing test: the best matching in parts of lots, by an exact
//! simplex, with the weights that show it to be the best; and whole lots near it.
//!
//! Nothing here is believed by anyone. The house tests what it is given, and a poor proposal is
//! a good test too.

use crate::house::MOST_WEIGHT;
use crate::matching::{Fill, Order, Weight};
use crate::ratio::{gcd, Ratio};

pub struct Proposal {
    pub fills: Vec<Fill>,
    pub weights: Vec<Weight>,
}

/// Largest to solve for: beyond it the fractions tend to outgrow their type.
pub const MOST_ORDERS: usize = 10;

/// What is solved: the orders' payoffs at the few prices where the most can be owed, and what is
/// owed there besides by the lots of a quote.
struct Task<'a> {
    orders: &'a [Order],
    prices: Vec<u64>,
    payoffs: Vec<Vec<i128>>,
    beside: Vec<i128>,
}

/// A best proposal for standing orders, where `beside` is owed at each price besides.
pub fn solve(
    orders: &[Order],
    ceiling: u64,
    kinks: &[u64],
    beside: impl Fn(u64) -> i128,
) -> Option<Proposal> {
    if orders.len() > MOST_ORDERS {
        return None;
    }
    let prices = corner_prices(orders, ceiling, kinks);
    let payoffs = orders
        .iter()
        .map(|order| {
            prices
                .iter()
                .map(|price| order.contract.payoff(ceiling, *price))
                .collect()
        })
        .collect();
    let beside = prices.iter().map(|price| beside(*price)).collect();
    let task = Task {
        orders,
        prices,
        payoffs,
        beside,
    };
    let (lots, shares) = task.best_in_parts()?;
    let lots = task.whole_lots(&lots);
    let weights = task.weights(&shares)?;
    Some(Proposal {
        fills: task.fills(&lots),
        weights,
    })
}

/// What is owed bends only at these prices, so the most is owed at one of them.
fn corner_prices(orders: &[Order], ceiling: u64, kinks: &[u64]) -> Vec<u64> {
    let mut prices = vec![0, ceiling];
    prices.extend(kinks);
    for order in orders {
        prices.extend(order.contract.breakpoints(ceiling));
    }
    prices.sort();
    prices.dedup();
    prices
}

impl Task<'_> {
    fn fills(&self, lots: &[i128]) -> Vec<Fill> {
        let named = self.orders.iter().zip(lots).filter(|(_, lots)| **lots > 0);
        let mut fills: Vec<Fill> = named
            .map(|(order, lots)| Fill {
                order: order.number,
                lots: *lots as u64,
            })
            .collect();
        fills.sort_by_key(|fill| fill.order);
        fills
    }

    fn net(&self, lots: &[i128]) -> i128 {
        let cash: i128 = self
            .orders
            .iter()
            .zip(lots)
            .map(|(o, q)| o.side.sign() * o.price * q)
            .sum();
        let owed = (0..self.prices.len()).map(|at| {
            let sum: i128 = (0..lots.len())
                .map(|i| self.orders[i].side.sign() * self.payoffs[i][at] * lots[i])
                .sum();
            sum + self.beside[at]
        });
        cash - owed.max().unwrap_or(0)
    }

    /// Each count of lots that is no whole number is tried a part lower and a part higher.
    fn whole_lots(&self, parts: &[Ratio]) -> Vec<i128> {
        let floor: Vec<i128> = parts.iter().map(|part| part.floor()).collect();
        let broken: Vec<usize> = (0..parts.len()).filter(|i| !parts[*i].is_whole()).collect();
        let mut best = floor.clone();
        for choice in 0..1u32 << broken.len() {
            let mut lots = floor.clone();
            for (bit, index) in broken.iter().enumerate() {
                lots[*index] += i128::from(choice >> bit & 1);
            }
            if self.net(&lots) > self.net(&best) {
                best = lots;
            }
        }
        best
    }

    /// The shares over a common bottom, or rounded to millionths where that is too large.
    fn weights(&self, shares: &[Ratio]) -> Option<Vec<Weight>> {
        let most = i128::from(MOST_WEIGHT);
        let mut sum: i128 = 1;
        for share in shares {
            sum = (sum / gcd(sum, share.bottom()))
                .checked_mul(share.bottom())?
                .min(most + 1);
        }
        let sum = Ratio::whole(sum.min(most));
        let mut weights = Vec::new();
        for (price, share) in self.prices.iter().zip(shares) {
            let weight = share.times(sum)?.floor() as u64;
            if weight > 0 {
                weights.push(Weight {
                    price: *price,
                    weight,
                });
            }
        }
        Some(weights)
    }

    /// The lots of each order, and the share of each price, at the best.
    fn best_in_parts(&self) -> Option<(Vec<Ratio>, Vec<Ratio>)> {
        let mut table = self.table();
        while let Some(column) = table.entering() {
            let row = table.leaving(column)?;
            table.pivot(row, column)?;
        }
        let lots = (0..self.orders.len()).map(|i| table.solution(i)).collect();
        let slack = self.orders.len() + 2;
        let shares = (0..self.prices.len())
            .map(|at| table.goal[slack + at])
            .collect();
        Some((lots, shares))
    }

    /// Unknowns: the lots of each order, the reserve in two parts (above and below 0), and one
    /// slack for each row. Rows: what is owed at each price is at most the reserve, and lots are
    /// at most the open lots. The reserve is counted from the most that is owed besides, so that
    /// no right side is negative and filling nothing is a start.
    fn table(&self) -> Table {
        let (orders, prices) = (self.orders.len(), self.prices.len());
        let start = self.beside.iter().copied().max().unwrap_or(0);
        let (unknowns, rows) = (orders + 2, orders + prices);
        let width = unknowns + rows + 1;
        let mut table = Table {
            rows: vec![vec![Ratio::whole(0); width]; rows],
            goal: vec![Ratio::whole(0); width],
            basis: (unknowns..unknowns + rows).collect(),
        };
        for (i, order) in self.orders.iter().enumerate() {
            let sign = order.side.sign();
            table.goal[i] = Ratio::whole(-sign * order.price);
            for at in 0..prices {
                table.rows[at][i] = Ratio::whole(sign * self.payoffs[i][at]);
            }
            table.rows[prices + i][i] = Ratio::whole(1);
            table.rows[prices + i][width - 1] = Ratio::whole(order.open);
        }
        table.goal[orders] = Ratio::whole(1);
        table.goal[orders + 1] = Ratio::whole(-1);
        for at in 0..prices {
            table.rows[at][orders] = Ratio::whole(-1);
            table.rows[at][orders + 1] = Ratio::whole(1);
            table.rows[at][width - 1] = Ratio::whole(start - self.beside[at]);
        }
        for row in 0..rows {
            table.rows[row][unknowns + row] = Ratio::whole(1);
        }
        table
    }
}

/// A simplex table. The last column is the right side, and `basis` has each row's unknown.
struct Table {
    rows: Vec<Vec<Ratio>>,
    goal: Vec<Ratio>,
    basis: Vec<usize>,
}

impl Table {
    /// The first column that still improves: always the first, so that no basis comes twice.
    fn entering(&self) -> Option<usize> {
        (0..self.goal.len() - 1).find(|column| self.goal[*column].sign() < 0)
    }

    /// The row that limits the column most; of equals the one with the first unknown.
    fn leaving(&self, column: usize) -> Option<usize> {
        let mut best: Option<(Ratio, usize)> = None;
        for (row, entries) in self.rows.iter().enumerate() {
            if entries[column].sign() <= 0 {
                continue;
            }
            let limit = entries[entries.len() - 1].over(entries[column])?;
            let better = match best {
                None => true,
                Some((least, at)) => {
                    limit.is_below(least)? || limit == least && self.basis[row] < self.basis[at]
                }
            };
            if better {
                best = Some((limit, row));
            }
        }
        best.map(|(_, row)| row)
    }

    fn pivot(&mut self, row: usize, column: usize) -> Option<()> {
        let by = self.rows[row][column];
        let mut turned = Vec::new();
        for entry in &self.rows[row] {
            turned.push(entry.over(by)?);
        }
        for (index, entries) in self.rows.iter_mut().enumerate() {
            if index != row {
                take_off(entries, &turned, column)?;
            }
        }
        take_off(&mut self.goal, &turned, column)?;
        self.rows[row] = turned;
        self.basis[row] = column;
        Some(())
    }

    fn solution(&self, unknown: usize) -> Ratio {
        let row = self.basis.iter().position(|basic| *basic == unknown);
        row.map_or(Ratio::whole(0), |row| self.rows[row][self.goal.len() - 1])
    }
}

/// Takes off so many times the turned row that the column becomes 0.
fn take_off(entries: &mut [Ratio], turned: &[Ratio], column: usize) -> Option<()> {
    let times = entries[column];
    if times.sign() == 0 {
        return Some(());
    }
    for (entry, by) in entries.iter_mut().zip(turned) {
        if by.sign() != 0 {
            *entry = entry.minus(times.times(*by)?)?;
        }
    }
    Some(())
}
