//! The house: what it keeps, and what each call and question answers and changes.
//! Every call makes its tests in the order of the numbers in the rules.

use crate::contracts::{Contract, Fault};
use crate::matching::{
    bound, cash_now, filled_before, given, owed, peak, reserve, value, weight_sum, Fill, Order,
    Peak, Side, Weight,
};

pub const MOST_MEMBERS: u64 = 64;
pub const MOST_ROWS: u64 = 256;
pub const MOST_CASH: u64 = 1_000_000_000_000;
pub const MOST_PRICE: u64 = 1_000_000;
pub const MOST_LOTS: u64 = 1_000;
pub const MOST_WEIGHTS: u64 = 512;
pub const MOST_WEIGHT: u64 = 1_000_000;
pub const LAST_NUMBER: u64 = 999_999;
pub const MOST_HOUSE_NUMBER: u64 = 65_535;
pub const MOST_CEILING: u64 = 100_000;
pub const MOST_GAP: u64 = 1_000_000_000;

/// A refusal by its number, with what it carries.
#[derive(Clone, Debug, PartialEq)]
pub struct Refusal {
    pub number: u64,
    pub carries: Vec<u64>,
}

pub type Answer<T> = Result<T, Refusal>;

/// What an accepted clear answers, and what its report tells.
#[derive(Clone, Debug, PartialEq)]
pub struct Cleared {
    pub clearing: u64,
    pub net: i128,
    pub reserve: i128,
    pub worst: u64,
    pub gap: i128,
    pub weights: i128,
}

#[derive(Clone, Debug, PartialEq)]
pub struct Quote {
    pub premium: i128,
    pub reserve: i128,
    pub worst: u64,
    pub gap: i128,
    pub weights: i128,
}

#[derive(Clone, Copy, Debug, PartialEq)]
pub enum Request {
    Bid,
    Ask,
}

/// The duty to publish one report.
#[derive(Clone, Debug, PartialEq)]
pub struct Token {
    pub house: u64,
    pub clearing: u64,
}

pub struct House {
    pub number: u64,
    pub ceiling: u64,
    pub allowed_gap: u64,
    pub room: usize,
    pub members_cash: Vec<i128>,
    pub cash: i128,
    pub reserve: i128,
    pub orders: Vec<Order>,
    pub last_order: u64,
    pub clearings: u64,
    pub report_owed: Option<Cleared>,
    pub closed: bool,
}

fn refusal(number: u64, carries: &[u64]) -> Refusal {
    Refusal {
        number,
        carries: carries.to_vec(),
    }
}

/// One test of a call: where it does not hold, the call is refused with the number.
fn test(holds: bool, number: u64) -> Answer<()> {
    if holds {
        Ok(())
    } else {
        Err(refusal(number, &[]))
    }
}

fn test_member(member: u64) -> Answer<()> {
    test((1..=MOST_MEMBERS).contains(&member), 12)
}

fn test_amount(amount: u64) -> Answer<()> {
    test((1..=MOST_CASH).contains(&amount), 13)
}

fn test_contract(contract: &Contract, ceiling: u64) -> Answer<()> {
    match contract.fault(ceiling) {
        None => Ok(()),
        Some(Fault { reason, place }) => Err(refusal(14, &[reason, place])),
    }
}

fn test_lots(lots: u64) -> Answer<()> {
    test((1..=MOST_LOTS).contains(&lots), 16)
}

fn test_fills(fills: &[Fill]) -> Answer<()> {
    for index in 0..fills.len() {
        let rises = index == 0 || fills[index].order > fills[index - 1].order;
        if fills[index].lots == 0 || !rises {
            return Err(refusal(18, &[index as u64]));
        }
    }
    Ok(())
}

/// In three stages: how many there are, then each entry, then the sum.
fn test_weights(weights: &[Weight], ceiling: u64) -> Answer<()> {
    let count = weights.len() as u64;
    if count == 0 || count > MOST_WEIGHTS {
        return Err(refusal(19, &[count]));
    }
    for (index, entry) in weights.iter().enumerate() {
        if entry.price > ceiling || entry.weight > MOST_WEIGHT {
            return Err(refusal(19, &[index as u64]));
        }
    }
    let sum = weight_sum(weights);
    if sum == 0 || sum > i128::from(MOST_WEIGHT) {
        return Err(refusal(19, &[count]));
    }
    Ok(())
}

/// The bytes of a report.
pub fn report_text(figures: &Cleared) -> String {
    format!(
        "clearing={}\nnet={}\nreserve={}\nworst={}\ngap={}\nweights={}\n",
        figures.clearing, figures.net, figures.reserve, figures.worst, figures.gap, figures.weights
    )
}

impl House {
    /// Refused with 10 where a figure of the terms is out of its range.
    pub fn open(number: u64, ceiling: u64, allowed_gap: u64, rows: u64) -> Answer<House> {
        test(number <= MOST_HOUSE_NUMBER, 10)?;
        test((1..=MOST_CEILING).contains(&ceiling), 10)?;
        test(allowed_gap <= MOST_GAP, 10)?;
        Ok(House {
            number,
            ceiling,
            allowed_gap,
            room: rows.min(MOST_ROWS) as usize,
            members_cash: vec![0; MOST_MEMBERS as usize],
            cash: 0,
            reserve: 0,
            orders: Vec::new(),
            last_order: 0,
            clearings: 0,
            report_owed: None,
            closed: false,
        })
    }

    pub fn cash_of(&self, member: u64) -> i128 {
        self.members_cash[member as usize - 1]
    }

    fn credit(&mut self, member: u64, amount: i128) {
        self.members_cash[member as usize - 1] += amount;
    }

    /// Counted anew from the orders each time.
    pub fn held(&self, member: u64) -> i128 {
        let own = self.orders.iter().filter(|order| order.member == member);
        own.map(|order| match order.side {
            Side::Buy => order.price * order.open,
            Side::Sell => order.contract.collateral(self.ceiling) * (order.open + order.filled),
        })
        .sum()
    }

    pub fn free_cash(&self, member: u64) -> i128 {
        self.cash_of(member) - self.held(member)
    }

    pub fn all_cash(&self) -> i128 {
        self.cash + self.members_cash.iter().sum::<i128>()
    }

    pub fn standing_orders(&self) -> Vec<&Order> {
        self.orders.iter().filter(|order| order.open > 0).collect()
    }

    pub fn open_lots(&self, number: u64) -> i128 {
        let order = self.orders.iter().find(|order| order.number == number);
        order.map_or(0, |order| order.open)
    }

    /// An order without lots is no order any more: its row is unused.
    fn drop_empty_orders(&mut self) {
        self.orders
            .retain(|order| order.open > 0 || order.filled > 0);
    }

    fn test_open(&self) -> Answer<()> {
        test(!self.closed, 40)
    }

    fn test_no_report_owed(&self) -> Answer<()> {
        test(self.report_owed.is_none(), 41)
    }

    fn test_total(&self, amount: u64) -> Answer<()> {
        test(
            self.all_cash() + i128::from(amount) <= i128::from(MOST_CASH),
            46,
        )
    }

    /// All fills are tested for standing before any is tested for its lots.
    fn test_orders(&self, fills: &[Fill]) -> Answer<()> {
        for fill in fills {
            if self.open_lots(fill.order) == 0 {
                return Err(refusal(44, &[fill.order]));
            }
        }
        for fill in fills {
            if i128::from(fill.lots) > self.open_lots(fill.order) {
                return Err(refusal(45, &[fill.order]));
            }
        }
        Ok(())
    }

    fn test_gap(&self, gap: i128, weights: i128) -> Answer<()> {
        test(gap <= i128::from(self.allowed_gap) * weights, 48)
    }

    pub fn deposit(&mut self, member: u64, amount: u64) -> Answer<()> {
        test_member(member)?;
        test_amount(amount)?;
        self.test_open()?;
        self.test_total(amount)?;
        self.credit(member, i128::from(amount));
        Ok(())
    }

    pub fn fund(&mut self, amount: u64) -> Answer<()> {
        test_amount(amount)?;
        self.test_open()?;
        self.test_total(amount)?;
        self.cash += i128::from(amount);
        Ok(())
    }

    pub fn withdraw(&mut self, member: u64, amount: u64) -> Answer<()> {
        test_member(member)?;
        test_amount(amount)?;
        test(self.free_cash(member) >= i128::from(amount), 42)?;
        self.credit(member, -i128::from(amount));
        Ok(())
    }

    /// What `take` may carry out: a negative reserve frees nothing.
    pub fn unreserved(&self) -> i128 {
        self.cash - self.reserve.max(0)
    }

    pub fn take(&mut self, amount: u64) -> Answer<()> {
        test_amount(amount)?;
        test(i128::from(amount) <= self.unreserved(), 49)?;
        self.cash -= i128::from(amount);
        Ok(())
    }

    /// What an order will hold when it is entered.
    pub fn new_hold(&self, side: Side, contract: &Contract, price: u64, lots: u64) -> i128 {
        let each = match side {
            Side::Buy => i128::from(price),
            Side::Sell => contract.collateral(self.ceiling),
        };
        each * i128::from(lots)
    }

    pub fn enter(
        &mut self,
        member: u64,
        side: Side,
        contract: Contract,
        price: u64,
        lots: u64,
    ) -> Answer<u64> {
        test_member(member)?;
        test_contract(&contract, self.ceiling)?;
        test(price <= MOST_PRICE, 15)?;
        test_lots(lots)?;
        self.test_open()?;
        test(
            self.free_cash(member) >= self.new_hold(side, &contract, price, lots),
            42,
        )?;
        test(self.orders.len() < self.room, 43)?;
        test(self.last_order < LAST_NUMBER, 50)?;
        self.last_order += 1;
        self.orders.push(Order {
            number: self.last_order,
            member,
            side,
            contract,
            price: i128::from(price),
            open: i128::from(lots),
            filled: 0,
        });
        Ok(self.last_order)
    }

    pub fn cancel(&mut self, member: u64, number: u64) -> Answer<()> {
        test_member(member)?;
        self.test_open()?;
        let mut orders = self.orders.iter_mut();
        let own = orders.find(|order| order.number == number && order.member == member);
        match own {
            Some(order) if order.open > 0 => order.open = 0,
            _ => return Err(refusal(44, &[number])),
        }
        self.drop_empty_orders();
        Ok(())
    }

    pub fn clear(&mut self, fills: &[Fill], weights: &[Weight]) -> Answer<(Cleared, Token)> {
        test_fills(fills)?;
        test_weights(weights, self.ceiling)?;
        self.test_open()?;
        self.test_no_report_owed()?;
        self.test_orders(fills)?;
        let (cash_now, figures) = self.figures_of(fills, weights);
        test(figures.net >= 0, 47)?;
        self.test_gap(figures.gap, figures.weights)?;
        test(self.cash + cash_now >= 0, 49)?;
        test(self.clearings < LAST_NUMBER, 50)?;
        self.book(fills);
        self.cash += cash_now;
        self.reserve += figures.reserve;
        self.clearings += 1;
        self.report_owed = Some(figures.clone());
        let token = Token {
            house: self.number,
            clearing: figures.clearing,
        };
        Ok((figures, token))
    }

    /// Cash now, and what the clearing would answer.
    pub fn figures_of(&self, fills: &[Fill], weights: &[Weight]) -> (i128, Cleared) {
        let lots = given(&self.orders, fills);
        let cash_now = cash_now(&lots);
        let peak = reserve(&lots, self.ceiling);
        let net = cash_now - peak.owed;
        let sum = weight_sum(weights);
        let figures = Cleared {
            clearing: self.clearings + 1,
            net,
            reserve: peak.owed,
            worst: peak.price,
            gap: bound(&self.orders, weights, self.ceiling) - sum * net,
            weights: sum,
        };
        (cash_now, figures)
    }

    fn book(&mut self, fills: &[Fill]) {
        for fill in fills {
            let lots = i128::from(fill.lots);
            let mut orders = self.orders.iter_mut();
            let order = orders
                .find(|order| order.number == fill.order)
                .expect("tested to stand");
            order.open -= lots;
            order.filled += lots;
            let (member, paid) = (order.member, order.side.sign() * order.price * lots);
            self.credit(member, -paid);
        }
    }

    /// The token stays with the caller, who keeps it after a refusal.
    pub fn publish(&mut self, token: &Token, page: &mut [u8]) -> Answer<usize> {
        let figures = match &self.report_owed {
            Some(figures) if token.house == self.number && token.clearing == self.clearings => {
                figures
            }
            _ => return Err(refusal(51, &[])),
        };
        let text = report_text(figures);
        test(page.len() >= text.len(), 52)?;
        page[..text.len()].copy_from_slice(text.as_bytes());
        self.report_owed = None;
        Ok(text.len())
    }

    pub fn settle(&mut self, price: u64) -> Answer<()> {
        test(price <= self.ceiling, 17)?;
        self.test_open()?;
        self.test_no_report_owed()?;
        for order in std::mem::take(&mut self.orders) {
            let payoff = order.contract.payoff(self.ceiling, price) * order.filled;
            let paid = order.side.sign() * payoff;
            self.credit(order.member, paid);
            self.cash -= paid;
        }
        self.reserve = 0;
        self.closed = true;
        Ok(())
    }

    pub fn account(&self, member: u64) -> Answer<(i128, i128)> {
        test_member(member)?;
        Ok((self.cash_of(member), self.held(member)))
    }

    pub fn order(&self, number: u64) -> Option<(i128, i128)> {
        let order = self.orders.iter().find(|order| order.number == number);
        order.map(|order| (order.open, order.filled))
    }

    /// The numbers of the standing orders, rising. The order is free in the rules; the line
    /// format asks for it.
    pub fn standing(&self, room: u64) -> Answer<Vec<u64>> {
        let mut numbers: Vec<u64> = self.standing_orders().iter().map(|o| o.number).collect();
        test(numbers.len() as u64 <= room, 53)?;
        numbers.sort();
        Ok(numbers)
    }

    pub fn exposure(&self, price: u64) -> Answer<i128> {
        test(price <= self.ceiling, 17)?;
        Ok(owed(&filled_before(&self.orders), self.ceiling, price))
    }

    pub fn quote(
        &self,
        contract: &Contract,
        request: Request,
        lots: u64,
        fills: &[Fill],
        weights: &[Weight],
    ) -> Answer<Quote> {
        test_contract(contract, self.ceiling)?;
        test_lots(lots)?;
        test_fills(fills)?;
        test_weights(weights, self.ceiling)?;
        self.test_open()?;
        self.test_orders(fills)?;
        let quote = self.quote_figures(contract, request, lots, fills, weights);
        self.test_gap(quote.gap, quote.weights)?;
        Ok(quote)
    }

    pub fn quote_figures(
        &self,
        contract: &Contract,
        request: Request,
        lots: u64,
        fills: &[Fill],
        weights: &[Weight],
    ) -> Quote {
        let filled = given(&self.orders, fills);
        let cash_now = cash_now(&filled);
        let bound = bound(&self.orders, weights, self.ceiling);
        let sum = weight_sum(weights);
        let lots = i128::from(lots);
        let worth = lots * value(contract, weights, self.ceiling);
        let sign = match request {
            Request::Bid => -1,
            Request::Ask => 1,
        };
        let Peak {
            owed: reserve,
            price: worst,
        } = peak(self.ceiling, |price| {
            owed(&filled, self.ceiling, price) + sign * lots * contract.payoff(self.ceiling, price)
        });
        let (premium, gap) = match request {
            Request::Bid => {
                let premium = cash_now - reserve;
                (premium, bound + worth - sum * premium)
            }
            Request::Ask => {
                let premium = reserve - cash_now;
                (premium, sum * premium + bound - worth)
            }
        };
        Quote {
            premium,
            reserve,
            worst,
            gap,
            weights: sum,
        }
    }
}
