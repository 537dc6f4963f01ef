//! Lines that open houses, move cash and enter orders.

use crate::contracts::Contract;
use crate::house::{MOST_CASH, MOST_CEILING, MOST_GAP, MOST_HOUSE_NUMBER, MOST_LOTS, MOST_PRICE};
use crate::lines::{contract_words, Kind};
use crate::matching::{Side, Weight};
use crate::writer::{Writer, LARGEST, TAGS};

/// Orders of one motif: side and contract. Filled alike, they owe little or nothing, or much
/// the same at every price.
type Motif = Vec<(Side, Contract)>;

fn side_word(side: Side) -> &'static str {
    match side {
        Side::Buy => "buy",
        Side::Sell => "sell",
    }
}

fn other(side: Side) -> Side {
    match side {
        Side::Buy => Side::Sell,
        Side::Sell => Side::Buy,
    }
}

impl Writer {
    fn free_tag(&mut self) -> Option<&'static str> {
        let free: Vec<&str> = TAGS
            .iter()
            .copied()
            .filter(|tag| !self.session.seats.contains_key(*tag))
            .collect();
        if free.is_empty() {
            None
        } else {
            Some(self.dice.pick(&free))
        }
    }

    /// Houses of one list have different numbers, as the rules ask.
    fn free_number(&mut self) -> u64 {
        loop {
            let any = self.dice.between(2, MOST_HOUSE_NUMBER - 1);
            let number = self.dice.pick(&[0, 1, MOST_HOUSE_NUMBER, any, any]);
            if self
                .session
                .seats
                .values()
                .all(|seat| seat.house.number != number)
            {
                return number;
            }
        }
    }

    fn kind_word(&mut self) -> &'static str {
        self.dice.pick(&["bands", "pairs"])
    }

    fn some_ceiling(&mut self) -> u64 {
        match self.dice.pick_by_shares(&[55, 25, 5, 8, 4, 3]) {
            0 => self.dice.between(2, 30),
            1 => 200,
            2 => 1,
            3 => self.dice.between(31, 2_000),
            4 => MOST_CEILING,
            _ => MOST_CEILING - 1,
        }
    }

    fn some_gap(&mut self) -> u64 {
        let few = self.dice.between(1, 30);
        self.dice.pick(&[0, 0, 0, few, few, 1, 1_000, MOST_GAP])
    }

    fn some_rows(&mut self) -> u64 {
        let few = self.dice.between(0, 6);
        self.dice
            .pick(&[few, few, 12, 16, 20, 30, 40, 256, 257, 300])
    }

    pub fn open_some_house(&mut self) {
        let (ceiling, gap, rows) = (self.some_ceiling(), self.some_gap(), self.some_rows());
        self.open_house(ceiling, gap, rows);
    }

    pub fn open_house(&mut self, ceiling: u64, gap: u64, rows: u64) {
        let Some(tag) = self.free_tag() else { return };
        let (kind, number) = (self.kind_word(), self.free_number());
        self.say(format!("open {tag} {kind} {number} {ceiling} {gap} {rows}"));
        let belief = self.some_belief(ceiling);
        self.beliefs.insert(tag.to_string(), belief);
    }

    fn some_belief(&mut self, ceiling: u64) -> Vec<Weight> {
        let count = self.dice.between(1, 4);
        (0..count)
            .map(|_| Weight {
                price: self.dice.between(0, ceiling),
                weight: self.dice.between(1, 9),
            })
            .collect()
    }

    /// Terms with one figure that is out of its range, or two.
    pub fn open_refused(&mut self) {
        let Some(tag) = self.free_tag() else { return };
        let mut terms = [7, 100, 5];
        let limits = [MOST_HOUSE_NUMBER, MOST_CEILING, MOST_GAP];
        for _ in 0..self.dice.between(1, 2) {
            let which = self.dice.between(0, 2) as usize;
            let zero_is_out = which == 1 && self.dice.chance(50);
            let above = self
                .dice
                .pick(&[limits[which] + 1, limits[which] + 1, LARGEST]);
            terms[which] = if zero_is_out { 0 } else { above };
        }
        let (kind, rows) = (self.kind_word(), self.some_rows());
        self.say(format!(
            "open {tag} {kind} {} {} {} {rows}",
            terms[0], terms[1], terms[2]
        ));
    }

    pub fn use_some_house(&mut self) {
        let tags: Vec<String> = self.session.seats.keys().cloned().collect();
        let tag = self.dice.pick(&tags);
        self.say(format!("use {tag}"));
    }

    pub fn move_cash(&mut self) {
        match self.dice.pick_by_shares(&[10, 6, 20, 18, 34, 12]) {
            0 => self.deposit_some(),
            1 => self.fund_some(),
            2 => self.withdraw_near_free_cash(),
            3 => self.take_near_unreserved(),
            4 => self.move_extreme_amount(),
            _ => self.move_cash_twice_wrong(),
        }
    }

    /// Neither the member nor the amount is in its range, so the first test must tell.
    fn move_cash_twice_wrong(&mut self) {
        let member = self.dice.pick(&[0, 65, LARGEST]);
        let amount = self.dice.pick(&[0, MOST_CASH + 1, u64::MAX]);
        let call = self.dice.pick(&["deposit", "withdraw"]);
        self.say(format!("{call} {member} {amount}"));
    }

    fn deposit_some(&mut self) {
        let (member, amount) = (self.member(), self.dice.between(1, 5_000));
        self.say(format!("deposit {member} {amount}"));
    }

    fn fund_some(&mut self) {
        let amount = self.dice.between(1, 500);
        self.say(format!("fund {amount}"));
    }

    /// Below a figure, the figure itself, and one above it. An amount is not negative.
    fn near(&mut self, figure: i128) -> u64 {
        let figure = figure.max(0) as u64;
        let less = if figure == 0 {
            0
        } else {
            self.dice.between(0, figure)
        };
        self.dice.pick(&[
            figure,
            figure,
            figure + 1,
            figure + 1,
            less,
            less.max(1),
            less.max(1),
        ])
    }

    fn withdraw_near_free_cash(&mut self) {
        let member = self.member();
        let known = (1..=64).contains(&member);
        let free = if known {
            self.house().free_cash(member)
        } else {
            1
        };
        let amount = self.near(free);
        self.say(format!("withdraw {member} {amount}"));
    }

    pub fn take_near_unreserved(&mut self) {
        let unreserved = self.house().unreserved();
        let amount = self.near(unreserved);
        self.say(format!("take {amount}"));
    }

    fn move_extreme_amount(&mut self) {
        let member = if self.dice.chance(30) {
            self.around(64)
        } else {
            self.member()
        };
        let amount = self.extreme_amount();
        let room = MOST_CASH - self.house().all_cash() as u64;
        let full = self.dice.pick(&[room, room + 1]);
        let amount = if self.dice.chance(25) { full } else { amount };
        let line = match self.dice.between(0, 3) {
            0 => format!("deposit {member} {amount}"),
            1 => format!("withdraw {member} {amount}"),
            2 => format!("fund {amount}"),
            _ => format!("take {amount}"),
        };
        self.say(line);
        self.make_room_for_cash();
    }

    /// Where nearly all cash that there may be is in, some of it goes out again: otherwise the
    /// rest of the list could bring nothing in.
    fn make_room_for_cash(&mut self) {
        if self.house().all_cash() < i128::from(MOST_CASH / 2) || self.dice.chance(30) {
            return;
        }
        for member in 1..=64 {
            let free = self.house().free_cash(member);
            if free > i128::from(MOST_CASH / 4) {
                self.say(format!("withdraw {member} {}", free - 1_000));
            }
        }
        let unreserved = self.house().unreserved();
        if unreserved > i128::from(MOST_CASH / 4) {
            self.say(format!("take {}", unreserved - 1_000));
        }
    }

    pub fn some_option(&mut self, ceiling: u64) -> Contract {
        let strike = self.dice.between(1, ceiling);
        self.dice
            .pick(&[Contract::Call(strike), Contract::Put(strike)])
    }

    pub fn some_spread(&mut self, ceiling: u64) -> Contract {
        let low = self.dice.between(0, ceiling - 1);
        let high = self.dice.between(low + 1, ceiling);
        self.dice.pick(&[
            Contract::Rising { low, high },
            Contract::Falling { low, high },
        ])
    }

    pub fn some_pair(&mut self, ceiling: u64) -> Contract {
        let (first, second) = (self.some_option(ceiling), self.some_option(ceiling));
        Contract::Pair(Box::new(first), Box::new(second))
    }

    pub fn some_contract(&mut self) -> Contract {
        let (kind, ceiling) = (self.kind(), self.ceiling());
        match (self.dice.chance(55), kind) {
            (true, _) => self.some_option(ceiling),
            (false, Kind::Bands) => self.some_spread(ceiling),
            (false, Kind::Pairs) => self.some_pair(ceiling),
        }
    }

    /// A contract with figures around the limits, valid or not.
    pub fn extreme_contract(&mut self, kind: Kind, ceiling: u64) -> Contract {
        let (one, two) = (self.around(ceiling), self.around(ceiling));
        let call_or_put = |call: bool, k: u64| {
            if call {
                Contract::Call(k)
            } else {
                Contract::Put(k)
            }
        };
        let (first, second) = (self.dice.chance(50), self.dice.chance(50));
        match (self.dice.chance(40), kind) {
            (true, _) => call_or_put(first, one),
            (false, Kind::Bands) if first => Contract::Rising {
                low: one,
                high: two,
            },
            (false, Kind::Bands) => Contract::Falling {
                low: one,
                high: two,
            },
            (false, Kind::Pairs) => {
                let fine = self.dice.between(1, ceiling);
                let one = if self.dice.chance(40) { fine } else { one };
                Contract::Pair(
                    Box::new(call_or_put(first, one)),
                    Box::new(call_or_put(second, two)),
                )
            }
        }
    }

    /// Mostly a valid one.
    fn contract_maybe_extreme(&mut self) -> Contract {
        let (kind, ceiling) = (self.kind(), self.ceiling());
        if self.dice.chance(75) {
            self.some_contract()
        } else {
            self.extreme_contract(kind, ceiling)
        }
    }

    /// Any order, with any figure out of its range at times.
    pub fn enter_some_order(&mut self) {
        let (member, contract) = (self.member(), self.contract_maybe_extreme());
        let side = self.dice.pick(&[Side::Buy, Side::Sell]);
        let mut price = self.price_near_worth(side, &contract);
        let mut lots = self.lots();
        if self.dice.chance(15) {
            price = self.around(MOST_PRICE);
        }
        if self.dice.chance(15) {
            lots = self.around(MOST_LOTS);
        }
        if self.dice.chance(80) {
            self.enter_funded(member, side, &contract, price, lots);
        } else {
            self.enter(member, side, &contract, price, lots);
        }
    }

    /// Each figure may be out of its range, also several at once: the first test must tell.
    pub fn enter_anything(&mut self) {
        let (kind, ceiling) = (self.kind(), self.ceiling());
        let member = if self.dice.chance(50) {
            self.around(64)
        } else {
            self.member()
        };
        let contract = self.extreme_contract(kind, ceiling);
        let side = self.dice.pick(&[Side::Buy, Side::Sell]);
        let price = if self.dice.chance(50) {
            self.around(MOST_PRICE)
        } else {
            1
        };
        let lots = if self.dice.chance(50) {
            self.around(MOST_LOTS)
        } else {
            1
        };
        self.enter(member, side, &contract, price, lots);
    }

    fn enter(&mut self, member: u64, side: Side, contract: &Contract, price: u64, lots: u64) {
        let (side, contract) = (side_word(side), contract_words(contract));
        self.say(format!("enter {member} {side} {contract} {price} {lots}"));
    }

    /// Brings in what the order will hold, at times one tick less at first.
    pub fn enter_funded(
        &mut self,
        member: u64,
        side: Side,
        contract: &Contract,
        price: u64,
        lots: u64,
    ) {
        if !(1..=64).contains(&member) || lots > MOST_LOTS || price > MOST_PRICE {
            return self.enter(member, side, contract, price, lots);
        }
        let hold = self.house().new_hold(side, contract, price, lots);
        let missing = hold - self.house().free_cash(member);
        if missing > 1 && self.dice.chance(12) {
            self.say(format!("deposit {member} {}", missing - 1));
            self.enter(member, side, contract, price, lots);
            self.say(format!("deposit {member} 1"));
        } else if missing > 0 {
            let more = self.dice.pick(&[0, 0, 1, 10]);
            self.say(format!("deposit {member} {}", missing + more));
        }
        self.enter(member, side, contract, price, lots);
    }

    /// A buyer mostly offers a little more than the lot is thought to be worth, and a seller
    /// asks a little less: otherwise nothing could be matched.
    fn price_near_worth(&mut self, side: Side, contract: &Contract) -> u64 {
        let (down, up) = self.worth(contract);
        let eager = self.dice.pick(&[0, 0, 0, 1, 1, 2, 5]);
        let shy = self.dice.pick(&[0, 1, 1, 3]);
        match (side, self.dice.chance(80)) {
            (Side::Buy, true) => up + eager,
            (Side::Buy, false) => down.saturating_sub(shy),
            (Side::Sell, true) => down.saturating_sub(eager),
            (Side::Sell, false) => up + shy,
        }
    }

    /// Orders that go together, with the same lots or nearly so.
    pub fn enter_motif(&mut self) {
        if !self.has_room() && self.dice.chance(80) {
            return;
        }
        let motif = self.some_motif();
        let lots = self.lots();
        for (side, contract) in motif {
            let member = self.dice.between(1, 5);
            let price = self.price_near_worth(side, &contract);
            let lots = if self.dice.chance(85) {
                lots
            } else {
                self.lots()
            };
            self.enter_funded(member, side, &contract, price, lots);
        }
    }

    fn some_motif(&mut self) -> Motif {
        let side = self.dice.pick(&[Side::Buy, Side::Sell]);
        let ceiling = self.ceiling();
        if ceiling < 2 || self.dice.chance(30) {
            let contract = self.some_contract();
            return vec![(side, contract.clone()), (other(side), contract)];
        }
        match (self.dice.chance(50), self.kind()) {
            (true, _) => self.box_motif(side),
            (false, Kind::Bands) => self.spread_motif(side),
            (false, Kind::Pairs) => self.pair_motif(side),
        }
    }

    fn two_prices(&mut self) -> (u64, u64) {
        let ceiling = self.ceiling();
        let low = self.dice.between(1, ceiling - 1);
        (low, self.dice.between(low + 1, ceiling))
    }

    /// Two calls and two puts that owe the same at every price: more than 0 where the lower call
    /// is bought, less than 0 where it is sold.
    fn box_motif(&mut self, side: Side) -> Motif {
        let (low, high) = self.two_prices();
        vec![
            (side, Contract::Call(low)),
            (side, Contract::Put(high)),
            (other(side), Contract::Call(high)),
            (other(side), Contract::Put(low)),
        ]
    }

    /// A rising and a falling spread, which together owe the same at every price; or a rising
    /// one against the two calls that it is made of.
    fn spread_motif(&mut self, side: Side) -> Motif {
        let (low, high) = self.two_prices();
        if self.dice.chance(50) {
            return vec![
                (side, Contract::Rising { low, high }),
                (side, Contract::Falling { low, high }),
            ];
        }
        vec![
            (side, Contract::Rising { low, high }),
            (other(side), Contract::Call(low)),
            (side, Contract::Call(high)),
        ]
    }

    /// A pair against its two parts.
    fn pair_motif(&mut self, side: Side) -> Motif {
        let ceiling = self.ceiling();
        let (first, second) = (self.some_option(ceiling), self.some_option(ceiling));
        let pair = Contract::Pair(Box::new(first.clone()), Box::new(second.clone()));
        vec![(side, pair), (other(side), first), (other(side), second)]
    }

    /// Whether so many rows are unused that a motif finds room.
    pub fn has_room(&self) -> bool {
        self.house().orders.len() + 4 <= self.house().room
    }

    /// Orders are cancelled until so few stand that a proposal can be solved for them.
    pub fn thin_out(&mut self, most: usize) {
        while self.standing().len() > most {
            let standing = self.standing();
            let order = self.dice.pick(&standing);
            self.say(format!("cancel {} {}", order.member, order.number));
        }
    }

    /// One's own order, somebody else's, one that is gone, or one that never was.
    pub fn cancel_some_order(&mut self) {
        let orders = self.house().orders.clone();
        if self.house().last_order > 0 && self.dice.chance(20) {
            let member = self.dice.between(1, 5);
            self.say(format!("cancel {member} last"));
        } else if orders.is_empty() || self.dice.chance(20) {
            let last = self.house().last_order;
            let member = if self.dice.chance(25) {
                self.around(64)
            } else {
                self.member()
            };
            let number = self.around(last);
            self.say(format!("cancel {member} {number}"));
        } else {
            let order = self.dice.pick(&orders);
            let member = if self.dice.chance(75) {
                order.member
            } else {
                self.member()
            };
            self.say(format!("cancel {member} {}", order.number));
        }
    }
}
