//! One seeded random list of calls: which sort of line comes when.

use crate::contracts::Contract;
use crate::house::{MOST_CEILING, MOST_GAP, MOST_ROWS};
use crate::lines::{contract_words, Kind};
use crate::matching::Side;
use crate::writer::Writer;

/// The list of a seed. Every token is published by its end.
pub fn generate(seed: u64) -> String {
    let mut writer = Writer::new(seed);
    writer.lines.push(format!("# list {seed}"));
    if writer.dice.chance(4) {
        writer.fill_a_house();
    } else {
        writer.mixed_list();
    }
    writer.finish();
    writer.lines.push(String::new());
    writer.lines.join("\n")
}

impl Writer {
    fn mixed_list(&mut self) {
        let length = self.dice.between(40, 180) as usize;
        if self.dice.chance(40) {
            self.open_refused();
        }
        for _ in 0..self.dice.between(1, 3) {
            self.open_some_house();
        }
        if self.dice.chance(20) {
            self.exchange_tokens();
        }
        while self.lines.len() < length {
            if self.house().closed && self.dice.chance(80) {
                self.leave_a_closed_house();
            }
            self.one_step();
        }
    }

    /// Few calls do anything in a closed house, so the list mostly goes on in another.
    fn leave_a_closed_house(&mut self) {
        let open: Vec<String> = self
            .session
            .seats
            .iter()
            .filter(|(_, seat)| !seat.house.closed)
            .map(|(tag, _)| tag.clone())
            .collect();
        if open.is_empty() {
            self.open_some_house();
        } else {
            let tag = self.dice.pick(&open);
            self.say(format!("use {tag}"));
        }
    }

    /// One call, or a few that belong together.
    fn one_step(&mut self) {
        match self.dice.pick_by_shares(&[
            7, 1, 2, 11, 9, 6, 4, 6, 25, 3, 4, 10, 8, 4, 14, 8, 9, 8, 3, 1,
        ]) {
            0 => self.use_some_house(),
            1 => self.open_refused(),
            2 => self.open_some_house(),
            3 => self.move_cash(),
            4 => self.enter_motif(),
            5 => self.enter_some_order(),
            6 => self.enter_anything(),
            7 => self.cancel_some_order(),
            8 => self.clear_solved(),
            9 => self.clear_without_fills(),
            10 => self.clear_by_guess(),
            11 => self.clear_spoiled(),
            12 => self.publish_own(),
            13 => self.publish_foreign(),
            14 => self.ask(),
            15 => self.quote_solved(),
            16 => self.quote_spoiled(),
            17 => self.ask_a_kind(),
            18 => self.exchange_tokens(),
            _ => self.settle(),
        }
    }

    /// A question other than a quote.
    fn ask(&mut self) {
        let line = match self.dice.pick_by_shares(&[30, 20, 20, 15, 15]) {
            0 if self.dice.chance(12) => format!("account {}", self.around(64)),
            0 => format!("account {}", self.member()),
            1 => {
                let last = self.house().last_order;
                let known = self.dice.between(0, last);
                let number = if self.dice.chance(70) {
                    known
                } else {
                    self.around(last)
                };
                format!("order {number}")
            }
            2 => {
                let count = self.standing().len() as u64;
                let length = self.dice.pick(&[count, count, count + 1, count + 7, 300]);
                let short = self.dice.between(0, count);
                let length = if self.dice.chance(30) { short } else { length };
                format!(
                    "standing {}",
                    self.dice.pick(&[length, length, count.saturating_sub(1)])
                )
            }
            3 => format!("exposure {}", self.price_of_index()),
            _ => "house".to_string(),
        };
        self.say(line);
    }

    fn settle(&mut self) {
        if self.dice.chance(30) {
            self.publish_own();
        }
        let price = self.price_of_index();
        self.say(format!("settle {price}"));
    }

    /// The five questions that are asked of a contract, under any ceiling.
    fn ask_a_kind(&mut self) {
        let ceiling = match self.dice.pick_by_shares(&[50, 25, 15, 10]) {
            0 => self.dice.between(1, 30),
            1 => 200,
            2 => self.dice.pick(&[1, 2, MOST_CEILING]),
            _ => self.around(MOST_CEILING),
        };
        let under = ceiling.clamp(1, MOST_CEILING);
        let contract = self.contract_of_any_kind(under);
        let mut prices = vec![
            0,
            under,
            under + 1,
            self.dice.between(0, under),
            self.around(under),
        ];
        for kink in contract.breakpoints(under) {
            prices.extend([kink.saturating_sub(1), kink, kink + 1]);
        }
        let (price, index) = (self.dice.pick(&prices), self.around(2));
        self.say(format!(
            "kind {ceiling} {} {price} {index}",
            contract_words(&contract)
        ));
    }

    fn contract_of_any_kind(&mut self, ceiling: u64) -> Contract {
        let kind = self.dice.pick(&[Kind::Bands, Kind::Pairs, Kind::Pairs]);
        match self.dice.between(0, 5) {
            0 => self.some_option(ceiling),
            1 => self.some_spread(ceiling),
            2 => self.some_pair(ceiling),
            _ => self.extreme_contract(kind, ceiling),
        }
    }

    /// Every row of a house is used, then some are freed again. All orders are on one contract,
    /// so that all can be filled against each other.
    fn fill_a_house(&mut self) {
        let ceiling = self.dice.pick(&[10, 30, 200]);
        let (gap, rows) = (
            self.dice.pick(&[0, MOST_GAP]),
            self.dice.pick(&[256, 257, 300]),
        );
        self.open_house(ceiling, gap, rows);
        let contract = self.some_contract();
        let (down, up) = self.worth(&contract);
        for member in [1, 2] {
            self.say(format!("deposit {member} 100000000"));
        }
        for turn in 0..=MOST_ROWS {
            let (member, side, price) = if turn % 2 == 0 {
                (1, Side::Buy, up)
            } else {
                (2, Side::Sell, down)
            };
            self.enter_funded(member, side, &contract, price, 1);
        }
        for length in [MOST_ROWS - 1, MOST_ROWS, 300] {
            self.say(format!("standing {length}"));
        }
        self.clear_all_that_stand();
        self.publish_own();
        for _ in 0..12 {
            self.cancel_some_order();
            self.enter_some_order();
        }
        for _ in 0..10 {
            self.ask();
        }
    }

    /// Each house in turn, mostly settled. Others may still owe a report meanwhile, so that a
    /// closed house can be brought their tokens.
    fn finish(&mut self) {
        if self.session.seats.is_empty() {
            self.open_some_house();
        }
        let tags: Vec<String> = self.session.seats.keys().cloned().collect();
        for tag in tags {
            self.say(format!("use {tag}"));
            if self.dice.chance(60) {
                self.publish_own();
                self.settle();
            }
            self.publish_foreign();
            for _ in 0..self.dice.between(2, 8) {
                self.after_all();
            }
        }
        self.publish_all();
        let in_hand = self
            .session
            .seats
            .values()
            .filter(|seat| seat.token.is_some());
        assert_eq!(
            in_hand.count(),
            0,
            "a list publishes every token by its end"
        );
    }

    /// Mostly what is asked of a house once it is closed; each call has its answer there too.
    fn after_all(&mut self) {
        match self
            .dice
            .pick_by_shares(&[30, 22, 6, 8, 8, 6, 8, 8, 8, 6, 8, 4])
        {
            0 => self.ask(),
            1 => self.move_cash(),
            2 => self.enter_some_order(),
            3 => self.enter_anything(),
            4 => self.cancel_some_order(),
            5 => self.clear_without_fills(),
            6 => self.clear_spoiled(),
            7 => self.quote_solved(),
            8 => self.quote_spoiled(),
            9 => self.publish_foreign(),
            10 => self.settle(),
            _ => self.use_some_house(),
        }
    }
}
