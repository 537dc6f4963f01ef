//! A list of calls while it is written. Each line is also made on the model's own houses, so
//! that the next line can be chosen by the state that the houses are in.

use crate::contracts::Contract;
use crate::dice::Dice;
use crate::house::{report_text, House, MOST_CASH};
use crate::lines::{Kind, Session, UNREAD};
use crate::matching::{value, weight_sum, Order, Weight};
use std::collections::BTreeMap;

/// The largest figure that a list has where no amount is meant.
pub const LARGEST: u64 = 4_294_967_295;

pub const TAGS: [&str; 4] = ["A", "B", "C", "D"];

pub struct Writer {
    pub dice: Dice,
    pub session: Session,
    pub lines: Vec<String>,
    /// What is thought of the index in each house: its orders are priced near that, so that
    /// matchings are close to each other.
    pub beliefs: BTreeMap<String, Vec<Weight>>,
}

impl Writer {
    pub fn new(seed: u64) -> Writer {
        Writer {
            dice: Dice::new(seed),
            session: Session::default(),
            lines: Vec::new(),
            beliefs: BTreeMap::new(),
        }
    }

    /// Writes a line and gives the model's answer to it.
    pub fn say(&mut self, line: String) -> String {
        let answer = self.session.answer(&line);
        assert_ne!(
            answer, UNREAD,
            "a list has only lines that can be read: {line}"
        );
        self.lines.push(line);
        answer
    }

    pub fn tag(&self) -> String {
        self.session.current.clone().expect("a house is open")
    }

    pub fn house(&self) -> &House {
        &self.session.seats[&self.tag()].house
    }

    pub fn kind(&self) -> Kind {
        self.session.seats[&self.tag()].kind
    }

    pub fn ceiling(&self) -> u64 {
        self.house().ceiling
    }

    pub fn standing(&self) -> Vec<Order> {
        self.house()
            .standing_orders()
            .into_iter()
            .cloned()
            .collect()
    }

    pub fn belief(&self) -> Vec<Weight> {
        self.beliefs[&self.tag()].clone()
    }

    /// The length of the report that is owed by the current house.
    pub fn report_length(&self) -> Option<u64> {
        self.house()
            .report_owed
            .as_ref()
            .map(|figures| report_text(figures).len() as u64)
    }

    /// What a lot is thought to be worth, rounded down and up.
    pub fn worth(&self, contract: &Contract) -> (u64, u64) {
        let belief = self.belief();
        let (value, sum) = (
            value(contract, &belief, self.ceiling()),
            weight_sum(&belief),
        );
        ((value / sum) as u64, ((value + sum - 1) / sum) as u64)
    }

    /// Around a limit: 0, 1, one below it, the limit, one above it, and the largest there is.
    pub fn around(&mut self, limit: u64) -> u64 {
        self.dice
            .pick(&[0, 1, limit.saturating_sub(1), limit, limit + 1, LARGEST])
    }

    pub fn member(&mut self) -> u64 {
        if self.dice.chance(93) {
            self.dice.between(1, 5)
        } else {
            self.around(64)
        }
    }

    pub fn extreme_amount(&mut self) -> u64 {
        let below = MOST_CASH - 1;
        self.dice.pick(&[
            0,
            0,
            1,
            below,
            MOST_CASH,
            MOST_CASH,
            MOST_CASH + 1,
            LARGEST,
            u64::MAX,
        ])
    }

    pub fn price_of_index(&mut self) -> u64 {
        let ceiling = self.ceiling();
        if self.dice.chance(70) {
            self.dice.between(0, ceiling)
        } else {
            self.around(ceiling)
        }
    }

    pub fn lots(&mut self) -> u64 {
        match self.dice.pick_by_shares(&[70, 20, 4]) {
            0 => self.dice.between(1, 4),
            1 => self.dice.between(5, 30),
            _ => self.dice.pick(&[999, 1_000]),
        }
    }
}
