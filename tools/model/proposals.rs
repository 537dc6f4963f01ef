//! Lines that clear, quote and publish: solved proposals, and proposals that are spoiled.

use crate::contracts::Contract;
use crate::house::{Request, MOST_LOTS, MOST_WEIGHT, MOST_WEIGHTS};
use crate::lines::contract_words;
use crate::matching::{weight_sum, Fill, Weight};
use crate::solver::{solve, Proposal, MOST_ORDERS};
use crate::writer::{Writer, LARGEST};

fn fills_word(fills: &[Fill]) -> String {
    let entries: Vec<String> = fills
        .iter()
        .map(|f| format!("{}:{}", f.order, f.lots))
        .collect();
    if entries.is_empty() {
        "-".to_string()
    } else {
        entries.join(",")
    }
}

fn weights_word(weights: &[Weight]) -> String {
    let entries: Vec<String> = weights
        .iter()
        .map(|w| format!("{}:{}", w.price, w.weight))
        .collect();
    if entries.is_empty() {
        "-".to_string()
    } else {
        entries.join(",")
    }
}

impl Writer {
    fn say_clear(&mut self, proposal: &Proposal) -> String {
        let (fills, weights) = (fills_word(&proposal.fills), weights_word(&proposal.weights));
        self.say(format!("clear {fills} {weights}"))
    }

    /// The best proposal for what stands, or no fills and one weight where that is not found.
    fn solved(&mut self) -> Proposal {
        let standing = self.standing();
        let found = solve(&standing, self.ceiling(), &[], |_| 0);
        found.unwrap_or_else(|| self.unsolved())
    }

    fn unsolved(&mut self) -> Proposal {
        Proposal {
            fills: Vec::new(),
            weights: self.belief(),
        }
    }

    /// The same weights told in another way, which changes W and the gap by a factor at most.
    fn retold(&mut self, weights: &[Weight]) -> Vec<Weight> {
        let sum = weight_sum(weights) as u64;
        let most = MOST_WEIGHT / sum.max(1);
        let factor = self
            .dice
            .pick(&[1, 1, 1, 1, 2, 3, most])
            .clamp(1, most.max(1));
        let mut all: Vec<Weight> = weights
            .iter()
            .map(|w| Weight {
                price: w.price,
                weight: w.weight * factor,
            })
            .collect();
        if self.dice.chance(15) {
            self.split_a_weight(&mut all);
        }
        if self.dice.chance(15) {
            let price = self.ceiling();
            all.push(Weight { price, weight: 0 });
        }
        if self.dice.chance(15) {
            self.dice.shuffle(&mut all);
        }
        if self.dice.chance(2) {
            all.resize(
                MOST_WEIGHTS as usize,
                Weight {
                    price: 0,
                    weight: 0,
                },
            );
        }
        all
    }

    /// One price then stands twice.
    fn split_a_weight(&mut self, weights: &mut Vec<Weight>) {
        let index = self.dice.between(0, weights.len() as u64 - 1) as usize;
        let off = self.dice.between(0, weights[index].weight);
        weights[index].weight -= off;
        let price = weights[index].price;
        weights.push(Weight { price, weight: off });
    }

    /// Sees to it that a clearing can be accepted: no report is owed, and orders stand that can
    /// be matched.
    fn prepare_to_clear(&mut self) {
        if self.house().closed {
            return;
        }
        if self.report_length().is_some() && self.dice.chance(85) {
            self.publish_own();
        }
        for _ in 0..2 {
            if self.solved().fills.is_empty() && self.dice.chance(85) {
                self.enter_motif();
            }
        }
        if self.dice.chance(80) {
            self.thin_out(MOST_ORDERS);
        }
    }

    /// A solved proposal; where the house lacks cash for it, that is brought in, tick by tick at
    /// the end.
    pub fn clear_solved(&mut self) {
        self.prepare_to_clear();
        let mut proposal = self.solved();
        proposal.weights = self.retold(&proposal.weights);
        let spare = if self.house().allowed_gap > 0 { 40 } else { 10 };
        if self.dice.chance(spare) {
            self.leave_out_a_fill(&mut proposal);
        }
        let (cash_now, figures) = self.house().figures_of(&proposal.fills, &proposal.weights);
        let missing = -(self.house().cash + cash_now);
        let passes = figures.net >= 0 && self.report_length().is_none();
        if missing > 0 && passes && self.dice.chance(85) {
            self.clear_short_of_cash(&proposal, missing);
        }
        let answer = self.say_clear(&proposal);
        if answer.starts_with("ok") {
            self.while_owed();
        }
    }

    fn clear_short_of_cash(&mut self, proposal: &Proposal, missing: i128) {
        if missing > 1 {
            self.say(format!("fund {}", missing - 1));
        }
        self.say_clear(proposal);
        self.say("fund 1".to_string());
    }

    fn leave_out_a_fill(&mut self, proposal: &mut Proposal) {
        if !proposal.fills.is_empty() {
            let index = self.dice.between(0, proposal.fills.len() as u64 - 1) as usize;
            if proposal.fills[index].lots > 1 && self.dice.chance(50) {
                proposal.fills[index].lots -= 1;
            } else {
                proposal.fills.remove(index);
            }
        }
    }

    /// No fills: accepted where the allowed gap is wide enough, or nothing better stands.
    pub fn clear_without_fills(&mut self) {
        let solved = self.solved();
        let weights = self.dice.pick(&[solved.weights, self.belief()]);
        let answer = self.say_clear(&Proposal {
            fills: Vec::new(),
            weights,
        });
        if answer.starts_with("ok") {
            self.while_owed();
        }
    }

    /// Only some orders filled, at random, and the weights are a guess.
    pub fn clear_by_guess(&mut self) {
        let mut fills = Vec::new();
        let mut standing = self.standing();
        standing.sort_by_key(|order| order.number);
        for order in standing {
            if self.dice.chance(60) {
                let lots = self.dice.between(1, order.open as u64);
                fills.push(Fill {
                    order: order.number,
                    lots,
                });
            }
        }
        let weights = self.belief();
        let answer = self.say_clear(&Proposal { fills, weights });
        if answer.starts_with("ok") {
            self.while_owed();
        }
    }

    /// Every standing order, filled whole.
    pub fn clear_all_that_stand(&mut self) {
        let mut standing = self.standing();
        standing.sort_by_key(|order| order.number);
        let fills = standing
            .iter()
            .map(|o| Fill {
                order: o.number,
                lots: o.open as u64,
            })
            .collect();
        let weights = self.belief();
        self.say_clear(&Proposal { fills, weights });
    }

    /// What is refused or allowed between a clearing and its report.
    fn while_owed(&mut self) {
        if self.dice.chance(25) {
            let again = self.solved();
            self.say_clear(&again);
        }
        if self.dice.chance(20) {
            let price = self.price_of_index();
            self.say(format!("settle {price}"));
        }
        if self.dice.chance(30) {
            self.say("house".to_string());
        }
        if self.dice.chance(25) {
            self.take_near_unreserved();
        }
        if self.dice.chance(70) {
            self.publish_own();
        }
    }

    /// The house's own token, on a page that is too short, just long enough, or longer.
    pub fn publish_own(&mut self) {
        let Some(length) = self.report_length() else {
            return;
        };
        let tag = self.tag();
        if self.dice.chance(30) {
            let short = self.dice.between(0, length - 1);
            let short = self.dice.pick(&[length - 1, length - 1, 0, short]);
            self.say(format!("publish {tag} {short}"));
        }
        let longer = length + self.dice.between(1, 12);
        let length = self
            .dice
            .pick(&[length, length, length, length + 1, longer, 285])
            .max(length);
        self.say(format!("publish {tag} {length}"));
    }

    /// The token of another house is brought to this one, where a report may be owed too.
    pub fn publish_foreign(&mut self) {
        let here = self.tag();
        let others: Vec<String> = self
            .session
            .seats
            .iter()
            .filter(|(tag, seat)| **tag != here && seat.token.is_some())
            .map(|(tag, _)| tag.clone())
            .collect();
        if !others.is_empty() {
            let (tag, length) = (self.dice.pick(&others), self.dice.pick(&[0, 60, 285]));
            self.say(format!("publish {tag} {length}"));
        }
    }

    /// In two houses a report is owed at once, most often with the same clearing number. Each
    /// house is then brought the other's token.
    pub fn exchange_tokens(&mut self) {
        let mut open: Vec<String> = self.session.seats.keys().cloned().collect();
        open.retain(|tag| !self.session.seats[tag].house.closed);
        self.dice.shuffle(&mut open);
        open.truncate(2);
        for tag in &open {
            self.say(format!("use {tag}"));
            if self.report_length().is_none() {
                self.enter_motif();
                let proposal = self.solved();
                self.say_clear(&proposal);
            }
            self.publish_foreign();
        }
    }

    /// Every token that is still in hand, in its own house.
    pub fn publish_all(&mut self) {
        let mut open: Vec<String> = self.session.seats.keys().cloned().collect();
        open.retain(|tag| self.session.seats[tag].token.is_some());
        for tag in open {
            if self.tag() != tag {
                self.say(format!("use {tag}"));
            }
            let length = self.report_length().expect("a token is in hand");
            self.say(format!("publish {tag} {length}"));
        }
    }

    /// A proposal that is refused for its fills or its weights, or just fails to pass.
    pub fn clear_spoiled(&mut self) {
        if self.dice.chance(60) {
            self.prepare_to_clear();
        }
        let mut proposal = self.solved();
        for _ in 0..self.dice.pick(&[1, 1, 1, 2]) {
            self.spoil(&mut proposal);
        }
        let answer = self.say_clear(&proposal);
        if answer.starts_with("ok") {
            self.while_owed();
        }
    }

    fn spoil(&mut self, proposal: &mut Proposal) {
        if self.dice.chance(50) {
            self.spoil_fills(&mut proposal.fills);
        } else {
            self.spoil_weights(&mut proposal.weights);
        }
    }

    fn spoil_fills(&mut self, fills: &mut Vec<Fill>) {
        let last = self.house().last_order;
        if fills.is_empty() {
            let lots = self.dice.between(0, 2);
            let order = self.around(last);
            return fills.push(Fill { order, lots });
        }
        let index = self.dice.between(0, fills.len() as u64 - 1) as usize;
        match self.dice.between(0, 8) {
            0 => fills[index].lots = 0,
            1 => fills.insert(index, fills[index]),
            2 => fills.reverse(),
            3 => fills[index].lots = self.house().open_lots(fills[index].order) as u64 + 1,
            4 => fills[index].lots = self.dice.pick(&[MOST_LOTS, MOST_LOTS + 1, LARGEST]),
            5 => fills.push(Fill {
                order: last + self.dice.between(1, 3),
                lots: 1,
            }),
            6 => fills.insert(0, Fill { order: 0, lots: 1 }),
            7 => {
                // Too many lots of the first, and the last never stood: the last must be told.
                fills[0].lots = LARGEST;
                fills.push(Fill {
                    order: last + 1,
                    lots: 1,
                });
            }
            _ => self.name_an_order_that_is_gone(fills),
        }
    }

    /// A number at or below the last that stands no more: cancelled, or filled whole.
    fn name_an_order_that_is_gone(&mut self, fills: &mut Vec<Fill>) {
        let standing: Vec<u64> = self.standing().iter().map(|order| order.number).collect();
        let last = self.house().last_order;
        let gone: Vec<u64> = (1..=last)
            .filter(|number| !standing.contains(number))
            .collect();
        if !gone.is_empty() {
            let order = self.dice.pick(&gone);
            fills.push(Fill { order, lots: 1 });
            fills.sort_by_key(|fill| fill.order);
        }
    }

    fn spoil_weights(&mut self, weights: &mut Vec<Weight>) {
        let ceiling = self.ceiling();
        let index = self.dice.between(0, weights.len().max(1) as u64 - 1) as usize;
        if weights.is_empty() {
            return;
        }
        match self.dice.pick_by_shares(&[4, 4, 3, 3, 3, 3, 2, 4, 3]) {
            0 => weights.clear(),
            1 => weights[index].price = self.dice.pick(&[ceiling + 1, ceiling + 1, LARGEST]),
            2 => weights[index].weight = self.dice.pick(&[MOST_WEIGHT + 1, LARGEST]),
            3 => weights.iter_mut().for_each(|entry| entry.weight = 0),
            4 => {
                let short = MOST_WEIGHT - weight_sum(weights) as u64;
                let weight = short + self.dice.pick(&[0, 0, 1, 1]);
                weights.push(Weight {
                    price: ceiling,
                    weight,
                });
            }
            5 => weights.push(Weight {
                price: ceiling,
                weight: MOST_WEIGHT,
            }),
            6 => {
                let count = MOST_WEIGHTS + self.dice.between(0, 1);
                weights.resize(
                    count as usize,
                    Weight {
                        price: 0,
                        weight: 0,
                    },
                );
            }
            7 => {
                let price = self.dice.between(0, ceiling);
                *weights = vec![Weight { price, weight: 1 }];
            }
            _ => {
                let weight = self.dice.between(1, 5);
                weights.push(Weight {
                    price: self.dice.between(0, ceiling),
                    weight,
                });
            }
        }
    }

    fn say_quote(&mut self, contract: &Contract, request: Request, lots: u64, proposal: &Proposal) {
        let request = match request {
            Request::Bid => "bid",
            Request::Ask => "ask",
        };
        let (fills, weights) = (fills_word(&proposal.fills), weights_word(&proposal.weights));
        let contract = contract_words(contract);
        self.say(format!(
            "quote {contract} {request} {lots} {fills} {weights}"
        ));
    }

    /// The best that can be quoted beside what stands.
    fn solved_quote(&mut self, contract: &Contract, request: Request, lots: u64) -> Proposal {
        let (standing, ceiling) = (self.standing(), self.ceiling());
        let sign = match request {
            Request::Bid => -1,
            Request::Ask => 1,
        };
        let lots = i128::from(lots);
        let beside = |price| sign * lots * contract.payoff(ceiling, price);
        let found = solve(&standing, ceiling, &contract.breakpoints(ceiling), beside);
        found.unwrap_or_else(|| self.unsolved())
    }

    pub fn quote_solved(&mut self) {
        let (contract, lots) = (self.some_contract(), self.lots());
        let request = self.dice.pick(&[Request::Bid, Request::Ask]);
        let mut proposal = self.solved_quote(&contract, request, lots);
        proposal.weights = self.retold(&proposal.weights);
        if self.dice.chance(12) {
            self.leave_out_a_fill(&mut proposal);
        }
        self.say_quote(&contract, request, lots, &proposal);
    }

    /// With a contract, lots, fills or weights that are out of their ranges.
    pub fn quote_spoiled(&mut self) {
        let request = self.dice.pick(&[Request::Bid, Request::Ask]);
        let mut contract = self.some_contract();
        let mut lots = self.lots();
        let mut proposal = self.solved_quote(&contract, request, lots);
        if self.dice.chance(35) {
            let (kind, ceiling) = (self.kind(), self.ceiling());
            contract = self.extreme_contract(kind, ceiling);
        }
        if self.dice.chance(30) {
            lots = self.around(MOST_LOTS);
        }
        if self.dice.chance(40) {
            self.spoil_fills(&mut proposal.fills);
        }
        if self.dice.chance(50) {
            self.spoil_weights(&mut proposal.weights);
        }
        self.say_quote(&contract, request, lots, &proposal);
    }
}
