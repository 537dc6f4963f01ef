//! The line format: one call a line, one answer a line. docs/LINES.md has the rules.

use crate::contracts::Contract;
use crate::house::{Answer, House, Refusal, Request, Token, MOST_CEILING};
use crate::matching::{Fill, Side, Weight};
use std::collections::BTreeMap;

pub const UNREAD: &str = "unread";

/// Which contracts a house takes.
#[derive(Clone, Copy, Debug, PartialEq)]
pub enum Kind {
    Bands,
    Pairs,
}

impl Kind {
    fn takes(self, contract: &Contract) -> bool {
        contract.is_option()
            || match self {
                Kind::Bands => contract.is_spread(),
                Kind::Pairs => contract.is_pair_of_options(),
            }
    }
}

/// A house of the list, with what the list has in hand for it.
pub struct Seat {
    pub kind: Kind,
    pub house: House,
    pub token: Option<Token>,
    last_entered: Option<u64>,
}

/// The houses of one list, by tag, and the tag that calls go to.
#[derive(Default)]
pub struct Session {
    pub seats: BTreeMap<String, Seat>,
    pub current: Option<String>,
}

/// Whether a line is a call at all, and so has an answer.
pub fn is_call(line: &str) -> bool {
    !line.is_empty() && !line.starts_with('#')
}

/// Makes every call of a text and gives the answers, one for each.
pub fn run(text: &str) -> Vec<String> {
    let lines: Vec<&str> = text.split('\n').filter(|line| is_call(line)).collect();
    let mut session = Session::default();
    let mut answers = Vec::new();
    let mut next = 0;
    while next < lines.len() {
        match repeat(lines[next]) {
            Some((rounds, count)) if next + count < lines.len() => {
                let block = &lines[next + 1..next + 1 + count];
                answers.extend(run_rounds(&mut session, rounds, block));
                next += 1 + count;
            }
            _ => {
                answers.push(session.answer(lines[next]));
                next += 1;
            }
        }
    }
    answers
}

/// The two figures of a `times` line.
fn repeat(line: &str) -> Option<(u64, usize)> {
    let rest = line.strip_prefix("times ")?;
    let (rounds, count) = rest.split_once(' ')?;
    let rounds = figure(rounds)?;
    if rounds == 0 {
        None
    } else {
        Some((rounds, figure(count)? as usize))
    }
}

/// Only the last round is answered.
fn run_rounds(session: &mut Session, rounds: u64, block: &[&str]) -> Vec<String> {
    let mut answers = Vec::new();
    for _ in 0..rounds {
        answers = block.iter().map(|line| session.answer(line)).collect();
    }
    answers
}

impl Session {
    pub fn answer(&mut self, line: &str) -> String {
        let words: Vec<&str> = line.split(' ').collect();
        self.answer_words(&words)
            .unwrap_or_else(|| UNREAD.to_string())
    }

    pub fn seat(&mut self) -> Option<&mut Seat> {
        self.seats.get_mut(self.current.as_ref()?)
    }

    /// Nothing where the line cannot be read. Every figure is read before the call is made, so
    /// a line that cannot be read changes nothing.
    fn answer_words(&mut self, words: &[&str]) -> Option<String> {
        match words {
            ["open", tag, kind, terms @ ..] => self.open(tag, kind, terms),
            ["use", tag] => self.choose(tag),
            ["end"] => self.end(),
            ["publish", tag, length] => self.publish(tag, figure(length)?),
            ["kind", ceiling, contract, price, index] => kind_answers(
                figure(ceiling)?,
                &contract_of(contract)?,
                figure(price)?,
                figure(index)?,
            ),
            _ => self.seat()?.answer_words(words),
        }
    }

    fn open(&mut self, tag: &str, kind: &str, terms: &[&str]) -> Option<String> {
        let kind = match kind {
            "bands" => Kind::Bands,
            "pairs" => Kind::Pairs,
            _ => return None,
        };
        let terms: Option<Vec<u64>> = terms.iter().map(|word| figure(word)).collect();
        let terms = terms.filter(|terms| terms.len() == 4)?;
        if !["A", "B", "C", "D"].contains(&tag) || self.seats.contains_key(tag) {
            return None;
        }
        match House::open(terms[0], terms[1], terms[2], terms[3]) {
            Ok(house) => {
                let seat = Seat {
                    kind,
                    house,
                    token: None,
                    last_entered: None,
                };
                self.seats.insert(tag.to_string(), seat);
                self.current = Some(tag.to_string());
                Some("ok".to_string())
            }
            Err(refusal) => Some(refused(&refusal)),
        }
    }

    fn choose(&mut self, tag: &str) -> Option<String> {
        self.seats.get(tag)?;
        self.current = Some(tag.to_string());
        Some("ok".to_string())
    }

    fn end(&mut self) -> Option<String> {
        *self = Session::default();
        Some("ok".to_string())
    }

    /// The token of one house, brought to the current one. It is kept where it is refused.
    fn publish(&mut self, tag: &str, length: u64) -> Option<String> {
        let token = self.seats.get(tag)?.token.clone()?;
        let mut page = vec![b'#'; length as usize];
        match self.seat()?.house.publish(&token, &mut page) {
            Ok(written) => {
                self.seats.get_mut(tag)?.token = None;
                let told = String::from_utf8(page).ok()?.replace('\n', "|");
                Some(format!("ok {written} {told}"))
            }
            Err(refusal) => Some(refused(&refusal)),
        }
    }
}

impl Seat {
    /// A contract that the house's kind has.
    fn contract_of(&self, word: &str) -> Option<Contract> {
        contract_of(word).filter(|contract| self.kind.takes(contract))
    }

    fn answer_words(&mut self, words: &[&str]) -> Option<String> {
        match words {
            ["deposit", member, amount] => {
                Some(done(self.house.deposit(figure(member)?, figure(amount)?)))
            }
            ["withdraw", member, amount] => {
                Some(done(self.house.withdraw(figure(member)?, figure(amount)?)))
            }
            ["fund", amount] => Some(done(self.house.fund(figure(amount)?))),
            ["take", amount] => Some(done(self.house.take(figure(amount)?))),
            ["enter", member, side, contract, price, lots] => {
                let contract = self.contract_of(contract)?;
                let (price, lots) = (figure(price)?, figure(lots)?);
                let entered =
                    self.house
                        .enter(figure(member)?, side_of(side)?, contract, price, lots);
                self.last_entered = entered.as_ref().ok().copied().or(self.last_entered);
                Some(told(entered, |number| format!("ok {number}")))
            }
            ["cancel", member, number] => {
                let number = if *number == "last" {
                    self.last_entered?
                } else {
                    figure(number)?
                };
                Some(done(self.house.cancel(figure(member)?, number)))
            }
            ["clear", fills, weights] => self.clear(&fills_of(fills)?, &weights_of(weights)?),
            ["settle", price] => Some(done(self.house.settle(figure(price)?))),
            _ => self.question(words),
        }
    }

    fn clear(&mut self, fills: &[Fill], weights: &[Weight]) -> Option<String> {
        Some(told(self.house.clear(fills, weights), |(c, token)| {
            self.token = Some(token);
            let (number, net, reserve, worst) = (c.clearing, c.net, c.reserve, c.worst);
            format!(
                "ok {number} {net} {reserve} {worst} {} {}",
                c.gap, c.weights
            )
        }))
    }

    fn question(&self, words: &[&str]) -> Option<String> {
        let house = &self.house;
        match words {
            ["account", member] => Some(told(house.account(figure(member)?), |(cash, held)| {
                format!("ok {cash} {held}")
            })),
            ["order", number] => Some(match house.order(figure(number)?) {
                Some((open, filled)) => format!("ok {open} {filled}"),
                None => "nothing".to_string(),
            }),
            ["standing", length] => Some(told(house.standing(figure(length)?), |numbers| {
                format!("ok {} {}", numbers.len(), joined(&numbers))
            })),
            ["exposure", price] => Some(told(house.exposure(figure(price)?), |owed| {
                format!("ok {owed}")
            })),
            ["house"] => {
                let owed = u8::from(house.report_owed.is_some());
                Some(format!(
                    "ok {} {} {} {owed}",
                    house.cash, house.reserve, house.clearings
                ))
            }
            ["quote", contract, request, lots, fills, weights] => {
                let contract = self.contract_of(contract)?;
                let (fills, weights) = (fills_of(fills)?, weights_of(weights)?);
                let request = request_of(request)?;
                let quote = house.quote(&contract, request, figure(lots)?, &fills, &weights);
                Some(told(quote, |q| {
                    let (premium, reserve, worst) = (q.premium, q.reserve, q.worst);
                    format!("ok {premium} {reserve} {worst} {} {}", q.gap, q.weights)
                }))
            }
            _ => None,
        }
    }
}

fn kind_answers(ceiling: u64, contract: &Contract, price: u64, index: u64) -> Option<String> {
    if !Kind::Bands.takes(contract) && !Kind::Pairs.takes(contract) {
        return None;
    }
    if ceiling == 0 || ceiling > MOST_CEILING {
        return Some("refused 10".to_string());
    }
    let (reason, place) = contract
        .fault(ceiling)
        .map_or((0, 0), |f| (f.reason, f.place));
    let breakpoints = contract.breakpoints(ceiling);
    let breakpoint = breakpoints.get(index as usize).copied().unwrap_or(0);
    let (payoff, collateral) = (
        contract.payoff(ceiling, price),
        contract.collateral(ceiling),
    );
    let count = breakpoints.len();
    Some(format!(
        "ok {reason} {place} {payoff} {collateral} {count} {breakpoint}"
    ))
}

fn told<T>(answer: Answer<T>, tell: impl FnOnce(T) -> String) -> String {
    match answer {
        Ok(figures) => tell(figures),
        Err(refusal) => refused(&refusal),
    }
}

fn done(answer: Answer<()>) -> String {
    told(answer, |()| "ok".to_string())
}

fn refused(refusal: &Refusal) -> String {
    let mut text = format!("refused {}", refusal.number);
    for figure in &refusal.carries {
        text.push_str(&format!(" {figure}"));
    }
    text
}

fn joined(numbers: &[u64]) -> String {
    if numbers.is_empty() {
        return "-".to_string();
    }
    numbers
        .iter()
        .map(u64::to_string)
        .collect::<Vec<_>>()
        .join(",")
}

/// A figure is digits alone, and fits 64 bits.
pub fn figure(word: &str) -> Option<u64> {
    let digits = !word.is_empty() && word.bytes().all(|byte| byte.is_ascii_digit());
    if digits {
        word.parse().ok()
    } else {
        None
    }
}

fn side_of(word: &str) -> Option<Side> {
    match word {
        "buy" => Some(Side::Buy),
        "sell" => Some(Side::Sell),
        _ => None,
    }
}

fn request_of(word: &str) -> Option<Request> {
    match word {
        "bid" => Some(Request::Bid),
        "ask" => Some(Request::Ask),
        _ => None,
    }
}

/// A list of two figures each, as `1:2,3:4`, or `-` where there are none.
pub fn couples(word: &str) -> Option<Vec<(u64, u64)>> {
    if word == "-" {
        return Some(Vec::new());
    }
    let couple = |entry: &str| {
        let (left, right) = entry.split_once(':')?;
        Some((figure(left)?, figure(right)?))
    };
    word.split(',').map(couple).collect()
}

pub fn fills_of(word: &str) -> Option<Vec<Fill>> {
    let couples = couples(word)?;
    Some(
        couples
            .into_iter()
            .map(|(order, lots)| Fill { order, lots })
            .collect(),
    )
}

pub fn weights_of(word: &str) -> Option<Vec<Weight>> {
    let couples = couples(word)?;
    Some(
        couples
            .into_iter()
            .map(|(price, weight)| Weight { price, weight })
            .collect(),
    )
}

/// A contract is prefix words joined by colons; every word must be used.
pub fn contract_of(word: &str) -> Option<Contract> {
    let mut words = word.split(':');
    let contract = next_contract(&mut words)?;
    if words.next().is_none() {
        Some(contract)
    } else {
        None
    }
}

fn next_contract(words: &mut std::str::Split<char>) -> Option<Contract> {
    match words.next()? {
        "call" => Some(Contract::Call(figure(words.next()?)?)),
        "put" => Some(Contract::Put(figure(words.next()?)?)),
        "rising" => {
            let (low, high) = (figure(words.next()?)?, figure(words.next()?)?);
            Some(Contract::Rising { low, high })
        }
        "falling" => {
            let (low, high) = (figure(words.next()?)?, figure(words.next()?)?);
            Some(Contract::Falling { low, high })
        }
        "pair" => {
            let (first, second) = (next_contract(words)?, next_contract(words)?);
            Some(Contract::Pair(Box::new(first), Box::new(second)))
        }
        _ => None,
    }
}

/// The words of a contract, as they are read back.
pub fn contract_words(contract: &Contract) -> String {
    match contract {
        Contract::Call(strike) => format!("call:{strike}"),
        Contract::Put(strike) => format!("put:{strike}"),
        Contract::Rising { low, high } => format!("rising:{low}:{high}"),
        Contract::Falling { low, high } => format!("falling:{low}:{high}"),
        Contract::Pair(a, b) => format!("pair:{}:{}", contract_words(a), contract_words(b)),
    }
}
