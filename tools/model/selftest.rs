//! The worked figures of the rules, as docs/HOUSE.md, docs/MATCHING.md and docs/RULEBOOK.md have
//! them. None of them was taken from what the model answers.

use crate::contracts::Contract;
use crate::house::House;
use crate::lines::{contract_of, fills_of, run, weights_of};
use crate::matching::{bound, Side};

/// The members and orders of the worked example; each order has one lot.
const FIRST_BOOK: &str = "
deposit 1 9 => ok
deposit 2 42 => ok
deposit 3 50 => ok
deposit 4 110 => ok
enter 1 buy call:110 9 1 => ok 1
enter 2 buy put:150 42 1 => ok 2
enter 3 sell call:150 1 1 => ok 3
enter 4 sell put:110 6 1 => ok 4
account 1 => ok 9 9
account 2 => ok 42 42
account 3 => ok 50 50
account 4 => ok 110 110";

/// What follows on the first book: the terms, then calls with their answers.
const AFTER_FIRST_BOOK: &[(&str, &str)] = &[
    ("bands 1 200 0 256", WORKED_EXAMPLE),
    ("pairs 1 200 0 4", WORKED_EXAMPLE),
    ("bands 1 200 0 256", TAKE_WHAT_IS_FREE),
    (
        "bands 1 200 8 256",
        "clear 1:1,2:1,3:1,4:1 100:1 => refused 48",
    ),
    ("bands 1 200 9 256", GAP_OF_NINE),
    (
        "bands 1 200 0 256",
        "clear - 90:3,110:6,170:1 => refused 48",
    ),
    (
        "bands 1 200 3 256",
        "clear - 90:3,110:6,170:1 => refused 48",
    ),
    ("bands 1 200 4 256", NO_FILLS),
    (
        "bands 1 200 0 256",
        "clear 1:1 90:3,110:6,170:1 => refused 47",
    ),
    ("bands 1 200 1000 256", QUOTES),
    ("bands 1 200 0 256", REFUSALS),
];

const WORKED_EXAMPLE: &str = "
clear 1:1,2:1,3:1,4:1 90:3,110:6,170:1 => ok 1 4 40 0 0 10
account 1 => ok 0 0
account 2 => ok 0 0
account 3 => ok 51 50
account 4 => ok 116 110
house => ok 44 40 1 1
take 5 => refused 49
settle 0 => refused 41
publish A 52 => refused 52
publish A 53 => ok 53 clearing=1|net=4|reserve=40|worst=0|gap=0|weights=10|
house => ok 44 40 1 0
settle 201 => refused 17
settle 0 => ok
account 1 => ok 0 0
account 2 => ok 150 0
account 3 => ok 51 0
account 4 => ok 6 0
house => ok 4 0 1 0";

const TAKE_WHAT_IS_FREE: &str = "
clear 1:1,2:1,3:1,4:1 90:3,110:6,170:1 => ok 1 4 40 0 0 10
take 4 => ok
house => ok 40 40 1 1
publish A 53 => ok 53 clearing=1|net=4|reserve=40|worst=0|gap=0|weights=10|";

const GAP_OF_NINE: &str = "
clear 1:1,2:1,3:1,4:1 100:1 => ok 1 4 40 0 9 1
publish A 54 => ok 52 clearing=1|net=4|reserve=40|worst=0|gap=9|weights=1|##";

const NO_FILLS: &str = "
clear - 90:3,110:6,170:1 => ok 1 0 0 0 40 10
publish A 53 => ok 53 clearing=1|net=0|reserve=0|worst=0|gap=40|weights=10|";

const QUOTES: &str = "
quote call:110 ask 2 1:1,2:1,3:1,4:1 90:3,110:6,170:1 => ok 176 220 200 1680 10
quote put:110 bid 2 1:1,2:1,3:1,4:1 90:3,110:6,170:1 => ok 4 40 110 120 10
quote call:150 bid 3 - 90:3,110:6,170:1 => ok 0 0 0 100 10";

const REFUSALS: &str = "
clear 1:0 90:1 => refused 18 0
clear 2:1,2:1 90:1 => refused 18 1
clear 1:1,3:1,2:1,4:0 90:1 => refused 18 2
clear 0:1 90:1 => refused 44 0
clear 1:2,5:1,6:1 90:1 => refused 44 5
clear 1:1,2:2,3:2 90:1 => refused 45 2
clear - - => refused 19 0
clear - 0:0,200:0,201:0,0:1000001 => refused 19 2
clear - 100:0,0:0 => refused 19 2
clear - 100:1000000,100:1,0:0 => refused 19 3
cancel 1 2 => refused 44 2
standing 3 => refused 53
standing 4 => ok 4 1,2,3,4
order 4 => ok 1 0
order 5 => nothing";

const SECOND_BOOK: &str = "
open A bands 2 200 0 256 => ok
deposit 1 14 => ok
deposit 2 1 => ok
deposit 3 120 => ok
deposit 4 160 => ok
enter 1 buy call:160 14 1 => ok 1
enter 2 buy put:80 1 1 => ok 2
enter 3 sell call:80 74 1 => ok 3
enter 4 sell put:160 19 1 => ok 4
fund 77 => ok
clear 1:1,2:1,3:1,4:1 128:1,132:26,200:13 => refused 49
fund 1 => ok
clear 1:1,2:1,3:1,4:1 128:1,132:26,200:13 => ok 1 2 -80 0 0 40
house => ok 0 -80 1 1
publish A 56 => ok 54 clearing=1|net=2|reserve=-80|worst=0|gap=0|weights=40|##";

const NO_ORDERS: &str = "
open A bands 3 200 0 256 => ok
quote call:110 ask 1 - 200:1 => ok 90 90 200 0 1
quote call:110 bid 1 - 0:1 => ok 0 0 0 0 1
deposit 1 109 => ok
enter 1 sell put:110 5 1 => refused 42
deposit 1 1 => ok
enter 1 sell put:110 5 1 => ok 1
settle 201 => refused 17";

const CONTRACTS: &str = "
kind 200 call:110 110 0 => ok 0 0 0 90 1 110
kind 200 call:110 130 0 => ok 0 0 20 90 1 110
kind 200 call:110 200 1 => ok 0 0 90 90 1 0
kind 200 call:110 201 0 => ok 0 0 0 90 1 110
kind 200 put:150 0 0 => ok 0 0 150 150 1 150
kind 200 put:150 149 0 => ok 0 0 1 150 1 150
kind 200 put:150 150 0 => ok 0 0 0 150 1 150
kind 200 rising:100:120 90 0 => ok 0 0 0 20 2 100
kind 200 rising:100:120 110 1 => ok 0 0 10 20 2 120
kind 200 rising:100:120 130 2 => ok 0 0 20 20 2 0
kind 200 falling:100:120 90 0 => ok 0 0 20 20 2 100
kind 200 falling:100:120 110 1 => ok 0 0 10 20 2 120
kind 200 falling:100:120 130 2 => ok 0 0 0 20 2 0
kind 200 pair:call:100:put:100 0 0 => ok 0 0 100 200 2 100
kind 200 pair:call:100:put:100 100 1 => ok 0 0 0 200 2 100
kind 200 pair:call:100:put:100 200 2 => ok 0 0 100 200 2 0
kind 200 call:0 150 0 => ok 1 0 0 0 0 0
kind 200 put:201 150 0 => ok 1 0 0 0 0 0
kind 200 rising:120:100 150 0 => ok 2 0 0 0 0 0
kind 200 falling:100:100 150 0 => ok 2 0 0 0 0 0
kind 200 rising:100:201 150 0 => ok 2 0 0 0 0 0
kind 200 pair:call:100:put:201 150 0 => ok 1 2 0 0 0 0";

/// The figures of the first book: fills and weights; then cash now, reserve, worst price, net,
/// W, bound and gap.
const FIGURES: &[(&str, &str, [i128; 7])] = &[
    (
        "1:1,2:1,3:1,4:1",
        "90:3,110:6,170:1",
        [44, 40, 0, 4, 10, 40, 0],
    ),
    ("1:1,2:1,3:1,4:1", "100:1", [44, 40, 0, 4, 1, 13, 9]),
    ("-", "90:3,110:6,170:1", [0, 0, 0, 0, 10, 40, 40]),
    ("1:1", "90:3,110:6,170:1", [9, 90, 200, -81, 10, 40, 850]),
    (
        "1:1,3:1",
        "90:3,110:6,170:1",
        [8, 40, 150, -32, 10, 40, 360],
    ),
    ("3:1,4:1", "90:3,110:6,170:1", [-7, 0, 110, -7, 10, 40, 110]),
];

/// Pairs of pairs, which no house here takes: contract, then reason and place.
const DEEP_FAULTS: &[(&str, u64, u64)] = &[
    ("pair:pair:call:100:put:0:pair:call:100:put:100", 1, 1),
    ("pair:pair:call:100:put:100:pair:call:0:put:100", 1, 2),
    ("pair:pair:pair:call:1:call:2:pair:call:3:call:4:pair:pair:call:5:call:6:pair:call:7:call:8", 0, 0),
    (
        "pair:pair:pair:pair:call:1:call:2:pair:call:3:call:4:pair:pair:call:5:call:6:pair:call:7:call:8:put:9",
        3,
        0,
    ),
];

/// What was checked, and what was found to be wrong.
#[derive(Default)]
pub struct Findings {
    pub checks: usize,
    pub faults: Vec<String>,
}

impl Findings {
    fn expect<T: PartialEq + std::fmt::Debug>(&mut self, what: &str, found: T, expected: T) {
        self.checks += 1;
        if found != expected {
            self.faults
                .push(format!("{what}: found {found:?}, expected {expected:?}"));
        }
    }

    /// Makes the calls of a text, each with the answer that the rules give behind `=>`.
    fn expect_answers(&mut self, text: &str) {
        let lines: Vec<(&str, &str)> = text
            .split('\n')
            .filter_map(|line| line.split_once(" => "))
            .collect();
        let calls: Vec<&str> = lines.iter().map(|(call, _)| *call).collect();
        let answers = run(&calls.join("\n"));
        self.expect("answers", answers.len(), lines.len());
        for ((call, expected), found) in lines.iter().zip(&answers) {
            self.expect(call, found.as_str(), expected);
        }
    }
}

pub fn check() -> Findings {
    let mut findings = Findings::default();
    for (terms, calls) in AFTER_FIRST_BOOK {
        findings.expect_answers(&format!("open A {terms} => ok{FIRST_BOOK}\n{calls}"));
    }
    for text in [SECOND_BOOK, NO_ORDERS, CONTRACTS] {
        findings.expect_answers(text);
    }
    check_figures(&mut findings);
    check_deep_faults(&mut findings);
    findings
}

fn first_book() -> House {
    let mut house = House::open(1, 200, 0, 256).expect("terms in range");
    let orders = [
        (1, 9, Side::Buy, Contract::Call(110), 9),
        (2, 42, Side::Buy, Contract::Put(150), 42),
        (3, 50, Side::Sell, Contract::Call(150), 1),
        (4, 110, Side::Sell, Contract::Put(110), 6),
    ];
    for (member, cash, side, contract, price) in orders {
        house.deposit(member, cash).expect("room for cash");
        house
            .enter(member, side, contract, price, 1)
            .expect("enough cash");
    }
    house
}

fn check_figures(findings: &mut Findings) {
    let house = first_book();
    for (fills, weights, expected) in FIGURES {
        let what = format!("figures of {fills} {weights}");
        let fills = fills_of(fills).expect("fills");
        let weights = weights_of(weights).expect("weights");
        let (cash_now, f) = house.figures_of(&fills, &weights);
        let bound = bound(&house.orders, &weights, house.ceiling);
        let found = [
            cash_now,
            f.reserve,
            i128::from(f.worst),
            f.net,
            f.weights,
            bound,
            f.gap,
        ];
        findings.expect(&what, found, *expected);
    }
}

fn check_deep_faults(findings: &mut Findings) {
    for (words, reason, place) in DEEP_FAULTS {
        let contract = contract_of(words).expect("a contract");
        let found = contract
            .fault(200)
            .map_or((0, 0), |fault| (fault.reason, fault.place));
        findings.expect(words, found, (*reason, *place));
    }
}
