//! Which answers of which calls are in some lists, counted from the calls and the answers alone.

use crate::house::{MOST_WEIGHT, MOST_WEIGHTS};
use crate::lines::{couples, is_call};
use std::collections::BTreeMap;

/// Every call with every answer that it can have: accepted, or refused with a number.
const ANSWERS: &[(&str, &[&str])] = &[
    ("open", &["ok", "10"]),
    ("use", &["ok"]),
    ("deposit", &["ok", "12", "13", "40", "46"]),
    ("fund", &["ok", "13", "40", "46"]),
    ("withdraw", &["ok", "12", "13", "42"]),
    ("take", &["ok", "13", "49"]),
    (
        "enter",
        &["ok", "12", "14", "15", "16", "40", "42", "43", "50"],
    ),
    ("cancel", &["ok", "12", "40", "44"]),
    (
        "clear",
        &[
            "ok", "18", "19", "40", "41", "44", "45", "47", "48", "49", "50",
        ],
    ),
    ("publish", &["ok", "51", "52"]),
    ("settle", &["ok", "17", "40", "41"]),
    ("account", &["ok", "12"]),
    ("order", &["ok", "nothing"]),
    ("standing", &["ok", "53"]),
    ("exposure", &["ok", "17"]),
    ("house", &["ok"]),
    (
        "quote",
        &["ok", "14", "16", "18", "19", "40", "44", "45", "48"],
    ),
    ("kind", &["ok", "10"]),
];

/// Cases that are finer than an answer's number.
const CASES: &[&str] = &[
    "clear, ok: first clearing, with fills, gap 0",
    "clear, ok: first clearing, with fills, gap above 0",
    "clear, ok: later clearing, with fills, gap 0",
    "clear, ok: later clearing, with fills, gap above 0",
    "clear, ok: first clearing, no fills, gap 0",
    "clear, ok: first clearing, no fills, gap above 0",
    "clear, ok: later clearing, no fills, gap 0",
    "clear, ok: later clearing, no fills, gap above 0",
    "clear, ok: with fills, reserve above 0",
    "clear, ok: with fills, reserve 0",
    "clear, ok: with fills, reserve below 0",
    "clear, ok: with fills, worst price 0",
    "clear, ok: with fills, worst price above 0",
    "clear, ok: with fills, net 0",
    "clear, ok: with fills, net above 0",
    "clear, ok: W is 1,000,000",
    "clear, ok: 512 weights",
    "clear, 18: no lots",
    "clear, 18: number does not rise",
    "clear, 19: no weights",
    "clear, 19: 513 weights or more",
    "clear, 19: an entry",
    "clear, 19: sum 0",
    "clear, 19: sum too large",
    "clear, 44: order 0",
    "quote, ok: bid, gap 0",
    "quote, ok: bid, gap above 0",
    "quote, ok: ask, gap 0",
    "quote, ok: ask, gap above 0",
    "quote, ok: with fills",
    "quote, ok: while a report is owed",
    "quote, 18: no lots",
    "quote, 18: number does not rise",
    "quote, 19: no weights",
    "quote, 19: 513 weights or more",
    "quote, 19: an entry",
    "quote, 19: sum 0",
    "quote, 19: sum too large",
    "enter, 14: reason 1, place 0",
    "enter, 14: reason 2, place 0",
    "enter, 14: reason 1, place 1",
    "enter, 14: reason 1, place 2",
    "quote, 14: reason 1, place 0",
    "quote, 14: reason 2, place 0",
    "quote, 14: reason 1, place 1",
    "quote, 14: reason 1, place 2",
    "kind, ok: valid",
    "kind, ok: reason 1, place 0",
    "kind, ok: reason 2, place 0",
    "kind, ok: reason 1, place 1",
    "kind, ok: reason 1, place 2",
    "publish, 51: no report is owed here",
    "publish, 51: another report is owed here",
    "publish, 51: one with the same clearing number is owed here",
    "publish, ok: page just long enough",
    "publish, ok: page longer",
    "publish, 52: page one byte short",
    "while a report is owed: deposit, ok",
    "while a report is owed: withdraw, ok",
    "while a report is owed: take, ok",
    "while a report is owed: enter, ok",
    "while a report is owed: cancel, ok",
    "once closed: withdraw, ok",
    "once closed: take, ok",
    "once closed: account, ok",
    "once closed: order, nothing",
    "once closed: standing, ok",
    "once closed: exposure, ok",
    "once closed: house, ok",
    "once closed: publish, 51",
    "once closed: enter, 12 or 14 to 16",
    "once closed: clear, 18 or 19",
    "once closed: quote, 14 to 19",
];

/// What the answers so far say of a house.
#[derive(Default)]
struct Seen {
    closed: bool,
    owed: Option<Owed>,
}

/// The report that a house owes: its clearing number and its length.
#[derive(Clone, PartialEq)]
struct Owed {
    clearing: String,
    length: u64,
}

#[derive(Default)]
struct Counter {
    answers: BTreeMap<(String, String), u64>,
    cases: BTreeMap<String, u64>,
    houses: BTreeMap<String, Seen>,
    current: String,
}

/// Nothing where calls and answers are not equally many.
pub fn table(calls: &str, answers: &str) -> Option<String> {
    let calls: Vec<&str> = calls
        .split('\n')
        .filter(|l| is_call(l) && !l.starts_with("times "))
        .collect();
    let answers: Vec<&str> = answers
        .split('\n')
        .filter(|line| !line.is_empty())
        .collect();
    if calls.len() != answers.len() {
        return None;
    }
    let mut counter = Counter::default();
    for (call, answer) in calls.iter().zip(&answers) {
        counter.count(call, answer);
    }
    Some(counter.tell(calls.len()))
}

/// `ok`, `nothing`, or the number of the refusal.
fn outcome<'a>(answer: &[&'a str]) -> &'a str {
    match answer {
        ["refused", number, ..] => number,
        [word, ..] => word,
        [] => "",
    }
}

impl Counter {
    fn count(&mut self, call: &str, answer: &str) {
        let call: Vec<&str> = call.split(' ').collect();
        let answer: Vec<&str> = answer.split(' ').collect();
        let outcome = outcome(&answer);
        let key = (call[0].to_string(), outcome.to_string());
        *self.answers.entry(key).or_insert(0) += 1;
        for case in self.cases_of(&call, outcome, &answer) {
            *self.cases.entry(case).or_insert(0) += 1;
        }
        self.follow(&call, outcome, &answer);
    }

    fn cases_of(&self, call: &[&str], outcome: &str, answer: &[&str]) -> Vec<String> {
        let mut cases = match (call, outcome) {
            (["clear", fills, weights], "ok") => accepted_clear(fills, weights, answer),
            (["quote", _, request, _, fills, _], "ok") => accepted_quote(request, fills, answer),
            (["clear", fills, weights], _) => refused_lists("clear", fills, weights, answer),
            (["quote", _, _, _, fills, weights], "18" | "19") => {
                refused_lists("quote", fills, weights, answer)
            }
            (["enter" | "quote", ..], "14") => {
                vec![format!(
                    "{}, 14: reason {}, place {}",
                    call[0], answer[2], answer[3]
                )]
            }
            (["kind", ..], "ok") => kind_cases(answer),
            (["publish", token, length], _) => {
                self.publish_cases(token, length, outcome, answer.get(1).unwrap_or(&""))
            }
            _ => Vec::new(),
        };
        cases.extend(self.state_cases(call[0], outcome));
        cases
    }

    fn state_cases(&self, call: &str, outcome: &str) -> Vec<String> {
        let Some(house) = self.houses.get(&self.current) else {
            return Vec::new();
        };
        let mut cases = Vec::new();
        if house.closed {
            cases.push(format!("once closed: {call}, {outcome}"));
            match (call, outcome) {
                ("enter", "12" | "14" | "15" | "16") => {
                    cases.push("once closed: enter, 12 or 14 to 16".to_string())
                }
                ("clear", "18" | "19") => cases.push("once closed: clear, 18 or 19".to_string()),
                ("quote", "14" | "16" | "18" | "19") => {
                    cases.push("once closed: quote, 14 to 19".to_string())
                }
                _ => {}
            }
        }
        if house.owed.is_some() {
            cases.push(format!("while a report is owed: {call}, {outcome}"));
            if (call, outcome) == ("quote", "ok") {
                cases.push("quote, ok: while a report is owed".to_string());
            }
        }
        cases
    }

    fn owed_by(&self, tag: &str) -> Option<Owed> {
        self.houses.get(tag).and_then(|house| house.owed.clone())
    }

    fn publish_cases(
        &self,
        token: &str,
        length: &str,
        outcome: &str,
        written: &str,
    ) -> Vec<String> {
        let (owed, brought) = (self.owed_by(&self.current), self.owed_by(token));
        let length: u64 = length.parse().unwrap_or(0);
        let case = match (outcome, owed, brought) {
            ("51", None, _) => "51: no report is owed here",
            ("51", Some(here), Some(there)) if here.clearing == there.clearing => {
                "51: one with the same clearing number is owed here"
            }
            ("51", Some(_), _) => "51: another report is owed here",
            ("ok", ..) if written == length.to_string() => "ok: page just long enough",
            ("ok", ..) => "ok: page longer",
            ("52", Some(here), _) if length + 1 == here.length => "52: page one byte short",
            _ => return Vec::new(),
        };
        vec![format!("publish, {case}")]
    }

    /// Keeps what the next cases need to know.
    fn follow(&mut self, call: &[&str], outcome: &str, answer: &[&str]) {
        match (call, outcome) {
            (["open", tag, ..], "ok") => {
                self.houses.insert(tag.to_string(), Seen::default());
                self.current = tag.to_string();
            }
            (["use", tag], "ok") => self.current = tag.to_string(),
            (["end"], "ok") => {
                self.houses.clear();
                self.current.clear();
            }
            (["clear", ..], "ok") => {
                let owed = Owed {
                    clearing: answer[1].to_string(),
                    length: report_length(answer),
                };
                self.seen(|house| house.owed = Some(owed.clone()));
            }
            (["publish", ..], "ok") => self.seen(|house| house.owed = None),
            (["settle", ..], "ok") => self.seen(|house| house.closed = true),
            _ => {}
        }
    }

    fn seen(&mut self, change: impl Fn(&mut Seen)) {
        if let Some(house) = self.houses.get_mut(&self.current) {
            change(house);
        }
    }

    fn tell(&self, lines: usize) -> String {
        let mut text = String::from("| Call | Answer | Seen |\n|---|---|---|\n");
        let mut never = Vec::new();
        let mut pairs = 0;
        for (call, outcomes) in ANSWERS {
            for outcome in *outcomes {
                let key = (call.to_string(), outcome.to_string());
                let seen = self.answers.get(&key).copied().unwrap_or(0);
                text.push_str(&format!("| `{call}` | {outcome} | {seen} |\n"));
                pairs += 1;
                if seen == 0 {
                    never.push(format!("{call}, {outcome}"));
                }
            }
        }
        text.push_str("\n| Case | Seen |\n|---|---|\n");
        let unseen_pairs = never.len();
        for case in CASES {
            let seen = self.cases.get(*case).copied().unwrap_or(0);
            text.push_str(&format!("| {case} | {seen} |\n"));
            if seen == 0 {
                never.push(case.to_string());
            }
        }
        let unseen_cases = never.len() - unseen_pairs;
        text.push('\n');
        text.push_str(&self.strangers());
        text.push_str(&format!(
            "{lines} calls; {} of {pairs} answers and {} of {} cases seen\n",
            pairs - unseen_pairs,
            CASES.len() - unseen_cases,
            CASES.len()
        ));
        let never = if never.is_empty() {
            "none".to_string()
        } else {
            never.join("; ")
        };
        text.push_str(&format!("never seen: {never}\n"));
        text
    }

    /// Answers that no call should have: each is told, so that none is overlooked.
    fn strangers(&self) -> String {
        let mut text = String::new();
        for ((call, outcome), seen) in &self.answers {
            let known = ANSWERS
                .iter()
                .any(|(c, all)| c == call && all.contains(&outcome.as_str()));
            if !known && (call.as_str(), outcome.as_str()) != ("end", "ok") {
                text.push_str(&format!(
                    "not in the rules: {call}, {outcome}, seen {seen}\n"
                ));
            }
        }
        text
    }
}

fn sign_word(figure: &str) -> &'static str {
    match figure {
        "0" => "0",
        figure if figure.starts_with('-') => "below 0",
        _ => "above 0",
    }
}

fn accepted_clear(fills: &str, weights: &str, answer: &[&str]) -> Vec<String> {
    let [_, number, net, reserve, worst, gap, sum] = answer else {
        return Vec::new();
    };
    let turn = if *number == "1" { "first" } else { "later" };
    let filled = if fills == "-" {
        "no fills"
    } else {
        "with fills"
    };
    let mut cases = vec![format!(
        "clear, ok: {turn} clearing, {filled}, gap {}",
        sign_word(gap)
    )];
    if fills != "-" {
        cases.push(format!(
            "clear, ok: with fills, reserve {}",
            sign_word(reserve)
        ));
        cases.push(format!(
            "clear, ok: with fills, worst price {}",
            sign_word(worst)
        ));
        cases.push(format!("clear, ok: with fills, net {}", sign_word(net)));
    }
    if *sum == MOST_WEIGHT.to_string() {
        cases.push("clear, ok: W is 1,000,000".to_string());
    }
    if couples(weights).map_or(0, |all| all.len()) == MOST_WEIGHTS as usize {
        cases.push("clear, ok: 512 weights".to_string());
    }
    cases
}

fn accepted_quote(request: &str, fills: &str, answer: &[&str]) -> Vec<String> {
    let [_, _, _, _, gap, _] = answer else {
        return Vec::new();
    };
    let mut cases = vec![format!("quote, ok: {request}, gap {}", sign_word(gap))];
    if fills != "-" {
        cases.push("quote, ok: with fills".to_string());
    }
    cases
}

/// Which of the reasons for 18 or 19 it was. An index is below the count, so that an entry is
/// told apart from the sum by what is carried.
fn refused_lists(call: &str, fills: &str, weights: &str, answer: &[&str]) -> Vec<String> {
    let fills = couples(fills).unwrap_or_default();
    let weights = couples(weights).unwrap_or_default();
    let carried: usize = answer
        .get(2)
        .and_then(|word| word.parse().ok())
        .unwrap_or(0);
    let sum: u128 = weights.iter().map(|(_, weight)| u128::from(*weight)).sum();
    let case = match answer[1] {
        "18" if fills[carried].1 == 0 => "18: no lots",
        "18" => "18: number does not rise",
        "19" if weights.is_empty() => "19: no weights",
        "19" if weights.len() > MOST_WEIGHTS as usize => "19: 513 weights or more",
        "19" if carried < weights.len() => "19: an entry",
        "19" if sum == 0 => "19: sum 0",
        "19" => "19: sum too large",
        "44" if answer[2] == "0" => "44: order 0",
        _ => return Vec::new(),
    };
    vec![format!("{call}, {case}")]
}

fn kind_cases(answer: &[&str]) -> Vec<String> {
    match answer {
        ["ok", "0", "0", ..] => vec!["kind, ok: valid".to_string()],
        ["ok", reason, place, ..] => vec![format!("kind, ok: reason {reason}, place {place}")],
        _ => Vec::new(),
    }
}

/// Each line is a name, `=`, a figure of the answer, and the line's end.
fn report_length(answer: &[&str]) -> u64 {
    let names = ["clearing", "net", "reserve", "worst", "gap", "weights"];
    let fixed: usize = names.iter().map(|name| name.len() + 2).sum();
    (fixed + answer[1..].iter().map(|figure| figure.len()).sum::<usize>()) as u64
}
