//! A second program for the rules of the house, to compare the proved one with.
//!
//! It was written from the rules in docs/, and not from the proved code. It is meant to be
//! obvious: every figure is counted anew, and the reserve is found by going over every price.

mod books;
mod contracts;
mod coverage;
mod dice;
mod generate;
mod house;
mod lines;
mod matching;
mod proposals;
mod ratio;
mod selftest;
mod solver;
mod writer;

use std::io::{Read, Write};
use std::process::exit;

const HELP: &str = "\
model run                       makes the calls on stdin, and prints one answer a line
model generate SEED             prints the random list of calls of a seed
model coverage CALLS ANSWERS    reads two files, and prints which answers of which calls are in them
model selftest                  checks the model against the worked figures of the rules";

fn main() {
    let words: Vec<String> = std::env::args().skip(1).collect();
    let words: Vec<&str> = words.iter().map(String::as_str).collect();
    match words.as_slice() {
        ["run"] => run(),
        ["generate", seed] => match seed.parse() {
            Ok(seed) => print_all(&generate::generate(seed)),
            Err(_) => fail("a seed is a figure of 64 bits"),
        },
        ["coverage", calls, answers] => print_coverage(calls, answers),
        ["selftest"] => selftest(),
        _ => fail(HELP),
    }
}

fn fail(words: &str) -> ! {
    eprintln!("{words}");
    exit(2)
}

/// A reader that closes early is no fault of ours.
fn print_all(text: &str) {
    if std::io::stdout().write_all(text.as_bytes()).is_err() {
        exit(1);
    }
}

fn run() {
    let mut text = String::new();
    if std::io::stdin().read_to_string(&mut text).is_err() {
        fail("the calls are not text");
    }
    let mut answers = lines::run(&text).join("\n");
    if !answers.is_empty() {
        answers.push('\n');
    }
    print_all(&answers);
}

fn print_coverage(calls: &str, answers: &str) {
    match (
        std::fs::read_to_string(calls),
        std::fs::read_to_string(answers),
    ) {
        (Ok(calls), Ok(answers)) => match coverage::table(&calls, &answers) {
            Some(table) => print_all(&table),
            None => fail("there are not as many answers as calls"),
        },
        _ => fail("the two files cannot be read"),
    }
}

fn selftest() {
    let findings = selftest::check();
    for fault in &findings.faults {
        println!("{fault}");
    }
    println!(
        "{} checks, {} faults",
        findings.checks,
        findings.faults.len()
    );
    exit(i32::from(!findings.faults.is_empty()));
}
