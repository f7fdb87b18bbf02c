//! Compares the crate `meminterval`, the reference model and the library, and writes the recorded answers.
//!
//! usage: compare examples | record FILE | run STEPS SEED | visits TREES SEED | damage POOLS SEED | flips POOLS SEED |
//! program INPUTS SEED
//! With `--by COMMAND` at the end the library takes part, and the command starts the bridge to it; for `program` it
//! starts the program.

mod asks;
mod bridge;
mod call;
mod cases;
mod compare;
mod coverage;
mod damage;
mod encode;
mod every;
mod examples;
mod flips;
mod library;
mod list;
mod original;
mod party;
mod program;
mod random;
mod reference;
mod requests;
mod slots;
mod visits;

use compare::{Parties, Tally};
use every::Sets;
use library::Library;
use original::Original;
use party::{Party, Pooled};
use random::Random;
use reference::Reference;
use std::process::ExitCode;

/// The sets of entries: the model's, and the library's where the bridge's command is given.
fn sets(bridge: &[String]) -> Result<Sets, String> {
    let mut sets: Sets = vec![Box::new(Reference)];
    if !bridge.is_empty() {
        sets.push(Box::new(Library::start(bridge)?));
    }
    Ok(sets)
}

/// The parties: the crate judges.
fn parties(bridge: &[String]) -> Result<Parties, String> {
    let pooled = sets(bridge)?.into_iter().map(|entries| Box::new(Pooled::new(entries)) as Box<dyn Party>);
    let original: Box<dyn Party> = Box::new(Original::default());
    Ok([original].into_iter().chain(pooled).collect())
}

/// Runs random sequences on fresh pools until so many steps are compared.
fn run(mut parties: Parties, steps: u64, seed: u64) -> Result<String, String> {
    let mut random = Random::new(seed);
    let mut tally = Tally::default();
    while tally.steps < steps {
        let sequence = requests::sequence(&mut random);
        compare::compare(&mut parties, &sequence, &mut tally).map_err(|report| format!("seed {seed}: {report}"))?;
    }
    let names: Vec<&str> = parties.iter().map(|party| party.name()).collect();
    Ok(format!("compared {} with seed {seed}: {}", names.join(", "), tally.line()))
}

/// A number among the arguments.
fn number(words: &[String], at: usize) -> Result<u64, String> {
    let word = words.get(at).ok_or("a number is missing")?;
    word.parse().map_err(|_| format!("{word} is no number from 0 to 2^64 - 1"))
}

/// Does what the arguments ask for, and gives the line to print.
fn answer(words: &[String]) -> Result<String, String> {
    let mut parts = words.splitn(2, |word| word == "--by");
    let (words, command) = (parts.next().unwrap_or_default(), parts.next().unwrap_or_default());
    match words.first().map(String::as_str) {
        Some("examples") => examples::run(parties(command)?, sets(command)?),
        Some("record") => list::write(words.get(1).ok_or("a file name is missing")?),
        Some("run") => run(parties(command)?, number(words, 1)?, number(words, 2)?),
        Some("damage") => damage::run(&sets(command)?, number(words, 1)?, number(words, 2)?),
        Some("flips") => flips::run(&sets(command)?, number(words, 1)?, number(words, 2)?),
        Some("program") => program::run(command, number(words, 1)?, number(words, 2)?),
        Some("visits") => visits::run(number(words, 1)?, number(words, 2)?),
        _ => Err("the first word is none of examples, record, run, visits, damage, flips, program".to_string()),
    }
}

/// How many queries the library answered by records as by words, as the end of a line; nothing where it took no part.
fn by_records() -> String {
    match bridge::asked_by_records() {
        0 => String::new(),
        asked => format!("; {asked} queries by records as by words"),
    }
}

/// Prints the answer, or what differs, and then fails.
fn main() -> ExitCode {
    let words: Vec<String> = std::env::args().skip(1).collect();
    match answer(&words) {
        Ok(line) => {
            println!("{line}{}", by_records());
            ExitCode::SUCCESS
        }
        Err(line) => {
            eprintln!("{line}");
            ExitCode::FAILURE
        }
    }
}
