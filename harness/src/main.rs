//! Compares the examiner of spending contracts with the original `analyze`. See README.md.

mod aimed;
#[cfg(feature = "examiner")]
mod bench;
mod case;
mod cases;
#[cfg(feature = "examiner")]
mod compare;
mod deep;
mod embed;
mod good;
mod keys;
mod listing;
mod make;
mod mutate;
mod oracle;
mod reading;
#[cfg(feature = "examiner")]
mod rehearse;
mod rng;
#[cfg(feature = "examiner")]
mod seconds;
mod stored;
mod tree;
mod vectors;
mod walk;
mod writer;

use case::Suite;
use std::io::Read;
use std::process::exit;
use vectors::Records;

const USAGE: &str = "usage: run vectors --sources SOURCES --seed NUMBER --out FOLDER
       run deep --sources SOURCES --out FOLDER
       run check --sources SOURCES --stored FOLDER
       run answer --sources SOURCES < LISTING
       run reading --sources SOURCES --stored FILE
       run compare --sources SOURCES --seed NUMBER --count NUMBER [--library FILE] [--plant NUMBER]
       run rehearse --sources SOURCES --seed NUMBER --count NUMBER [--library FILE]
       run rehearse --sources SOURCES --vectors FILE [--library FILE]
       run bench --sources SOURCES [--library FILE]";

/// The value after an option, if the option is there.
fn maybe(arguments: &[String], name: &str) -> Option<String> {
    let place = arguments.iter().position(|a| a == name);
    place.and_then(|i| arguments.get(i + 1)).cloned()
}

/// The value after an option.
fn option(arguments: &[String], name: &str) -> String {
    maybe(arguments, name).unwrap_or_else(|| fail(&format!("{name} is missing\n{USAGE}")))
}

/// The number after an option.
fn number(arguments: &[String], name: &str) -> u64 {
    option(arguments, name).parse().unwrap_or_else(|_| fail(&format!("{name} wants a number")))
}

fn fail(text: &str) -> ! {
    eprintln!("{text}");
    exit(1)
}

fn contents(file: &str) -> Vec<u8> {
    std::fs::read(file).unwrap_or_else(|e| fail(&format!("{file}: {e}")))
}

fn main() {
    let arguments: Vec<String> = std::env::args().skip(1).collect();
    match arguments.first().map(String::as_str) {
        Some("vectors") => {
            store(vectors::rules(number(&arguments, "--seed")), &option(&arguments, "--out"));
        }
        Some("deep") => {
            let mut suite = Suite::new(0);
            deep::add(&mut suite);
            let mut records = Records::default();
            suite.cases.iter().for_each(|case| {
                records.add(case);
            });
            store(records, &option(&arguments, "--out"));
        }
        Some("answer") => answer(),
        Some("check") => check(&option(&arguments, "--stored")),
        Some("reading") => match reading::compare(&contents(&option(&arguments, "--stored"))) {
            Ok(count) => println!("{count} listings are read as stored"),
            Err(text) => fail(&text),
        },
        #[cfg(feature = "examiner")]
        Some("compare") => {
            let plant = maybe(&arguments, "--plant").map(|_| number(&arguments, "--plant") as u8);
            let count = number(&arguments, "--count") as usize;
            match compare::run(number(&arguments, "--seed"), count, plant) {
                Ok(totals) => println!("{totals}"),
                Err(text) => fail(&text),
            }
        }
        #[cfg(feature = "examiner")]
        Some("rehearse") => {
            let done = match maybe(&arguments, "--vectors") {
                Some(file) => rehearse::replay(contents(&file)),
                None => rehearse::run(number(&arguments, "--seed"), number(&arguments, "--count") as usize),
            };
            match done {
                Ok(totals) => println!("{totals}"),
                Err(text) => fail(&text),
            }
        }
        #[cfg(feature = "examiner")]
        Some("bench") => bench::run(&arguments).unwrap_or_else(|text| fail(&text)),
        _ => fail(USAGE),
    }
}

fn write(file: &str, bytes: &[u8]) {
    std::fs::write(file, bytes).unwrap_or_else(|e| fail(&format!("{file}: {e}")));
}

/// Writes the listings and the answers and prints their table. Any case that missed its aim is a failure, and nothing is
/// written.
fn store(records: Records, folder: &str) {
    if !records.faults.is_empty() {
        fail(&format!("{}\n{} cases missed their aim", records.faults.join("\n"), records.faults.len()));
    }
    let data = format!("{folder}/data");
    std::fs::create_dir_all(&data).unwrap_or_else(|e| fail(&format!("{data}: {e}")));
    write(&format!("{data}/listings"), &records.listings());
    write(&format!("{folder}/stdout"), records.stdout().as_bytes());
    print!("{}", records.table());
}

/// Prints how many stored listings the original answers as stored; fails if one is not.
fn check(folder: &str) {
    let listings = contents(&format!("{folder}/data/listings"));
    let stdout = contents(&format!("{folder}/stdout"));
    let (count, faults) = vectors::check(&listings, &stdout).unwrap_or_else(|e| fail(&e));
    if !faults.is_empty() {
        fail(&format!("{}\n{} lines are due otherwise, of {count} listings", faults.join("\n"), faults.len()));
    }
    println!("{count} listings are answered as stored");
}

/// Prints the original's answer on the listing of standard input.
fn answer() {
    let mut bytes = vec![];
    std::io::stdin().read_to_end(&mut bytes).unwrap();
    match listing::read(&bytes) {
        Err(refusal) => println!("reading: {refusal:?}"),
        Ok(contract) => println!("{:?}", oracle::answer(&contract)),
    }
}
