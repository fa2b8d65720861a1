//! The stored list: listings, and the original's answers as the program `rule_vectors` has to print them.

use crate::case::{Aim, Case, Suite};
use crate::listing;
use crate::oracle::{self, Answer};
use crate::stored;
use crate::tree::{Contract, Where, OUTSET};
use crate::writer;
use crate::{aimed, cases, embed, good, mutate};
use std::collections::{BTreeMap, HashSet};

/// A listing and the answer stored with it: 0 with 0,0,0,0 where it is accepted.
pub struct Record {
    pub listing: Vec<u8>,
    pub number: u8,
    pub at: Where,
}

impl Record {
    /// As it stands in data/listings: head line, listing, byte 10.
    fn bytes(&self) -> Vec<u8> {
        let mut bytes = format!("{:05}\n", self.listing.len()).into_bytes();
        bytes.extend(&self.listing);
        bytes.push(b'\n');
        bytes
    }

    /// Its line of stdout.
    fn line(&self, index: usize) -> String {
        let Where { start, end, line, column } = self.at;
        format!("{index},{},{start},{end},{line},{column}", self.number)
    }
}

/// The last line of stdout.
fn totals(count: usize, accepted: usize) -> String {
    format!("{count} listings, {accepted} accepted, 0 words of work wrong")
}

/// Records without repeats, and how many each label and each number has.
#[derive(Default)]
pub struct Records {
    pub all: Vec<Record>,
    /// The listings' bytes.
    pub size: usize,
    seen: HashSet<Vec<u8>>,
    labels: BTreeMap<(Option<u8>, String), usize>,
    numbers: BTreeMap<u8, usize>,
    /// Cases that do not fit their label, or that the original cannot answer.
    pub faults: Vec<String>,
}

impl Records {
    /// Asks the original for a case, holds its answer against the label, and keeps the record. Says whether it was kept.
    pub fn add(&mut self, case: &Case) -> bool {
        let bytes = writer::write(&case.contract);
        if self.seen.contains(&bytes) {
            return false;
        }
        let record = match record(&case.contract, bytes) {
            Ok(record) => record,
            Err(fault) => {
                self.faults.push(format!("{}: {fault}", case.label));
                return false;
            }
        };
        if let Err(fault) = fits(case, &record) {
            let text = String::from_utf8_lossy(&record.listing).into_owned();
            self.faults.push(format!("{}: {fault}\n{text}", case.label));
            return false;
        }
        self.keep(case, record);
        true
    }

    fn keep(&mut self, case: &Case, record: Record) {
        self.size += record.listing.len();
        self.seen.insert(record.listing.clone());
        *self.labels.entry((case.number(), case.label.clone())).or_default() += 1;
        *self.numbers.entry(record.number).or_default() += 1;
        self.all.push(record);
    }

    /// The file data/listings.
    pub fn listings(&self) -> Vec<u8> {
        self.all.iter().flat_map(|record| record.bytes()).collect()
    }

    /// The file stdout.
    pub fn stdout(&self) -> String {
        let mut text = String::new();
        for (index, record) in self.all.iter().enumerate() {
            text += &(record.line(index) + "\n");
        }
        let accepted = self.numbers.get(&0).copied().unwrap_or(0);
        text + &totals(self.all.len(), accepted) + "\n"
    }

    /// Label and count, number and count.
    pub fn table(&self) -> String {
        let mut text = String::new();
        for ((_, label), count) in &self.labels {
            text += &format!("{label} {count}\n");
        }
        text += "\n";
        for (number, count) in &self.numbers {
            text += &format!("{number} {count}\n");
        }
        text + &format!("\n{} records, {} bytes of listings\n", self.all.len(), self.size)
    }
}

/// The record of a listing. It must read back as the contract it was written from.
fn record(contract: &Contract, bytes: Vec<u8>) -> Result<Record, String> {
    let mut back = listing::read(&bytes).map_err(|refusal| format!("is not read: {refusal:?}"))?;
    let answer = oracle::answer(&back);
    clear_aims(&mut back);
    let mut plain = contract.clone();
    clear_aims(&mut plain);
    if back != plain {
        return Err("is read as another contract".to_string());
    }
    match answer {
        Answer::Accepted => Ok(Record { listing: bytes, number: 0, at: Where::default() }),
        Answer::Refused(number, at) => Ok(Record { listing: bytes, number, at }),
        other => Err(format!("{other:?}\n{}", String::from_utf8_lossy(&bytes))),
    }
}

fn clear_aims(contract: &mut Contract) {
    contract.declarations.iter_mut().flatten().for_each(|item| item.aimed = false);
    contract.block.each_mut(&mut |node| node.aimed = false);
}

/// Is the answer the one that the case expects?
fn fits(case: &Case, record: &Record) -> Result<(), String> {
    let expected = match case.aim {
        Aim::Here => case.contract.aim(),
        Aim::Outset => Some(OUTSET),
        Aim::Nowhere => None,
    };
    if case.number().is_some_and(|number| number != record.number) {
        return Err(format!("the original says {} at {:?}", record.number, record.at));
    }
    match expected {
        Some(at) if at != record.at => Err(format!("expected at {at:?}, the original says {:?}", record.at)),
        _ => Ok(()),
    }
}

/// No listing is added once there are this many bytes of them.
const MOST_BYTES: usize = 1_100_000;

/// The stored list of the rules: every case made by hand, then random ones until the list is full.
pub fn rules(seed: u64) -> Records {
    let mut suite = Suite::new(seed);
    cases::add_all(&mut suite);
    embed::fill(&mut suite);
    let mut records = Records::default();
    for case in suite.cases.drain(..) {
        records.add(&case);
    }
    for round in 0.. {
        random_round(&mut suite, round);
        for case in suite.cases.drain(..) {
            if records.size >= MOST_BYTES {
                return records;
            }
            records.add(&case);
        }
    }
    records
}

/// A few good contracts, each fault put into one, and contracts changed at random.
fn random_round(suite: &mut Suite, round: usize) {
    let size = if round % 6 == 0 { good::MIDDLE } else { good::SMALL };
    aimed::add_round(suite, size);
    for _ in 0..8 {
        let contract = good::contract(&mut suite.rng, size);
        suite.add_whole("0@random-good", contract, false);
    }
    if round % 4 == 0 {
        let contract = good::contract(&mut suite.rng, good::LARGE);
        suite.add_whole("0@random-good-large", contract, false);
    }
    for _ in 0..20 {
        let mut contract = good::contract(&mut suite.rng, size);
        mutate::mutate(&mut suite.rng, &mut contract);
        suite.add_whole("any@random-change", contract, false);
    }
}

/// Asks the original again for each stored listing. How many there are, and the lines of stdout that should be others.
pub fn check(listings: &[u8], stdout: &[u8]) -> Result<(usize, Vec<String>), String> {
    let records = stored::parse(listings, 0)?;
    let lines = stored::lines(stdout)?;
    if lines.len() != records.len() + 1 {
        return Err(format!("{} listings, and stdout has {} lines", records.len(), lines.len()));
    }
    let mut faults = vec![];
    let mut accepted = 0;
    for (index, stored) in records.iter().enumerate() {
        match again(stored.listing) {
            Ok(record) => {
                accepted += usize::from(record.number == 0);
                let found = record.line(index);
                if found != lines[index] {
                    let text = String::from_utf8_lossy(stored.listing);
                    faults.push(format!("stored {}, found {found}:\n{text}", lines[index]));
                }
            }
            Err(fault) => faults.push(format!("stored {}, found {fault}", lines[index])),
        }
    }
    let last = totals(records.len(), accepted);
    if last != lines[records.len()] {
        faults.push(format!("stored {}, found {last}", lines[records.len()]));
    }
    Ok((records.len(), faults))
}

/// The record of a stored listing.
fn again(bytes: &[u8]) -> Result<Record, String> {
    let contract = listing::read(bytes).map_err(|refusal| format!("{refusal:?}:\n{}", String::from_utf8_lossy(bytes)))?;
    record(&contract, bytes.to_vec())
}
