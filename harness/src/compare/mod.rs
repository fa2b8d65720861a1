//! The comparison: Check, Report and Name beside the original and beside models of demand 3 and of the report.

pub mod damage;
mod every;
pub mod inputs;
pub mod judge;
mod order;
pub mod question;
pub mod shapes;
mod shrink;
pub mod stack;
mod twin;

use crate::oracle::STACK;
use inputs::{Input, Inputs};
use judge::{judge, Disagreement, Plant, Seen};
use question::How;
use std::collections::{BTreeMap, HashSet};
use std::hash::{DefaultHasher, Hash, Hasher};
use std::io::Write;
use std::time::{Duration, Instant};

/// Progress is shown this often.
const EVERY: Duration = Duration::from_secs(10);

/// Compares so many listings of the seed. The totals, or the first disagreement, made small.
pub fn run(seed: u64, count: usize, plant: Plant) -> Result<String, String> {
    let work = move || compare(seed, count, plant);
    let thread = std::thread::Builder::new().stack_size(STACK).spawn(work).unwrap();
    thread.join().unwrap_or_else(|_| Err("the comparison itself panicked".to_string()))
}

fn compare(seed: u64, count: usize, plant: Plant) -> Result<String, String> {
    let mut inputs = Inputs::new(seed);
    let mut totals = Totals::default();
    let begun = Instant::now();
    let mut shown = begun;
    for _ in 0..count {
        let input = inputs.next();
        match judge(&input.listing, input.due, plant) {
            Ok(seen) => totals.add(&input, &seen),
            Err(found) => return Err(describe(&input, &found, plant, &totals)),
        }
        if shown.elapsed() >= EVERY {
            shown = Instant::now();
            println!("{} in {} s: {}", totals.count, begun.elapsed().as_secs(), totals.by_number());
            let _ = std::io::stdout().flush();
        }
    }
    Ok(totals.table(begun.elapsed()))
}

/// The disagreement on the listing itself and on the smallest one found.
fn describe(input: &Input, found: &Disagreement, plant: Plant, totals: &Totals) -> String {
    let due = input.due.filter(|_| found.about == judge::About::Aim);
    let again = |listing: &[u8]| judge(listing, due, plant).err().filter(|other| other.about == found.about);
    let smallest = shrink::shrink(&input.listing, &|listing| again(listing).is_some());
    let text = again(&smallest).map_or(found.text.clone(), |other| other.text);
    let show = |bytes: &[u8]| String::from_utf8_lossy(bytes).into_owned();
    format!(
        "after {} listings, class \"{}\": disagreement about {:?}\n{}\n--- the listing\n{}--- the smallest found\n{}--- on it\n{text}",
        totals.count, input.class, found.about, found.text, show(&input.listing), show(&smallest)
    )
}

/// What was compared.
#[derive(Default)]
struct Totals {
    count: usize,
    distinct: HashSet<u64>,
    bytes: usize,
    numbers: BTreeMap<u32, usize>,
    classes: BTreeMap<&'static str, usize>,
    /// Listings that can be read, by how the original was asked.
    asked: BTreeMap<How, usize>,
    /// Listings whose number and place were known beforehand.
    known: usize,
    /// Listings with a wait of op 2 that are accepted.
    accepted_op_2: usize,
    /// `W` lines of all reports.
    waits: usize,
}

impl Totals {
    fn add(&mut self, input: &Input, seen: &Seen) {
        self.count += 1;
        self.bytes += input.listing.len();
        let mut hasher = DefaultHasher::new();
        input.listing.hash(&mut hasher);
        self.distinct.insert(hasher.finish());
        *self.numbers.entry(seen.number).or_default() += 1;
        *self.classes.entry(input.class).or_default() += 1;
        if let Some(how) = seen.how {
            *self.asked.entry(how).or_default() += 1;
            self.known += usize::from(input.due.is_some());
            self.accepted_op_2 += usize::from(how.is_op_2() && seen.number == 0);
        }
        self.waits += seen.waits;
    }

    fn by_number(&self) -> String {
        self.numbers.iter().map(|(number, count)| format!("{number}:{count}")).collect::<Vec<_>>().join(" ")
    }

    fn table(&self, time: Duration) -> String {
        let mut text = String::from("number  listings\n");
        for (number, count) in &self.numbers {
            text += &format!("{number:>6}  {count}\n");
        }
        text += "\n";
        for (class, count) in &self.classes {
            text += &format!("{class}: {count}\n");
        }
        text += "\n";
        text += &self.by_reason();
        let distinct = self.distinct.len();
        text + &format!(
            "\n{} listings, {distinct} of them different, {} bytes, {} s: no disagreement",
            self.count,
            self.bytes,
            time.as_secs()
        )
    }

    /// What each listing was held against, and why not against the original as it is.
    fn by_reason(&self) -> String {
        let asked = |how: How| self.asked.get(&how).copied().unwrap_or(0);
        let read: usize = self.asked.values().sum();
        let mut text = format!("cannot be read, held against listing.rs: {}\n", self.count - read);
        text += &format!("held against the original as it is: {}\n", asked(How::Plain));
        text += &format!("with its key test answered from the marks: {}\n", asked(How::ByMarks));
        text += &format!("with other literals for those not UTF-8: {}\n", asked(How::OtherLiterals));
        text += &format!("not held against it, one key with both marks: {}\n", asked(How::TwoMarks));
        text += &format!("not held against it, one byte not UTF-8 under size: {}\n", asked(How::OneByte));
        let op_2 = asked(How::Op1ForOp2) + asked(How::Op2Unasked);
        text += &format!("not held against it, op 2: {op_2}, {} of them accepted, ", self.accepted_op_2);
        text += &format!("{} held against it with op 1 in place of op 2\n", asked(How::Op1ForOp2));
        text += &format!("also held against a number known beforehand: {}\n", self.known);
        text + &format!("lines W of reports: {}\n", self.waits)
    }
}
