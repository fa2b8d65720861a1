//! What was asked.

use super::model::{Answer, Call, Known};
use std::collections::{BTreeMap, HashSet};
use std::hash::{DefaultHasher, Hash, Hasher};
use std::time::Duration;

#[derive(Default)]
pub struct Totals {
    pub calls: usize,
    /// States that were replaced by others.
    pub damaged: usize,
    kinds: BTreeMap<&'static str, usize>,
    answers: BTreeMap<u32, usize>,
    /// Lays that ended a rehearsal whose every call was in order.
    to_the_end: usize,
    /// Answers that say ended.
    ended: usize,
    /// Calls on a state that no sequence from an open left.
    astray: usize,
    /// Calls that lent another listing than the one opened.
    other: usize,
    listings: usize,
    accepted: usize,
    /// Accepted listings with a wait of op 2.
    accepted_op_2: usize,
    distinct: HashSet<u64>,
    classes: BTreeMap<&'static str, usize>,
}

impl Totals {
    pub fn add_listing(&mut self, known: &Known) {
        self.listings += 1;
        self.accepted += usize::from(known.check[0] == 0);
        self.accepted_op_2 += usize::from(known.check[0] == 0 && known.op_2);
        let mut hasher = DefaultHasher::new();
        known.listing.hash(&mut hasher);
        self.distinct.insert(hasher.finish());
        *self.classes.entry(known.class).or_default() += 1;
    }

    pub fn add(&mut self, call: &Call, due: Answer, astray: bool, other: bool) {
        self.calls += 1;
        let (kind, opens) = match call {
            Call::Open(_) => ("open", true),
            Call::Lay(..) => ("lay", false),
            Call::TakeBack => ("take back", false),
        };
        *self.kinds.entry(kind).or_default() += 1;
        self.astray += usize::from(astray && !opens);
        self.other += usize::from(other && !opens);
        let number = match due {
            Answer::Refused(numbers) => numbers[0],
            Answer::Shown(words) => {
                let ended = words.due[0] == 0;
                self.ended += usize::from(ended);
                self.to_the_end += usize::from(ended && kind == "lay" && !astray && !other);
                0
            }
        };
        *self.answers.entry(number).or_default() += 1;
    }

    pub fn table(&self, time: Duration) -> String {
        let mut text = String::from("number  calls\n");
        for (number, count) in &self.answers {
            text += &format!("{number:>6}  {count}\n");
        }
        text += "\n";
        for (kind, count) in &self.kinds {
            text += &format!("{kind}: {count}\n");
        }
        text += &format!("answers that say ended: {}\n", self.ended);
        text += &format!("rehearsals laid to the end, held against the list of items laid: {}\n", self.to_the_end);
        text += &format!("damaged states: {}\n", self.damaged);
        text += &format!("calls on states that no sequence leaves: {}\n", self.astray);
        text += &format!("calls lent another listing than the one opened: {}\n\n", self.other);
        for (class, count) in &self.classes {
            text += &format!("{class}: {count}\n");
        }
        text + &format!(
            "\n{} calls on {} listings, {} of them different, {} accepted, {} of these with op 2, {} s: no disagreement",
            self.calls,
            self.listings,
            self.distinct.len(),
            self.accepted,
            self.accepted_op_2,
            time.as_secs()
        )
    }
}
