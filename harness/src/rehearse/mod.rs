//! Rehearsals: the three C functions through random sequences of calls, beside two models; and stored answers asked again.

mod calls;
mod listings;
mod model;
mod spell;
mod totals;

use crate::oracle::STACK;
use crate::rng::Rng;
use examiner::Words;
use listings::Listings;
use model::{counted, Answer, Call, Known, Machine, Outcome};
use std::rc::Rc;
use std::time::{Duration, Instant};
use totals::Totals;

/// Progress is shown this often.
const EVERY: Duration = Duration::from_secs(10);

/// Makes so many calls, from the seed. The totals, or the first disagreement.
pub fn run(seed: u64, count: usize) -> Result<String, String> {
    on_a_deep_stack(move || rehearse(seed, count))
}

/// Asks for stored answers again: how many there are, or those that are answered otherwise.
pub fn replay(stored: Vec<u8>) -> Result<String, String> {
    on_a_deep_stack(move || spell::replay(&stored))
}

fn on_a_deep_stack(work: impl FnOnce() -> Result<String, String> + Send + 'static) -> Result<String, String> {
    let thread = std::thread::Builder::new().stack_size(STACK).spawn(work).unwrap();
    thread.join().unwrap_or_else(|_| Err("the command itself panicked".to_string()))
}

/// Makes a call, with copies of the listing and the name.
fn make(listing: &[u8], call: &Call, handed: Words) -> Outcome {
    let (mut words, lent) = (handed, listing.to_vec());
    let mut intact = true;
    let (returned, answer) = match call {
        Call::Open(path) => examiner::rehearse_open(&lent, *path, &mut words),
        Call::Lay(name, kind) => {
            let lent_name = name.clone();
            let done = examiner::rehearse_lay(&lent, &lent_name, *kind, &mut words);
            intact = lent_name == *name;
            done
        }
        Call::TakeBack => examiner::rehearse_take_back(&lent, &mut words),
    };
    intact &= lent == listing;
    Outcome { returned, answer, words, intact }
}

fn rehearse(seed: u64, count: usize) -> Result<String, String> {
    let mut rng = Rng::new(seed);
    let mut listings = Listings::new(seed);
    let mut totals = Totals::default();
    let begun = Instant::now();
    let mut shown = begun;
    while totals.calls < count {
        let known = listings.next(&mut rng)?;
        totals.add_listing(&known);
        let state = calls::some_state(&mut rng, &known);
        let opened = known.clone();
        let mut under_way = UnderWay { rng: &mut rng, totals: &mut totals, opened, state, machine: None, log: vec![] };
        if known.check[0] == 0 {
            under_way.accepted(&known, &mut listings)?;
        } else {
            under_way.refused(&known)?;
        }
        if shown.elapsed() >= EVERY {
            shown = Instant::now();
            println!("{} calls in {} s", totals.calls, begun.elapsed().as_secs());
        }
    }
    Ok(totals.table(begun.elapsed()))
}

/// A call that was made: with which listing and state, and what was due.
struct Step {
    lent: Rc<Known>,
    state: [u32; 2],
    call: Call,
    due: Answer,
}

/// A rehearsal, and what is known of it.
struct UnderWay<'a> {
    rng: &'a mut Rng,
    totals: &'a mut Totals,
    /// The listing opened last.
    opened: Rc<Known>,
    /// Path and position due: handed to the next call.
    state: [u32; 2],
    /// The items laid, as long as every call since the open was lent the listing opened and handed what the last one left.
    machine: Option<Machine>,
    /// The calls since the last open that was not refused.
    log: Vec<Step>,
}

impl UnderWay<'_> {
    /// Makes a call and holds it against the models.
    fn call(&mut self, lent: &Rc<Known>, call: Call) -> Result<(), String> {
        // Garbage for what is due: a refusal leaves it.
        let handed = Words { rehearsal: self.state, due: [0; 4].map(|_| self.rng.next() as u32) };
        let due = counted(lent, self.state, &call);
        let (astray, other) = (self.machine.is_none(), !Rc::ptr_eq(lent, &self.opened));
        let by_list = self.by_list(lent, &call, due);
        self.totals.add(&call, due, astray, other);
        let got = make(&lent.listing, &call, handed);
        self.log.push(Step { lent: lent.clone(), state: self.state, call, due });
        if by_list.is_some_and(|answer| answer != due) {
            return Err(self.describe(&format!("the two models part: {by_list:?}"), handed, got));
        }
        if got != due.outcome(handed) {
            return Err(self.describe("disagreement", handed, got));
        }
        self.state = got.words.rehearsal;
        Ok(())
    }

    /// The answer by the list of items laid. Nothing if there is no such list, or not for this listing.
    fn by_list(&mut self, lent: &Rc<Known>, call: &Call, due: Answer) -> Option<Answer> {
        match (call, due) {
            (Call::Open(path), Answer::Shown(_)) => {
                self.opened = lent.clone();
                self.log.clear();
                self.machine = Some(Machine::open(*path));
            }
            (Call::Open(_), Answer::Refused(_)) => return None,
            _ if Rc::ptr_eq(lent, &self.opened) => {}
            (_, Answer::Refused(_)) => return None,
            (_, Answer::Shown(_)) => {
                // the state has moved with another listing
                self.machine = None;
                return None;
            }
        }
        Some(self.machine.as_mut()?.call(lent, call))
    }

    /// A listing that is refused: all calls get Check's answer, whatever the state.
    fn refused(&mut self, known: &Rc<Known>) -> Result<(), String> {
        for _ in 0..6 {
            self.state = calls::some_state(self.rng, known);
            let call = match self.rng.below(3) {
                0 => Call::Open(calls::no_path(self.rng, known)),
                1 => calls::wrong(self.rng, &[], 0),
                _ => Call::TakeBack,
            };
            self.call(known, call)?;
        }
        Ok(())
    }

    /// A few rehearsals on an accepted listing. At first the state is one that no call has left.
    fn accepted(&mut self, known: &Rc<Known>, listings: &mut Listings) -> Result<(), String> {
        for _ in 0..self.rng.below(3) {
            self.step(known)?;
        }
        for _ in 0..1 + self.rng.below(3) {
            let harmed = self.rng.chance(30);
            self.rehearsal(known, listings, harmed)?;
        }
        Ok(())
    }

    /// From an open to the end, most of the time, and a little further. `harmed` brings in other states and other listings.
    fn rehearsal(&mut self, known: &Rc<Known>, listings: &mut Listings, harmed: bool) -> Result<(), String> {
        let path = calls::some_path(self.rng, known);
        self.call(known, Call::Open(path))?;
        let items = known.paths[path as usize].len();
        for _ in 0..3 * items + 12 {
            if harmed && self.rng.chance(6) {
                self.state = calls::some_state(self.rng, known);
                self.machine = None;
                self.totals.damaged += 1;
            }
            if harmed && self.rng.chance(6) {
                let other = listings.other(self.rng, known)?;
                for _ in 0..1 + self.rng.below(3) {
                    let lent = if self.rng.chance(80) { &other } else { known };
                    self.step(lent)?;
                }
            }
            self.step(known)?;
            if self.state == [path, items as u32] && self.rng.chance(30) {
                break;
            }
        }
        Ok(())
    }

    /// The item due; or a wrong one; or some items back; or an open on no path.
    fn step(&mut self, lent: &Rc<Known>) -> Result<(), String> {
        let [path, position] = self.state;
        // an item of the listing opened may be laid on another one
        let source = if self.rng.chance(80) { lent.clone() } else { self.opened.clone() };
        let items = source.paths.get(path as usize).map_or(&[][..], |items| &items[..]);
        let call = match (self.rng.below(100), items.get(position as usize)) {
            (0..=1, _) => Call::Open(calls::no_path(self.rng, lent)),
            (2..=11, _) => {
                let most = self.rng.pick(&[1, 1, 2, 3, items.len() + 2]);
                (0..self.rng.below(most)).try_for_each(|_| self.call(lent, Call::TakeBack))?;
                Call::TakeBack
            }
            (35..=99, Some(item)) => calls::right(item),
            _ => calls::wrong(self.rng, items, position),
        };
        self.call(lent, call)
    }

    /// The last call: what it was handed, what came back, what was due; and all since the last open, as a file for --vectors.
    fn describe(&self, what: &str, handed: Words, got: Outcome) -> String {
        let last = self.log.last().unwrap();
        let show = |known: &Known| format!("\"{}\"\n{}", known.class, String::from_utf8_lossy(&known.listing));
        let mut text = format!("after {} calls: {what}\n--- the listing opened, {}", self.totals.calls, show(&self.opened));
        if !Rc::ptr_eq(&last.lent, &self.opened) {
            text += &format!("--- the listing lent, {}", show(&last.lent));
        }
        text += "--- the calls since the last open, with what is due\n";
        let mut lent = None;
        for step in &self.log {
            if !lent.is_some_and(|lent| Rc::ptr_eq(lent, &step.lent)) {
                lent = Some(&step.lent);
                text += &format!("listing {}\n", spell::bytes(&step.lent.listing));
            }
            text += &format!("{} -> {}\n", spell::call(step.state, &step.call), spell::answer(step.due));
        }
        format!("{text}--- the last call\nhanded in {handed:?}\ngot {got:?}\ndue {:?}", last.due.outcome(handed))
    }
}
