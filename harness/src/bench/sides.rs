//! What is timed, on one listing: Check, Report, the original with its tree, the original alone; and, if the listing is
//! accepted, the three calls of a rehearsal.
//!
//! Every key of these listings is marked 1, so the original's key test is told to say yes without asking the curve
//! (`Keys::AllMarked` of standins/bitcoin): both sides take the marks' word.

use crate::compare::stack;
use crate::listing;
use crate::oracle::{self, Built};
use bitcoin::Keys;
use examiner::Words;
use original::analyze::analyze;
use original::ast::StackParam;
use std::hint::black_box;
use std::time::{Duration, Instant};

#[derive(Clone, Copy, Debug, PartialEq, Eq)]
pub enum Side {
    Check,
    Report,
    /// Reading the listing, building the original's tree from it, `analyze`.
    Whole,
    /// Reading the listing and building the tree: what `Whole` has more than `Alone`.
    Tree,
    /// `analyze` on a tree that stands already.
    Alone,
    /// Opening a rehearsal of the last path.
    Open,
    /// Laying the last item of the last path; if it has none, a lay that is refused.
    Lay,
    /// Taking that item back.
    TakeBack,
}

pub const SIDES: [Side; 5] = [Side::Check, Side::Report, Side::Whole, Side::Tree, Side::Alone];
/// A rehearsal beside Check.
pub const REHEARSAL: [Side; 4] = [Side::Check, Side::Open, Side::Lay, Side::TakeBack];

impl Side {
    pub fn name(self) -> &'static str {
        match self {
            Side::Check => "check",
            Side::Report => "report",
            Side::Whole => "whole",
            Side::Tree => "tree",
            Side::Alone => "alone",
            Side::Open => "open",
            Side::Lay => "lay",
            Side::TakeBack => "take_back",
        }
    }

    pub fn named(name: &str) -> Option<Side> {
        SIDES.into_iter().chain(REHEARSAL).find(|side| side.name() == name)
    }
}

/// A rehearsal of the last path of an accepted listing.
struct Rehearsed {
    path: u32,
    /// How many items the path has.
    items: u32,
    /// Name and type of the last, an empty name if there is none.
    name: Vec<u8>,
    kind: u32,
}

impl Rehearsed {
    fn new(listing: &[u8]) -> Rehearsed {
        let paths = stack::paths(listing).shown(listing);
        let items = paths.last().expect("an accepted listing has a path");
        let (name, kind) = items.last().map_or((vec![], 0), |item| (item.name.clone(), item.kind));
        Rehearsed { path: paths.len() as u32 - 1, items: items.len() as u32, name, kind }
    }

    fn words(&self, position: u32) -> Words {
        Words { rehearsal: [self.path, position], due: [0; 4] }
    }

    fn open(&self, listing: &[u8]) -> (u32, Words) {
        let mut words = self.words(0);
        (examiner::rehearse_open(listing, self.path, &mut words).0, words)
    }

    fn lay(&self, listing: &[u8]) -> (u32, Words) {
        let mut words = self.words(self.items.saturating_sub(1));
        (examiner::rehearse_lay(listing, &self.name, self.kind, &mut words).0, words)
    }

    fn take_back(&self, listing: &[u8]) -> (u32, Words) {
        let mut words = self.words(self.items);
        (examiner::rehearse_take_back(listing, &mut words).0, words)
    }

    /// Do the calls do what is to be timed?
    fn holds(&self, listing: &[u8]) -> bool {
        let (open, lay, back) = (self.open(listing), self.lay(listing), self.take_back(listing));
        let laid = if self.items == 0 { 32 } else { 0 };
        let last = [self.path, self.items.saturating_sub(1)];
        (open.0, lay.0, back.0) == (0, laid, 0) && lay.1 == self.words(self.items) && back.1.rehearsal == last
    }
}

/// A listing, ready for each side.
pub struct Bench<'a> {
    listing: &'a [u8],
    built: Built,
    output: Vec<u8>,
    /// Nothing if the listing is refused.
    rehearsed: Option<Rehearsed>,
}

impl<'a> Bench<'a> {
    pub fn new(listing: &'a [u8]) -> Bench<'a> {
        bitcoin::set_keys(Keys::AllMarked);
        let rehearsed = (examiner::check(listing).0 == 0).then(|| Rehearsed::new(listing));
        Bench { listing, built: tree(listing), output: vec![0; 1 << 16], rehearsed }
    }

    pub fn accepted(&self) -> bool {
        self.rehearsed.is_some()
    }

    /// Do both sides give one answer, and a rehearsal the ones that are due?
    pub fn agree(&mut self) -> bool {
        let original = oracle::ask(&listing::read(self.listing).unwrap());
        let accepted = original == oracle::Answer::Accepted;
        let (_, check) = examiner::check(self.listing);
        let (_, report) = examiner::report(self.listing, &mut self.output);
        let rehearsed = self.rehearsed.as_ref().is_none_or(|rehearsed| rehearsed.holds(self.listing));
        check == report && (check[0] == 0) == accepted && rehearsed
    }

    /// How long so many runs take. What a run uses up is made before the clock starts.
    pub fn batch(&mut self, side: Side, runs: usize) -> Duration {
        let mut inputs: Vec<Vec<Vec<StackParam>>> = match side {
            Side::Alone => (0..runs).map(|_| self.built.declarations.clone()).collect(),
            _ => vec![],
        };
        let begun = Instant::now();
        for _ in 0..runs {
            self.once(side, inputs.pop());
        }
        begun.elapsed()
    }

    /// One run, which callgrind is told to count.
    pub fn counted(&mut self, side: Side) {
        let input = (side == Side::Alone).then(|| self.built.declarations.clone());
        bithoven_counted(self, side, input);
    }

    fn once(&mut self, side: Side, input: Option<Vec<Vec<StackParam>>>) {
        match side {
            Side::Check => drop(black_box(examiner::check(black_box(self.listing)))),
            Side::Report => drop(black_box(examiner::report(black_box(self.listing), &mut self.output))),
            Side::Whole => drop(black_box(oracle::ask(&listing::read(black_box(self.listing)).unwrap()))),
            Side::Tree => drop(black_box(tree(black_box(self.listing)))),
            Side::Alone => {
                let built = black_box(&self.built);
                drop(black_box(analyze(&built.block, input.unwrap(), &built.target)));
            }
            Side::Open => drop(black_box(self.rehearsed().open(black_box(self.listing)))),
            Side::Lay => drop(black_box(self.rehearsed().lay(black_box(self.listing)))),
            Side::TakeBack => drop(black_box(self.rehearsed().take_back(black_box(self.listing)))),
        }
    }

    fn rehearsed(&self) -> &Rehearsed {
        self.rehearsed.as_ref().expect("only an accepted listing is rehearsed")
    }
}

fn tree(listing: &[u8]) -> Built {
    oracle::build(&listing::read(listing).unwrap()).unwrap()
}

/// Callgrind counts only inside this function, which it finds by its name.
#[no_mangle]
#[inline(never)]
fn bithoven_counted(bench: &mut Bench, side: Side, input: Option<Vec<Vec<StackParam>>>) {
    bench.once(side, input);
}
