//! The listings that are compared, without end: cases made by hand first, then rounds of random ones.

use super::damage::damage;
use super::every::EveryByte;
use super::judge::Due;
use super::shapes;
use crate::case::{Aim, Case, Suite};
use crate::rng::Rng;
use crate::tree::*;
use crate::{aimed, cases, deep, embed, good, keys, make, mutate, seconds, writer};
use std::collections::VecDeque;

/// A listing, where it comes from, and what a made case expects of it.
pub struct Input {
    pub class: &'static str,
    pub listing: Vec<u8>,
    pub due: Option<Due>,
}

pub struct Inputs {
    suite: Suite,
    /// Listings that are made but not handed out.
    ready: VecDeque<Input>,
    /// The cases made by hand, to be damaged.
    by_hand: Vec<Vec<u8>>,
    every_byte: EveryByte,
    /// The same of a contract with waits of each op.
    every_wait: EveryByte,
}

/// So many in a hundred contracts get waits of op 2.
const WITH_OP_2: usize = 25;

impl Inputs {
    pub fn new(seed: u64) -> Inputs {
        let mut suite = Suite::new(seed);
        cases::add_all(&mut suite);
        cases::add_op_2(&mut suite);
        embed::fill(&mut suite);
        let (every_byte, every_wait) = (EveryByte::of_all_forms(), EveryByte::of_waits());
        let mut inputs = Inputs { suite, ready: VecDeque::new(), by_hand: vec![], every_byte, every_wait };
        inputs.take_cases("made by hand");
        inputs.by_hand = inputs.ready.iter().map(|input| input.listing.clone()).collect();
        deep::add(&mut inputs.suite);
        inputs.take_cases("worst cases");
        inputs
    }

    pub fn next(&mut self) -> Input {
        loop {
            if let Some(input) = self.ready.pop_front() {
                return input;
            }
            self.round();
        }
    }

    fn push(&mut self, class: &'static str, listing: Vec<u8>) {
        self.ready.push_back(Input { class, listing, due: None });
    }

    /// Moves the suite's cases over.
    fn take_cases(&mut self, class: &'static str) {
        for case in std::mem::take(&mut self.suite.cases) {
            self.ready.push_back(Input { class, listing: writer::write(&case.contract), due: due(&case) });
        }
    }

    /// One round: every fault that aimed.rs knows, and some of each other class.
    fn round(&mut self) {
        let size = shapes::some_size(&mut self.suite.rng);
        aimed::add_round(&mut self.suite, size);
        self.with_op_2();
        seconds::add_fault(&mut self.suite, size);
        self.take_cases("one known fault");
        for _ in 0..8 {
            let contract = good::contract(&mut self.suite.rng, size);
            self.suite.add_whole("0@random-good", contract, false);
        }
        self.with_op_2();
        self.take_cases("good");
        self.changed(size);
        self.damaged(size);
        self.marked(size);
        self.not_utf8(size);
        self.at_ceilings();
        let some: Vec<Vec<u8>> = self.every_byte.by_ref().take(22).collect();
        some.into_iter().for_each(|listing| self.push("every byte of one contract", listing));
        let some: Vec<Vec<u8>> = self.every_wait.by_ref().take(8).collect();
        some.into_iter().for_each(|listing| self.push("every byte of one with waits", listing));
    }

    /// Puts waits of op 2 into some of the suite's cases. Their answers stay, at the same nodes.
    fn with_op_2(&mut self) {
        let Suite { rng, cases, .. } = &mut self.suite;
        for case in cases {
            if rng.chance(WITH_OP_2) {
                seconds::put_in(rng, &mut case.contract);
                make::place(&mut case.contract);
            }
        }
    }

    fn good(&mut self, size: good::Size) -> Contract {
        let mut contract = good::contract(&mut self.suite.rng, size);
        if self.suite.rng.chance(WITH_OP_2) {
            seconds::put_in(&mut self.suite.rng, &mut contract);
        }
        make::place(&mut contract);
        keys::set_marks(&mut contract);
        contract
    }

    /// Good contracts changed at random.
    fn changed(&mut self, size: good::Size) {
        for _ in 0..20 {
            let mut contract = good::contract(&mut self.suite.rng, size);
            mutate::mutate(&mut self.suite.rng, &mut contract);
            if self.suite.rng.chance(WITH_OP_2) {
                seconds::change(&mut self.suite.rng, &mut contract);
            }
            make::place(&mut contract);
            if self.suite.rng.chance(5) {
                wild_locations(&mut self.suite.rng, &mut contract);
            }
            keys::set_marks(&mut contract);
            self.push("changed at random", writer::write(&contract));
        }
    }

    /// Listings of good contracts and of cases made by hand, damaged. Each good one serves a few times.
    fn damaged(&mut self, size: good::Size) {
        for i in 0..4 {
            let whole = match i {
                0 => self.by_hand[self.suite.rng.below(self.by_hand.len())].clone(),
                _ => writer::write(&self.good(size)),
            };
            for _ in 0..5 {
                let mut listing = whole.clone();
                damage(&mut self.suite.rng, &mut listing);
                self.push("damaged", listing);
            }
        }
    }

    /// Marks turned: most of them on keys.
    fn marked(&mut self, size: good::Size) {
        for _ in 0..3 {
            let mut contract = self.good(size);
            let rng = &mut self.suite.rng;
            contract.block.each_mut(&mut |node| {
                if let Form::Literal(bytes, mark) = &mut node.form {
                    if rng.chance(if bytes.len() >= 64 { 30 } else { 10 }) {
                        *mark = !*mark;
                    }
                }
            });
            self.push("marks not true", writer::write(&contract));
        }
    }

    /// Literals that are not UTF-8.
    fn not_utf8(&mut self, size: good::Size) {
        for _ in 0..3 {
            let mut contract = self.good(size);
            let rng = &mut self.suite.rng;
            contract.block.each_mut(&mut |node| {
                if let Form::Literal(bytes, _) = &mut node.form {
                    if rng.chance(40) {
                        let length = rng.pick(&[1, 1, 2, 3, 8, 64, 66, 519, 520, 521, 522, 1040, 1042, 1200]);
                        *bytes = (0..length).map(|_| rng.next() as u8).collect();
                        bytes[0] |= 0x80;
                    }
                }
            });
            self.push("not UTF-8", writer::write(&contract));
        }
    }

    /// Contracts at the ceilings: good, with a known fault, changed, damaged, one past the ceiling.
    fn at_ceilings(&mut self) {
        let rng = &mut self.suite.rng;
        let which = rng.below(5);
        let mut contract = shapes::contract(rng, which == 4);
        let mut due = (which == 0).then_some((0, None));
        match which {
            1 => {
                aimed::spoil(rng, &mut contract);
            }
            2 => mutate::mutate(rng, &mut contract),
            _ => {}
        }
        if which == 1 || which == 2 {
            keys::set_marks(&mut contract);
        }
        let mut listing = writer::write(&contract);
        if which == 3 {
            damage(rng, &mut listing);
        }
        if crate::listing::read(&listing).is_err() {
            due = None;
        }
        self.ready.push_back(Input { class: "at the ceilings", listing, due });
    }
}

/// What a case expects.
fn due(case: &Case) -> Option<Due> {
    let number = case.number()?;
    Some(match case.aim {
        Aim::Here => (number, case.contract.aim()),
        Aim::Outset => (number, Some(OUTSET)),
        Aim::Nowhere => (number, None),
    })
}

/// Locations from the edges of 32 bits.
fn wild_locations(rng: &mut Rng, contract: &mut Contract) {
    let mut wild = || {
        let mut one = || rng.pick(&[0, 1, 9, 10, 99, 4294967295, 4294967294, 1000000000, 2147483648]);
        Where { start: one(), end: one(), line: one(), column: one() }
    };
    contract.declarations.iter_mut().flatten().for_each(|item| item.at = wild());
    contract.block.each_mut(&mut |node| {
        if node.form != Form::Block {
            node.at = wild();
        }
    });
}
