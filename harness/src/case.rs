//! Labelled contracts with what is expected of them.

use crate::keys;
use crate::make;
use crate::rng::Rng;
use crate::tree::*;

/// Where a case expects its refusal.
#[derive(Clone, Copy, Debug, PartialEq, Eq)]
pub enum Aim {
    /// At the node or item that is aimed at.
    Here,
    /// At 0,0,1,0.
    Outset,
    /// Accepted, or nothing is expected.
    Nowhere,
}

/// A contract under a label `number@rule`: 0 is acceptance, "any" expects nothing.
#[derive(Clone, Debug)]
pub struct Case {
    pub label: String,
    pub contract: Contract,
    pub aim: Aim,
}

impl Case {
    /// The number that the label promises.
    pub fn number(&self) -> Option<u8> {
        self.label.split('@').next().unwrap().parse().ok()
    }
}

/// Collects cases. The target goes round from case to case; `key` gives keys of the target that is due.
pub struct Suite {
    pub rng: Rng,
    pub target: u8,
    pub cases: Vec<Case>,
    /// Turns the spots of `spread`.
    spot: usize,
}

/// Items in the order in which they are taken.
pub type Items<'a> = &'a [(u8, &'a str)];

impl Suite {
    pub fn new(seed: u64) -> Suite {
        Suite { rng: Rng::new(seed), target: LEGACY, cases: vec![], spot: 0 }
    }

    /// A literal that spells a good key of the target that is due.
    pub fn key(&mut self) -> Node {
        make::s(&keys::good_key(&mut self.rng, self.target))
    }

    /// A case that is accepted, that expects nothing, or that is aimed at one of its nodes or items.
    pub fn add(&mut self, label: &str, declarations: Vec<Vec<Item>>, statements: Vec<Node>) {
        let contract = make::contract(self.target, declarations, statements);
        self.add_whole(label, contract, false);
    }

    /// A case whose refusal stands at 0,0,1,0.
    pub fn add_outset(&mut self, label: &str, declarations: Vec<Vec<Item>>, statements: Vec<Node>) {
        let contract = make::contract(self.target, declarations, statements);
        self.add_whole(label, contract, true);
    }

    /// Finishes a contract (locations, marks) and keeps it.
    pub fn add_whole(&mut self, label: &str, mut contract: Contract, outset: bool) {
        make::place(&mut contract);
        self.add_placed(label, contract, outset);
    }

    /// As `add_whole`, with the locations that the contract has.
    pub fn add_placed(&mut self, label: &str, mut contract: Contract, outset: bool) {
        keys::set_marks(&mut contract);
        let aim = match contract.aim() {
            Some(_) => Aim::Here,
            None if outset => Aim::Outset,
            None => Aim::Nowhere,
        };
        let case = Case { label: label.to_string(), contract, aim };
        let refused = case.number().is_some_and(|number| number != 0);
        assert!((aim != Aim::Nowhere) == refused, "{label}: aim and number do not fit");
        self.cases.push(case);
        self.target = (self.target + 1) % 3;
    }

    /// One path with these items and statements.
    pub fn add_path(&mut self, label: &str, items: Items, statements: Vec<Node>) {
        self.add(label, vec![make::from_top(items)], statements);
    }

    /// The expression in `count` places where the truth rule meets it: a fault in it is the answer, and without one the
    /// contract is accepted. The places go round from call to call.
    pub fn spread(&mut self, label: &str, items: Items, count: usize, expression: &dyn Fn(&mut Suite) -> Node) {
        for _ in 0..count {
            self.spot = (self.spot + 1) % SPOTS;
            let node = expression(self);
            let (declarations, statements) = spot(self.spot, items, node);
            self.add(label, declarations, statements);
        }
    }
}

const SPOTS: usize = 11;

/// A contract with the expression at one of the places that `spread` goes round. The items are taken by it.
fn spot(number: usize, items: Items, x: Node) -> (Vec<Vec<Item>>, Vec<Node>) {
    use make::*;
    let with = |first: Items| {
        let mut all = first.to_vec();
        all.extend_from_slice(items);
        from_top(&all)
    };
    let yes = || returns(b(true));
    let k = (BOOLEAN, "k_");
    let l = (BOOLEAN, "l_");
    match number {
        0 => (vec![with(&[])], vec![returns(x)]),
        1 => (vec![with(&[])], vec![verify(x), yes()]),
        2 => (vec![with(&[]), with(&[])], vec![if_else(x, vec![yes()], vec![yes()])]),
        3 => (vec![with(&[k]), from_top(&[k])], vec![if_else(v("k_"), vec![returns(x)], vec![yes()])]),
        4 => (vec![from_top(&[k]), with(&[k])], vec![if_else(v("k_"), vec![yes()], vec![returns(x)])]),
        5 => (vec![with(&[])], vec![returns(not(x))]),
        6 => (vec![with(&[])], vec![returns(and(x, b(false)))]),
        7 => (vec![with(&[])], vec![returns(or(b(false), x))]),
        8 => {
            let last = if_else(v("l_"), vec![verify(x), yes()], vec![yes()]);
            (vec![with(&[k, l]), from_top(&[k, l])], vec![older(3), verify(v("k_")), last])
        }
        9 => (vec![with(&[k])], vec![returns(not(or(and(v("k_"), x), b(true))))]),
        _ => {
            let inner = if_else(v("l_"), vec![yes()], vec![after(9), returns(x)]);
            let whole = if_else(v("k_"), vec![yes()], vec![inner]);
            (vec![from_top(&[k]), from_top(&[k, l]), with(&[k, l])], vec![whole])
        }
    }
}
