//! Random contracts that every rule accepts.
//!
//! Expressions grow in the order in which the rules meet them. A variable is declared as it grows, below all that the path
//! has taken so far, so that it is taken in order; a path's declaration is known when its return has grown.

use crate::keys;
use crate::make::*;
use crate::rng::Rng;
use crate::tree::*;

/// How large a contract may grow.
#[derive(Clone, Copy)]
pub struct Size {
    /// Ifs nest as deep as this.
    pub ifs: usize,
    /// Statements of a block before its last.
    pub statements: usize,
    /// Expressions stop growing at this depth, or soon after.
    pub depth: usize,
    /// Items of a path.
    pub items: usize,
}

pub const SMALL: Size = Size { ifs: 1, statements: 1, depth: 3, items: 6 };
pub const MIDDLE: Size = Size { ifs: 2, statements: 2, depth: 4, items: 12 };
pub const LARGE: Size = Size { ifs: 4, statements: 3, depth: 6, items: 32 };

const NAMES: &[&str] = &[
    "a",
    "b",
    "c",
    "d",
    "e",
    "f",
    "n",
    "p",
    "x",
    "y",
    "s",
    "t",
    "A",
    "B",
    "_",
    "__",
    "0",
    "7",
    "a1",
    "a_",
    "_a",
    "ab",
    "abc",
    "sig_alice",
    "sig_bob",
    "sig_carol",
    "preimage",
    "secret",
    "condition",
    "count",
    "Secret",
    "SECRET",
    "secret_",
    "secret1",
    "true",
    "older",
    "P",
    "v",
    "abcdefghijklmnopqrstuvwxyz012345",
    "abcdefghijklmnopqrstuvwxyz012346",
    "ABCDEFGHIJKLMNOPQRSTUVWXYZ_67890",
    "________________________________",
];

/// A contract of random target and shape.
pub fn contract(rng: &mut Rng, size: Size) -> Contract {
    let target = rng.below(3) as u8;
    let mut grower = Grower { rng, target, size, path: vec![], declarations: vec![] };
    let block = grower.block(0);
    let declarations = grower.declarations;
    Contract { target, declarations, block }
}

struct Grower<'a> {
    rng: &'a mut Rng,
    target: u8,
    size: Size,
    /// The items that the current path has taken, in order.
    path: Vec<Item>,
    /// The declarations of the paths that are done.
    declarations: Vec<Vec<Item>>,
}

impl Grower<'_> {
    fn block(&mut self, ifs: usize) -> Node {
        let mut statements = vec![];
        for _ in 0..self.rng.below(self.size.statements + 1) {
            let statement = if self.rng.chance(35) { self.wait() } else { verify(self.truth(1)) };
            statements.push(statement);
        }
        let branches =
            ifs < self.size.ifs && self.declarations.len() < 30 && self.rng.chance(if ifs == 0 { 65 } else { 45 });
        statements.push(if branches { self.branch(ifs) } else { self.last() });
        block(statements)
    }

    /// A return. It ends a path, so the path's declaration is known.
    fn last(&mut self) -> Node {
        let node = returns(self.truth(1));
        self.declarations.push(self.path.iter().rev().cloned().collect());
        node
    }

    /// An if. Both blocks go on from what the condition leaves taken.
    fn branch(&mut self, ifs: usize) -> Node {
        let condition = if self.rng.chance(50) { self.variable(BOOLEAN) } else { self.truth(2) };
        let mut shared = self.path.clone();
        let then = self.block(ifs + 1);
        if self.rng.chance(25) {
            self.give_other_types(&mut shared);
        }
        self.path = shared;
        let otherwise = self.block(ifs + 1);
        Node::new(Form::If, vec![condition, then, otherwise])
    }

    /// Shared items are typed in the first path only, so they may have any type in the others.
    fn give_other_types(&mut self, shared: &mut [Item]) {
        for item in shared {
            item.kind = self.rng.below(4) as u8;
        }
    }

    fn wait(&mut self) -> Node {
        let most = if self.rng.chance(50) { 65535 } else { 4294967295 };
        let operand = match self.rng.below(4) {
            0 => 0,
            1 => most,
            2 => self.rng.between(0, 1000),
            _ => self.rng.between(0, most),
        };
        wait(if most == 65535 { self.rng.below(2) as u8 } else { AFTER }, operand)
    }

    /// A variable of this type, new on the path; nothing if the path has all the items it may have.
    fn new_variable(&mut self, kind: u8) -> Option<Node> {
        if self.path.len() >= self.size.items {
            return None;
        }
        let free: Vec<&str> = NAMES.iter().copied().filter(|name| self.path.iter().all(|i| i.name != *name)).collect();
        let name = self.rng.pick(&free);
        self.path.push(item(kind, name));
        Some(v(name))
    }

    /// A variable of this type, or a constant of it if there is no room.
    fn variable(&mut self, kind: u8) -> Node {
        self.new_variable(kind).unwrap_or_else(|| match kind {
            NUMBER => n(self.rng.between(-9, 99)),
            STRING => s("no room"),
            _ => b(true),
        })
    }

    fn truth(&mut self, depth: usize) -> Node {
        let deep = depth >= self.size.depth;
        match self.rng.below(if deep { 4 } else { 14 }) {
            0 => b(self.rng.chance(50)),
            1..=3 => self.variable(BOOLEAN),
            4 => not(self.truth(depth + 1)),
            5..=6 => {
                let left = self.truth(depth + 1);
                let right = self.truth(depth + 1);
                Node::new(Form::Logic(self.rng.below(2) as u8), vec![left, right])
            }
            7..=10 => self.compare(depth),
            _ => self.check(depth),
        }
    }

    fn compare(&mut self, depth: usize) -> Node {
        let mut op = self.rng.below(2) as u8;
        let (left, right) = match self.rng.below(5) {
            0..=1 => (self.text(depth + 1), self.text(depth + 1)),
            2..=3 => {
                op = self.rng.below(8) as u8;
                (self.number(depth + 1), self.number(depth + 1))
            }
            _ => (self.truth(depth + 1), self.truth(depth + 1)),
        };
        compare(op, left, right)
    }

    fn number(&mut self, depth: usize) -> Node {
        let deep = depth >= self.size.depth;
        match self.rng.below(if deep { 4 } else { 9 }) {
            0..=1 => n(self.number_value()),
            2..=3 => self.variable(NUMBER),
            4..=5 => {
                let left = self.number(depth + 1);
                let right = self.number(depth + 1);
                arithmetic(self.rng.below(4) as u8, left, right)
            }
            6 => {
                let op = self.rng.below(4) as u8;
                unary(op, self.number(depth + 1))
            }
            _ => size(self.sized(depth + 1)),
        }
    }

    fn number_value(&mut self) -> i64 {
        match self.rng.below(6) {
            0 => self.rng.pick(&[0, 1, -1, 2147483647, -2147483647]),
            1 => self.rng.between(-2147483647, 2147483647),
            _ => self.rng.between(-20, 200),
        }
    }

    fn text(&mut self, depth: usize) -> Node {
        match self.rng.below(if depth >= self.size.depth { 4 } else { 7 }) {
            0..=1 => self.literal(false),
            2..=3 => self.variable(STRING),
            _ => self.hash(depth),
        }
    }

    /// The operand of size: as a string, but a literal has only ASCII.
    fn sized(&mut self, depth: usize) -> Node {
        match self.rng.below(if depth >= self.size.depth { 2 } else { 3 }) {
            0 => self.literal(true),
            1 => self.variable(STRING),
            _ => self.hash(depth),
        }
    }

    fn hash(&mut self, depth: usize) -> Node {
        let op = self.rng.below(2) as u8;
        let operand = match self.rng.below(if depth >= self.size.depth { 4 } else { 8 }) {
            0..=1 => self.literal(false),
            2..=3 => {
                let kind = self.rng.pick(&[STRING, STRING, NUMBER, BOOLEAN]);
                self.variable(kind)
            }
            4 => self.number(depth + 1),
            5 => self.truth(depth + 1),
            _ => self.hash(depth + 1),
        };
        hash(op, operand)
    }

    fn literal(&mut self, ascii: bool) -> Node {
        let target = self.target;
        match self.rng.below(10) {
            0 => s(""),
            1 => s(&keys::good_key(self.rng, target)),
            2..=4 => {
                let count = self.rng.below(33);
                s(&keys::hex(&self.rng.bytes(count)))
            }
            5 => s("odd"),
            6 => s("comma, newline\n, \"quote\" and \0"),
            7 if !ascii => s("h\u{e4}sh\u{2713}\u{1f512}"),
            8 => s(&"00".repeat(self.rng.below(40))),
            _ => s(self.rng.pick(&["hello", "a", "0x00", "abc", "secret!", " "])),
        }
    }

    /// A signature check. Without room for a signature it becomes a constant.
    fn check(&mut self, depth: usize) -> Node {
        if self.rng.chance(65) || depth + 2 > self.size.depth {
            return match self.single() {
                Some(factor) => check_of(factor),
                None => b(false),
            };
        }
        let mut factors = vec![];
        for _ in 0..1 + self.rng.below(4) {
            if self.rng.chance(15) {
                factors.push(self.skipped(0));
            } else {
                factors.extend(self.single());
            }
        }
        if factors.is_empty() {
            return b(false);
        }
        check_of(multi(1 + self.rng.below(factors.len()) as u32, factors))
    }

    fn single(&mut self) -> Option<Node> {
        let signature = self.new_variable(SIGNATURE)?;
        Some(single(signature, s(&keys::good_key(self.rng, self.target))))
    }

    /// A multi-signature below another: no rule enters it, so anything may stand there.
    fn skipped(&mut self, depth: usize) -> Node {
        let mut factors = vec![];
        for _ in 0..self.rng.below(3) {
            if depth < 2 && self.rng.chance(25) {
                factors.push(self.skipped(depth + 1));
            } else {
                factors.push(single(junk(self.rng, 2), junk(self.rng, 2)));
            }
        }
        multi(self.rng.below(4) as u32, factors)
    }
}

/// Any expression, typed or not.
pub fn junk(rng: &mut Rng, depth: usize) -> Node {
    if depth == 0 || rng.chance(55) {
        return match rng.below(4) {
            0 => v(rng.pick(NAMES)),
            1 => n(rng.pick(&[0, 5, -7, 2147483648, i64::MAX, i64::MIN])),
            2 => b(rng.chance(50)),
            _ => s(rng.pick(&["", "zz", "00", "aabb", "\u{e4}"])),
        };
    }
    let a = junk(rng, depth - 1);
    match rng.below(7) {
        0 => Node::new(Form::Logic(rng.below(2) as u8), vec![a, junk(rng, depth - 1)]),
        1 => compare(rng.below(8) as u8, a, junk(rng, depth - 1)),
        2 => arithmetic(rng.below(4) as u8, a, junk(rng, depth - 1)),
        3 => unary(rng.below(5) as u8, a),
        4 => hash(rng.below(2) as u8, a),
        5 => size(a),
        _ => check(a, junk(rng, depth - 1)),
    }
}
