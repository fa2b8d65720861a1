//! The stack of demand 3, and the report of an accepted listing, both from the lines of the text alone.
//!
//! This shares nothing with listing.rs, the oracle or the examiner. It only wants a listing that can be read and that
//! passes flow; it knows names, waits and line numbers, no tables and no taken positions.

use std::fmt::Write;

/// A variable that a path meets: its line in the listing, counted from 1, and its name.
#[derive(Clone, Copy)]
struct Met<'a> {
    line: usize,
    name: &'a str,
}

/// An item of a declaration: its type, as the line spells it, and its name.
struct Item<'a> {
    kind: &'a str,
    name: &'a str,
}

/// A wait: its line in the listing, counted from 1, its op and its operand, as the line spells them.
struct Wait<'a> {
    line: usize,
    op: &'a str,
    operand: &'a str,
}

/// An item of an accepted listing: its name, its type, and where the name stands: how many bytes precede it, and its length.
#[derive(Clone, Debug, PartialEq, Eq)]
pub struct Shown {
    pub name: Vec<u8>,
    pub kind: u32,
    pub place: [u32; 2],
}

/// What the text says of declarations, paths and waits.
pub struct Paths<'a> {
    /// First declared first.
    declarations: Vec<Vec<Item<'a>>>,
    /// For each path, in order, what it meets, in order.
    met: Vec<Vec<Met<'a>>>,
    /// In the order of their lines.
    waits: Vec<Wait<'a>>,
}

/// The lines of a listing, and how many are behind us.
struct Lines<'a> {
    all: Vec<Vec<&'a str>>,
    passed: usize,
    /// The paths that have ended.
    ended: Vec<Vec<Met<'a>>>,
    /// The waits that were passed.
    waits: Vec<Wait<'a>>,
}

/// Where the fields stand that are read here. `w` takes fields 1 to 4.
const COUNT: usize = 1;
const DECLARATIONS: usize = 2;
const TYPE: usize = 5;
const ITEM_NAME: usize = 6;
const VARIABLE_NAME: usize = 5;
const ELSE: usize = 5;
const WAIT_OP: usize = 5;
const OPERAND: usize = 6;
const FACTORS: usize = 6;

/// Reads declarations and paths from the text of a listing that can be read and passes flow.
pub fn paths(listing: &[u8]) -> Paths<'_> {
    let text = std::str::from_utf8(listing).expect("a listing that can be read is ASCII");
    let all = text.lines().map(|line| line.split(',').collect()).collect();
    let mut lines = Lines { all, passed: 0, ended: vec![], waits: vec![] };
    let head = lines.next();
    let declarations = (0..number(head[DECLARATIONS])).map(|_| lines.declaration()).collect();
    lines.block(vec![]);
    Paths { declarations, met: lines.ended, waits: lines.waits }
}

fn number(field: &str) -> usize {
    field.parse().unwrap()
}

impl<'a> Lines<'a> {
    fn next(&mut self) -> Vec<&'a str> {
        self.passed += 1;
        self.all[self.passed - 1].clone()
    }

    fn declaration(&mut self) -> Vec<Item<'a>> {
        let count = number(self.next()[COUNT]);
        let item = |line: Vec<&'a str>| Item { kind: line[TYPE], name: line[ITEM_NAME] };
        (0..count).map(|_| item(self.next())).collect()
    }

    /// A block that is entered with so much met.
    fn block(&mut self, mut met: Vec<Met<'a>>) {
        for _ in 0..number(self.next()[COUNT]) {
            let line = self.next();
            match line[0] {
                "L" => self.waits.push(Wait { line: self.passed, op: line[WAIT_OP], operand: line[OPERAND] }),
                "V" => self.expression(Some(&mut met)),
                "E" => {
                    self.expression(Some(&mut met));
                    self.ended.push(met.clone());
                }
                "I" => {
                    self.expression(Some(&mut met));
                    self.block(met.clone());
                    if line[ELSE] == "1" {
                        self.block(met.clone());
                    }
                }
                other => panic!("{other} is no statement"),
            }
        }
    }

    /// An expression. Its variables are met in the order of their lines, unless nothing is to be met there.
    fn expression(&mut self, mut met: Option<&mut Vec<Met<'a>>>) {
        let line = self.next();
        match line[0] {
            "v" => {
                if let Some(met) = met {
                    met.push(Met { line: self.passed, name: line[VARIABLE_NAME] });
                }
            }
            "l" | "c" | "m" => {
                self.expression(met.as_deref_mut());
                self.expression(met);
            }
            "u" | "h" | "z" => self.expression(met),
            "g" => self.factor(met, false),
            _ => {}
        }
    }

    /// A factor. `of_another` says that it stands directly below a multi-signature.
    fn factor(&mut self, mut met: Option<&mut Vec<Met<'a>>>, of_another: bool) {
        let line = self.next();
        if line[0] == "S" {
            self.expression(met.as_deref_mut());
            self.expression(met);
            return;
        }
        for _ in 0..number(line[FACTORS]) {
            self.factor(if of_another { None } else { met.as_deref_mut() }, true);
        }
    }
}

impl Paths<'_> {
    pub fn count(&self) -> usize {
        self.met.len()
    }

    pub fn declared(&self) -> usize {
        self.declarations.len()
    }

    /// Does every path empty its stack?
    pub fn all_empty(&self) -> bool {
        self.declarations.iter().zip(&self.met).all(|(items, met)| empties(items, met))
    }

    /// Where the names of each path's items stand in the listing, from the top: how many bytes precede one, and its length.
    pub fn places(&self, listing: &[u8]) -> Vec<Vec<[u32; 2]>> {
        self.shown(listing).iter().map(|items| items.iter().map(|item| item.place).collect()).collect()
    }

    /// The items of each path, from the top, as its report lines have them.
    pub fn shown(&self, listing: &[u8]) -> Vec<Vec<Shown>> {
        let before = |name: &str| name.as_ptr() as usize - listing.as_ptr() as usize;
        let shown = |item: &Item| Shown {
            name: item.name.as_bytes().to_vec(),
            kind: item.kind.parse().unwrap(),
            place: [before(item.name), item.name.len()].map(|n| n as u32),
        };
        self.declarations.iter().map(|items| items.iter().rev().map(shown).collect()).collect()
    }

    /// The report, if the listing is accepted: every path empties its stack, so the item at a position is the one that is
    /// met so many variables later. The waits come last.
    pub fn report(&self) -> Vec<u8> {
        let mut text = format!("A,{}\n", self.count());
        for (path, (items, met)) in self.declarations.iter().zip(&self.met).enumerate() {
            writeln!(text, "D,{path},{}", items.len()).unwrap();
            for (position, (item, met)) in items.iter().rev().zip(met).enumerate() {
                writeln!(text, "P,{position},{},1,{},{}", item.kind, met.line, item.name).unwrap();
            }
        }
        for wait in &self.waits {
            writeln!(text, "W,{},{}", wait.line, wait.number()).unwrap();
        }
        text.into_bytes()
    }
}

impl Wait<'_> {
    /// The number that the script carries. BIP 68: bit 22 says that the sixteen bits below count 512 seconds.
    fn number(&self) -> u64 {
        let operand: u64 = self.operand.parse().unwrap();
        if self.op == "2" {
            operand | 1 << 22
        } else {
            operand
        }
    }
}

/// A stack with the last declared name on top; each variable met must be the top name and takes it off.
fn empties(items: &[Item], met: &[Met]) -> bool {
    let mut stack: Vec<&str> = items.iter().map(|item| item.name).collect();
    met.iter().all(|met| stack.pop() == Some(met.name)) && stack.is_empty()
}
