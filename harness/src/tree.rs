//! A contract as the listing spells it: one node for each line, enums as their numbers.
//!
//! Nothing here knows the original's types; oracle.rs turns a contract into them.

/// The field "w" of document 01.
#[derive(Clone, Copy, Debug, Default, PartialEq, Eq)]
pub struct Where {
    pub start: u32,
    pub end: u32,
    pub line: u32,
    pub column: u32,
}

/// Where the rules place a fault that has no line: 0,0,1,0.
pub const OUTSET: Where = Where { start: 0, end: 0, line: 1, column: 0 };

pub const LEGACY: u8 = 0;
pub const SEGWIT: u8 = 1;
pub const TAPROOT: u8 = 2;

pub const SIGNATURE: u8 = 0;
pub const NUMBER: u8 = 1;
pub const STRING: u8 = 2;
pub const BOOLEAN: u8 = 3;

/// The ops of a wait: `Cltv`, `Csv` in blocks, and `CsvTime`, in units of 512 seconds, which the original does not have.
pub const AFTER: u8 = 0;
pub const OLDER: u8 = 1;
pub const CSV_TIME: u8 = 2;

pub const EQUAL: u8 = 0;
pub const NOT_EQUAL: u8 = 1;
pub const GREATER: u8 = 2;

pub const NEGATE: u8 = 2;
pub const ABS: u8 = 3;
pub const NOT: u8 = 4;

/// A declared item, line `P`. `aimed`: see `Node`.
#[derive(Clone, Debug, PartialEq, Eq)]
pub struct Item {
    pub at: Where,
    pub kind: u8,
    pub name: String,
    pub aimed: bool,
}

/// What a line below `B` says, but for its location and its counts.
#[derive(Clone, Debug, PartialEq, Eq)]
pub enum Form {
    /// `B`; the parts are its statements.
    Block,
    /// `I`; the parts are the condition, a block, and a second block if there is an else.
    If,
    /// `L`, op and operand.
    Wait(u8, i64),
    /// `V`
    Verify,
    /// `E`
    Return,
    /// `v`
    Variable(String),
    /// `n`
    Number(i64),
    /// `b`
    Boolean(bool),
    /// `s`, bytes and mark.
    Literal(Vec<u8>, bool),
    /// `l`
    Logic(u8),
    /// `c`
    Compare(u8),
    /// `m`
    Arithmetic(u8),
    /// `u`
    Unary(u8),
    /// `h`
    Hash(u8),
    /// `z`
    Size,
    /// `g`; the part is a factor.
    Check,
    /// `S`; the parts are signature and key.
    Single,
    /// `M`, m; the parts are the factors.
    Multi(u32),
}

/// A line below `B` with what belongs to it. `aimed` says that a made case expects its fault at this node; a listing does
/// not hold it.
#[derive(Clone, Debug, PartialEq, Eq)]
pub struct Node {
    pub form: Form,
    pub at: Where,
    pub parts: Vec<Node>,
    pub aimed: bool,
}

/// A whole listing. Each declaration has its first declared item first.
#[derive(Clone, Debug, PartialEq, Eq)]
pub struct Contract {
    pub target: u8,
    pub declarations: Vec<Vec<Item>>,
    pub block: Node,
}

impl Node {
    pub fn new(form: Form, parts: Vec<Node>) -> Node {
        Node { form, at: Where::default(), parts, aimed: false }
    }

    /// This node with the fault expected at it.
    pub fn here(mut self) -> Node {
        self.aimed = true;
        self
    }

    /// Calls `f` on this node and all below it, in the order of the listing's lines.
    pub fn each<'a>(&'a self, f: &mut dyn FnMut(&'a Node)) {
        f(self);
        for part in &self.parts {
            part.each(f);
        }
    }

    /// As `each`, on nodes that may be altered.
    pub fn each_mut(&mut self, f: &mut dyn FnMut(&mut Node)) {
        f(self);
        for part in &mut self.parts {
            part.each_mut(f);
        }
    }

    /// The node reached from this one by taking a part by its number, then a part of that, and so on.
    pub fn at_mut(&mut self, way: &[usize]) -> &mut Node {
        way.iter().fold(self, |node, &i| &mut node.parts[i])
    }

    /// As `at_mut`, for reading.
    pub fn at(&self, way: &[usize]) -> &Node {
        way.iter().fold(self, |node, &i| &node.parts[i])
    }

    /// The ways to all nodes that `wanted` picks, in the order of the lines. A node that `enter` refuses is not entered.
    pub fn ways(&self, enter: &dyn Fn(&Node) -> bool, wanted: &dyn Fn(&Node) -> bool) -> Vec<Vec<usize>> {
        let mut found = Vec::new();
        self.ways_below(&mut Vec::new(), enter, wanted, &mut found);
        found
    }

    fn ways_below(
        &self,
        way: &mut Vec<usize>,
        enter: &dyn Fn(&Node) -> bool,
        wanted: &dyn Fn(&Node) -> bool,
        found: &mut Vec<Vec<usize>>,
    ) {
        if wanted(self) {
            found.push(way.clone());
        }
        if enter(self) {
            for (i, part) in self.parts.iter().enumerate() {
                way.push(i);
                part.ways_below(way, enter, wanted, found);
                way.pop();
            }
        }
    }
}

impl Contract {
    /// The location of what is aimed at, if something is.
    pub fn aim(&self) -> Option<Where> {
        let item = self.declarations.iter().flatten().find(|i| i.aimed).map(|i| i.at);
        let mut node = None;
        self.block.each(&mut |n| {
            if n.aimed && node.is_none() {
                node = Some(n.at);
            }
        });
        item.or(node)
    }
}
