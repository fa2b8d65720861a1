//! Where a contract's paths go: which path first comes through a statement, and which items it has taken there.
//!
//! The contract must pass flow. It need not be good otherwise, but what is said of items holds only if it is.

use crate::tree::{Contract, Form, Node};

/// A way from the contract's block to a node.
pub type Way = Vec<usize>;

/// A variable that the rules meet.
#[derive(Clone, Debug)]
pub struct Met {
    pub way: Way,
    /// The lowest-numbered path through it.
    pub path: usize,
    /// How many variables the path meets before it. In a good contract this is the item's position.
    pub position: usize,
}

/// An if, and the path that begins with its else-block.
#[derive(Clone, Debug)]
pub struct Fork {
    pub way: Way,
    /// The path that follows the if-block's last one.
    pub next: usize,
    /// How many variables are met up to and including the condition.
    pub taken: usize,
}

/// What a walk over a whole contract finds.
#[derive(Default)]
pub struct Walk {
    pub variables: Vec<Met>,
    pub forks: Vec<Fork>,
    /// The expressions of verifies, conditions and returns.
    pub roots: Vec<Way>,
    /// The blocks.
    pub blocks: Vec<Way>,
    path: usize,
}

pub fn walk(contract: &Contract) -> Walk {
    let mut found = Walk::default();
    found.block(&contract.block, vec![], 0);
    found
}

fn below(way: &Way, part: usize) -> Way {
    let mut longer = way.clone();
    longer.push(part);
    longer
}

impl Walk {
    /// A block that is reached with so many items taken. Ends with `path` at the block's last path.
    fn block(&mut self, node: &Node, way: Way, mut taken: usize) {
        self.blocks.push(way.clone());
        for (i, statement) in node.parts.iter().enumerate() {
            let here = below(&way, i);
            match statement.form {
                Form::Verify | Form::Return => self.root(&statement.parts[0], below(&here, 0), &mut taken),
                Form::If => self.fork(statement, here, taken),
                _ => {}
            }
        }
    }

    fn fork(&mut self, node: &Node, way: Way, mut taken: usize) {
        self.root(&node.parts[0], below(&way, 0), &mut taken);
        self.block(&node.parts[1], below(&way, 1), taken);
        if node.parts.len() > 2 {
            self.path += 1;
            self.forks.push(Fork { way: way.clone(), next: self.path, taken });
            self.block(&node.parts[2], below(&way, 2), taken);
        }
    }

    fn root(&mut self, node: &Node, way: Way, taken: &mut usize) {
        self.roots.push(way.clone());
        self.expression(node, way, taken);
    }

    fn expression(&mut self, node: &Node, way: Way, taken: &mut usize) {
        if let Form::Variable(_) = node.form {
            self.variables.push(Met { way: way.clone(), path: self.path, position: *taken });
            *taken += 1;
        }
        for (i, part) in node.parts.iter().enumerate() {
            if !is_skipped(node, part) {
                self.expression(part, below(&way, i), taken);
            }
        }
    }
}

/// Is `part` a multi-signature that is itself a factor of another?
pub fn is_skipped(whole: &Node, part: &Node) -> bool {
    matches!((&whole.form, &part.form), (Form::Multi(_), Form::Multi(_)))
}

/// The outermost compare on a way, if it goes through one: faults of type below it are the compare's.
pub fn compare_above(contract: &Contract, way: &[usize]) -> Option<Way> {
    (0..way.len()).map(|length| &way[..length]).find(|way| is_compare(contract.block.at(way))).map(<[usize]>::to_vec)
}

fn is_compare(node: &Node) -> bool {
    matches!(node.form, Form::Compare(_))
}
