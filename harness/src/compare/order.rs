//! What demand 3 asks for besides the stack: flow, path count, distinct names, types, limits. Each is yes or no.
//!
//! Written after document 01 ("The stack of demand 3" and the rules it names) and document 02 (b), on the tree of listing.rs.
//! It shares nothing with the oracle or the examiner, and it has no order of faults and no locations.

use crate::keys;
use crate::tree::*;
use std::collections::HashSet;

/// The longest literal, in bytes.
const LONGEST: usize = 520;

/// Flow: no 18 and no 19.
pub fn flow(block: &Node) -> bool {
    let Some((last, before)) = block.parts.split_last() else {
        return false;
    };
    let ends = |node: &Node| matches!(node.form, Form::If | Form::Return);
    if before.iter().any(ends) {
        return false;
    }
    match last.form {
        Form::Return => true,
        Form::If => last.parts.len() == 3 && last.parts[1..].iter().all(flow),
        _ => false,
    }
}

/// Distinct names: none twice in one declaration.
pub fn names(contract: &Contract) -> bool {
    let distinct = |items: &Vec<Item>| items.iter().map(|item| &item.name).collect::<HashSet<_>>().len() == items.len();
    contract.declarations.iter().all(distinct)
}

/// Types and limits of every statement. There must be as many declarations as paths.
pub fn types_and_limits(contract: &Contract) -> bool {
    let mut path = 0;
    statements(contract, &contract.block, &mut path)
}

/// The statements of a block whose lowest-numbered path is `path`. Ends with `path` at the one that comes after the block.
fn statements(contract: &Contract, block: &Node, path: &mut usize) -> bool {
    block.parts.iter().all(|statement| match &statement.form {
        Form::Wait(op, operand) => (0..=if *op == AFTER { 4294967295 } else { 65535 }).contains(operand),
        Form::Verify => root(contract, &statement.parts[0], *path),
        Form::Return => {
            *path += 1;
            root(contract, &statement.parts[0], *path - 1)
        }
        _ => {
            root(contract, &statement.parts[0], *path)
                && statement.parts[1..].iter().all(|block| statements(contract, block, path))
        }
    })
}

fn root(contract: &Contract, expression: &Node, path: usize) -> bool {
    let types = Types { target: contract.target, items: &contract.declarations[path] };
    types.truth(expression) && limits(expression)
}

/// Each number and literal outside signature checks, within its bounds.
fn limits(node: &Node) -> bool {
    match &node.form {
        Form::Number(value) => (-2147483647..=2147483647).contains(value),
        Form::Literal(bytes, _) => keys::unhex(bytes).map_or(bytes.len(), |short| short.len()) <= LONGEST,
        Form::Check => true,
        _ => node.parts.iter().all(limits),
    }
}

/// The type rules over one declaration.
struct Types<'a> {
    target: u8,
    items: &'a [Item],
}

impl Types<'_> {
    /// Is the node a variable of this type?
    fn is_variable(&self, node: &Node, kind: u8) -> bool {
        self.type_of(node) == Some(kind)
    }

    /// The type of a variable that is declared.
    fn type_of(&self, node: &Node) -> Option<u8> {
        match &node.form {
            Form::Variable(name) => self.items.iter().find(|item| item.name == *name).map(|item| item.kind),
            _ => None,
        }
    }

    fn both(&self, node: &Node, rule: fn(&Self, &Node) -> bool) -> bool {
        node.parts.iter().all(|part| rule(self, part))
    }

    fn string(&self, node: &Node) -> bool {
        match &node.form {
            Form::Literal(..) => true,
            Form::Hash(_) => self.hashed(&node.parts[0]),
            _ => self.is_variable(node, STRING),
        }
    }

    fn number(&self, node: &Node) -> bool {
        match &node.form {
            Form::Number(_) => true,
            Form::Size => self.general(node),
            Form::Arithmetic(_) => self.both(node, Self::number),
            Form::Unary(op) => *op != NOT && self.number(&node.parts[0]),
            _ => self.is_variable(node, NUMBER),
        }
    }

    fn truth(&self, node: &Node) -> bool {
        match &node.form {
            Form::Boolean(_) => true,
            Form::Logic(_) => self.both(node, Self::truth),
            Form::Unary(op) => *op == NOT && self.truth(&node.parts[0]),
            Form::Compare(_) | Form::Check => self.general(node),
            _ => self.is_variable(node, BOOLEAN),
        }
    }

    /// The operand of a hash.
    fn hashed(&self, node: &Node) -> bool {
        match &node.form {
            Form::Variable(_) => self.type_of(node).is_some_and(|kind| kind != SIGNATURE),
            Form::Hash(_) => self.hashed(&node.parts[0]),
            _ => self.general(node),
        }
    }

    fn general(&self, node: &Node) -> bool {
        match &node.form {
            Form::Logic(_) => self.both(node, Self::truth),
            Form::Unary(op) if *op == NOT => self.truth(&node.parts[0]),
            Form::Unary(_) | Form::Arithmetic(_) => self.both(node, Self::number),
            Form::Hash(_) => self.hashed(&node.parts[0]),
            Form::Size => self.string(&node.parts[0]) && is_plain_text(&node.parts[0]),
            Form::Compare(op) => {
                let equality = *op == EQUAL || *op == NOT_EQUAL;
                self.both(node, Self::number) || equality && (self.both(node, Self::string) || self.both(node, Self::truth))
            }
            Form::Check => self.factor(&node.parts[0]),
            _ => true,
        }
    }

    fn factor(&self, node: &Node) -> bool {
        let Form::Multi(m) = node.form else {
            return self.signature(node);
        };
        let within = m >= 1 && m as usize <= node.parts.len();
        within && node.parts.iter().all(|part| matches!(part.form, Form::Multi(_)) || self.signature(part))
    }

    /// A signature with its key.
    fn signature(&self, node: &Node) -> bool {
        let key = match &node.parts[1].form {
            Form::Literal(bytes, mark) => *mark && self.has_key_shape(bytes),
            _ => false,
        };
        key && self.is_variable(&node.parts[0], SIGNATURE)
    }

    fn has_key_shape(&self, literal: &[u8]) -> bool {
        keys::has_shape(self.target, literal)
    }
}

/// Under size, a literal has only ASCII.
fn is_plain_text(node: &Node) -> bool {
    match &node.form {
        Form::Literal(bytes, _) => bytes.is_ascii(),
        _ => true,
    }
}
