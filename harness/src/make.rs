//! Short names for building contracts by hand.

use crate::tree::*;

pub fn v(name: &str) -> Node {
    Node::new(Form::Variable(name.to_string()), vec![])
}

pub fn n(value: i64) -> Node {
    Node::new(Form::Number(value), vec![])
}

pub fn b(value: bool) -> Node {
    Node::new(Form::Boolean(value), vec![])
}

/// A literal. Its mark is set when the contract is finished.
pub fn s(text: &str) -> Node {
    Node::new(Form::Literal(text.as_bytes().to_vec(), false), vec![])
}

pub fn or(left: Node, right: Node) -> Node {
    Node::new(Form::Logic(0), vec![left, right])
}

pub fn and(left: Node, right: Node) -> Node {
    Node::new(Form::Logic(1), vec![left, right])
}

pub fn compare(op: u8, left: Node, right: Node) -> Node {
    Node::new(Form::Compare(op), vec![left, right])
}

pub fn equal(left: Node, right: Node) -> Node {
    compare(EQUAL, left, right)
}

pub fn arithmetic(op: u8, left: Node, right: Node) -> Node {
    Node::new(Form::Arithmetic(op), vec![left, right])
}

pub fn unary(op: u8, operand: Node) -> Node {
    Node::new(Form::Unary(op), vec![operand])
}

pub fn not(operand: Node) -> Node {
    unary(NOT, operand)
}

pub fn hash(op: u8, operand: Node) -> Node {
    Node::new(Form::Hash(op), vec![operand])
}

pub fn sha(operand: Node) -> Node {
    hash(0, operand)
}

pub fn size(operand: Node) -> Node {
    Node::new(Form::Size, vec![operand])
}

/// A signature check of one signature.
pub fn check(signature: Node, key: Node) -> Node {
    check_of(single(signature, key))
}

/// A signature check of a factor.
pub fn check_of(factor: Node) -> Node {
    Node::new(Form::Check, vec![factor])
}

pub fn single(signature: Node, key: Node) -> Node {
    Node::new(Form::Single, vec![signature, key])
}

pub fn multi(m: u32, factors: Vec<Node>) -> Node {
    Node::new(Form::Multi(m), factors)
}

pub fn verify(expression: Node) -> Node {
    Node::new(Form::Verify, vec![expression])
}

pub fn returns(expression: Node) -> Node {
    Node::new(Form::Return, vec![expression])
}

pub fn wait(op: u8, operand: i64) -> Node {
    Node::new(Form::Wait(op, operand), vec![])
}

pub fn older(operand: i64) -> Node {
    wait(OLDER, operand)
}

pub fn after(operand: i64) -> Node {
    wait(AFTER, operand)
}

/// A wait in units of 512 seconds.
#[cfg(feature = "examiner")]
pub fn csv_time(operand: i64) -> Node {
    wait(CSV_TIME, operand)
}

pub fn block(statements: Vec<Node>) -> Node {
    Node::new(Form::Block, statements)
}

pub fn if_only(condition: Node, then: Vec<Node>) -> Node {
    Node::new(Form::If, vec![condition, block(then)])
}

pub fn if_else(condition: Node, then: Vec<Node>, otherwise: Vec<Node>) -> Node {
    Node::new(Form::If, vec![condition, block(then), block(otherwise)])
}

pub fn item(kind: u8, name: &str) -> Item {
    Item { at: Where::default(), kind, name: name.to_string(), aimed: false }
}

/// A declaration from its items in the order in which they are taken: top first. The listing has them the other way.
pub fn from_top(items: &[(u8, &str)]) -> Vec<Item> {
    items.iter().rev().map(|(kind, name)| item(*kind, name)).collect()
}

pub fn contract(target: u8, declarations: Vec<Vec<Item>>, statements: Vec<Node>) -> Contract {
    Contract { target, declarations, block: block(statements) }
}

/// Gives each line with a location one of its own, in the order of the lines. None is 0,0,1,0.
pub fn place(contract: &mut Contract) {
    let mut count = 0;
    let mut next = || {
        count += 1;
        Where { start: 3 * count, end: 3 * count + 2, line: count + 1, column: count * 7 % 40 }
    };
    for item in contract.declarations.iter_mut().flatten() {
        item.at = next();
    }
    contract.block.each_mut(&mut |node| {
        if node.form != Form::Block {
            node.at = next();
        }
    });
}
