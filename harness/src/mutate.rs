//! Random changes of contracts, with any outcome.

use crate::good::junk;
use crate::keys;
use crate::make::*;
use crate::rng::Rng;
use crate::tree::*;

/// Changes a contract in one to three ways. What comes out has the shape of a listing, but may pass a ceiling.
pub fn mutate(rng: &mut Rng, contract: &mut Contract) {
    for _ in 0..1 + rng.below(3) {
        let change = rng.pick(CHANGES);
        change(rng, contract);
    }
}

const CHANGES: &[fn(&mut Rng, &mut Contract)] = &[
    rename_variable,
    other_operator,
    other_leaf,
    other_leaf,
    swap_operands,
    junk_for_expression,
    wrap_expression,
    drop_statement,
    double_statement,
    swap_statements,
    swap_blocks,
    other_type,
    other_type,
    swap_items,
    drop_item,
    double_item,
    rename_item,
    swap_declarations,
    other_target,
    other_threshold,
    other_wait,
    other_key,
];

fn is_expression(node: &Node) -> bool {
    use Form::*;
    !matches!(node.form, Block | If | Wait(..) | Verify | Return | Single | Multi(_))
}

/// A random node that `wanted` picks.
fn some<'a>(rng: &mut Rng, contract: &'a mut Contract, wanted: &dyn Fn(&Node) -> bool) -> Option<&'a mut Node> {
    let ways = contract.block.ways(&|_| true, wanted);
    if ways.is_empty() {
        return None;
    }
    let way = &ways[rng.below(ways.len())];
    Some(contract.block.at_mut(way))
}

/// A random declaration with at least so many items.
fn some_items<'a>(rng: &mut Rng, contract: &'a mut Contract, least: usize) -> Option<&'a mut Vec<Item>> {
    let mut fitting: Vec<_> = contract.declarations.iter_mut().filter(|items| items.len() >= least).collect();
    if fitting.is_empty() {
        return None;
    }
    let chosen = rng.below(fitting.len());
    Some(fitting.swap_remove(chosen))
}

/// A name that some declaration has.
fn some_name(rng: &mut Rng, contract: &Contract) -> String {
    let names: Vec<&String> = contract.declarations.iter().flatten().map(|item| &item.name).collect();
    if names.is_empty() {
        "x".to_string()
    } else {
        rng.pick(&names).clone()
    }
}

fn rename_variable(rng: &mut Rng, contract: &mut Contract) {
    let name = some_name(rng, contract);
    if let Some(node) = some(rng, contract, &|node| matches!(node.form, Form::Variable(_))) {
        node.form = Form::Variable(name);
    }
}

fn other_operator(rng: &mut Rng, contract: &mut Contract) {
    use Form::*;
    let has_operator = |node: &Node| matches!(node.form, Logic(_) | Compare(_) | Arithmetic(_) | Unary(_) | Hash(_));
    if let Some(node) = some(rng, contract, &has_operator) {
        node.form = match (node.parts.len(), rng.below(4)) {
            (2, 0) => Logic(rng.below(2) as u8),
            (2, 1 | 2) => Compare(rng.below(8) as u8),
            (2, _) => Arithmetic(rng.below(4) as u8),
            (_, 0) => Hash(rng.below(2) as u8),
            (_, 1) => Size,
            _ => Unary(rng.below(5) as u8),
        };
    }
}

fn other_leaf(rng: &mut Rng, contract: &mut Contract) {
    let name = some_name(rng, contract);
    if let Some(node) = some(rng, contract, &|node| is_expression(node) && node.parts.is_empty()) {
        *node = match rng.below(4) {
            0 => v(&name),
            _ => junk(rng, 0),
        };
    }
}

fn swap_operands(rng: &mut Rng, contract: &mut Contract) {
    if let Some(node) = some(rng, contract, &|node| is_expression(node) && node.parts.len() == 2) {
        node.parts.swap(0, 1);
    }
}

fn junk_for_expression(rng: &mut Rng, contract: &mut Contract) {
    let new = junk(rng, 2);
    if let Some(node) = some(rng, contract, &is_expression) {
        *node = new;
    }
}

fn wrap_expression(rng: &mut Rng, contract: &mut Contract) {
    let choice = rng.below(7);
    let op = rng.below(4) as u8;
    if let Some(node) = some(rng, contract, &is_expression) {
        let old = std::mem::replace(node, b(true));
        *node = match choice {
            0 => not(old),
            1 => unary(op, old),
            2 => hash(op % 2, old),
            3 => size(old),
            4 => equal(old, b(true)),
            5 => arithmetic(op, n(1), old),
            _ => or(b(false), old),
        };
    }
}

fn drop_statement(rng: &mut Rng, contract: &mut Contract) {
    if let Some(node) = some(rng, contract, &|node| node.form == Form::Block && !node.parts.is_empty()) {
        node.parts.remove(rng.below(node.parts.len()));
    }
}

fn double_statement(rng: &mut Rng, contract: &mut Contract) {
    if let Some(node) = some(rng, contract, &|node| node.form == Form::Block && !node.parts.is_empty()) {
        let copied = node.parts[rng.below(node.parts.len())].clone();
        node.parts.insert(rng.below(node.parts.len() + 1), copied);
    }
}

fn swap_statements(rng: &mut Rng, contract: &mut Contract) {
    if let Some(node) = some(rng, contract, &|node| node.form == Form::Block && node.parts.len() > 1) {
        let first = rng.below(node.parts.len() - 1);
        node.parts.swap(first, first + 1);
    }
}

fn swap_blocks(rng: &mut Rng, contract: &mut Contract) {
    if let Some(node) = some(rng, contract, &|node| node.form == Form::If && node.parts.len() == 3) {
        node.parts.swap(1, 2);
    }
}

fn other_type(rng: &mut Rng, contract: &mut Contract) {
    let kind = rng.below(4) as u8;
    if let Some(items) = some_items(rng, contract, 1) {
        let chosen = rng.below(items.len());
        items[chosen].kind = kind;
    }
}

fn swap_items(rng: &mut Rng, contract: &mut Contract) {
    if let Some(items) = some_items(rng, contract, 2) {
        let first = rng.below(items.len() - 1);
        items.swap(first, first + 1);
    }
}

fn drop_item(rng: &mut Rng, contract: &mut Contract) {
    if let Some(items) = some_items(rng, contract, 1) {
        items.remove(rng.below(items.len()));
    }
}

fn double_item(rng: &mut Rng, contract: &mut Contract) {
    if let Some(items) = some_items(rng, contract, 1) {
        let copied = items[rng.below(items.len())].clone();
        items.insert(rng.below(items.len() + 1), copied);
    }
}

fn rename_item(rng: &mut Rng, contract: &mut Contract) {
    let name = some_name(rng, contract);
    if let Some(items) = some_items(rng, contract, 1) {
        let chosen = rng.below(items.len());
        items[chosen].name = name;
    }
}

fn swap_declarations(rng: &mut Rng, contract: &mut Contract) {
    if contract.declarations.len() > 1 {
        let first = rng.below(contract.declarations.len() - 1);
        contract.declarations.swap(first, first + 1);
    }
}

fn other_target(rng: &mut Rng, contract: &mut Contract) {
    contract.target = rng.below(3) as u8;
}

fn other_threshold(rng: &mut Rng, contract: &mut Contract) {
    let m = rng.below(6) as u32;
    if let Some(node) = some(rng, contract, &|node| matches!(node.form, Form::Multi(_))) {
        node.form = Form::Multi(m);
    }
}

fn other_wait(rng: &mut Rng, contract: &mut Contract) {
    let operand = rng.pick(&[0, 65535, 65536, 4294967295, 4294967296, -1]);
    let op = rng.below(2) as u8;
    if let Some(node) = some(rng, contract, &|node| matches!(node.form, Form::Wait(..))) {
        node.form = Form::Wait(op, operand);
    }
}

/// One digit of a literal changes: of a key, about half the time the point leaves the curve.
fn other_key(rng: &mut Rng, contract: &mut Contract) {
    let digit = rng.pick(b"0123456789abcdefg");
    let place = rng.below(66);
    if let Some(node) = some(rng, contract, &|node| matches!(&node.form, Form::Literal(bytes, _) if bytes.len() >= 64)) {
        if let Form::Literal(bytes, _) = &mut node.form {
            let place = place % bytes.len();
            bytes[place] = digit;
        }
    }
    keys::set_marks(contract);
}
