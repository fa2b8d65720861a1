//! Makes a disagreeing listing smaller while the disagreement stays.

use crate::listing;
use crate::make::{b, place};
use crate::tree::*;
use crate::writer;
use std::collections::HashSet;
use std::time::{Duration, Instant};

/// Longer than this is not worth it.
const LONGEST: Duration = Duration::from_secs(120);

/// The smallest listing found for which `stays` holds. It must hold for the one given.
pub fn shrink(listing: &[u8], stays: &dyn Fn(&[u8]) -> bool) -> Vec<u8> {
    let mut smallest = listing.to_vec();
    let begun = Instant::now();
    loop {
        let step = smaller_contracts(&smallest)
            .chain(smaller_texts(&smallest))
            .take_while(|_| begun.elapsed() < LONGEST)
            .find(|candidate| weight(candidate) < weight(&smallest) && stays(candidate));
        match step {
            Some(candidate) => smallest = candidate,
            None => return smallest,
        }
    }
}

/// Fewer lines first, then fewer bytes.
fn weight(listing: &[u8]) -> (usize, usize) {
    (listing.iter().filter(|&&byte| byte == b'\n').count(), listing.len())
}

/// A change of a contract.
type Change = Box<dyn Fn(&mut Contract)>;

/// The listings of contracts that are one step smaller, if the listing can be read.
fn smaller_contracts(listing: &[u8]) -> Box<dyn Iterator<Item = Vec<u8>>> {
    let Ok(contract) = listing::read(listing) else {
        return Box::new(std::iter::empty());
    };
    let changes = changes(&contract);
    let before = variables(&contract);
    Box::new(changes.into_iter().flat_map(move |change| {
        let mut smaller = contract.clone();
        change(&mut smaller);
        let mut without_items = smaller.clone();
        let after = variables(&smaller);
        let lost = |item: &Item| before.contains(&item.name) && !after.contains(&item.name);
        without_items.declarations.iter_mut().for_each(|items| items.retain(|item| !lost(item)));
        [writer::write(&without_items), writer::write(&smaller)]
    }))
}

/// The names of all variables.
fn variables(contract: &Contract) -> HashSet<String> {
    let mut names = HashSet::new();
    contract.block.each(&mut |node| {
        if let Form::Variable(name) = &node.form {
            names.insert(name.clone());
        }
    });
    names
}

/// All single steps: an item or declaration less, a statement less, a node replaced by a part or by a truth, an if by one of
/// its blocks (with or without a declaration less), a literal, number or operand cut, the locations made small. Each is tried
/// with and without the items whose last variable it takes away.
fn changes(contract: &Contract) -> Vec<Change> {
    let mut found: Vec<Change> = vec![Box::new(place)];
    let ways = contract.block.ways(&|_| true, &|_| true);
    for way in ways.iter().filter(|way| contract.block.at(way).form == Form::Block) {
        for i in 0..contract.block.at(way).parts.len() {
            found.push(at(way, move |node| drop(node.parts.remove(i))));
        }
    }
    for (d, items) in contract.declarations.iter().enumerate() {
        found.push(Box::new(move |contract| drop(contract.declarations.remove(d))));
        for i in 0..items.len() {
            found.push(Box::new(move |contract| drop(contract.declarations[d].remove(i))));
            for e in 0..contract.declarations.len() {
                found.push(Box::new(move |contract| drop_name(contract, d, i, e)));
            }
        }
    }
    ways.iter().for_each(|way| node_changes(contract, way, &mut found));
    found
}

/// A change of the node at a way.
fn at(way: &[usize], change: impl Fn(&mut Node) + 'static) -> Change {
    let way = way.to_vec();
    Box::new(move |contract| change(contract.block.at_mut(&way)))
}

/// Drops item `i` of declaration `d` and the item of the same name in declaration `e`.
fn drop_name(contract: &mut Contract, d: usize, i: usize, e: usize) {
    let name = contract.declarations[d].remove(i).name;
    contract.declarations[e].retain(|item| item.name != name);
}

fn is_expression(node: &Node) -> bool {
    use Form::*;
    !matches!(node.form, Block | If | Wait(..) | Verify | Return | Single | Multi(_))
}

fn node_changes(contract: &Contract, way: &[usize], found: &mut Vec<Change>) {
    let node = contract.block.at(way);
    for i in 0..node.parts.len() {
        match node.form {
            // An if gives way to what stands in one of its blocks.
            Form::If if i > 0 => {
                let (above, last) = (way[..way.len() - 1].to_vec(), way[way.len() - 1]);
                let unwrap = move |contract: &mut Contract| {
                    let block = contract.block.at_mut(&above);
                    let inner = block.parts[last].parts[i].parts.clone();
                    block.parts.splice(last..=last, inner);
                };
                for d in 0..contract.declarations.len() {
                    let unwrap = unwrap.clone();
                    found.push(Box::new(move |contract| {
                        unwrap(contract);
                        contract.declarations.remove(d);
                    }));
                }
                found.push(Box::new(unwrap));
                if i == 2 {
                    found.push(at(way, |node| drop(node.parts.pop())));
                }
            }
            Form::Multi(_) => found.push(at(way, move |node| drop(node.parts.remove(i)))),
            _ if is_expression(node) && is_expression(&node.parts[i]) => {
                found.push(at(way, move |node| *node = node.parts[i].clone()));
            }
            _ => {}
        }
    }
    form_changes(node, way, found);
}

/// Changes of a node's own form, or a truth in place of an expression.
fn form_changes(node: &Node, way: &[usize], found: &mut Vec<Change>) {
    match &node.form {
        Form::Literal(bytes, _) if !bytes.is_empty() => {
            found.push(at(way, |node| cut_literal(node, 0)));
            found.push(at(way, |node| cut_literal(node, 2)));
            found.push(at(way, |node| cut_literal(node, 1)));
        }
        Form::Number(value) if *value != 0 => found.push(at(way, |node| node.form = Form::Number(0))),
        Form::Wait(op, operand) if *operand != 0 => {
            let op = *op;
            found.push(at(way, move |node| node.form = Form::Wait(op, 0)));
        }
        Form::Boolean(_) => {}
        _ if is_expression(node) => found.push(at(way, |node| *node = b(true))),
        _ => {}
    }
}

/// Half of a literal, or one byte less, or nothing of it.
fn cut_literal(node: &mut Node, how: usize) {
    if let Form::Literal(bytes, _) = &mut node.form {
        let left = match how {
            0 => 0,
            1 => bytes.len() - 1,
            _ => bytes.len() / 2,
        };
        bytes.truncate(left);
    }
}

/// The listing without a run of lines, then without a run of bytes; long runs first.
fn smaller_texts(listing: &[u8]) -> impl Iterator<Item = Vec<u8>> {
    let lines: Vec<Vec<u8>> = listing.split_inclusive(|&byte| byte == b'\n').map(<[u8]>::to_vec).collect();
    let bytes: Vec<Vec<u8>> = listing.iter().map(|byte| vec![*byte]).collect();
    without_runs(lines).chain(without_runs(bytes))
}

fn without_runs(parts: Vec<Vec<u8>>) -> impl Iterator<Item = Vec<u8>> {
    let count = parts.len();
    let lengths = std::iter::successors(Some(count.div_ceil(2)), |&length| (length > 1).then(|| length / 2));
    lengths
        .flat_map(move |length| (0..=count.saturating_sub(length)).step_by(length.max(1)).map(move |from| (from, length)))
        .map(move |(from, length)| {
            let kept = parts.iter().take(from).chain(parts.iter().skip(from + length));
            kept.flatten().copied().collect()
        })
}
