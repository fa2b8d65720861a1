//! Good contracts grown to the ceilings of document 01, each at it or, if asked, one past it.

use crate::good::{self, Size};
use crate::keys;
use crate::make::*;
use crate::rng::Rng;
use crate::seconds;
use crate::tree::*;
use crate::walk::walk;
use crate::writer;
use std::collections::HashMap;

/// A contract at a ceiling. With `past` it may be one past it: then the reading refuses it, by 1 or 4.
pub fn contract(rng: &mut Rng, past: bool) -> Contract {
    loop {
        let contract = grown(rng, past);
        if past || writer::write(&contract).len() <= MOST_BYTES && lines(&contract) <= MOST_LINES {
            return contract;
        }
    }
}

const MOST_BYTES: usize = 32768;
const MOST_LINES: usize = 1024;

fn grown(rng: &mut Rng, past: bool) -> Contract {
    let size = rng.pick(&[good::SMALL, good::SMALL, good::MIDDLE, good::LARGE]);
    let mut contract = good::contract(rng, size);
    let over = usize::from(past);
    let last = rng.below(9);
    match last {
        0 => deepen(rng, &mut contract, 32 + over),
        1 => nest(rng, &mut contract, 32 + over),
        2 => contract = shared(rng, over),
        3 => long_names(rng, &mut contract, 32 + over),
        4 => many_factors(rng, &mut contract, 64 + over),
        5 => long_literal(rng, &mut contract, 1200 + over),
        6 => contract = many_items(rng, 32 + over),
        7 => pad_lines(rng, &mut contract, MOST_LINES + over),
        _ => {}
    }
    if last < 6 && rng.chance(30) {
        long_names(rng, &mut contract, 32);
    }
    if last < 6 && rng.chance(15) {
        let room = rng.below(2);
        pad_lines(rng, &mut contract, MOST_LINES - room);
    }
    place(&mut contract);
    if last == 8 {
        pad_bytes(rng, &mut contract, MOST_BYTES + over);
    }
    if rng.chance(50) {
        seconds::turn(rng, &mut contract);
    }
    keys::set_marks(&mut contract);
    contract
}

fn height(node: &Node) -> usize {
    1 + node.parts.iter().map(height).max().unwrap_or(0)
}

fn block_depth(block: &Node) -> usize {
    let below = block.parts.iter().filter(|node| node.form == Form::If).flat_map(|node| &node.parts[1..]);
    1 + below.map(block_depth).max().unwrap_or(0)
}

fn lines(contract: &Contract) -> usize {
    writer::write(contract).iter().filter(|&&byte| byte == b'\n').count()
}

/// Wraps the expression of a statement until it has this depth. It stays a truth.
fn deepen(rng: &mut Rng, contract: &mut Contract, depth: usize) {
    let roots = walk(contract).roots;
    let way = roots[rng.below(roots.len())].clone();
    let root = contract.block.at_mut(&way);
    while height(root) < depth {
        let inner = std::mem::replace(root, b(true));
        let room = depth - height(&inner);
        *root = match rng.below(5) {
            0 => not(inner),
            1 => equal(inner, b(rng.chance(50))),
            2 => and(b(true), inner),
            3 if room >= 3 => compare(rng.below(8) as u8, n(32), size(hash(rng.below(2) as u8, inner))),
            _ => or(inner, b(false)),
        };
    }
}

/// Puts the whole contract into blocks of ifs, until blocks have this depth or there are 32 paths. Some conditions take an
/// item that every path then has on top.
fn nest(rng: &mut Rng, contract: &mut Contract, depth: usize) {
    while block_depth(&contract.block) < depth && contract.declarations.len() < 32 {
        let roomy = contract.declarations.iter().all(|items| items.len() < 32);
        let name = format!("k_{}", contract.declarations.len());
        let with_item = roomy && rng.chance(50);
        let top: Vec<Item> = if with_item { vec![item(BOOLEAN, &name)] } else { vec![] };
        contract.declarations.iter_mut().for_each(|items| items.extend(top.clone()));
        let condition = if with_item { v(&name) } else { b(rng.chance(50)) };
        let inner = std::mem::take(&mut contract.block.parts);
        let yes = vec![returns(b(true))];
        contract.block.parts = vec![if rng.chance(50) {
            contract.declarations.insert(0, top);
            if_else(condition, yes, inner)
        } else {
            contract.declarations.push(top);
            if_else(condition, inner, yes)
        }];
    }
}

/// Many paths that share many items, taken before the first if. `over` adds a declaration past 32.
fn shared(rng: &mut Rng, over: usize) -> Contract {
    let paths = if over == 1 { 33 } else { 2 + rng.below(31) };
    // Each item has a line in each declaration and two of its own; each path has a `D` line and six of an if.
    let most = (1000 - 7 * paths) / (paths + 2);
    let items = rng.below(1 + most.min(32));
    let names: Vec<String> = (0..items).map(|i| format!("shared_{i}")).collect();
    let declaration: Vec<Item> = names.iter().rev().map(|name| item(BOOLEAN, name)).collect();
    let mut declarations = vec![declaration; paths];
    // Only the first path's types count, so the others may have any.
    declarations.iter_mut().skip(1).flatten().for_each(|item| item.kind = rng.below(4) as u8);
    let mut last = vec![returns(b(true))];
    for _ in 1..paths {
        let yes = vec![returns(b(false))];
        last = vec![if rng.chance(50) { if_else(b(true), last, yes) } else { if_else(b(true), yes, last) }];
    }
    let mut statements: Vec<Node> = names.iter().map(|name| verify(v(name))).collect();
    statements.extend(last);
    crate::make::contract(rng.below(3) as u8, declarations, statements)
}

/// Every name gets this length; the names differ in their first bytes or in their last.
fn long_names(rng: &mut Rng, contract: &mut Contract, length: usize) {
    let at_end = rng.chance(50);
    let mut names: HashMap<String, String> = HashMap::new();
    let mut longer = |name: &mut String| {
        let index = names.len();
        let new = if at_end { format!("{index:_>length$}") } else { format!("{index:_<length$}") };
        *name = names.entry(name.clone()).or_insert(new).clone();
    };
    contract.declarations.iter_mut().flatten().for_each(|item| longer(&mut item.name));
    contract.block.each_mut(&mut |node| {
        if let Form::Variable(name) = &mut node.form {
            longer(name);
        }
    });
}

/// A random block's parts, and a place in it before its last statement.
fn some_place<'a>(rng: &mut Rng, contract: &'a mut Contract) -> (&'a mut Vec<Node>, usize) {
    let blocks = walk(contract).blocks;
    let way = blocks[rng.below(blocks.len())].clone();
    let parts = &mut contract.block.at_mut(&way).parts;
    let place = rng.below(parts.len());
    (parts, place)
}

/// A multi-signature with so many factors, most of them multi-signatures themselves, which no rule enters.
fn many_factors(rng: &mut Rng, contract: &mut Contract, count: usize) {
    let factors = (0..count).map(|_| multi(rng.below(3) as u32, vec![])).collect();
    let (parts, place) = some_place(rng, contract);
    let m = if rng.chance(30) { 64 } else { 1 + rng.below(64) as u32 };
    parts.insert(place, verify(check_of(multi(m, factors))));
}

/// A literal of so many bytes where no rule looks.
fn long_literal(rng: &mut Rng, contract: &mut Contract, length: usize) {
    let text = rng.pick(&["x", "0", "\u{e4}"]);
    let mut bytes = text.repeat(length).into_bytes();
    bytes.truncate(length);
    let literal = Node::new(Form::Literal(bytes, false), vec![]);
    let inner = multi(1, vec![single(literal, s(""))]);
    let (parts, place) = some_place(rng, contract);
    parts.insert(place, verify(check_of(multi(1, vec![inner]))));
}

/// One path with so many items.
fn many_items(rng: &mut Rng, count: usize) -> Contract {
    let target = rng.below(3) as u8;
    let names: Vec<String> = (0..count).map(|i| format!("i{}", i * i)).collect();
    let kinds: Vec<u8> = (0..count).map(|_| rng.below(4) as u8).collect();
    let mut statements = vec![];
    for (name, kind) in names.iter().zip(&kinds) {
        let key = s(&keys::good_key(rng, target));
        statements.push(verify(match *kind {
            SIGNATURE => check(v(name), key),
            NUMBER => compare(rng.below(8) as u8, v(name), n(1)),
            STRING => equal(sha(v(name)), s("00")),
            _ => v(name),
        }));
    }
    statements.push(returns(b(true)));
    let items: Vec<(u8, &str)> = kinds.iter().zip(&names).map(|(kind, name)| (*kind, name.as_str())).collect();
    crate::make::contract(target, vec![from_top(&items)], statements)
}

/// Waits and verifies until the listing has so many lines.
fn pad_lines(rng: &mut Rng, contract: &mut Contract, count: usize) {
    let mut missing = count.saturating_sub(lines(contract));
    while missing > 0 {
        let (parts, place) = some_place(rng, contract);
        let run = (1 + rng.below(60)).min(missing);
        for _ in 0..run {
            let short = missing == 1 || rng.chance(60);
            parts.insert(place, if short { some_wait(rng) } else { verify(b(true)) });
            missing -= if short { 1 } else { 2 };
            if missing == 0 {
                break;
            }
        }
    }
}

fn some_wait(rng: &mut Rng) -> Node {
    if rng.chance(50) {
        after(rng.between(0, 99999))
    } else {
        older(rng.between(0, 65535))
    }
}

/// Literals until the listing has so many bytes. The locations must be there already.
fn pad_bytes(rng: &mut Rng, contract: &mut Contract, length: usize) {
    let missing = |contract: &Contract| length.saturating_sub(writer::write(contract).len());
    let (parts, place) = some_place(rng, contract);
    parts.insert(place, after(1));
    // A byte of a literal is two digits of the listing.
    while 2 * LONGEST * empty_literals(contract).len() < missing(contract) {
        let (parts, place) = some_place(rng, contract);
        parts.insert(place, verify(equal(s(""), s(""))));
    }
    if missing(contract) % 2 == 1 {
        let wait = contract.block.ways(&|_| true, &|node| node.form == Form::Wait(AFTER, 1))[0].clone();
        contract.block.at_mut(&wait).form = Form::Wait(AFTER, 10);
    }
    let mut left = missing(contract) / 2;
    for way in empty_literals(contract) {
        if let Form::Literal(bytes, _) = &mut contract.block.at_mut(&way).form {
            let count = left.min(LONGEST);
            bytes.resize(count, b'x');
            left -= count;
        }
    }
}

/// A literal that is no hex has at most so many bytes.
const LONGEST: usize = 520;

/// The ways to all literals of no bytes outside signature checks.
fn empty_literals(contract: &Contract) -> Vec<Vec<usize>> {
    let empty = |node: &Node| matches!(&node.form, Form::Literal(bytes, _) if bytes.is_empty());
    contract.block.ways(&|node| node.form != Form::Check, &empty)
}

/// The sizes that are not at a ceiling, small ones more often.
pub fn some_size(rng: &mut Rng) -> Size {
    rng.pick(&[good::SMALL, good::SMALL, good::SMALL, good::SMALL, good::MIDDLE, good::MIDDLE, good::LARGE])
}

#[cfg(test)]
mod tests {
    use super::*;
    use crate::listing::read;

    /// Every shape is read at its ceiling; one past it, some of each are refused by 1 and by 4.
    #[test]
    fn ceilings() {
        let mut rng = Rng::new(5);
        let mut seen: HashMap<u8, usize> = HashMap::new();
        let (mut longest, mut most) = (0, 0);
        for _ in 0..600 {
            let good = contract(&mut rng, false);
            let listing = writer::write(&good);
            assert!(read(&listing).is_ok(), "{:?}\n{}", read(&listing).err(), String::from_utf8_lossy(&listing));
            longest = longest.max(listing.len());
            most = most.max(lines(&good));
            let refused = read(&writer::write(&contract(&mut rng, true))).err();
            *seen.entry(refused.map_or(0, |refusal| refusal.number)).or_default() += 1;
        }
        assert_eq!((longest, most), (32768, 1024));
        assert!(seen[&1] > 30 && seen[&4] > 300, "{seen:?}");
    }
}
