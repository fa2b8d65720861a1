//! Random good contracts with one fault put in, such that number and place are known.

use crate::case::Suite;
use crate::good::{self, Size};
use crate::keys;
use crate::make::*;
use crate::rng::Rng;
use crate::tree::*;
use crate::walk::{compare_above, is_skipped, walk, Way};

/// Puts a fault in, aimed. Nothing if the contract has no place for it.
type Fault = fn(&mut Rng, &mut Contract) -> Option<Spoilt>;

/// The label of what was done, and whether the refusal stands at 0,0,1,0.
struct Spoilt {
    label: String,
    outset: bool,
}

fn spoilt(label: &str) -> Option<Spoilt> {
    Some(Spoilt { label: label.to_string(), outset: false })
}

const FAULTS: &[Fault] = &[
    copied_name,
    unknown_name,
    taken_again,
    too_early,
    left_over,
    key_no_literal,
    wrong_root,
    signature_type,
    threshold,
    lost_end,
    lost_else,
    added_after,
    declaration_missing,
    declaration_more,
    not_handed_over,
    moved_in_next_path,
    bad_wait,
    big_number,
    long_literal,
    bad_key,
];

/// One case for each fault that finds a place, each in a good contract of its own.
pub fn add_round(suite: &mut Suite, size: Size) {
    for fault in FAULTS {
        for _attempt in 0..40 {
            let mut contract = good::contract(&mut suite.rng, size);
            if let Some(done) = fault(&mut suite.rng, &mut contract) {
                suite.add_whole(&done.label, contract, done.outset);
                break;
            }
        }
    }
}

/// Puts one of the faults, picked at random, into a good contract. Its label, and whether the refusal stands at 0,0,1,0;
/// nothing if the contract has no place for the fault.
#[cfg(feature = "examiner")]
pub fn spoil(rng: &mut Rng, contract: &mut Contract) -> Option<(String, bool)> {
    let fault = rng.pick(FAULTS);
    fault(rng, contract).map(|done| (done.label, done.outset))
}

/// Picks one, if there is one.
fn pick<T: Clone>(rng: &mut Rng, from: &[T]) -> Option<T> {
    if from.is_empty() {
        return None;
    }
    Some(from[rng.below(from.len())].clone())
}

/// The item at a position of a path, counted from the top.
fn item_at(contract: &Contract, path: usize, position: usize) -> usize {
    contract.declarations[path].len() - 1 - position
}

/// Aims at the node, or at the outermost compare above it, where faults of type show. Gives 17 for the latter.
fn aim_type(contract: &mut Contract, way: &Way, number: u8) -> u8 {
    match compare_above(contract, way) {
        Some(compare) => {
            contract.block.at_mut(&compare).aimed = true;
            17
        }
        None => {
            contract.block.at_mut(way).aimed = true;
            number
        }
    }
}

/// 11: an item gets the name of one declared after it.
fn copied_name(rng: &mut Rng, contract: &mut Contract) -> Option<Spoilt> {
    let large: Vec<usize> = (0..contract.declarations.len()).filter(|i| contract.declarations[*i].len() > 1).collect();
    let items = &mut contract.declarations[pick(rng, &large)?];
    let first = rng.below(items.len() - 1);
    let second = first + 1 + rng.below(items.len() - 1 - first);
    items[first].name = items[second].name.clone();
    items[first].aimed = true;
    spoilt("11@random")
}

/// 12: a variable gets a name that nobody has.
fn unknown_name(rng: &mut Rng, contract: &mut Contract) -> Option<Spoilt> {
    let met = pick(rng, &walk(contract).variables)?;
    let node = contract.block.at_mut(&met.way);
    *node = v("nobody_has_this").here();
    spoilt("12@random")
}

/// 13: a variable gets the name of one taken before it on the path.
fn taken_again(rng: &mut Rng, contract: &mut Contract) -> Option<Spoilt> {
    let later: Vec<_> = walk(contract).variables.into_iter().filter(|met| met.position > 0).collect();
    let met = pick(rng, &later)?;
    let earlier = item_at(contract, met.path, rng.below(met.position));
    let name = contract.declarations[met.path][earlier].name.clone();
    *contract.block.at_mut(&met.way) = v(&name).here();
    spoilt("13@random")
}

/// 15: a variable gets the name of one further down.
fn too_early(rng: &mut Rng, contract: &mut Contract) -> Option<Spoilt> {
    let open = |path: usize, position: usize| contract.declarations[path].len() - 1 - position;
    let early: Vec<_> = walk(contract).variables.into_iter().filter(|met| open(met.path, met.position) > 0).collect();
    let met = pick(rng, &early)?;
    let left = open(met.path, met.position);
    let name = contract.declarations[met.path][rng.below(left)].name.clone();
    *contract.block.at_mut(&met.way) = v(&name).here();
    spoilt("15@random")
}

/// 14: one more item at the bottom of a path.
fn left_over(rng: &mut Rng, contract: &mut Contract) -> Option<Spoilt> {
    let path = rng.below(contract.declarations.len());
    if contract.declarations[path].len() >= 32 {
        return None;
    }
    let more = Item { aimed: true, ..item(rng.below(4) as u8, "nobody_takes_this") };
    contract.declarations[path].insert(0, more);
    spoilt("14@random")
}

/// The ways to all nodes that the rules enter and `wanted` picks.
fn entered(contract: &Contract, wanted: &dyn Fn(&Node) -> bool) -> Vec<Way> {
    let mut found = vec![];
    for root in walk(contract).roots {
        find(contract.block.at(&root), root, wanted, &mut found);
    }
    found
}

fn find(node: &Node, way: Way, wanted: &dyn Fn(&Node) -> bool, found: &mut Vec<Way>) {
    if wanted(node) {
        found.push(way.clone());
    }
    for (i, part) in node.parts.iter().enumerate() {
        if !is_skipped(node, part) {
            let mut below = way.clone();
            below.push(i);
            find(part, below, wanted, found);
        }
    }
}

/// The ways to the keys of signature checks that are entered.
fn keys_of(contract: &Contract) -> Vec<Way> {
    let mut ways = entered(contract, &|node| node.form == Form::Single);
    ways.iter_mut().for_each(|way| way.push(1));
    ways
}

/// 16: a number or a truth stands for a key.
fn key_no_literal(rng: &mut Rng, contract: &mut Contract) -> Option<Spoilt> {
    let way = pick(rng, &keys_of(contract))?;
    *contract.block.at_mut(&way) = if rng.chance(50) { n(3) } else { equal(n(1), n(2)) };
    let number = aim_type(contract, &way, 16);
    spoilt(&format!("{number}@random-key-no-literal"))
}

/// 22: a key off the curve, of another target, or no key at all.
fn bad_key(rng: &mut Rng, contract: &mut Contract) -> Option<Spoilt> {
    let way = pick(rng, &keys_of(contract))?;
    let target = contract.target;
    let other = if target == TAPROOT { SEGWIT } else { TAPROOT };
    let text = match rng.below(4) {
        0 => keys::good_key(rng, other),
        1 => keys::good_key(rng, target)[1..].to_string(),
        2 => keys::good_key(rng, target).replace(['2', '3'], "g"),
        _ => keys::hex(&keys::key_bytes(rng, target, false)),
    };
    if keys::mark(target, text.as_bytes()) {
        return None;
    }
    *contract.block.at_mut(&way) = s(&text);
    let number = aim_type(contract, &way, 22);
    spoilt(&format!("{number}@random-bad-key"))
}

/// 17: a verify, condition or return of no truth.
fn wrong_root(rng: &mut Rng, contract: &mut Contract) -> Option<Spoilt> {
    let way = pick(rng, &walk(contract).roots)?;
    *contract.block.at_mut(&way) = match rng.below(4) {
        0 => n(1).here(),
        1 => s("6161").here(),
        2 => arithmetic(0, n(1), b(true).here()),
        _ => sha(n(1)).here(),
    };
    spoilt("17@random-no-truth")
}

/// 17: an item that was no signature becomes one in the path whose table decides.
fn signature_type(rng: &mut Rng, contract: &mut Contract) -> Option<Spoilt> {
    let all = walk(contract).variables;
    let kind = |path: usize, position: usize| contract.declarations[path][item_at(contract, path, position)].kind;
    let others: Vec<_> = all.into_iter().filter(|met| kind(met.path, met.position) != SIGNATURE).collect();
    let met = pick(rng, &others)?;
    let place = item_at(contract, met.path, met.position);
    contract.declarations[met.path][place].kind = SIGNATURE;
    aim_type(contract, &met.way, 17);
    spoilt("17@random-signature-type")
}

/// 17: a threshold out of its range.
fn threshold(rng: &mut Rng, contract: &mut Contract) -> Option<Spoilt> {
    let multis = entered(contract, &|node| matches!(node.form, Form::Multi(_)));
    let way = pick(rng, &multis)?;
    let node = contract.block.at_mut(&way);
    let count = node.parts.len() as u32;
    node.form = Form::Multi(if rng.chance(50) { 0 } else { count + 1 });
    aim_type(contract, &way, 17);
    spoilt("17@random-threshold")
}

/// 18: a block loses its last statement.
fn lost_end(rng: &mut Rng, contract: &mut Contract) -> Option<Spoilt> {
    let way = pick(rng, &walk(contract).blocks)?;
    let node = contract.block.at_mut(&way);
    node.parts.pop();
    match node.parts.last_mut() {
        Some(last) => last.aimed = true,
        None => return Some(Spoilt { label: "18@random-empty-block".to_string(), outset: true }),
    }
    spoilt("18@random-lost-end")
}

/// 18: an if loses its else.
fn lost_else(rng: &mut Rng, contract: &mut Contract) -> Option<Spoilt> {
    let fork = pick(rng, &walk(contract).forks)?;
    let node = contract.block.at_mut(&fork.way);
    node.parts.pop();
    node.aimed = true;
    spoilt("18@random-lost-else")
}

/// 19: one more statement at the end of a block.
fn added_after(rng: &mut Rng, contract: &mut Contract) -> Option<Spoilt> {
    let way = pick(rng, &walk(contract).blocks)?;
    let more = match rng.below(4) {
        0 => returns(b(true)),
        1 => verify(v("x")),
        2 => older(5),
        _ => if_else(b(true), vec![returns(b(true))], vec![returns(b(true))]),
    };
    contract.block.at_mut(&way).parts.push(more.here());
    spoilt("19@random")
}

/// Aims at the first item of the first declaration, or at 0,0,1,0 without one.
fn aim_count(contract: &mut Contract) -> Option<Spoilt> {
    let outset = match contract.declarations.first_mut().and_then(|first| first.first_mut()) {
        Some(item) => {
            item.aimed = true;
            false
        }
        None => true,
    };
    Some(Spoilt { label: "20@random-count".to_string(), outset })
}

fn declaration_missing(rng: &mut Rng, contract: &mut Contract) -> Option<Spoilt> {
    let lost = rng.below(contract.declarations.len());
    contract.declarations.remove(lost);
    aim_count(contract)
}

fn declaration_more(rng: &mut Rng, contract: &mut Contract) -> Option<Spoilt> {
    if contract.declarations.len() >= 32 {
        return None;
    }
    let copied = contract.declarations[rng.below(contract.declarations.len())].clone();
    contract.declarations.insert(rng.below(contract.declarations.len() + 1), copied);
    aim_count(contract)
}

/// 20: an item taken before an else-block has another name there.
fn not_handed_over(rng: &mut Rng, contract: &mut Contract) -> Option<Spoilt> {
    let forks: Vec<_> = walk(contract).forks.into_iter().filter(|fork| fork.taken > 0).collect();
    let fork = pick(rng, &forks)?;
    let place = item_at(contract, fork.next, rng.below(fork.taken));
    contract.declarations[fork.next][place].name = "nobody_has_this".to_string();
    contract.block.at_mut(&fork.way).aimed = true;
    spoilt("20@random-missing-name")
}

/// 20: the items taken before an else-block stand otherwise there.
fn moved_in_next_path(rng: &mut Rng, contract: &mut Contract) -> Option<Spoilt> {
    let forks: Vec<_> = walk(contract).forks.into_iter().filter(|fork| fork.taken > 0).collect();
    let fork = pick(rng, &forks)?;
    let items = &mut contract.declarations[fork.next];
    if items.len() >= 2 && rng.chance(60) {
        // A taken item changes places with any other.
        let place = items.len() - 1 - rng.below(fork.taken);
        let other = (place + 1 + rng.below(items.len() - 1)) % items.len();
        items.swap(place, other);
    } else if items.len() < 32 {
        items.push(item(BOOLEAN, "one_on_top"));
    } else {
        return None;
    }
    contract.block.at_mut(&fork.way).aimed = true;
    spoilt("20@random-other-position")
}

/// 21: a wait out of its range, anywhere before the end of a block.
fn bad_wait(rng: &mut Rng, contract: &mut Contract) -> Option<Spoilt> {
    let way = pick(rng, &walk(contract).blocks)?;
    let parts = &mut contract.block.at_mut(&way).parts;
    let operand = rng.pick(&[-1, 65536, 4294967296, i64::MAX, i64::MIN, -4294967295]);
    let op = if operand == 65536 { OLDER } else { rng.below(2) as u8 };
    parts.insert(rng.below(parts.len()), wait(op, operand).here());
    spoilt("21@random-wait")
}

/// The ways to all nodes outside signature checks that `wanted` picks.
fn limited(contract: &Contract, wanted: &dyn Fn(&Node) -> bool) -> Vec<Way> {
    contract.block.ways(&|node| node.form != Form::Check, wanted)
}

/// 21: a number out of its range.
fn big_number(rng: &mut Rng, contract: &mut Contract) -> Option<Spoilt> {
    let way = pick(rng, &limited(contract, &|node| matches!(node.form, Form::Number(_))))?;
    let value = rng.pick(&[2147483648, -2147483648, i64::MAX, i64::MIN, 4294967296]);
    *contract.block.at_mut(&way) = n(value).here();
    spoilt("21@random-number")
}

/// 21: a literal of more than 520 bytes.
fn long_literal(rng: &mut Rng, contract: &mut Contract) -> Option<Spoilt> {
    let way = pick(rng, &limited(contract, &|node| matches!(node.form, Form::Literal(..))))?;
    let text = rng.pick(&["x", "0", "f"]).repeat(521);
    *contract.block.at_mut(&way) = s(&text).here();
    spoilt("21@random-literal")
}
