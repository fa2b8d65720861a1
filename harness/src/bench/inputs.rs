//! The contracts that are timed.

use crate::keys;
use crate::listing;
use crate::make::*;
use crate::rng::Rng;
use crate::tree::*;
use crate::writer;

/// A listing with its name, and the most that the examiner may take in comparison with the original and its tree.
pub struct Input {
    pub name: &'static str,
    pub listing: Vec<u8>,
    pub goal: Option<f64>,
}

const MOST_BYTES: usize = 32768;

/// Document 01, "One contract whole".
const WORKED: &str = "T,0,2\nD,2\nP,0,1,1,0,2,p\nP,3,4,1,3,3,c\nD,2\nP,6,7,2,0,1,n\nP,9,10,2,3,3,c\nB,1\n\
    I,20,60,3,0,1\nv,23,24,3,3,c\nB,1\nE,30,44,4,0\nc,37,44,4,7,0\nh,37,40,4,7,0\nv,38,39,4,8,p\n\
    s,42,44,4,12,6161,0\nB,1\nE,50,58,6,0\nc,53,58,6,3,0\nv,53,54,6,3,n\nn,57,58,6,7,7\n";

/// What they are called, in order.
pub const NAMES: &[&str] = &[
    "worked", "keys", "paths", "waits", "compares", "doubling", "literals", "1 KiB", "2 KiB", "4 KiB", "8 KiB", "16 KiB",
    "32 KiB",
];

/// The one of this name. It can be read.
pub fn named(name: &'static str) -> Input {
    let input = match name {
        "worked" => Input { name, listing: WORKED.as_bytes().to_vec(), goal: Some(0.7) },
        "keys" => input(name, Some(0.1), many_keys(&mut Rng::new(1))),
        "paths" => input(name, Some(0.1), shared_items(31, 24)),
        "waits" => input(name, Some(0.6), waits()),
        "compares" => input(name, Some(0.01), compares()),
        "doubling" => input(name, Some(0.01), doubling()),
        "literals" => Input { name, listing: literals(), goal: Some(0.1) },
        grows => {
            let size: usize = grows.trim_end_matches(" KiB").parse().unwrap();
            input(name, None, grown(size << 10))
        }
    };
    let read = listing::read(&input.listing);
    assert!(read.is_ok(), "{name}: {:?}", read.err());
    input
}

fn input(name: &'static str, goal: Option<f64>, contract: Contract) -> Input {
    Input { name, listing: finished(contract), goal }
}

/// The listing of a contract, with locations and marks.
fn finished(mut contract: Contract) -> Vec<u8> {
    place(&mut contract);
    keys::set_marks(&mut contract);
    writer::write(&contract)
}

/// Near 1,000 lines: two paths, each with 30 signature checks, and verifies of hashes and numbers.
fn many_keys(rng: &mut Rng) -> Contract {
    let names: Vec<String> = (0..30).map(|i| format!("sig_{i}")).collect();
    let mut items = vec![(BOOLEAN, "condition")];
    items.extend(names.iter().map(|name| (SIGNATURE, name.as_str())));
    let mut block = || {
        let mut statements = vec![];
        for (i, name) in names.iter().enumerate() {
            statements.push(verify(check(v(name), s(&keys::good_key(rng, SEGWIT)))));
            statements.push(verify(equal(sha(s("616161")), s("c0ffee"))));
            statements.push(verify(compare(GREATER, n(2147483647), n(i as i64))));
            statements.push(older(i as i64));
        }
        statements.push(returns(b(true)));
        statements
    };
    let fork = if_else(v("condition"), block(), block());
    contract(SEGWIT, vec![from_top(&items), from_top(&items)], vec![fork])
}

/// So many paths, which share so many items, all taken before the first if.
fn shared_items(paths: usize, items: usize) -> Contract {
    let names: Vec<String> = (0..items).map(|i| format!("shared_{i}")).collect();
    let declaration: Vec<Item> = names.iter().rev().map(|name| item(BOOLEAN, name)).collect();
    let yes = || vec![returns(b(true))];
    let inner = (1..paths).fold(yes(), |inner, _| vec![if_else(b(true), yes(), inner)]);
    let mut statements: Vec<Node> = names.iter().map(|name| verify(v(name))).collect();
    statements.extend(inner);
    contract(SEGWIT, vec![declaration; paths], statements)
}

/// 1,024 lines: T, D, B, E, b and waits.
fn waits() -> Contract {
    let mut statements: Vec<Node> = (0..1019).map(|i| older(i * 64)).collect();
    statements.push(returns(b(true)));
    contract(SEGWIT, vec![vec![]], statements)
}

/// A tree of logic with so many nodes (an odd number), as low as can be, whose last leaf is no truth.
fn failing_tree(nodes: usize) -> Node {
    let mut whole = full_tree(nodes);
    let mut last = &mut whole;
    while !last.parts.is_empty() {
        last = last.parts.last_mut().unwrap();
    }
    *last = n(1);
    whole
}

fn full_tree(nodes: usize) -> Node {
    if nodes < 3 {
        return b(true);
    }
    let left = (nodes - 1) / 2 | 1;
    and(full_tree(left), full_tree(nodes - 1 - left))
}

/// 22 compares one in another, and 901 nodes below.
fn compares() -> Contract {
    let nested = (0..22).fold(failing_tree(901), |inner, _| equal(inner, b(true)));
    contract(SEGWIT, vec![vec![]], vec![returns(nested)])
}

/// 7 compares of a size of a hash, one in another, and 901 nodes below: the original looks for the fault below each twice.
fn doubling() -> Contract {
    let nested = (0..7).fold(failing_tree(901), |inner, _| equal(size(sha(inner)), b(true)));
    contract(SEGWIT, vec![vec![]], vec![returns(nested)])
}

/// 32,768 bytes, almost all of them literals of 1,040 hex digits.
fn literals() -> Vec<u8> {
    let build = |last: usize, operand: i64| {
        let whole = || s(&"a7".repeat(520));
        let mut statements: Vec<Node> = (0..7).map(|_| verify(equal(whole(), whole()))).collect();
        statements.push(after(operand));
        statements.push(returns(equal(s(&"0".repeat(1040)), s(&"f".repeat(last)))));
        finished(contract(SEGWIT, vec![vec![]], statements))
    };
    // A byte of a literal is two digits; an odd rest goes into the wait's operand.
    let operand = if build(0, 1).len() % 2 == 0 { 1 } else { 10 };
    let missing = (MOST_BYTES - build(0, operand).len()) / 2;
    let listing = build(missing, operand);
    assert_eq!(listing.len(), MOST_BYTES);
    listing
}

/// The same few statements again and again, up to so many bytes.
fn grown(bytes: usize) -> Contract {
    let digest = keys::hex(&Rng::new(2).bytes(32));
    let unit = |i: i64| {
        let preimage = verify(equal(sha(s("616263646566")), s(&digest)));
        vec![older(i), preimage, verify(compare(GREATER, n(100000 + i), n(i)))]
    };
    let build = |count: i64| {
        let mut statements: Vec<Node> = (0..count).flat_map(unit).collect();
        statements.push(returns(b(true)));
        contract(SEGWIT, vec![vec![]], statements)
    };
    // The largest count that fits, found by halving.
    let (mut fits, mut too_many) = (1, 1 + bytes as i64 / 100);
    while too_many - fits > 1 {
        let middle = (fits + too_many) / 2;
        if finished(build(middle)).len() <= bytes {
            fits = middle;
        } else {
            too_many = middle;
        }
    }
    build(fits)
}
