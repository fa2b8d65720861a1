//! Contracts that are accepted: what the rules just allow, each operator, and contracts as people write them.

use crate::case::Suite;
use crate::listing;
use crate::make::*;
use crate::tree::*;

pub fn add(suite: &mut Suite) {
    document(suite);
    leaves(suite);
    operators(suite);
    written(suite);
    ceilings(suite);
}

/// The contract of document 01, "One contract whole".
const DOCUMENT: &str = "T,0,2\nD,2\nP,0,1,1,0,2,p\nP,3,4,1,3,3,c\nD,2\nP,6,7,2,0,1,n\nP,9,10,2,3,3,c\nB,1\nI,20,60,3,0,1\n\
v,23,24,3,3,c\nB,1\nE,30,44,4,0\nc,37,44,4,7,0\nh,37,40,4,7,0\nv,38,39,4,8,p\ns,42,44,4,12,6161,0\nB,1\nE,50,58,6,0\n\
c,53,58,6,3,0\nv,53,54,6,3,n\nn,57,58,6,7,7\n";

fn document(suite: &mut Suite) {
    let contract = listing::read(DOCUMENT.as_bytes()).unwrap();
    suite.add_placed("0@document-01", contract, false);
}

fn leaves(suite: &mut Suite) {
    suite.spread("0@boolean", &[], 4, &|_| b(true));
    suite.spread("0@boolean", &[], 4, &|_| b(false));
    suite.spread("0@boolean-item", &[(BOOLEAN, "x")], 4, &|_| v("x"));
    suite.spread("0@signature-check", &[(SIGNATURE, "x")], 8, &|suite| {
        let key = suite.key();
        check(v("x"), key)
    });
    suite.spread("0@key-outside-a-check", &[], 6, &|suite| {
        let (left, right) = (suite.key(), suite.key());
        equal(left, sha(right))
    });
    suite.spread("0@size-of-hash-of-not-ascii", &[], 3, &|_| equal(size(sha(s("\u{e4}"))), n(32)));
    suite.spread("0@literal-not-ascii", &[(STRING, "x")], 3, &|_| equal(v("x"), s("\u{e4}\u{2713}")));
    suite.spread("0@literal-with-any-bytes", &[(STRING, "x")], 3, &|_| equal(v("x"), s("a,b\n\0\r\"\u{7f}")));
}

fn operators(suite: &mut Suite) {
    for op in 0..4 {
        suite.spread("0@arithmetic", &[(NUMBER, "x"), (NUMBER, "y")], 2, &|_| {
            compare(op, arithmetic(op, v("x"), v("y")), n(1))
        });
        suite.spread("0@unary", &[(NUMBER, "x")], 2, &|_| compare(op + 4, unary(op, v("x")), n(1)));
    }
    for op in 0..2 {
        suite.spread("0@logic", &[(BOOLEAN, "x"), (BOOLEAN, "y")], 2, &|_| Node::new(Form::Logic(op), vec![v("x"), v("y")]));
        suite.spread("0@hash", &[(STRING, "x")], 2, &|_| compare(op, hash(op, v("x")), s("aa")));
        suite.spread("0@hash-of-hash", &[(BOOLEAN, "x")], 2, &|_| compare(op, s("00"), hash(op, hash(1 - op, v("x")))));
    }
}

/// Contracts as people write them, for each target.
fn written(suite: &mut Suite) {
    let signed = |suite: &mut Suite, name: &str| check(v(name), suite.key());
    for _ in 0..3 {
        // Pay to a key.
        let it = signed(suite, "sig");
        suite.add_path("0@pay-to-key", &[(SIGNATURE, "sig")], vec![returns(it)]);
        // A hash lock with a way back after some time.
        let (alice, bob) = (signed(suite, "alice"), signed(suite, "bob"));
        let opened = vec![verify(equal(sha(v("secret")), s(&"5a".repeat(32)))), returns(bob)];
        let whole = vec![if_else(v("claim"), opened, vec![older(144), returns(alice)])];
        let claim = (BOOLEAN, "claim");
        let paths =
            vec![from_top(&[claim, (STRING, "secret"), (SIGNATURE, "bob")]), from_top(&[claim, (SIGNATURE, "alice")])];
        suite.add("0@hash-lock", paths, whole);
        // Two of three, or one alone after a date.
        let keys: Vec<Node> = ["a", "b", "c"].iter().map(|name| single(v(name), suite.key())).collect();
        let heir = signed(suite, "heir");
        let whole =
            vec![if_else(not(v("late")), vec![returns(check_of(multi(2, keys)))], vec![after(1767225600), returns(heir)])];
        let late = (BOOLEAN, "late");
        let paths = vec![
            from_top(&[late, (SIGNATURE, "a"), (SIGNATURE, "b"), (SIGNATURE, "c")]),
            from_top(&[late, (SIGNATURE, "heir")]),
        ];
        suite.add("0@two-of-three", paths, whole);
        // Three ways, with a number in the middle.
        let (first, last) = (signed(suite, "s"), signed(suite, "s"));
        let inner = if_else(
            compare(GREATER, arithmetic(0, v("n"), n(1)), n(5)),
            vec![returns(b(true))],
            vec![older(10), returns(last)],
        );
        let whole = vec![verify(equal(size(v("text")), n(32))), if_else(v("k"), vec![returns(first)], vec![inner])];
        let (text, k, number, sig) = ((STRING, "text"), (BOOLEAN, "k"), (NUMBER, "n"), (SIGNATURE, "s"));
        let paths = vec![from_top(&[text, k, sig]), from_top(&[text, k, number]), from_top(&[text, k, number, sig])];
        suite.add("0@three-ways", paths, whole);
    }
}

/// At the ceilings that concern the rules.
fn ceilings(suite: &mut Suite) {
    let names: Vec<String> = (0..32).map(|i| format!("item_{i:027}")).collect();
    let booleans: Vec<(u8, &str)> = names.iter().map(|name| (BOOLEAN, name.as_str())).collect();
    let statements: Vec<Node> = names[..31].iter().map(|name| verify(v(name))).chain([returns(v(&names[31]))]).collect();
    suite.add_path("0@32-items-of-32-byte-names", &booleans, statements);
    let tree = names[1..].iter().fold(v(&names[0]), |left, name| and(left, v(name)));
    suite.add_path("0@32-items-in-one-expression", &booleans, vec![returns(tree)]);
    let signatures: Vec<(u8, &str)> = names.iter().map(|name| (SIGNATURE, name.as_str())).collect();
    let mut factors: Vec<Node> = names.iter().map(|name| single(v(name), suite.key())).collect();
    factors.extend((0..32).map(|_| multi(0, vec![])));
    suite.add_path("0@64-factors", &signatures, vec![returns(check_of(multi(64, factors)))]);
    let mut factors: Vec<Node> = (0..63).map(|i| multi(i, vec![])).collect();
    factors.push(multi(1, vec![single(v("u"), n(1))]));
    suite.add("0@64-factors", vec![vec![]], vec![returns(check_of(multi(1, factors.clone())))]);
    suite.add("17@65-of-64-factors", vec![vec![]], vec![returns(check_of(multi(65, factors).here()))]);
}
