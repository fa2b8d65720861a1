//! 21: waits, numbers and literals out of their bounds.

use crate::case::{Items, Suite};
use crate::make::*;
use crate::tree::*;

pub fn add(suite: &mut Suite) {
    waits(suite);
    numbers(suite);
    literals(suite);
    not_entered(suite);
    first_fault(suite);
}

/// A wait alone, after a verify, in an if-block, in an else-block.
pub(super) fn wait_case(suite: &mut Suite, label: &str, op: u8, operand: i64, turn: usize) {
    let fails = !label.starts_with("0@");
    let it = if fails { wait(op, operand).here() } else { wait(op, operand) };
    let yes = || returns(b(true));
    let (paths, statements) = match turn % 4 {
        0 => (1, vec![it, yes()]),
        1 => (1, vec![verify(b(true)), it, verify(b(false)), yes()]),
        2 => (2, vec![if_else(b(true), vec![it, yes()], vec![yes()])]),
        _ => (2, vec![older(1), if_else(b(true), vec![yes()], vec![after(2), it, yes()])]),
    };
    suite.add(label, vec![vec![]; paths], statements);
}

fn waits(suite: &mut Suite) {
    for turn in 0..4 {
        for good in [0, 1, 144, 65534, 65535] {
            wait_case(suite, "0@older-in-range", OLDER, good, turn);
        }
        for good in [0, 1, 65536, 499999999, 500000000, 2147483647, 2147483648, 4294967294, 4294967295] {
            wait_case(suite, "0@after-in-range", AFTER, good, turn);
        }
        wait_case(suite, "21@older-65536", OLDER, 65536, turn);
        wait_case(suite, "21@older-negative", OLDER, -1, turn);
        wait_case(suite, "21@after-4294967296", AFTER, 4294967296, turn);
        wait_case(suite, "21@after-negative", AFTER, -1, turn);
    }
    for (turn, bad) in [65537, 131072, 4194304, 4259840, 4294967295, 4294967296, i64::MAX].into_iter().enumerate() {
        wait_case(suite, "21@older-above", OLDER, bad, turn);
    }
    for (turn, bad) in [4294967297, 8589934592, i64::MAX].into_iter().enumerate() {
        wait_case(suite, "21@after-above", AFTER, bad, turn);
    }
    for (turn, bad) in [-65535, -4294967296, i64::MIN].into_iter().enumerate() {
        wait_case(suite, "21@older-negative", OLDER, bad, turn);
        wait_case(suite, "21@after-negative", AFTER, bad, turn + 1);
    }
}

/// A place that `check_security` visits: its name, the items taken, the truth around a number.
type Place = (&'static str, Items<'static>, fn(&mut Suite, Node) -> Node);

const NUMBER_PLACES: &[Place] = &[
    ("compare-left", &[], |_, x| compare(4, x, n(1))),
    ("compare-right", &[(NUMBER, "y")], |_, x| equal(v("y"), x)),
    ("arithmetic-left", &[], |_, x| equal(arithmetic(0, x, n(1)), n(1))),
    ("arithmetic-right", &[(NUMBER, "y")], |_, x| compare(6, n(1), arithmetic(2, v("y"), x))),
    ("unary", &[], |_, x| compare(7, unary(NEGATE, x), n(1))),
    ("hash", &[], |_, x| equal(sha(x), s("aa"))),
    ("size-of-hash", &[], |_, x| equal(size(hash(1, x)), n(20))),
    ("logic-left", &[], |_, x| or(equal(x, n(1)), b(true))),
    ("logic-right", &[(BOOLEAN, "y")], |_, x| and(v("y"), equal(n(1), x))),
    ("not", &[], |_, x| not(equal(n(1), x))),
    ("compare-of-compare", &[], |_, x| equal(b(false), compare(5, x, n(0)))),
    ("after-check", &[(SIGNATURE, "y")], |suite, x| {
        let key = suite.key();
        and(check(v("y"), key), equal(x, n(1)))
    }),
];

fn numbers(suite: &mut Suite) {
    let bad = [2147483648, -2147483648, i64::MAX, i64::MIN, 2147483649, -2147483649, 4294967296, -4294967295];
    for (i, (name, items, around)) in NUMBER_PLACES.iter().enumerate() {
        for turn in 0..4 {
            let value = bad[if turn < 2 { turn } else { (i + turn) % bad.len() }];
            suite.spread(&format!("21@number-{name}"), items, 1, &|suite| around(suite, n(value).here()));
        }
        for good in [2147483647, -2147483647] {
            suite.spread("0@number-in-range", items, 1, &|suite| around(suite, n(good)));
        }
    }
}

const LITERAL_PLACES: &[Place] = &[
    ("compare-left", &[], |_, x| equal(x, s("aa"))),
    ("compare-right", &[(STRING, "y")], |_, x| compare(NOT_EQUAL, v("y"), x)),
    ("hash", &[], |_, x| equal(s(""), sha(x))),
    ("size", &[], |_, x| compare(GREATER, size(x), n(1))),
    ("size-in-arithmetic", &[], |_, x| equal(n(1), arithmetic(1, n(2), size(x)))),
    ("logic-right", &[], |_, x| or(b(true), equal(x, s("aa")))),
];

fn literals(suite: &mut Suite) {
    for (name, items, around) in LITERAL_PLACES {
        suite.spread(&format!("21@literal-{name}"), items, 1, &|suite| around(suite, s(&"z".repeat(521)).here()));
        suite.spread(&format!("21@literal-{name}"), items, 1, &|suite| around(suite, s(&"0".repeat(521)).here()));
        suite.spread(&format!("21@literal-{name}"), items, 1, &|suite| around(suite, s(&"ab".repeat(521)).here()));
        suite.spread("0@literal-520-bytes", items, 1, &|suite| around(suite, s(&"z".repeat(520))));
    }
    let bad: &[(&str, String)] = &[
        ("521-bytes", format!("{}z", "a".repeat(520))),
        ("521-hex-digits", "f".repeat(521)),
        ("1041-hex-digits", "A".repeat(1041)),
        ("1042-hex-digits", "Ab".repeat(521)),
        ("522-bytes-one-not-hex", format!("{}g", "0".repeat(521))),
        ("1040-bytes-one-not-hex", format!("{} ", "0".repeat(1039))),
        ("1200-bytes", "12".repeat(600)),
        ("1200-bytes-no-hex", "x".repeat(1200)),
        ("261-two-byte-letters", "\u{e4}".repeat(261)),
        ("174-three-byte-letters", "\u{2713}".repeat(174)),
        ("131-four-byte-letters", "\u{1f512}".repeat(131)),
        ("522-bytes-last-not-ascii", format!("{}\u{e4}", "0".repeat(520))),
    ];
    for (name, text) in bad {
        suite.spread(&format!("21@literal-{name}"), &[], 2, &|_| equal(sha(b(true)), s(text).here()));
    }
    let good: &[(&str, String)] = &[
        ("519-hex-digits", "0".repeat(519)),
        ("520-hex-digits", "0".repeat(520)),
        ("522-hex-digits", "f".repeat(522)),
        ("1038-hex-digits", "Ff".repeat(519)),
        ("1040-hex-digits", "0a".repeat(520)),
        ("1040-hex-digits-upper-case", "0A".repeat(520)),
        ("260-two-byte-letters", "\u{e4}".repeat(260)),
        ("173-three-byte-letters", "\u{2713}".repeat(173)),
        ("130-four-byte-letters", "\u{1f512}".repeat(130)),
        ("no-bytes", String::new()),
    ];
    for (name, text) in good {
        suite.spread(&format!("0@literal-{name}"), &[], 2, &|_| equal(s(text), sha(b(true))));
    }
    suite.spread("0@size-of-1040-hex-digits", &[], 1, &|_| equal(size(s(&"0a".repeat(520))), n(520)));
    suite.spread("0@size-of-empty-literal", &[], 2, &|_| equal(size(s("")), n(0)));
}

/// Signature checks are not entered: what stands in one has no limit. Only a skipped multi-signature can hold such a thing.
fn not_entered(suite: &mut Suite) {
    let one = &[(SIGNATURE, "sig")];
    suite.spread("0@limits-do-not-enter-checks", one, 3, &|suite| {
        let key = suite.key();
        let inside = multi(1, vec![single(n(i64::MIN), s(&"z".repeat(521)))]);
        check_of(multi(1, vec![single(v("sig"), key), inside]))
    });
    suite.spread("22@long-key-before-limit", one, 2, &|_| check(v("sig"), s(&"z".repeat(521)).here()));
}

/// The node, then its children, left first.
fn first_fault(suite: &mut Suite) {
    let big = || n(2147483648);
    let long = || s(&"z".repeat(521));
    suite.spread("21@left-before-right", &[], 3, &|_| equal(big().here(), big()));
    suite.spread("21@left-before-right", &[], 1, &|_| equal(long().here(), long()));
    suite.spread("21@left-before-right", &[], 2, &|_| {
        and(equal(n(1), arithmetic(0, n(2), big().here())), equal(big(), n(1)))
    });
    suite.spread("21@left-before-right", &[], 1, &|_| or(equal(sha(big().here()), long()), b(true)));
    suite.add("21@wait-before-statement", vec![vec![]], vec![older(-1).here(), returns(n(1))]);
    suite.add("17@statement-before-wait", vec![vec![]], vec![verify(n(1).here()), older(-1), returns(n(1))]);
    suite.add("21@first-wait", vec![vec![]], vec![after(1), older(65536).here(), after(-1), returns(b(true))]);
    suite.add(
        "21@condition-before-blocks",
        vec![vec![], vec![]],
        vec![if_else(equal(big().here(), n(1)), vec![older(-1), returns(b(true))], vec![returns(n(1))])],
    );
}
