//! 17: the string, number, truth, hash and general rules, and compare.
//!
//! A fault below a compare is always the compare's own 17. So the number rule shows its faults only where the truth rule
//! meets arithmetic, a unary or a size; the string rule below such a size; the hash and general rules below a hash there.

use crate::case::{Items, Suite};
use crate::make::*;
use crate::tree::*;

/// An expression that some rule refuses at itself: its name, the items it takes, how it is made.
type Wrong = (&'static str, Items<'static>, fn(&mut Suite) -> Node);

const NUMBER_WRONG: Wrong = ("number", &[], |_| n(7));
const BOOLEAN_WRONG: Wrong = ("boolean", &[], |_| b(true));
const LITERAL_WRONG: Wrong = ("literal", &[], |_| s("6162"));
const HASH_WRONG: Wrong = ("hash", &[], |_| hash(1, n(5)));
const HASH_UNREAD: Wrong = ("hash-operand-unread", &[(SIGNATURE, "s")], |_| sha(v("s")));
const LOGIC_WRONG: Wrong = ("logic", &[], |_| or(b(true), b(false)));
const LOGIC_UNREAD: Wrong = ("logic-operands-unread", &[], |_| and(n(1), s("")));
const COMPARE_WRONG: Wrong = ("compare", &[], |_| equal(n(1), n(2)));
const COMPARE_UNREAD: Wrong = ("compare-operands-unread", &[], |_| equal(n(1), s("aa")));
const NOT_WRONG: Wrong = ("not", &[], |_| not(b(true)));
const NOT_UNREAD: Wrong = ("not-operand-unread", &[], |_| not(n(1)));
const UNARY_WRONG: Wrong = ("unary", &[], |_| unary(NEGATE, n(4)));
const UNARY_UNREAD: Wrong = ("unary-operand-unread", &[], |_| unary(ABS, b(true)));
const ARITHMETIC_WRONG: Wrong = ("arithmetic", &[], |_| arithmetic(1, n(4), n(2)));
const ARITHMETIC_UNREAD: Wrong = ("arithmetic-operands-unread", &[], |_| arithmetic(1, s("a"), b(true)));
const SIZE_WRONG: Wrong = ("size", &[], |_| size(s("abc")));
const SIZE_UNREAD: Wrong = ("size-operand-unread", &[], |_| size(n(1)));
const CHECK_WRONG: Wrong = ("check", &[(SIGNATURE, "s")], |suite| check(v("s"), suite.key()));
const CHECK_UNREAD: Wrong = ("check-operands-unread", &[], |_| check(n(1), n(2)));
const SIGNATURE_ITEM: Wrong = ("signature-item", &[(SIGNATURE, "s")], |_| v("s"));
const NUMBER_ITEM: Wrong = ("number-item", &[(NUMBER, "s")], |_| v("s"));
const STRING_ITEM: Wrong = ("string-item", &[(STRING, "s")], |_| v("s"));
const BOOLEAN_ITEM: Wrong = ("boolean-item", &[(BOOLEAN, "s")], |_| v("s"));

const NO_NUMBERS: &[Wrong] = &[
    BOOLEAN_WRONG,
    LITERAL_WRONG,
    HASH_WRONG,
    HASH_UNREAD,
    LOGIC_WRONG,
    LOGIC_UNREAD,
    COMPARE_WRONG,
    COMPARE_UNREAD,
    NOT_WRONG,
    NOT_UNREAD,
    CHECK_WRONG,
    CHECK_UNREAD,
    SIGNATURE_ITEM,
    STRING_ITEM,
    BOOLEAN_ITEM,
];
const NO_STRINGS: &[Wrong] = &[
    NUMBER_WRONG,
    BOOLEAN_WRONG,
    LOGIC_WRONG,
    LOGIC_UNREAD,
    COMPARE_WRONG,
    COMPARE_UNREAD,
    NOT_WRONG,
    NOT_UNREAD,
    UNARY_WRONG,
    UNARY_UNREAD,
    ARITHMETIC_WRONG,
    ARITHMETIC_UNREAD,
    SIZE_WRONG,
    SIZE_UNREAD,
    CHECK_WRONG,
    CHECK_UNREAD,
    SIGNATURE_ITEM,
    NUMBER_ITEM,
    BOOLEAN_ITEM,
];
const NO_TRUTHS: &[Wrong] =
    &[NUMBER_WRONG, LITERAL_WRONG, HASH_WRONG, HASH_UNREAD, SIGNATURE_ITEM, NUMBER_ITEM, STRING_ITEM];

pub fn add(suite: &mut Suite) {
    truth_rule(suite);
    number_rule(suite);
    string_rule(suite);
    hash_rule(suite);
    general_rule(suite);
    compare_operators(suite);
    compare_classes(suite);
    compare_hides(suite);
}

fn truth_rule(suite: &mut Suite) {
    for (name, items, make) in NO_TRUTHS {
        suite.spread(&format!("17@truth-{name}"), items, 4, &|suite| make(suite).here());
    }
    for op in 0..4 {
        suite.spread("17@truth-good-unary", &[], 2, &|_| unary(op, n(3)).here());
        suite.spread("17@truth-good-arithmetic", &[], 2, &|_| arithmetic(op, n(3), size(s("a"))).here());
    }
    suite.spread("17@truth-good-unary", &[(NUMBER, "x")], 2, &|_| unary(NEGATE, v("x")).here());
    suite.spread("17@truth-good-arithmetic", &[(NUMBER, "x")], 2, &|_| arithmetic(0, v("x"), n(0)).here());
    suite.spread("17@truth-good-size", &[], 3, &|_| size(s("abc")).here());
    suite.spread("17@truth-good-size", &[(STRING, "x")], 3, &|_| size(v("x")).here());
    suite.spread("17@truth-good-size", &[(BOOLEAN, "x")], 3, &|_| size(sha(v("x"))).here());
    suite.spread("17@truth-left-first", &[], 3, &|_| or(n(1).here(), s("a")));
    suite.spread("17@truth-left-first", &[], 3, &|_| and(not(n(1).here()), n(2)));
    suite.spread("17@truth-right-after-good-left", &[], 3, &|_| and(or(b(true), b(false)), not(n(2).here())));
}

/// The places in which the number rule meets an operand and its fault is the answer.
const NUMBER_PLACES: &[(&str, fn(Node) -> Node)] = &[
    ("unary", |x| unary(ABS, x)),
    ("left", |x| arithmetic(0, x, n(1))),
    ("right", |x| arithmetic(2, n(1), x)),
    ("below", |x| arithmetic(1, unary(NEGATE, arithmetic(3, n(2), x)), n(1))),
];

fn number_rule(suite: &mut Suite) {
    for (name, items, make) in NO_NUMBERS {
        for (place, around) in NUMBER_PLACES {
            suite.spread(&format!("17@number-{place}-{name}"), items, 1, &|suite| around(make(suite).here()));
        }
    }
    for op in 0..4 {
        suite.spread("17@number-each-unary", &[], 1, &|_| unary(op, b(true).here()));
        suite.spread("17@number-each-arithmetic", &[], 1, &|_| arithmetic(op, n(2), s("a").here()));
    }
    suite.spread("17@number-left-first", &[], 3, &|_| arithmetic(0, b(true).here(), s("a")));
    suite.spread("17@number-left-first", &[], 3, &|_| arithmetic(0, unary(0, s("a").here()), b(true)));
    suite.spread("17@number-right-after-good-left", &[], 3, &|_| arithmetic(0, size(s("a")), size(n(1).here())));
}

/// The string rule shows below a size that the number rule meets.
const STRING_PLACES: &[fn(Node) -> Node] =
    &[|x| size(x), |x| unary(NEGATE, size(x)), |x| arithmetic(0, size(x), n(1)), |x| arithmetic(0, n(1), size(x))];

fn string_rule(suite: &mut Suite) {
    for (i, (name, items, make)) in NO_STRINGS.iter().enumerate() {
        for turn in 0..3 {
            let around = STRING_PLACES[(i + turn) % STRING_PLACES.len()];
            suite.spread(&format!("17@string-{name}"), items, 1, &|suite| around(make(suite).here()));
        }
    }
    for text in ["\u{e4}", "abc\u{80}", "\u{7ff}aa", "\u{2713}", "\u{1f512}", "61\u{e4}62"] {
        for around in STRING_PLACES {
            suite.spread("17@size-literal-not-ascii", &[], 1, &|_| around(s(text).here()));
        }
    }
    suite.spread("17@size-literal-not-ascii", &[], 1, &|_| size(sha(size(s("\u{e4}").here()))));
}

fn hash_rule(suite: &mut Suite) {
    for around in STRING_PLACES {
        suite.spread("17@hash-of-signature-item", &[(SIGNATURE, "s")], 1, &|_| around(sha(v("s").here())));
        suite.spread("17@hash-of-signature-item", &[(SIGNATURE, "s")], 1, &|_| around(hash(1, v("s").here())));
        suite.spread("17@hash-of-hash-of-signature-item", &[(SIGNATURE, "s")], 1, &|_| around(hash(1, sha(v("s").here()))));
        suite.spread("17@hash-of-hash-of-signature-item", &[(SIGNATURE, "s")], 1, &|_| around(sha(sha(sha(v("s").here())))));
    }
}

/// What the general rule meets below a hash, with its fault.
const GENERAL: &[Wrong] = &[
    ("logic-left", &[], |_| or(n(1).here(), b(true))),
    ("logic-right", &[], |_| and(b(true), s("a").here())),
    ("not", &[], |_| not(n(1).here())),
    ("arithmetic-left", &[], |_| arithmetic(0, b(true).here(), n(1))),
    ("arithmetic-right", &[], |_| arithmetic(3, n(1), s("a").here())),
    ("unary", &[], |_| unary(NEGATE, s("a").here())),
    ("unary-item", &[(BOOLEAN, "x")], |_| unary(0, v("x").here())),
    ("size", &[], |_| size(b(true).here())),
    ("size-item", &[(NUMBER, "x")], |_| size(v("x").here())),
    ("size-of-hash", &[(SIGNATURE, "x")], |_| size(sha(v("x").here()))),
    ("compare", &[], |_| equal(n(1), b(true)).here()),
    ("compare-operator", &[], |_| compare(3, s("a"), s("b")).here()),
    ("check-signature", &[(NUMBER, "x")], |suite| check(v("x").here(), suite.key())),
    ("threshold", &[(SIGNATURE, "x")], |suite| check_of(multi(2, vec![single(v("x"), suite.key())]).here())),
];

fn general_rule(suite: &mut Suite) {
    for (name, items, make) in GENERAL {
        let label = format!("17@general-{name}");
        suite.spread(&label, items, 2, &|suite| size(sha(make(suite))));
        suite.spread(&label, items, 1, &|suite| unary(ABS, size(hash(1, sha(make(suite))))));
    }
    suite.spread("0@hash-of-anything-good", &[], 1, &|_| equal(sha(n(1)), sha(b(true))));
    suite.spread("0@hash-of-anything-good", &[(BOOLEAN, "x")], 1, &|_| equal(sha(not(v("x"))), sha(s("\u{e4}"))));
    suite.spread("0@hash-of-anything-good", &[(NUMBER, "x")], 1, &|_| equal(sha(v("x")), sha(unary(1, n(3)))));
    suite.spread("0@hash-of-anything-good", &[(SIGNATURE, "x")], 3, &|suite| {
        let key = suite.key();
        equal(sha(check(v("x"), key)), sha(size(s("a"))))
    });
}

/// Expressions of each type that a compare may have as operands.
const STRINGS: &[Wrong] = &[LITERAL_WRONG, STRING_ITEM, HASH_WRONG];
const NUMBERS: &[Wrong] = &[NUMBER_WRONG, NUMBER_ITEM, ARITHMETIC_WRONG, UNARY_WRONG, SIZE_WRONG];
const TRUTHS: &[Wrong] = &[BOOLEAN_WRONG, BOOLEAN_ITEM, COMPARE_WRONG, LOGIC_WRONG, NOT_WRONG, CHECK_WRONG];
const SIGNATURES: &[Wrong] = &[SIGNATURE_ITEM];

/// Both sides of one type: numbers with each operator, the others only with the first two.
fn compare_operators(suite: &mut Suite) {
    for op in 0..8 {
        for (class, name) in [(STRINGS, "strings"), (NUMBERS, "numbers"), (TRUTHS, "truths")] {
            for turn in 0..class.len() {
                let (_, items, left) = class[turn];
                // The right side takes no items.
                let (_, _, right) = class[if turn % 2 == 0 { 0 } else { 2 }];
                let fails = op > NOT_EQUAL && name != "numbers";
                if fails && turn > 2 {
                    continue;
                }
                let make = |suite: &mut Suite| {
                    let node = compare(op, left(suite), right(suite));
                    if fails {
                        node.here()
                    } else {
                        node
                    }
                };
                let label = if fails { format!("17@compare-order-on-{name}") } else { format!("0@compare-{name}") };
                suite.spread(&label, items, 1, &make);
            }
        }
    }
}

/// Sides of different types, or a signature on one side or both.
fn compare_classes(suite: &mut Suite) {
    let classes = [(STRINGS, "string"), (NUMBERS, "number"), (TRUTHS, "truth"), (SIGNATURES, "signature")];
    for (left, left_name) in classes {
        for (right, right_name) in classes {
            if left_name == right_name {
                continue;
            }
            for turn in 0..3 {
                let (_, left_items, l) = left[turn % left.len()];
                let (_, right_items, r) = right[(turn + 1) % right.len()];
                if !left_items.is_empty() && !right_items.is_empty() {
                    continue;
                }
                let items = if left_items.is_empty() { right_items } else { left_items };
                let op = [0, 1, 6][turn];
                let label = format!("17@compare-{left_name}-with-{right_name}");
                suite.spread(&label, items, 1, &|suite| compare(op, l(suite), r(suite)).here());
            }
        }
    }
    let two = &[(SIGNATURE, "s"), (SIGNATURE, "t")];
    suite.spread("17@compare-signature-with-signature", two, 3, &|_| equal(v("s"), v("t")).here());
    let two = &[(SIGNATURE, "s"), (NUMBER, "t")];
    suite.spread("17@compare-signature-with-number", two, 2, &|_| compare(4, v("s"), v("t")).here());
    let two = &[(NUMBER, "s"), (BOOLEAN, "t")];
    suite.spread("17@compare-number-with-truth", two, 2, &|_| equal(v("s"), v("t")).here());
}

/// A fault below a compare is 17 at the compare; of two compares, at the outer one.
fn compare_hides(suite: &mut Suite) {
    let bad: &[Wrong] = &[
        ("number-fault", &[], |_| arithmetic(0, b(true), n(1))),
        ("string-fault", &[], |_| size(n(1))),
        ("not-ascii", &[], |_| size(s("\u{e4}"))),
        ("truth-fault", &[], |_| and(n(1), b(true))),
        ("hash-of-signature", &[(SIGNATURE, "s")], |_| sha(v("s"))),
        ("hash-of-fault", &[], |_| sha(not(n(1)))),
        ("16-signature", &[], |suite| check(n(1), suite.key())),
        ("16-key", &[(SIGNATURE, "s")], |_| check(v("s"), n(1))),
        ("22", &[(SIGNATURE, "s")], |_| check(v("s"), s("00"))),
        ("threshold", &[(SIGNATURE, "s")], |suite| check_of(multi(0, vec![single(v("s"), suite.key())]))),
        ("inner-compare", &[], |_| equal(n(1), s("a"))),
    ];
    for (name, items, make) in bad {
        let label = format!("17@compare-hides-{name}");
        suite.spread(&label, items, 2, &|suite| equal(make(suite), make_like(make, suite)).here());
        suite.spread(&label, items, 1, &|suite| compare(NOT_EQUAL, make(suite), b(true)).here());
        suite.spread(&label, items, 1, &|suite| equal(n(1), make(suite)).here());
        suite.spread(&label, items, 1, &|suite| equal(b(true), not(equal(make(suite), b(false)))).here());
    }
}

/// The same expression with its items replaced by constants, for a right side.
fn make_like(make: &fn(&mut Suite) -> Node, suite: &mut Suite) -> Node {
    let mut node = make(suite);
    node.each_mut(&mut |part| {
        if matches!(part.form, Form::Variable(_)) {
            part.form = Form::Number(3);
        }
    });
    node
}
