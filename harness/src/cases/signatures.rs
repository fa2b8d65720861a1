//! 16 and 17 at signatures, keys and thresholds.

use crate::case::{Items, Suite};
use crate::make::*;
use crate::tree::*;

pub fn add(suite: &mut Suite) {
    signature_not_variable(suite);
    key_not_literal(suite);
    signature_of_other_type(suite);
    thresholds(suite);
    skipped(suite);
    first_fault(suite);
}

/// The ways to a factor with this signature and key: alone, in a multi-signature, below a hash.
const WAYS: &[(&str, Items<'static>, fn(&mut Suite, Node) -> Node)] = &[
    ("single", &[], |_, factor| check_of(factor)),
    ("multi-only", &[], |_, factor| check_of(multi(1, vec![factor]))),
    ("multi-second", &[(SIGNATURE, "other")], |suite, factor| {
        let first = single(v("other"), suite.key());
        check_of(multi(2, vec![first, factor]))
    }),
    ("multi-after-skipped", &[], |_, factor| check_of(multi(1, vec![multi(0, vec![]), factor]))),
    ("hash", &[], |_, factor| size(sha(check_of(factor)))),
];

/// An expression that is neither a variable nor a literal, or either.
type Made = (&'static str, Items<'static>, fn(&mut Suite) -> Node);

const OTHERS: &[Made] = &[
    ("number", &[], |_| n(1)),
    ("boolean", &[], |_| b(true)),
    ("logic", &[], |_| and(b(true), b(true))),
    ("compare", &[], |_| equal(n(1), n(1))),
    ("arithmetic", &[], |_| arithmetic(0, n(1), n(1))),
    ("unary", &[], |_| unary(ABS, n(1))),
    ("not", &[], |_| not(b(true))),
    ("hash", &[], |_| sha(s("aa"))),
    ("size", &[], |_| size(s("aa"))),
    ("check", &[(SIGNATURE, "inner")], |suite| check(v("inner"), suite.key())),
];

fn signature_not_variable(suite: &mut Suite) {
    let literal: Made = ("literal", &[], |_| s("aabb"));
    let key: Made = ("key", &[], |suite| suite.key());
    for (i, (name, items, make)) in OTHERS.iter().chain([&literal, &key]).enumerate() {
        let label = format!("16@signature-is-{name}");
        let mut ways = vec![WAYS[0], WAYS[1 + i % 4], WAYS[1 + (i + 1) % 4]];
        for (_, before, way) in ways.drain(..) {
            let all: Vec<_> = before.iter().chain(items.iter()).copied().collect();
            suite.spread(&label, &all, 1, &|suite| {
                let factor = single(make(suite).here(), suite.key());
                way(suite, factor)
            });
        }
    }
}

fn key_not_literal(suite: &mut Suite) {
    let signature_item: Made = ("signature-item", &[(SIGNATURE, "k")], |_| v("k"));
    let string_item: Made = ("string-item", &[(STRING, "k")], |_| v("k"));
    for (i, (name, items, make)) in OTHERS.iter().chain([&signature_item, &string_item]).enumerate() {
        let label = format!("16@key-is-{name}");
        let mut ways = vec![WAYS[0], WAYS[1 + i % 4], WAYS[1 + (i + 1) % 4]];
        for (_, before, way) in ways.drain(..) {
            let all: Vec<_> = before.iter().chain(&[(SIGNATURE, "sig")]).chain(items.iter()).copied().collect();
            suite.spread(&label, &all, 1, &|suite| {
                let factor = single(v("sig"), make(suite).here());
                way(suite, factor)
            });
        }
    }
}

fn signature_of_other_type(suite: &mut Suite) {
    for (kind, name) in [(NUMBER, "number"), (STRING, "string"), (BOOLEAN, "boolean")] {
        for (_, before, way) in WAYS {
            let all: Vec<_> = before.iter().chain(&[(kind, "sig")]).copied().collect();
            suite.spread(&format!("17@signature-of-type-{name}"), &all, 1, &|suite| {
                let factor = single(v("sig").here(), suite.key());
                way(suite, factor)
            });
        }
    }
}

/// `count` factors with signatures s0, s1 and so on, from the list of items.
fn factors(suite: &mut Suite, items: Items, count: usize) -> Vec<Node> {
    items[..count].iter().map(|(_, name)| single(v(name), suite.key())).collect()
}

const SIGNERS: Items<'static> = &[(SIGNATURE, "s0"), (SIGNATURE, "s1"), (SIGNATURE, "s2"), (SIGNATURE, "s3")];

fn thresholds(suite: &mut Suite) {
    for count in 1..4 {
        let items = &SIGNERS[..count];
        suite.spread("17@threshold-zero", items, 2, &|suite| check_of(multi(0, factors(suite, items, count)).here()));
        for m in [count as u32 + 1, count as u32 + 2, u32::MAX] {
            suite.spread("17@threshold-above-count", items, 1, &|suite| {
                check_of(multi(m, factors(suite, items, count)).here())
            });
        }
        for m in 1..=count as u32 {
            suite.spread("0@threshold-in-range", items, 1, &|suite| check_of(multi(m, factors(suite, items, count))));
        }
    }
    suite.spread("17@threshold-of-no-factors", &[], 3, &|_| check_of(multi(0, vec![]).here()));
    suite.spread("17@threshold-of-no-factors", &[], 3, &|_| check_of(multi(1, vec![]).here()));
    suite.spread("17@threshold-before-factors", &[], 3, &|_| check_of(multi(2, vec![single(n(1), n(2))]).here()));
    suite.spread("17@threshold-before-factors", &[(NUMBER, "x")], 3, &|_| {
        check_of(multi(0, vec![single(v("x"), s("zz"))]).here())
    });
}

/// A multi-signature below another is counted, and then no rule enters it.
fn skipped(suite: &mut Suite) {
    let junk = || multi(7, vec![single(v("nobody"), v("nothing")), single(n(i64::MAX), s("zz"))]);
    let one = &SIGNERS[..1];
    suite.spread("0@skipped-is-counted", one, 3, &|suite| {
        let mut all = factors(suite, one, 1);
        all.push(junk());
        check_of(multi(2, all))
    });
    suite.spread("17@skipped-is-counted-once", one, 3, &|suite| {
        let mut all = factors(suite, one, 1);
        all.push(junk());
        check_of(multi(3, all).here())
    });
    suite.spread("0@skipped-only", &[], 3, &|_| check_of(multi(1, vec![junk()])));
    suite.spread("0@skipped-only", &[], 2, &|_| check_of(multi(2, vec![multi(0, vec![]), multi(1, vec![junk(), junk()])])));
    suite.spread("0@skipped-declared-names", one, 3, &|suite| {
        let key = suite.key();
        let inside = multi(1, vec![single(v("s0"), s("zz")), single(v("s0"), s("zz"))]);
        check_of(multi(1, vec![inside, single(v("s0"), key)]))
    });
    // A multi-signature right below a check is entered, wherever the check stands.
    suite.spread("17@check-below-logic-is-entered", one, 2, &|suite| {
        let key = suite.key();
        and(check(v("s0"), key), check_of(multi(0, vec![]).here()))
    });
    suite.spread("16@check-inside-key-operand-is-not-read", one, 2, &|_| check(v("s0"), check_of(multi(0, vec![])).here()));
}

/// Signature before key, factors in order.
fn first_fault(suite: &mut Suite) {
    suite.spread("16@signature-before-key", &[], 3, &|_| check(n(1).here(), n(2)));
    suite.spread("16@signature-before-bad-key", &[], 3, &|_| check(b(true).here(), s("zz")));
    suite.spread("17@signature-before-key", &[(NUMBER, "x")], 3, &|_| check(v("x").here(), n(2)));
    suite.spread("17@signature-before-bad-key", &[(STRING, "x")], 3, &|_| check(v("x").here(), s("zz")));
    let two = &[(SIGNATURE, "x"), (NUMBER, "y")];
    suite.spread("22@first-factor-first", two, 2, &|suite| {
        let key = suite.key();
        check_of(multi(1, vec![single(v("x"), s("zz").here()), single(v("y"), key)]))
    });
    suite.spread("16@first-factor-first", two, 2, &|_| {
        check_of(multi(1, vec![single(v("x"), n(1).here()), single(v("y"), s("zz"))]))
    });
    suite.spread("17@second-factor", two, 2, &|suite| {
        let (first, second) = (suite.key(), suite.key());
        check_of(multi(1, vec![single(v("x"), first), single(v("y").here(), second)]))
    });
    suite.spread("22@left-check-first", two, 2, &|_| and(check(v("x"), s("").here()), check(v("y"), n(1))));
    suite.spread("17@left-before-check", two, 2, &|_| and(and(n(3).here(), check(v("x"), s(""))), check(v("y"), n(1))));
}
