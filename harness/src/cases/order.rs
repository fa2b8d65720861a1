//! Which fault is the answer where there are two.

use crate::case::Suite;
use crate::make::*;
use crate::tree::*;

fn yes() -> Vec<Node> {
    vec![returns(b(true))]
}

fn big() -> Node {
    equal(n(2147483648), n(1))
}

pub fn add(suite: &mut Suite) {
    stages(suite);
    within_statement(suite);
    between_statements(suite);
    around_ifs(suite);
    usage_left_first(suite);
    wild_locations(suite);
}

/// Flow, count, 11, statements, 14.
fn stages(suite: &mut Suite) {
    let pair = || vec![item(BOOLEAN, "a"), item(BOOLEAN, "a")];
    suite.add("18@flow-before-count", vec![], vec![verify(b(true)).here()]);
    suite.add("18@flow-before-count", vec![vec![], vec![]], vec![if_only(b(true), yes()).here()]);
    suite.add("19@flow-before-count", vec![vec![], vec![]], vec![returns(b(true)), older(1).here()]);
    suite.add("18@flow-before-11", vec![pair()], vec![older(-5).here()]);
    suite.add("19@flow-before-11", vec![pair()], vec![returns(v("b")), returns(v("b")).here()]);
    suite.add_outset(
        "18@flow-before-all",
        vec![pair(), pair()],
        vec![verify(n(1)), if_else(v("b"), vec![returns(n(1))], vec![])],
    );
    let mut first = pair();
    first[0].aimed = true;
    suite.add("20@count-before-11", vec![first.clone(), pair(), pair()], yes());
    suite.add("11@before-14", vec![first.clone()], yes());
    suite.add("11@before-12", vec![first.clone()], vec![returns(v("b"))]);
    suite.add("11@before-20-transfer", vec![first, vec![]], vec![if_else(v("a"), yes(), yes())]);
    suite.add_path("12@before-14", &[(BOOLEAN, "a")], vec![returns(v("b").here())]);
    suite.add_path("17@before-14", &[(BOOLEAN, "a")], vec![returns(n(1).here())]);
    suite.add_path("21@before-14", &[(BOOLEAN, "a")], vec![returns(equal(n(2147483648).here(), n(1)))]);
    suite.add_path("21@before-14", &[(BOOLEAN, "a")], vec![older(65536).here(), returns(b(true))]);
    let c = (BOOLEAN, "c");
    suite.add(
        "20@transfer-before-14",
        vec![from_top(&[c, (NUMBER, "u")]), vec![]],
        vec![if_else(v("c"), yes(), yes()).here()],
    );
    suite.add(
        "17@else-block-before-14-of-path-0",
        vec![from_top(&[c, (NUMBER, "u")]), from_top(&[c])],
        vec![if_else(v("c"), yes(), vec![returns(n(0).here())])],
    );
}

/// Usage, then types, then limits, each over the whole expression.
fn within_statement(suite: &mut Suite) {
    let a = (BOOLEAN, "a");
    let z = (BOOLEAN, "z");
    suite.spread("12@usage-before-types", &[], 3, &|_| and(n(1), v("unknown").here()));
    suite.spread("12@usage-before-types", &[], 3, &|_| and(check(n(1), s("zz")), v("unknown").here()));
    suite.spread("13@usage-before-types", &[a], 3, &|_| or(and(n(1), v("a")), v("a").here()));
    suite.spread("15@usage-before-types", &[z, a], 3, &|_| or(s("x"), equal(n(1), v("a").here())));
    suite.spread("12@usage-before-limits", &[], 3, &|_| and(big(), v("unknown").here()));
    suite.spread("15@usage-before-limits", &[z, a], 2, &|_| and(big(), v("a").here()));
    suite.spread("17@types-before-limits", &[], 3, &|_| and(big(), n(1).here()));
    suite.spread("17@types-before-limits", &[], 3, &|_| compare(GREATER, s(&"z".repeat(521)), s("a")).here());
    suite.spread("17@types-before-limits", &[], 2, &|_| n(i64::MAX).here());
    suite.spread("16@types-before-limits", &[], 3, &|suite| {
        let key = suite.key();
        or(big(), check(n(1).here(), key))
    });
    suite.spread("22@types-before-limits", &[(SIGNATURE, "s")], 3, &|_| or(big(), check(v("s"), s("00").here())));
    suite.spread("12@key-used-before-16", &[(SIGNATURE, "s")], 2, &|_| check(v("s"), v("unknown").here()));
    suite.spread("12@key-used-before-16-of-signature", &[], 2, &|_| check(n(1), v("unknown").here()));
}

/// A statement's faults, of whatever kind, come before those of the next.
fn between_statements(suite: &mut Suite) {
    let a = (BOOLEAN, "a");
    suite.add("17@first-statement", vec![vec![]], vec![verify(n(1).here()), returns(v("unknown"))]);
    suite.add("21@first-statement", vec![vec![]], vec![verify(equal(n(2147483648).here(), n(1))), returns(v("unknown"))]);
    suite.add("12@first-statement", vec![vec![]], vec![verify(v("unknown").here()), older(-1), returns(n(1))]);
    suite.add_path("13@second-statement", &[a], vec![verify(v("a")), verify(and(v("a").here(), n(1))), returns(n(1))]);
    suite.add_path("17@last-statement", &[a], vec![older(1), verify(v("a")), after(1), returns(n(1).here())]);
    suite.add(
        "21@wait-between",
        vec![vec![]],
        vec![verify(b(true)), after(4294967296).here(), verify(n(1)), returns(b(true))],
    );
    for _ in 0..3 {
        let key = suite.key();
        let statements = vec![verify(check(v("s"), s("zz").here())), verify(check(n(1), key)), returns(b(true))];
        suite.add_path("22@first-statement", &[(SIGNATURE, "s")], statements);
    }
}

/// Condition, if-block, transfer, else-block.
fn around_ifs(suite: &mut Suite) {
    let c = (BOOLEAN, "c");
    let d = (BOOLEAN, "d");
    let good = || vec![from_top(&[c]), from_top(&[c])];
    let no_transfer = || vec![from_top(&[c]), from_top(&[d])];
    let fork = |x: Node, first: Node, second: Node| if_else(x, vec![returns(first)], vec![returns(second)]);
    suite.add("17@condition-before-if-block", vec![vec![], vec![]], vec![fork(n(1).here(), n(2), n(3))]);
    suite.add("17@if-block-before-else-block", good(), vec![fork(v("c"), n(2).here(), n(3))]);
    suite.add("12@if-block-before-else-block", good(), vec![fork(v("c"), v("u").here(), v("u"))]);
    suite.add("17@if-block-before-transfer", no_transfer(), vec![fork(v("c"), n(2).here(), b(true))]);
    suite.add("13@if-block-before-transfer", no_transfer(), vec![fork(v("c"), v("c").here(), b(true))]);
    suite.add("12@if-block-before-transfer", no_transfer(), vec![fork(v("c"), v("d").here(), v("d"))]);
    suite.add(
        "21@if-block-before-transfer",
        no_transfer(),
        vec![if_else(v("c"), vec![older(-1).here(), returns(b(true))], yes())],
    );
    suite.add("20@transfer-before-else-block", no_transfer(), vec![fork(v("c"), b(true), n(3)).here()]);
    suite.add("20@transfer-before-else-block", no_transfer(), vec![fork(v("c"), b(true), v("u")).here()]);
    suite.add(
        "20@transfer-before-else-block",
        no_transfer(),
        vec![if_else(v("c"), yes(), vec![older(-1), returns(n(1))]).here()],
    );
    suite.add("12@condition-before-transfer", no_transfer(), vec![fork(v("u").here(), b(true), b(true))]);
    suite.add(
        "21@condition-before-transfer",
        no_transfer(),
        vec![fork(and(v("c"), equal(n(2147483648).here(), n(1))), b(true), b(true))],
    );
    suite.add(
        "21@verify-before-if",
        no_transfer(),
        vec![verify(equal(n(-2147483648).here(), n(1))), fork(v("c"), b(true), b(true))],
    );
    // An inner if of the if-block has its own transfer before the outer one.
    let inner = || if_else(v("d"), yes(), yes());
    let paths = vec![from_top(&[c, d]), from_top(&[c]), from_top(&[d])];
    suite.add("20@inner-transfer-before-outer", paths, vec![if_else(v("c"), vec![inner().here()], yes())]);
    let paths = vec![from_top(&[c, d]), from_top(&[c, d]), from_top(&[d])];
    suite.add(
        "17@inner-else-block-before-outer-transfer",
        paths,
        vec![if_else(v("c"), vec![if_else(v("d"), yes(), vec![returns(n(1).here())])], yes())],
    );
    let paths = vec![from_top(&[c]), from_top(&[d]), from_top(&[d])];
    suite.add(
        "20@outer-transfer-before-inner-if",
        paths,
        vec![if_else(v("c"), yes(), vec![if_else(v("u"), yes(), yes())]).here()],
    );
}

/// The first variable at fault in the order of the lines.
fn usage_left_first(suite: &mut Suite) {
    let a = (BOOLEAN, "a");
    let z = (BOOLEAN, "z");
    suite.spread("12@left-before-right", &[a], 2, &|_| and(v("u").here(), and(v("a"), v("a"))));
    suite.spread("13@left-before-right", &[a], 2, &|_| and(and(v("a"), v("a").here()), v("u")));
    suite.spread("15@left-before-right", &[z, a], 2, &|_| equal(equal(v("a").here(), v("u")), v("z")));
    suite.spread("12@signature-before-key", &[], 2, &|_| check(v("u").here(), v("w")));
    suite.spread("15@signature-before-key", &[z, (SIGNATURE, "s")], 2, &|_| check(v("s").here(), v("w")));
    suite.spread("12@first-factor-first", &[], 2, &|_| {
        check_of(multi(1, vec![single(v("u").here(), v("w")), single(v("u"), v("w"))]))
    });
    suite.spread("12@skipped-factor-has-no-fault", &[], 2, &|_| {
        check_of(multi(1, vec![multi(1, vec![single(v("u"), v("w"))]), single(v("t").here(), v("w"))]))
    });
}

/// Locations at the ends of their range, and all alike.
fn wild_locations(suite: &mut Suite) {
    let most = u32::MAX;
    let places = [
        Where { start: most, end: most, line: most, column: most },
        Where { start: 0, end: 0, line: 0, column: 0 },
        Where { start: 4294967294, end: 1, line: 2147483648, column: 65536 },
    ];
    let c = (BOOLEAN, "c");
    let aimed = |kind, name| Item { aimed: true, ..item(kind, name) };
    let fork = || if_else(v("c"), yes(), yes());
    for at in places {
        let cases: Vec<(&str, Vec<Vec<Item>>, Vec<Node>)> = vec![
            ("11@wild-location", vec![vec![aimed(BOOLEAN, "a"), item(BOOLEAN, "a")]], yes()),
            ("12@wild-location", vec![vec![]], vec![returns(v("a").here())]),
            ("13@wild-location", vec![from_top(&[c])], vec![returns(and(v("c"), v("c").here()))]),
            ("14@wild-location", vec![vec![aimed(BOOLEAN, "a")]], yes()),
            ("15@wild-location", vec![from_top(&[c, (BOOLEAN, "d")])], vec![returns(v("d").here())]),
            ("16@wild-location", vec![vec![]], vec![returns(check(n(1).here(), n(1)))]),
            ("17@wild-location", vec![vec![]], vec![returns(check_of(multi(0, vec![]).here()))]),
            ("18@wild-location", vec![], vec![older(1).here()]),
            ("19@wild-location", vec![], vec![returns(b(true)), returns(b(true)).here()]),
            ("20@wild-location", vec![vec![aimed(BOOLEAN, "a")], vec![]], yes()),
            ("20@wild-location", vec![from_top(&[c]), vec![]], vec![fork().here()]),
            ("21@wild-location", vec![vec![]], vec![older(-1).here(), returns(b(true))]),
            ("22@wild-location", vec![from_top(&[(SIGNATURE, "s")])], vec![returns(check(v("s"), s("zz").here()))]),
            ("0@wild-location", vec![from_top(&[c]), from_top(&[c])], vec![fork()]),
        ];
        for (label, declarations, statements) in cases {
            let mut whole = contract(suite.target, declarations, statements);
            whole.declarations.iter_mut().flatten().for_each(|item| item.at = at);
            whole.block.each_mut(&mut |node| {
                if node.form != Form::Block {
                    node.at = at;
                }
            });
            suite.add_placed(label, whole, false);
        }
    }
}
