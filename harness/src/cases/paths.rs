//! 20: declarations against paths, and the hand-over of taken items to an else-block.
//!
//! That the items handed over are not a run from position 0 cannot happen: items are taken in order, and each must lie at
//! the same position in both tables. So no case aims at it.

use crate::case::Suite;
use crate::make::*;
use crate::tree::*;

fn yes() -> Vec<Node> {
    vec![returns(b(true))]
}

pub fn add(suite: &mut Suite) {
    counts(suite);
    missing_names(suite);
    other_positions(suite);
    inner_ifs(suite);
    shared_types(suite);
}

/// Contracts with 1, 2, 3 and 4 paths that take nothing.
fn shapes() -> Vec<(usize, Vec<Node>)> {
    let fork = || if_else(b(true), yes(), yes());
    vec![
        (1, yes()),
        (1, vec![older(1), verify(b(true)), returns(b(true))]),
        (2, vec![fork()]),
        (3, vec![if_else(b(true), vec![fork()], yes())]),
        (3, vec![if_else(b(true), yes(), vec![fork()])]),
        (4, vec![if_else(b(true), vec![fork()], vec![fork()])]),
    ]
}

/// The count's 20 is at the first item of the first declaration, or at 0,0,1,0 without one.
fn counts(suite: &mut Suite) {
    let first = || vec![Item { aimed: true, ..item(BOOLEAN, "a") }, item(BOOLEAN, "b")];
    let later = || vec![item(NUMBER, "n")];
    for (paths, statements) in shapes() {
        suite.add_outset("20@count-no-declaration", vec![], statements.clone());
        for count in [paths - 1, paths + 1, paths + 2, 32] {
            if count == 0 {
                continue;
            }
            let mut declarations = vec![first()];
            declarations.resize_with(count, later);
            suite.add("20@count-first-item", declarations.clone(), statements.clone());
            declarations[0] = vec![];
            suite.add_outset("20@count-first-declaration-empty", declarations, statements.clone());
        }
        suite.add("0@empty-declarations", vec![vec![]; paths], statements);
    }
    suite.add("20@count-before-11", vec![first(), vec![item(NUMBER, "n"), item(NUMBER, "n")]], yes());
    let pair = vec![Item { aimed: true, ..item(BOOLEAN, "a") }, item(BOOLEAN, "a")];
    suite.add("20@count-before-11", vec![pair, vec![]], yes());
    suite.add("20@count-before-statements", vec![first(), vec![]], vec![older(-1), returns(v("unknown"))]);
}

/// The next path lacks an item taken so far.
fn missing_names(suite: &mut Suite) {
    let label = "20@transfer-missing-name";
    let c = (BOOLEAN, "c");
    let x = (BOOLEAN, "x");
    let fork = || if_else(v("c"), yes(), yes()).here();
    suite.add(label, vec![from_top(&[c]), vec![]], vec![fork()]);
    suite.add(label, vec![from_top(&[c]), from_top(&[(BOOLEAN, "d")])], vec![fork()]);
    suite.add(label, vec![from_top(&[c]), from_top(&[(BOOLEAN, "C")])], vec![fork()]);
    suite.add(label, vec![from_top(&[x, c]), from_top(&[c])], vec![verify(v("x")), fork()]);
    suite.add(label, vec![from_top(&[x, c]), from_top(&[x])], vec![verify(v("x")), fork()]);
    suite.add(label, vec![from_top(&[x, c]), from_top(&[c, (NUMBER, "y")])], vec![verify(v("x")), fork()]);
    let both = if_else(and(v("x"), v("c")), yes(), yes()).here();
    suite.add(label, vec![from_top(&[x, c]), from_top(&[x, (BOOLEAN, "d")])], vec![both]);
    for _ in 0..3 {
        let key = suite.key();
        let signed = if_else(check(v("s"), key), yes(), yes()).here();
        suite.add(label, vec![from_top(&[(SIGNATURE, "s")]), from_top(&[(SIGNATURE, "t")])], vec![signed]);
    }
    suite.add(label, vec![from_top(&[x]), vec![]], vec![verify(v("x")), if_else(b(true), yes(), yes()).here()]);
    suite.add("0@transfer-of-nothing", vec![from_top(&[x]), vec![]], vec![if_else(b(true), vec![returns(v("x"))], yes())]);
}

/// The next path has an item taken so far at another position.
fn other_positions(suite: &mut Suite) {
    let label = "20@transfer-other-position";
    let c = (BOOLEAN, "c");
    let x = (BOOLEAN, "x");
    let y = (BOOLEAN, "y");
    let fork = || if_else(v("c"), yes(), yes()).here();
    suite.add(label, vec![from_top(&[c]), from_top(&[x, c])], vec![fork()]);
    suite.add(label, vec![from_top(&[c]), from_top(&[x, y, c])], vec![fork()]);
    suite.add(label, vec![from_top(&[c, x]), from_top(&[x, c])], vec![if_else(v("c"), vec![returns(v("x"))], yes()).here()]);
    suite.add(label, vec![from_top(&[x, c]), from_top(&[c, x])], vec![verify(v("x")), fork()]);
    suite.add(label, vec![from_top(&[x, c]), from_top(&[x, y, c])], vec![verify(v("x")), fork()]);
    suite.add(label, vec![from_top(&[x, y, c]), from_top(&[x, c, y])], vec![verify(and(v("x"), v("y"))), fork()]);
    suite.add(label, vec![from_top(&[x, y, c]), from_top(&[y, x, c])], vec![verify(and(v("x"), v("y"))), fork()]);
    suite.add(
        "20@transfer-missing-and-moved",
        vec![from_top(&[x, y, c]), from_top(&[y, c])],
        vec![verify(and(v("x"), v("y"))), fork()],
    );
    let longer = vec![from_top(&[c]), from_top(&[c, x, y])];
    let use_all = vec![if_else(v("c"), yes(), vec![returns(and(v("x"), v("y")))])];
    suite.add("0@transfer-into-a-longer-declaration", longer, use_all);
    let shorter = vec![from_top(&[c, x, y]), from_top(&[c])];
    let use_all = vec![if_else(v("c"), vec![returns(and(v("x"), v("y")))], yes())];
    suite.add("0@transfer-into-a-shorter-declaration", shorter, use_all);
    let same_below = vec![from_top(&[c, x, y]), from_top(&[c, y, x])];
    let crossed = vec![if_else(v("c"), vec![returns(and(v("x"), v("y")))], vec![returns(and(v("y"), v("x")))])];
    suite.add("0@names-shared-below-the-if-may-move", same_below, crossed);
}

/// Ifs inside ifs: which if, which path, and what was handed down earlier is handed on.
fn inner_ifs(suite: &mut Suite) {
    let c = (BOOLEAN, "c");
    let d = (BOOLEAN, "d");
    let e = (BOOLEAN, "e");
    // The inner if stands in the if-block: paths 0 and 1 below it, path 2 in the outer else-block.
    let left = |inner_here: bool, outer_here: bool| {
        let inner = if_else(v("d"), yes(), yes());
        let inner = if inner_here { inner.here() } else { inner };
        let outer = if_else(v("c"), vec![inner], yes());
        vec![if outer_here { outer.here() } else { outer }]
    };
    suite.add("20@transfer-inner-if", vec![from_top(&[c, d]), from_top(&[c]), from_top(&[c])], left(true, false));
    suite.add("20@transfer-inner-if", vec![from_top(&[c, d]), from_top(&[d, c]), from_top(&[c])], left(true, false));
    suite.add("20@transfer-inner-if", vec![from_top(&[c, d]), from_top(&[e, d]), from_top(&[e])], left(true, false));
    suite.add(
        "20@transfer-outer-if-last-path",
        vec![from_top(&[c, d]), from_top(&[c, d]), from_top(&[d])],
        left(false, true),
    );
    suite.add("20@transfer-outer-if-last-path", vec![from_top(&[c, d]), from_top(&[c, d]), vec![]], left(false, true));
    suite.add("0@inner-if-in-if-block", vec![from_top(&[c, d]), from_top(&[c, d]), from_top(&[c])], left(false, false));
    // The inner if stands in the else-block: paths 1 and 2 below it.
    let right = |inner_here: bool, outer_here: bool| {
        let inner = if_else(v("d"), yes(), yes());
        let inner = if inner_here { inner.here() } else { inner };
        let outer = if_else(v("c"), yes(), vec![inner]);
        vec![if outer_here { outer.here() } else { outer }]
    };
    suite.add("20@transfer-handed-on", vec![from_top(&[c]), from_top(&[c, d]), from_top(&[d])], right(true, false));
    suite.add("20@transfer-handed-on", vec![from_top(&[c]), from_top(&[c, d]), from_top(&[d, c])], right(true, false));
    suite.add("20@transfer-handed-on", vec![from_top(&[c]), from_top(&[c, d]), from_top(&[e, d])], right(true, false));
    suite.add("20@transfer-outer-before-inner", vec![from_top(&[c]), from_top(&[d]), from_top(&[d])], right(false, true));
    suite.add("0@inner-if-in-else-block", vec![from_top(&[c]), from_top(&[c, d]), from_top(&[c, d])], right(false, false));
    // What the if-block takes is not handed over.
    let fork = vec![if_else(v("c"), vec![returns(v("d"))], vec![returns(v("e"))])];
    suite.add("0@if-block-items-are-not-handed-over", vec![from_top(&[c, d]), from_top(&[c, e])], fork);
    let fork = vec![if_else(v("c"), vec![returns(v("d"))], vec![returns(v("d"))])];
    suite.add("0@if-block-items-are-not-handed-over", vec![from_top(&[c, d]), from_top(&[c, d])], fork);
}

/// A shared part is typed in the first path's table only.
fn shared_types(suite: &mut Suite) {
    let yes_fork = |x: Node| vec![if_else(x, yes(), yes())];
    for kind in 0..4 {
        let paths = |first: u8| vec![from_top(&[(first, "c")]), from_top(&[(kind, "c")])];
        suite.add("0@shared-condition-typed-in-first-path", paths(BOOLEAN), yes_fork(v("c")));
        if kind != BOOLEAN {
            let backwards = vec![from_top(&[(kind, "c")]), from_top(&[(BOOLEAN, "c")])];
            suite.add("17@shared-condition-typed-in-first-path", backwards, yes_fork(v("c").here()));
        }
        let numbers = vec![verify(equal(v("c"), n(1))), if_else(b(true), yes(), yes())];
        suite.add("0@shared-verify-typed-in-first-path", paths(NUMBER), numbers);
        let aimed = vec![verify(equal(v("c"), n(1)).here()), if_else(b(true), yes(), yes())];
        if kind != NUMBER {
            let backwards = vec![from_top(&[(kind, "c")]), from_top(&[(NUMBER, "c")])];
            suite.add("17@shared-verify-typed-in-first-path", backwards, aimed);
        }
    }
    // The inner condition's first path is path 1: its table decides, not path 0's or path 2's.
    let whole = |here: bool| {
        let x = v("d");
        let x = if here { x.here() } else { x };
        vec![if_else(v("c"), vec![returns(equal(v("d"), n(1)))], vec![if_else(x, yes(), yes())])]
    };
    let c = (BOOLEAN, "c");
    let path = |kind: u8| from_top(&[c, (kind, "d")]);
    suite.add("0@inner-condition-typed-in-its-first-path", vec![path(NUMBER), path(BOOLEAN), path(STRING)], whole(false));
    suite.add("17@inner-condition-typed-in-its-first-path", vec![path(NUMBER), path(NUMBER), path(BOOLEAN)], whole(true));
    // In the else-block a name has the type that its own path declares.
    let each = vec![if_else(v("c"), vec![returns(v("x"))], vec![returns(equal(v("x"), s("aa")))])];
    suite.add("0@own-path-types-in-else-block", vec![from_top(&[c, (BOOLEAN, "x")]), from_top(&[c, (STRING, "x")])], each);
    let each = vec![if_else(v("c"), vec![returns(v("x"))], vec![returns(v("x").here())])];
    suite.add("17@own-path-types-in-else-block", vec![from_top(&[c, (BOOLEAN, "x")]), from_top(&[c, (STRING, "x")])], each);
}
