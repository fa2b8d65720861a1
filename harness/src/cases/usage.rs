//! 11 to 15: names, and the order in which items are taken.

use crate::case::{Items, Suite};
use crate::make::*;
use crate::tree::*;

/// A place for a variable inside a truth: its name, the type that fits there, the truth around it, and the items that the
/// truth takes before it.
pub struct Slot {
    pub name: &'static str,
    pub kind: u8,
    pub before: Items<'static>,
    pub around: fn(&mut Suite, Node) -> Node,
}

const fn slot(name: &'static str, kind: u8, around: fn(&mut Suite, Node) -> Node) -> Slot {
    Slot { name, kind, before: &[], around }
}

/// Each place of an expression in which `check_variable` meets a variable.
pub const SLOTS: &[Slot] = &[
    slot("alone", BOOLEAN, |_, x| x),
    slot("logic-left", BOOLEAN, |_, x| and(x, b(true))),
    slot("logic-right", BOOLEAN, |_, x| or(b(false), x)),
    slot("not", BOOLEAN, |_, x| not(x)),
    slot("compare-left", NUMBER, |_, x| compare(4, x, n(9))),
    slot("compare-right", STRING, |_, x| equal(s("6161"), x)),
    slot("compare-truths", BOOLEAN, |_, x| compare(NOT_EQUAL, b(true), x)),
    slot("arithmetic-left", NUMBER, |_, x| equal(arithmetic(0, x, n(1)), n(2))),
    slot("arithmetic-right", NUMBER, |_, x| compare(6, n(2), arithmetic(3, n(1), x))),
    slot("unary", NUMBER, |_, x| compare(7, unary(ABS, x), n(2))),
    slot("hash", STRING, |_, x| equal(sha(x), s("00ff"))),
    slot("hash-of-hash", NUMBER, |_, x| equal(hash(1, hash(0, x)), s("00ff"))),
    slot("size", STRING, |_, x| compare(GREATER, size(x), n(3))),
    slot("signature", SIGNATURE, |suite, x| check(x, suite.key())),
    slot("multi-only", SIGNATURE, |suite, x| check_of(multi(1, vec![single(x, suite.key())]))),
    Slot {
        name: "multi-second",
        kind: SIGNATURE,
        before: &[(SIGNATURE, "first_sig")],
        around: |suite, x| check_of(multi(1, vec![single(v("first_sig"), suite.key()), single(x, suite.key())])),
    },
    Slot {
        name: "multi-after-skipped",
        kind: SIGNATURE,
        before: &[],
        around: |suite, x| {
            let skipped = multi(9, vec![single(v("nobody"), v("nothing"))]);
            check_of(multi(2, vec![skipped, single(x, suite.key())]))
        },
    },
];

/// Places of a key. A variable there is never right, but usage is asked before types.
pub const KEY_SLOTS: &[Slot] = &[
    Slot { name: "key", kind: STRING, before: &[(SIGNATURE, "first_sig")], around: |_, x| check(v("first_sig"), x) },
    Slot {
        name: "multi-key",
        kind: STRING,
        before: &[(SIGNATURE, "first_sig")],
        around: |_, x| check_of(multi(1, vec![single(v("first_sig"), x)])),
    },
];

type List = Vec<(u8, &'static str)>;

fn join(first: &[(u8, &'static str)], then: &[(u8, &'static str)]) -> List {
    first.iter().chain(then).copied().collect()
}

pub fn add(suite: &mut Suite) {
    duplicates(suite);
    unknown(suite);
    taken_before(suite);
    out_of_order(suite);
    unused(suite);
}

/// 11: declarations first to last, within one from the last declared; at the one met now.
fn duplicates(suite: &mut Suite) {
    let yes = || vec![returns(b(true))];
    let aimed = |kind, name| Item { aimed: true, ..item(kind, name) };
    suite.add("11@adjacent", vec![vec![aimed(BOOLEAN, "a"), item(BOOLEAN, "a")]], vec![returns(v("a"))]);
    suite.add("11@adjacent", vec![vec![aimed(NUMBER, "_"), item(STRING, "_"), item(BOOLEAN, "x")]], yes());
    suite.add("11@adjacent", vec![vec![item(BOOLEAN, "x"), aimed(SIGNATURE, "Ab1"), item(SIGNATURE, "Ab1")]], yes());
    suite.add("11@apart", vec![vec![aimed(BOOLEAN, "a"), item(BOOLEAN, "b"), item(BOOLEAN, "a")]], yes());
    let mut many: Vec<Item> = (0..32).map(|i| item(NUMBER, &format!("n{i}"))).collect();
    many[0] = aimed(STRING, "n31");
    suite.add("11@apart", vec![many.clone()], yes());
    many[0] = item(STRING, "n0");
    many[15] = aimed(NUMBER, "n16");
    suite.add("11@apart", vec![many], yes());
    suite.add("11@three-alike", vec![vec![item(BOOLEAN, "a"), aimed(BOOLEAN, "a"), item(BOOLEAN, "a")]], yes());
    let four = vec![item(BOOLEAN, "a"), item(BOOLEAN, "a"), item(NUMBER, "b"), aimed(BOOLEAN, "c"), item(BOOLEAN, "c")];
    suite.add("11@two-pairs", vec![four], yes());
    let crossed = vec![item(BOOLEAN, "a"), aimed(BOOLEAN, "b"), item(BOOLEAN, "a"), item(BOOLEAN, "b")];
    suite.add("11@two-pairs", vec![crossed], yes());
    let inside = vec![item(BOOLEAN, "a"), aimed(BOOLEAN, "b"), item(BOOLEAN, "b"), item(BOOLEAN, "a")];
    suite.add("11@two-pairs", vec![inside], yes());
    let long = "abcdefghijklmnopqrstuvwxyz012345";
    suite.add("11@longest-names", vec![vec![aimed(BOOLEAN, long), item(BOOLEAN, long)]], yes());

    let fork = |x: Node| vec![if_else(x, vec![returns(b(true))], vec![returns(b(true))])];
    let good = || vec![item(BOOLEAN, "c")];
    let bad = || vec![item(BOOLEAN, "c"), item(BOOLEAN, "c")];
    let bad_here = || vec![aimed(BOOLEAN, "c"), item(BOOLEAN, "c")];
    suite.add("11@later-declaration", vec![good(), bad_here()], fork(v("c")));
    suite.add("11@later-declaration", vec![vec![], bad_here()], fork(b(true)));
    suite.add("11@first-of-two-declarations", vec![bad_here(), bad()], fork(v("c")));
    suite.add("11@before-statements", vec![good(), bad_here()], fork(v("unknown")));
    suite.add("11@before-statements", vec![bad_here()], vec![older(65536), returns(n(1))]);
    suite.add("11@before-transfer", vec![good(), vec![aimed(NUMBER, "d"), item(NUMBER, "d")]], fork(v("c")));
    suite.add("0@same-name-in-two-declarations", vec![good(), good()], fork(v("c")));
    suite.add(
        "0@names-differ-in-case",
        vec![vec![item(BOOLEAN, "A"), item(BOOLEAN, "a")]],
        vec![returns(and(v("a"), v("A")))],
    );
}

/// 12, in each slot, and names that are almost declared.
fn unknown(suite: &mut Suite) {
    for slot in SLOTS.iter().chain(KEY_SLOTS) {
        let label = format!("12@{}", slot.name);
        suite.spread(&label, slot.before, 3, &|suite| (slot.around)(suite, v("unknown").here()));
    }
    let near: &[(&str, &str)] = &[
        ("name", "Name"),
        ("name", "nam"),
        ("name", "name_"),
        ("a", "b"),
        ("_", "__"),
        ("0", "00"),
        ("a1", "1a"),
        ("ame", "name"),
        ("abcdefghijklmnopqrstuvwxyz012345", "abcdefghijklmnopqrstuvwxyz012346"),
        ("abcdefghijklmnopqrstuvwxyz012345", "abcdefghijklmnopqrstuvwxyz01234"),
    ];
    for (declared, used) in near {
        suite.add_path("12@almost-the-name", &[(BOOLEAN, declared)], vec![returns(v(used).here())]);
    }
    suite.add("12@empty-declaration", vec![vec![]], vec![returns(v("a").here())]);
    let c = (BOOLEAN, "c");
    let d = (BOOLEAN, "d");
    let paths = || vec![from_top(&[c, (BOOLEAN, "only_0")]), from_top(&[c, (BOOLEAN, "only_1")])];
    let fork = |x: Node, y: Node| vec![if_else(v("c"), vec![returns(x)], vec![returns(y)])];
    suite.add("12@name-of-another-path", paths(), fork(v("only_1").here(), v("only_1")));
    suite.add("12@name-of-another-path", paths(), fork(v("only_0"), v("only_0").here()));
    let shared = vec![from_top(&[c]), from_top(&[d])];
    suite.add(
        "12@shared-part-in-second-path-only",
        shared.clone(),
        vec![if_else(v("d").here(), vec![returns(b(true))], vec![returns(b(true))])],
    );
    suite.add(
        "12@shared-part-in-second-path-only",
        shared,
        vec![verify(v("d").here()), if_else(v("c"), vec![returns(b(true))], vec![returns(b(true))])],
    );
}

/// 13, in each slot: taken by a verify before; then other ways of taking twice.
fn taken_before(suite: &mut Suite) {
    for slot in SLOTS.iter().chain(KEY_SLOTS) {
        let label = format!("13@{}", slot.name);
        let items = join(&[(slot.kind, "x")], slot.before);
        let first = |suite: &mut Suite| match slot.kind {
            SIGNATURE => check(v("x"), suite.key()),
            NUMBER => equal(v("x"), n(1)),
            STRING => equal(v("x"), s("zz")),
            _ => v("x"),
        };
        let taken = first(suite);
        let again = (slot.around)(suite, v("x").here());
        suite.add_path(&label, &items, vec![verify(taken), returns(again)]);
        let taken = first(suite);
        let again = (slot.around)(suite, v("x").here());
        suite.add_path(&label, &items, vec![returns(and(taken, again))]);
    }
    let c = (BOOLEAN, "c");
    let x = (BOOLEAN, "x");
    let yes = || vec![returns(b(true))];
    let twice = |first: Node, second: Node| vec![if_else(v("c"), vec![returns(first)], vec![returns(second)])];
    suite.add("13@condition-again-in-if-block", vec![from_top(&[c]), from_top(&[c])], twice(v("c").here(), b(true)));
    suite.add("13@condition-again-in-else-block", vec![from_top(&[c]), from_top(&[c])], twice(b(true), v("c").here()));
    let before = vec![verify(v("x")), if_else(v("c"), yes(), vec![returns(v("x").here())])];
    suite.add("13@handed-to-else-block", vec![from_top(&[x, c]), from_top(&[x, c])], before);
    let d = (BOOLEAN, "d");
    let inner = if_else(v("d"), yes(), vec![returns(v("c").here())]);
    let all = || vec![from_top(&[c]), from_top(&[c, d]), from_top(&[c, d])];
    suite.add("13@handed-down-twice", all(), vec![if_else(v("c"), yes(), vec![inner])]);
    let inner = if_else(v("d"), yes(), vec![verify(b(true)), returns(v("d").here())]);
    suite.add("13@handed-down-twice", all(), vec![if_else(v("c"), yes(), vec![inner])]);
    let inner = if_else(v("d"), yes(), vec![returns(v("c").here())]);
    let all = vec![from_top(&[c, d]), from_top(&[c, d]), from_top(&[c])];
    suite.add("13@handed-down-twice", all, vec![if_else(v("c"), vec![inner], yes())]);
    suite.add_path("13@thrice", &[c], vec![returns(or(and(v("c"), v("c").here()), v("c")))]);
    let multi_twice = |suite: &mut Suite| {
        let factors = vec![single(v("s"), suite.key()), single(v("s").here(), suite.key())];
        check_of(multi(2, factors))
    };
    suite.spread("13@same-signature-in-multi", &[(SIGNATURE, "s")], 3, &multi_twice);
    suite.add_path("13@edge-b-twice", &[(BOOLEAN, "b"), (BOOLEAN, "a")], vec![returns(and(v("b"), v("b").here()))]);
    suite.add_path("0@edge-b-then-a", &[(BOOLEAN, "b"), (BOOLEAN, "a")], vec![returns(and(v("b"), v("a")))]);
}

/// 15, in each slot: an item above is not taken yet.
fn out_of_order(suite: &mut Suite) {
    for slot in SLOTS.iter().chain(KEY_SLOTS) {
        let label = format!("15@{}", slot.name);
        let items = join(slot.before, &[(NUMBER, "above"), (slot.kind, "x")]);
        suite.spread(&label, &items, 2, &|suite| (slot.around)(suite, v("x").here()));
    }
    let a = (BOOLEAN, "a");
    let c = (BOOLEAN, "c");
    let d = (BOOLEAN, "d");
    suite.add_path("15@edge-a-first", &[(BOOLEAN, "b"), a], vec![returns(and(v("a").here(), v("b")))]);
    suite.add_path("15@right-before-left", &[a, c, d], vec![returns(and(v("a"), and(v("d").here(), v("c"))))]);
    suite.add_path("15@one-left-out", &[a, c, d], vec![verify(v("a")), returns(v("d").here())]);
    suite.add_path("15@below-skipped-item", &[a, c, d], vec![verify(v("a")), verify(v("d").here()), returns(v("c"))]);
    let yes = || vec![returns(b(true))];
    suite.add("15@condition", vec![from_top(&[a, c]), from_top(&[a, c])], vec![if_else(v("c").here(), yes(), yes())]);
    let fork = || vec![if_else(v("c"), vec![returns(and(v("a"), v("d")))], vec![returns(and(v("d").here(), v("a")))])];
    suite.add("15@else-block", vec![from_top(&[c, a, d]), from_top(&[c, a, d])], fork());
    suite.add(
        "0@else-block-other-order",
        vec![from_top(&[c, a, d]), from_top(&[c, d, a])],
        fork().into_iter().map(without_aim).collect(),
    );
    let many: Vec<String> = (0..32).map(|i| format!("i{i}")).collect();
    let items: Vec<(u8, &str)> = many.iter().map(|name| (BOOLEAN, name.as_str())).collect();
    suite.add_path("15@last-of-32", &items, vec![returns(v("i31").here())]);
    let mut statements: Vec<Node> = many[..30].iter().map(|name| verify(v(name))).collect();
    statements.push(returns(v("i31").here()));
    suite.add_path("15@last-of-32", &items, statements);
}

fn without_aim(mut node: Node) -> Node {
    node.each_mut(&mut |n| n.aimed = false);
    node
}

/// 14: by path, first declared first.
fn unused(suite: &mut Suite) {
    let aimed = |kind, name| Item { aimed: true, ..item(kind, name) };
    let yes = || vec![returns(b(true))];
    for kind in 0..4 {
        suite.add("14@only-item", vec![vec![aimed(kind, "a")]], yes());
    }
    suite.add("14@edge-b-only", vec![vec![aimed(BOOLEAN, "a"), item(BOOLEAN, "b")]], vec![returns(v("b"))]);
    let three = || vec![aimed(BOOLEAN, "a"), item(BOOLEAN, "b"), item(BOOLEAN, "c")];
    suite.add("14@first-declared-of-several", vec![three()], yes());
    suite.add("14@first-declared-of-several", vec![three()], vec![older(1), returns(v("c"))]);
    let mut many: Vec<Item> = (0..32).map(|i| item(NUMBER, &format!("n{i}"))).collect();
    many[0].aimed = true;
    suite.add("14@first-declared-of-several", vec![many], vec![returns(equal(v("n31"), v("n30")))]);

    let c = || item(BOOLEAN, "c");
    let fork = || vec![if_else(v("c"), yes(), yes())];
    suite.add("14@path-0", vec![vec![aimed(BOOLEAN, "a"), c()], vec![c()]], fork());
    suite.add("14@path-1", vec![vec![c()], vec![aimed(NUMBER, "a"), c()]], fork());
    suite.add("14@path-0-before-path-1", vec![vec![aimed(BOOLEAN, "a"), c()], vec![item(BOOLEAN, "a"), c()]], fork());
    let deep = || vec![if_else(v("c"), yes(), vec![if_else(b(true), yes(), yes())])];
    suite.add("14@path-2", vec![vec![c()], vec![c()], vec![aimed(STRING, "a"), c()]], deep());
    suite.add("14@path-1", vec![vec![c()], vec![aimed(STRING, "a"), c()], vec![item(STRING, "a"), c()]], deep());
    let left = || vec![if_else(v("c"), vec![if_else(b(true), yes(), yes())], yes())];
    suite.add("14@path-2", vec![vec![c()], vec![c()], vec![aimed(SIGNATURE, "a"), c()]], left());
    suite.add("14@path-1", vec![vec![c()], vec![aimed(SIGNATURE, "a"), c()], vec![c()]], left());
    suite.add(
        "14@taken-on-the-other-path-only",
        vec![vec![item(BOOLEAN, "a"), c()], vec![aimed(BOOLEAN, "a"), c()]],
        vec![if_else(v("c"), vec![returns(v("a"))], yes())],
    );
    suite.add(
        "14@taken-on-the-other-path-only",
        vec![vec![aimed(BOOLEAN, "a"), c()], vec![item(BOOLEAN, "a"), c()]],
        vec![if_else(v("c"), yes(), vec![returns(v("a"))])],
    );
    for _ in 0..3 {
        let key = suite.key();
        let skipped = multi(1, vec![single(v("a"), key)]);
        let whole = check_of(multi(1, vec![skipped]));
        suite.add("14@only-in-skipped-multi", vec![vec![aimed(SIGNATURE, "a")]], vec![returns(whole)]);
    }
    let (first, second) = (suite.key(), suite.key());
    let whole = check_of(multi(1, vec![single(v("s"), first), multi(1, vec![single(v("a"), second)])]));
    suite.add("14@only-in-skipped-multi", vec![vec![aimed(SIGNATURE, "a"), item(SIGNATURE, "s")]], vec![returns(whole)]);
}
