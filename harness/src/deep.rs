//! The costliest listings that the ceilings allow.

use crate::case::Suite;
use crate::make::*;
use crate::tree::*;

pub fn add(suite: &mut Suite) {
    for in_else in [false, true] {
        nested_ifs(suite, in_else);
    }
    nested_compares(suite);
    doubling_compares(suite);
    many_lines(suite);
    many_waits(suite);
}

/// Blocks to depth 32: 31 ifs, so 32 paths with a declaration each. Each if takes an item, so the deepest path has most.
fn nested_ifs(suite: &mut Suite, in_else: bool) {
    let names: Vec<String> = (0..31).map(|i| format!("condition_{i}")).collect();
    let taken = |count: usize| -> Vec<Item> { names[..count].iter().rev().map(|name| item(BOOLEAN, name)).collect() };
    let yes = || vec![returns(b(true))];
    let build = |last: Vec<Node>| {
        let mut inner = last;
        for name in names.iter().rev() {
            inner = vec![if in_else { if_else(v(name), yes(), inner) } else { if_else(v(name), inner, yes()) }];
        }
        inner
    };
    // The paths leave at each depth: in order if the nesting is in the else-blocks, the other way round if not.
    let mut paths: Vec<Vec<Item>> = (1..=31).map(&taken).collect();
    paths.push(taken(31));
    if !in_else {
        paths.reverse();
    }
    let name = if in_else { "else" } else { "then" };
    suite.add(&format!("0@32-blocks-in-{name}"), paths.clone(), build(yes()));
    suite.add(&format!("17@32-blocks-in-{name}"), paths.clone(), build(vec![returns(n(1).here())]));
    let last = if in_else { 31 } else { 0 };
    paths[last].insert(0, Item { aimed: true, ..item(NUMBER, "never") });
    suite.add(&format!("14@32-blocks-in-{name}"), paths, build(yes()));
}

/// Compares one in another to expression depth 32.
fn nested_compares(suite: &mut Suite) {
    let nest = |leaf: Node| (0..31).fold(leaf, |inner, _| equal(inner, b(true)));
    suite.add("0@32-compares", vec![vec![]], vec![returns(nest(b(false)))]);
    let mut fails = nest(n(1));
    fails.aimed = true;
    suite.add("17@32-compares", vec![vec![]], vec![returns(fails)]);
}

/// A fault below a compare of sizes is looked for twice, as numbers and as truths, so each such level doubles the work.
/// `levels` compares, each of a size of a hash, around an expression.
fn doubled(levels: usize, inner: Node) -> Node {
    (0..levels).fold(inner, |inner, _| equal(size(sha(inner)), b(true)))
}

/// A tree of logic of so many levels with a leaf at each end.
fn full_tree(levels: usize, leaf: &dyn Fn() -> Node) -> Node {
    if levels == 1 {
        leaf()
    } else {
        and(full_tree(levels - 1, leaf), full_tree(levels - 1, leaf))
    }
}

fn doubling_compares(suite: &mut Suite) {
    suite.add("17@doubling-10", vec![vec![]], vec![returns(doubled(10, equal(n(1), s("a"))).here())]);
    // 24 levels of depth above, a tree of 255 lines below: its last leaf is at fault.
    let mut inner = full_tree(8, &|| b(true));
    *inner.at_mut(&[1; 7]) = n(1);
    suite.add("17@doubling-8-wide", vec![vec![]], vec![returns(doubled(8, inner).here())]);
    let good = (0..10).fold(b(true), |inner, _| equal(size(sha(inner)), n(32)));
    suite.add("0@doubling-10", vec![vec![]], vec![returns(good)]);
}

/// Close to 1024 lines: many statements; one wide expression.
fn many_lines(suite: &mut Suite) {
    let names: Vec<String> = (0..32).map(|i| format!("n{i}")).collect();
    let items: Vec<(u8, &str)> = names.iter().map(|name| (NUMBER, name.as_str())).collect();
    let mut statements: Vec<Node> = names.iter().map(|name| verify(equal(v(name), n(1)))).collect();
    // T, D, 32 items, B and 32 verifies of 4 lines are 163 lines; 429 more verifies of 2 lines; the return has 2.
    statements.extend((0..429).map(|_| verify(b(true))));
    let mut accepted = statements.clone();
    accepted.push(older(1));
    accepted.push(returns(b(true)));
    suite.add_path("0@1024-lines", &items, accepted);
    statements.push(returns(n(1).here()));
    suite.add_path("17@1023-lines", &items, statements);
    // T, D, B, E and a tree of 511 lines; two of them in one logic are 1023, so the second has one level less.
    let wide = and(full_tree(9, &|| b(true)), full_tree(8, &|| b(false)));
    suite.add("0@wide-expression", vec![vec![]], vec![returns(wide)]);
}

/// 1024 lines, T, D, B, E, b and waits, whose numbers are as long as can be; and waits in blocks to depth 32.
fn many_waits(suite: &mut Suite) {
    // All lines stand at 0,0,0,0, so that there is room for the numbers.
    let mut statements: Vec<Node> = (0..1019).map(|i| after(4294967295 - i)).collect();
    statements.push(returns(b(true)));
    let whole = |statements: &[Node]| contract(LEGACY, vec![vec![]], statements.to_vec());
    suite.add_placed("0@1019-waits", whole(&statements), false);
    statements[1018] = Node { at: OUTSET, ..after(4294967296).here() };
    suite.add_placed("21@last-of-1019-waits", whole(&statements), false);
    for in_else in [false, true] {
        let run = |last: Node| (0..12).map(older).chain([last]).collect::<Vec<Node>>();
        let inner = (0..31).fold(run(returns(b(true))), |inner, _| {
            let leaves = run(returns(b(true)));
            run(if in_else { if_else(b(true), leaves, inner) } else { if_else(b(true), inner, leaves) })
        });
        suite.add("0@waits-in-32-blocks", vec![vec![]; 32], inner);
    }
}
