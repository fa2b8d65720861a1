//! 18 and 19: `check_flow`.

use crate::case::Suite;
use crate::make::*;
use crate::tree::*;

fn yes() -> Node {
    returns(b(true))
}

/// The statements inside blocks of ifs: as a whole contract, in an if-block, in an else-block, two deep.
fn nestings(statements: &dyn Fn() -> Vec<Node>) -> Vec<Vec<Node>> {
    vec![
        statements(),
        vec![if_else(b(true), statements(), vec![yes()])],
        vec![if_else(b(true), vec![yes()], statements())],
        vec![older(1), if_else(b(true), vec![if_else(b(false), vec![yes()], statements())], vec![yes()])],
        vec![if_else(b(true), vec![yes()], vec![verify(b(true)), if_else(b(false), statements(), vec![yes()])])],
    ]
}

/// The statements at each nesting. Flow comes before all else, so no declarations are needed.
fn nested(suite: &mut Suite, label: &str, statements: &dyn Fn() -> Vec<Node>) {
    for whole in nestings(statements) {
        suite.add(label, vec![], whole);
    }
}

pub fn add(suite: &mut Suite) {
    empty_blocks(suite);
    bad_ends(suite);
    unreachable(suite);
    two_faults(suite);
}

fn empty_blocks(suite: &mut Suite) {
    for whole in nestings(&|| vec![]) {
        suite.add_outset("18@empty-block", vec![], whole);
    }
    suite.add_outset("18@empty-block", vec![from_top(&[(BOOLEAN, "a")])], vec![]);
    suite.add_outset("18@empty-block", vec![vec![], vec![]], vec![if_else(b(true), vec![], vec![])]);
}

fn bad_ends(suite: &mut Suite) {
    nested(suite, "18@if-without-else", &|| vec![if_only(b(true), vec![yes()]).here()]);
    nested(suite, "18@if-without-else", &|| vec![older(5), if_only(v("a"), vec![]).here()]);
    nested(suite, "18@wait-last", &|| vec![older(7).here()]);
    nested(suite, "18@wait-last", &|| vec![verify(b(true)), after(-1).here()]);
    nested(suite, "18@verify-last", &|| vec![verify(b(true)).here()]);
    nested(suite, "18@verify-last", &|| vec![older(7), verify(v("unknown")).here()]);
}

fn unreachable(suite: &mut Suite) {
    nested(suite, "19@return-after-return", &|| vec![yes(), yes().here()]);
    nested(suite, "19@verify-after-return", &|| vec![yes(), verify(b(true)).here()]);
    nested(suite, "19@wait-after-return", &|| vec![older(1), yes(), older(70000).here(), yes()]);
    nested(suite, "19@if-after-return", &|| vec![yes(), if_only(b(true), vec![yes()]).here()]);
    let fork = || if_else(b(true), vec![yes()], vec![yes()]);
    nested(suite, "19@return-after-if", &|| vec![fork(), yes().here()]);
    nested(suite, "19@verify-after-if", &|| vec![if_only(b(true), vec![yes()]), verify(b(true)).here(), yes()]);
    nested(suite, "19@wait-after-if", &|| vec![verify(b(true)), fork(), after(3).here()]);
    nested(suite, "19@if-after-if", &|| vec![fork(), fork().here()]);
}

/// Which of two faults of flow is the answer.
fn two_faults(suite: &mut Suite) {
    nested(suite, "19@first-of-two", &|| vec![yes(), yes().here(), yes()]);
    nested(suite, "19@first-of-two", &|| vec![if_only(b(true), vec![]), older(1).here(), yes(), yes()]);
    nested(suite, "19@before-bad-end", &|| vec![yes(), verify(b(true)).here()]);
    nested(suite, "19@before-inner-empty-block", &|| vec![if_else(b(true), vec![], vec![]), yes().here()]);
    nested(suite, "19@before-last-if", &|| vec![yes(), if_only(b(true), vec![]).here()]);
    nested(suite, "18@if-without-else-before-its-block", &|| vec![if_only(b(true), vec![yes(), yes()]).here()]);
    nested(suite, "18@if-block-before-else-block", &|| {
        vec![if_else(b(true), vec![verify(b(true)).here()], vec![yes(), yes()])]
    });
    nested(suite, "19@if-block-before-else-block", &|| vec![if_else(b(true), vec![yes(), yes().here()], vec![])]);
    nested(suite, "18@else-block-after-good-if-block", &|| {
        vec![if_else(b(true), vec![yes()], vec![older(1), older(2).here()])]
    });
}
