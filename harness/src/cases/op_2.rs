//! Waits of op 2, in units of 512 seconds. The original has none, so these cases are no part of the stored list.

use super::limits::wait_case;
use crate::case::Suite;
use crate::make::*;
use crate::tree::*;

pub fn add(suite: &mut Suite) {
    bounds(suite);
    no_form(suite);
    flow(suite);
    around_statements(suite);
    around_ifs(suite);
    wild_locations(suite);
    accepted(suite);
    many(suite);
}

fn yes() -> Vec<Node> {
    vec![returns(b(true))]
}

fn bounds(suite: &mut Suite) {
    for turn in 0..4 {
        for good in [0, 1, 144, 32768, 65534, 65535] {
            wait_case(suite, "0@op-2-in-range", CSV_TIME, good, turn);
        }
        wait_case(suite, "21@op-2-65536", CSV_TIME, 65536, turn);
        wait_case(suite, "21@op-2-negative", CSV_TIME, -1, turn);
        // Bit 22 is no part of the operand.
        wait_case(suite, "21@op-2-bit-22", CSV_TIME, 4194304, turn);
    }
    let above = [65537, 131072, 4194303, 4194305, 4259839, 4259840, 4294967295, 4294967296, 4299161600, i64::MAX];
    for (turn, bad) in above.into_iter().enumerate() {
        wait_case(suite, "21@op-2-above", CSV_TIME, bad, turn);
    }
    for (turn, bad) in [-65535, -65536, -4194304, -4294967296, i64::MIN].into_iter().enumerate() {
        wait_case(suite, "21@op-2-negative", CSV_TIME, bad, turn);
    }
}

/// Op 3 is no form of a line, whatever else is wrong.
fn no_form(suite: &mut Suite) {
    for op in [3, 4, 255] {
        for operand in [0, 65535, 65536, -1, i64::MIN] {
            suite.add("any@op-3", vec![vec![]], vec![csv_time(1), wait(op, operand), returns(b(true))]);
        }
    }
    let fork = if_else(n(1), yes(), vec![wait(3, 0)]);
    suite.add("any@op-3", vec![], vec![csv_time(-1), fork]);
}

/// A wait ends no block, and none may follow an end; both come before its bounds.
fn flow(suite: &mut Suite) {
    for operand in [5, 65536] {
        let it = || csv_time(operand).here();
        suite.add("18@ends-in-op-2", vec![vec![]], vec![it()]);
        suite.add("18@ends-in-op-2", vec![vec![], vec![]], vec![if_else(b(true), vec![it()], yes())]);
        suite.add("18@ends-in-op-2", vec![vec![], vec![]], vec![if_else(b(true), yes(), vec![csv_time(1), it()])]);
        suite.add("19@op-2-after-return", vec![vec![]], vec![returns(b(true)), it()]);
        suite.add("19@op-2-after-if", vec![vec![], vec![]], vec![if_else(b(true), yes(), yes()), it()]);
    }
    let twice = vec![Item { aimed: true, ..item(BOOLEAN, "a") }, item(BOOLEAN, "a")];
    suite.add("11@before-op-2", vec![twice.clone()], vec![csv_time(65536), returns(v("a"))]);
    suite.add("20@count-before-op-2", vec![twice, vec![]], vec![csv_time(65536), returns(v("a"))]);
}

/// The first fault in the order of the statements.
fn around_statements(suite: &mut Suite) {
    let one = || vec![vec![]];
    suite.add("21@op-2-before-statement", one(), vec![csv_time(-1).here(), returns(n(1))]);
    suite.add("17@statement-before-op-2", one(), vec![verify(n(1).here()), csv_time(65536), returns(n(1))]);
    suite.add("12@statement-before-op-2", one(), vec![verify(v("u").here()), csv_time(-1), returns(b(true))]);
    let first = vec![after(1), csv_time(65536).here(), older(-1), after(-1), returns(b(true))];
    suite.add("21@first-wait-op-2", one(), first);
    let first = vec![csv_time(65535), older(65536).here(), csv_time(65536), returns(b(true))];
    suite.add("21@first-wait-older", one(), first);
    let first = vec![csv_time(0), after(4294967296).here(), csv_time(-1), returns(b(true))];
    suite.add("21@first-wait-after", one(), first);
    // What `after` may have is too much for op 2.
    suite.add("21@op-2-as-after", one(), vec![after(65536), older(65535), csv_time(65536).here(), returns(b(true))]);
    suite.add_path("21@op-2-before-14", &[(BOOLEAN, "a")], vec![csv_time(65536).here(), returns(b(true))]);
    let unused = vec![vec![Item { aimed: true, ..item(BOOLEAN, "a") }]];
    suite.add("14@after-op-2", unused, vec![csv_time(65535), returns(b(true))]);
}

/// Condition, if-block, transfer, else-block.
fn around_ifs(suite: &mut Suite) {
    let c = (BOOLEAN, "c");
    let good = || vec![from_top(&[c]), from_top(&[c])];
    let no_transfer = || vec![from_top(&[c]), from_top(&[(BOOLEAN, "d")])];
    let bad = || vec![csv_time(65536), returns(b(true))];
    let aimed = || vec![csv_time(65536).here(), returns(b(true))];
    let big = equal(n(2147483648).here(), n(1));
    suite.add("21@condition-before-op-2", vec![vec![], vec![]], vec![if_else(big, bad(), bad())]);
    suite.add("21@op-2-before-condition", good(), vec![csv_time(-1).here(), if_else(n(1), bad(), bad())]);
    suite.add("21@op-2-in-if-block", good(), vec![csv_time(1), if_else(v("c"), aimed(), bad())]);
    suite.add("21@op-2-in-else-block", good(), vec![csv_time(1), if_else(v("c"), yes(), aimed())]);
    suite.add("21@op-2-before-transfer", no_transfer(), vec![if_else(v("c"), aimed(), yes())]);
    suite.add("20@transfer-before-op-2", no_transfer(), vec![if_else(v("c"), yes(), bad()).here()]);
}

/// Locations at the ends of their range, of the listing's own lines, and all alike.
fn wild_locations(suite: &mut Suite) {
    let most = u32::MAX;
    for (start, end, line, column) in [(most, most, most, most), (0, 0, 0, 0), (4194304, 65536, 2, 2)] {
        let at = Where { start, end, line, column };
        for (label, it) in [("0@op-2-location", csv_time(65535)), ("21@op-2-location", csv_time(65536).here())] {
            let mut whole = contract(suite.target, vec![vec![]], vec![after(4294967295), it, returns(b(true))]);
            whole.block.each_mut(&mut |node| node.at = at);
            whole.block.at = Where::default();
            suite.add_placed(label, whole, false);
        }
    }
}

/// A wait of each op, at its bounds, in each block: the report has them after the paths, in the order of the lines.
fn accepted(suite: &mut Suite) {
    let waits = || vec![csv_time(65535), after(4294967295), older(65535), csv_time(0), after(0), older(0)];
    let then = |last: Node| waits().into_iter().chain([last]).collect::<Vec<Node>>();
    let (k, l, m) = ((BOOLEAN, "k"), (BOOLEAN, "l"), (BOOLEAN, "m"));
    for _ in 0..3 {
        let first = if_else(v("l"), then(returns(b(true))), then(returns(v("m"))));
        let second = if_else(v("l"), then(returns(v("m"))), then(returns(b(false))));
        let whole = then(if_else(v("k"), then(first), then(second)));
        let paths = vec![from_top(&[k, l]), from_top(&[k, l, m]), from_top(&[k, l, m]), from_top(&[k, l])];
        suite.add("0@waits-in-every-block", paths, whole);
        // A way back after a week, as people write it: 1,181 times 512 seconds.
        let (owner, heir) = (check(v("owner"), suite.key()), check(v("heir"), suite.key()));
        let whole = vec![if_else(v("k"), vec![returns(owner)], vec![csv_time(1181), returns(heir)])];
        let paths = vec![from_top(&[k, (SIGNATURE, "owner")]), from_top(&[k, (SIGNATURE, "heir")])];
        suite.add("0@op-2-way-back", paths, whole);
    }
}

/// As many as the ceilings allow: 1,019 in one block, and one in each block to depth 32.
fn many(suite: &mut Suite) {
    for least in [0, 64517] {
        let mut statements: Vec<Node> = (least..least + 1019).map(csv_time).collect();
        statements.push(returns(b(true)));
        suite.add("0@1019-of-op-2", vec![vec![]], statements.clone());
        statements[1018] = csv_time(65536).here();
        suite.add("21@last-of-1019", vec![vec![]], statements);
    }
    for in_else in [false, true] {
        let mut inner = vec![csv_time(31), returns(b(true))];
        for depth in (0..31).rev() {
            let leaves = vec![older(depth), returns(b(true))];
            let fork = if in_else { if_else(b(true), leaves, inner) } else { if_else(b(true), inner, leaves) };
            inner = vec![csv_time(depth), fork];
        }
        suite.add("0@op-2-in-32-blocks", vec![vec![]; 32], inner);
    }
}
