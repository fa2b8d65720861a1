//! A whole contract inside a block of an outer if. Its answer stays the same, at the same line of its own.

use crate::case::{Aim, Case, Suite};
use crate::make::*;
use crate::tree::*;
use crate::writer;
use std::collections::HashMap;

/// Labels with fewer cases than this get more by embedding.
const ENOUGH: usize = 3;

/// Longer listings are not embedded.
const LONG: usize = 700;

/// The contract behind a verify, as the if-block or the else-block of an if. Both take an item of their own, which every
/// path then has on top. Nothing if that passes a ceiling.
fn embed(contract: &Contract, in_else: bool) -> Option<Contract> {
    let roomy = contract.declarations.len() < 32 && contract.declarations.iter().all(|items| items.len() <= 30);
    if !roomy {
        return None;
    }
    let top = from_top(&[(BOOLEAN, "outer_v"), (BOOLEAN, "outer_c")]);
    let mut declarations: Vec<Vec<Item>> = contract.declarations.clone();
    declarations.iter_mut().for_each(|items| items.extend(top.clone()));
    let inner = contract.block.parts.clone();
    let yes = vec![returns(b(true))];
    let fork = if in_else {
        declarations.insert(0, top);
        if_else(v("outer_c"), yes, inner)
    } else {
        declarations.push(top);
        if_else(v("outer_c"), inner, yes)
    };
    Some(crate::make::contract(contract.target, declarations, vec![verify(v("outer_v")), fork]))
}

/// Does the answer stay the same inside another contract? The count's 20 does not: it goes to the first item of all.
fn stays(case: &Case) -> bool {
    let at_item = case.contract.declarations.iter().flatten().any(|item| item.aimed);
    let at_count = case.number() == Some(20) && (at_item || case.aim == Aim::Outset);
    !at_count && !case.label.contains("location")
}

/// Embeds the cases of each label that has few.
pub fn fill(suite: &mut Suite) {
    let mut counts: HashMap<String, usize> = HashMap::new();
    for case in &suite.cases {
        *counts.entry(case.label.clone()).or_default() += 1;
    }
    let short = |case: &Case| writer::write(&case.contract).len() <= LONG;
    let few: Vec<Case> =
        suite.cases.iter().filter(|case| counts[&case.label] < ENOUGH && stays(case) && short(case)).cloned().collect();
    for case in few {
        for in_else in [true, false] {
            let count = counts.get_mut(&case.label).unwrap();
            if *count < ENOUGH {
                if let Some(contract) = embed(&case.contract, in_else) {
                    suite.add_whole(&case.label, contract, case.aim == Aim::Outset);
                    *count += 1;
                }
            }
        }
    }
}
