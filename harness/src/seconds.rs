//! Waits of op 2, in units of 512 seconds, put into contracts that were made without.
//!
//! The original has no such wait. The stored list has its answers, so what makes that list (cases, good.rs, aimed.rs, mutate.rs)
//! knows none either; `compare` and `rehearse` put them in here.

use crate::case::Suite;
use crate::good::{self, Size};
use crate::make::*;
use crate::rng::Rng;
use crate::tree::*;

/// Operands within the bounds.
const WITHIN: &[i64] = &[0, 1, 2, 144, 32767, 32768, 65534, 65535];

/// Operands out of them: beside the bounds, beside bit 22 and 32 bits, and at the ends of 64.
const BEYOND: &[i64] = &[
    -1,
    65536,
    65537,
    131072,
    4194303,
    4194304,
    4194305,
    4259839,
    4259840,
    4294967295,
    4294967296,
    -65535,
    -4194304,
    i64::MAX,
    i64::MIN,
];

/// Puts waits of op 2 into a contract such that its answer stays: turns some of its waits, and adds up to three.
pub fn put_in(rng: &mut Rng, contract: &mut Contract) {
    turn(rng, contract);
    for _ in 0..rng.below(4) {
        let operand = if rng.chance(70) { rng.pick(WITHIN) } else { rng.between(0, 65535) };
        insert(rng, contract, csv_time(operand));
    }
}

/// Gives half of the waits op 2, where their operand stays within the bounds or out of them. No line gets longer.
pub fn turn(rng: &mut Rng, contract: &mut Contract) {
    contract.block.each_mut(&mut |node| {
        if let Form::Wait(op, operand) = &mut node.form {
            let parts = *op == AFTER && (65536..=4294967295).contains(operand);
            if !parts && rng.chance(50) {
                *op = CSV_TIME;
            }
        }
    });
}

/// Puts a wait into one of the blocks, where it is in nobody's way: before the block's first if or return, or before its last
/// statement if it has neither. Not into a block of no statements, since that is a fault.
fn insert(rng: &mut Rng, contract: &mut Contract, wait: Node) {
    let blocks = contract.block.ways(&|_| true, &|node| node.form == Form::Block && !node.parts.is_empty());
    if !blocks.is_empty() {
        let parts = &mut contract.block.at_mut(&blocks[rng.below(blocks.len())]).parts;
        let end = parts.iter().position(|node| matches!(node.form, Form::If | Form::Return));
        parts.insert(rng.below(1 + end.unwrap_or(parts.len() - 1)), wait);
    }
}

/// 21: a good contract with a wait of op 2 out of its bounds.
pub fn add_fault(suite: &mut Suite, size: Size) {
    let mut contract = good::contract(&mut suite.rng, size);
    put_in(&mut suite.rng, &mut contract);
    let operand = suite.rng.pick(BEYOND);
    insert(&mut suite.rng, &mut contract, csv_time(operand).here());
    suite.add_whole("21@random-op-2", contract, false);
}

/// Changes a contract, with any outcome: any operand for a wait, or such a wait anywhere in a block. Op 3 is no form.
pub fn change(rng: &mut Rng, contract: &mut Contract) {
    let operand = if rng.chance(50) { rng.pick(WITHIN) } else { rng.pick(BEYOND) };
    let new = wait(rng.pick(&[CSV_TIME, CSV_TIME, CSV_TIME, CSV_TIME, OLDER, AFTER, 3]), operand);
    let waits = contract.block.ways(&|_| true, &|node| matches!(node.form, Form::Wait(..)));
    if !waits.is_empty() && rng.chance(60) {
        *contract.block.at_mut(&waits[rng.below(waits.len())]) = new;
    } else {
        let blocks = contract.block.ways(&|_| true, &|node| node.form == Form::Block);
        let parts = &mut contract.block.at_mut(&blocks[rng.below(blocks.len())]).parts;
        parts.insert(rng.below(parts.len() + 1), new);
    }
}

#[cfg(test)]
mod tests {
    use super::*;
    use crate::compare::question::{ask, How};
    use crate::oracle::Answer;

    /// What is put in changes no answer; with op 1 in place of op 2 the original says so.
    #[test]
    fn good_stays_good() {
        let mut suite = Suite::new(7);
        let mut with = 0;
        for _ in 0..300 {
            let mut contract = good::contract(&mut suite.rng, good::MIDDLE);
            put_in(&mut suite.rng, &mut contract);
            place(&mut contract);
            crate::keys::set_marks(&mut contract);
            let (answer, how) = ask(&contract);
            assert_eq!(answer, Some(Answer::Accepted));
            with += usize::from(how == How::Op1ForOp2);
        }
        assert!(with > 200, "{with}");
    }

    /// A fault is found where it was put.
    #[test]
    fn beyond_is_21() {
        let mut suite = Suite::new(8);
        (0..100).for_each(|_| add_fault(&mut suite, good::SMALL));
        for case in &suite.cases {
            assert_eq!(ask(&case.contract).0, Some(Answer::Refused(21, case.contract.aim().unwrap())));
        }
    }
}
