//! How the original is asked about a listing that it cannot hold as it is.
//!
//! - Marks. It asks the curve, so where a mark is not true its key test (standins/bitcoin) is answered from the marks.
//!   That fails only if one key stands with both marks.
//! - Literals that are not UTF-8. The rules read three things of a literal that is no hex: its bytes' count, that it is no
//!   hex, and whether it is ASCII. So the original gets another literal of as many bytes that is no hex and not ASCII.
//!   Only a single byte has no such stand-in; it becomes one ASCII letter, which fails where it stands under size.
//! - Waits of op 2. It has none. The rules read an op only for the bounds of its operand, and op 2 has those of op 1, 0 to
//!   65535. So the original gets op 1 in its place, and its answer must be the same: accepted, or the same refusal at the same
//!   place. These listings are no agreement with the original as it is, so they are counted apart.

use crate::keys;
use crate::oracle::{self, Answer};
use crate::tree::*;
use bitcoin::Keys;
use std::collections::HashMap;
use std::panic::{catch_unwind, AssertUnwindSafe};

/// How the original could be asked.
#[derive(Clone, Copy, Debug, PartialEq, Eq, PartialOrd, Ord)]
pub enum How {
    /// As it is: it asks the curve.
    Plain,
    /// Its key test is answered from the marks.
    ByMarks,
    /// With other literals for those that are not UTF-8; the key test from the marks if one is not true.
    OtherLiterals,
    /// Not at all: one key has both marks.
    TwoMarks,
    /// Not at all: a literal of one byte, not UTF-8, stands under size.
    OneByte,
    /// With op 1 in place of op 2; the rest as above.
    Op1ForOp2,
    /// Not at all: it has op 2, and one key has both marks, or a literal of one byte stands under size.
    Op2Unasked,
}

impl How {
    /// Has the listing a wait of op 2?
    pub fn is_op_2(self) -> bool {
        matches!(self, How::Op1ForOp2 | How::Op2Unasked)
    }
}

/// The original's answer, or nothing if it cannot be asked; and how it was asked.
pub fn ask(contract: &Contract) -> (Option<Answer>, How) {
    let Some(with_op_1) = with_op_1(contract) else {
        return ask_in_blocks(contract);
    };
    match ask_in_blocks(&with_op_1) {
        (None, _) => (None, How::Op2Unasked),
        (answer, _) => (answer, How::Op1ForOp2),
    }
}

/// The contract with op 1 in place of op 2; nothing if no wait has op 2.
fn with_op_1(contract: &Contract) -> Option<Contract> {
    let mut other = contract.clone();
    let mut found = false;
    other.block.each_mut(&mut |node| {
        if let Form::Wait(op @ CSV_TIME, _) = &mut node.form {
            *op = OLDER;
            found = true;
        }
    });
    found.then_some(other)
}

/// As `ask`, where no wait has op 2.
fn ask_in_blocks(contract: &Contract) -> (Option<Answer>, How) {
    let marks = match marks(contract) {
        Some(marks) => marks,
        None => return (None, How::TwoMarks),
    };
    let mut how = if marks.is_empty() { How::Plain } else { How::ByMarks };
    let mut asked = None;
    if !all_utf8(contract) {
        how = How::OtherLiterals;
        match with_other_literals(contract) {
            Some(other) => asked = Some(other),
            None => return (None, How::OneByte),
        }
    }
    if !marks.is_empty() {
        bitcoin::set_keys(Keys::Marks(marks));
    }
    let asked = asked.as_ref().unwrap_or(contract);
    let answer = catch_unwind(AssertUnwindSafe(|| oracle::ask(asked))).unwrap_or(Answer::Panicked);
    bitcoin::set_keys(Keys::Curve);
    (Some(answer), how)
}

fn literals(contract: &Contract) -> Vec<(&[u8], bool)> {
    let mut found: Vec<(&[u8], bool)> = vec![];
    contract.block.each(&mut |node| {
        if let Form::Literal(bytes, mark) = &node.form {
            found.push((bytes, *mark));
        }
    });
    found
}

/// The bytes and marks of all literals that have the shape of a key, if one of them is not true; else none. Nothing if the
/// same bytes have both marks.
fn marks(contract: &Contract) -> Option<HashMap<Vec<u8>, bool>> {
    let mut marks = HashMap::new();
    let mut all_true = true;
    for (literal, mark) in literals(contract) {
        if keys::has_shape(contract.target, literal) {
            all_true &= keys::mark(contract.target, literal) == mark;
            let before = marks.insert(keys::unhex(literal).unwrap(), mark);
            if before == Some(!mark) {
                return None;
            }
        }
    }
    Some(if all_true { HashMap::new() } else { marks })
}

fn all_utf8(contract: &Contract) -> bool {
    literals(contract).iter().all(|(bytes, _)| std::str::from_utf8(bytes).is_ok())
}

/// The contract with other literals for those that are not UTF-8.
fn with_other_literals(contract: &Contract) -> Option<Contract> {
    let mut other = contract.clone();
    let mut possible = true;
    other.block.each_mut(&mut |node| {
        if let (Form::Size, Some(Form::Literal(bytes, _))) = (&node.form, node.parts.first().map(|part| &part.form)) {
            possible &= bytes.len() != 1 || bytes.is_ascii();
        }
        if let Form::Literal(bytes, _) = &mut node.form {
            if std::str::from_utf8(bytes).is_err() {
                *bytes = stand_in(bytes.len());
            }
        }
    });
    possible.then_some(other)
}

/// A literal of so many bytes that is UTF-8, no hex and, but for a single byte, not ASCII.
fn stand_in(length: usize) -> Vec<u8> {
    let mut bytes = if length == 1 { b"x".to_vec() } else { "\u{e4}".as_bytes().to_vec() };
    bytes.resize(length, b'x');
    bytes
}
