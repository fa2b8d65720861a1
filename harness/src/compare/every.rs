//! One short contract that has all 21 forms of a line, and one with waits of each op, with every byte changed in every way:
//! replaced by each of the 256 values, left out, doubled, and the listing cut off there.

use crate::keys;
use crate::make::*;
use crate::tree::*;
use crate::writer;

pub struct EveryByte {
    listing: Vec<u8>,
    /// How many changes are behind us.
    done: usize,
}

/// 256 values, and three more ways.
const WAYS: usize = 259;

impl EveryByte {
    pub fn of_all_forms() -> EveryByte {
        EveryByte { listing: writer::write(&all_forms()), done: 0 }
    }

    pub fn of_waits() -> EveryByte {
        EveryByte { listing: writer::write(&waits()), done: 0 }
    }
}

impl Iterator for EveryByte {
    type Item = Vec<u8>;

    fn next(&mut self) -> Option<Vec<u8>> {
        let (place, way) = (self.done / WAYS, self.done % WAYS);
        let mut changed = self.listing.clone();
        let byte = *changed.get(place)?;
        self.done += 1;
        match way {
            256 => drop(changed.remove(place)),
            257 => changed.insert(place, byte),
            258 => changed.truncate(place),
            value => changed[place] = value as u8,
        }
        Some(changed)
    }
}

/// A good contract with every form.
fn all_forms() -> Contract {
    let key = || s("79be667ef9dcbbac55a06295ce870b07029bfcdb2dce28d959f2815b16f81798");
    let shared = [(BOOLEAN, "c"), (SIGNATURE, "s"), (SIGNATURE, "t")];
    let mut first = shared.to_vec();
    first.extend([(NUMBER, "n"), (STRING, "p")]);
    let two = check_of(multi(1, vec![single(v("t"), key()), multi(0, vec![])]));
    let sum = arithmetic(0, unary(NEGATE, v("n")), size(s("ab")));
    let then = vec![verify(compare(GREATER, sum, n(-7))), returns(equal(sha(v("p")), s("\u{e4}")))];
    let otherwise = vec![older(9), returns(not(b(false)))];
    let condition = and(or(v("c"), b(true)), and(check(v("s"), key()), two));
    let statements = vec![after(12), if_else(condition, then, otherwise)];
    finished(contract(TAPROOT, vec![from_top(&first), from_top(&shared)], statements))
}

/// A good contract with waits of each op, one of op 2 in each block.
fn waits() -> Contract {
    let yes = || returns(b(true));
    let fork = if_else(b(false), vec![older(7), csv_time(65535), yes()], vec![after(90), csv_time(0), yes()]);
    finished(contract(LEGACY, vec![vec![], vec![]], vec![csv_time(8), older(12), after(4), fork]))
}

/// The contract with marks, and locations of one digit.
fn finished(mut whole: Contract) -> Contract {
    let mut count = 0;
    let mut next = || {
        count += 1;
        Where { start: count % 7, end: count % 8, line: count % 9, column: count % 10 }
    };
    whole.declarations.iter_mut().flatten().for_each(|item| item.at = next());
    whole.block.each_mut(&mut |node| node.at = next());
    keys::set_marks(&mut whole);
    whole
}

#[cfg(test)]
mod tests {
    use super::*;
    use crate::compare::question::{ask, How};
    use crate::oracle::{self, Answer};

    /// The contract has all forms and is accepted.
    #[test]
    fn is_good() {
        let listing = EveryByte::of_all_forms().listing;
        let contract = crate::listing::read(&listing).unwrap();
        assert_eq!(oracle::answer(&contract), Answer::Accepted);
        let text = String::from_utf8(listing).unwrap();
        assert!("TDPBILVEvnbslcmuhzgSM".chars().all(|form| text.lines().any(|line| line.starts_with(form))), "{text}");
    }

    /// The other is accepted too, with op 1 in place of op 2.
    #[test]
    fn waits_are_good() {
        let contract = crate::listing::read(&EveryByte::of_waits().listing).unwrap();
        assert_eq!(ask(&contract), (Some(Answer::Accepted), How::Op1ForOp2));
    }
}
