//! Cases made by hand: for each number of document 01, each rule and place that gives it; and what just passes.

mod flow;
mod keys;
mod limits;
#[cfg(feature = "examiner")]
mod op_2;
mod order;
mod passing;
mod paths;
mod signatures;
mod types;
mod usage;

use crate::case::Suite;

/// All that the original can be asked about, in a fixed order.
pub fn add_all(suite: &mut Suite) {
    flow::add(suite);
    usage::add(suite);
    paths::add(suite);
    types::add(suite);
    signatures::add(suite);
    keys::add(suite);
    limits::add(suite);
    order::add(suite);
    passing::add(suite);
}

/// Those with waits of op 2.
#[cfg(feature = "examiner")]
pub fn add_op_2(suite: &mut Suite) {
    op_2::add(suite);
}
