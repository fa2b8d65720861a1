//! Keys as literals spell them, good and bad, and the true mark of a literal.

use crate::rng::Rng;
use crate::tree::{Contract, Form, TAPROOT};

/// The bytes that hex digits of either case spell, if they do.
pub fn unhex(digits: &[u8]) -> Option<Vec<u8>> {
    let value = |b: u8| (b as char).to_digit(16).map(|d| d as u8);
    if digits.len() % 2 == 1 {
        return None;
    }
    digits.chunks(2).map(|pair| Some(value(pair[0])? * 16 + value(pair[1])?)).collect()
}

/// Lower-case hex digits.
pub fn hex(bytes: &[u8]) -> String {
    bytes.iter().map(|b| format!("{b:02x}")).collect()
}

/// The true mark: 1 exactly where the literal spells a key of the target that lies on secp256k1.
pub fn mark(target: u8, literal: &[u8]) -> bool {
    match unhex(literal) {
        None => false,
        Some(bytes) if target == TAPROOT => curve::is_x_only_key(&bytes),
        Some(bytes) => bytes.len() == 33 && matches!(bytes[0], 2 | 3) && curve::is_public_key(&bytes),
    }
}

/// Has the literal the digits, the length and the first byte of a key of the target, be it on the curve or not?
#[cfg(feature = "examiner")]
pub fn has_shape(target: u8, literal: &[u8]) -> bool {
    match unhex(literal) {
        None => false,
        Some(bytes) if target == TAPROOT => bytes.len() == 32,
        Some(bytes) => bytes.len() == 33 && matches!(bytes[0], 2 | 3),
    }
}

/// Gives every literal of a contract its true mark.
pub fn set_marks(contract: &mut Contract) {
    let target = contract.target;
    contract.block.each_mut(&mut |node| {
        if let Form::Literal(bytes, given) = &mut node.form {
            *given = mark(target, bytes);
        }
    });
}

/// 32 random bytes that are (or are not) the x of a point.
pub fn x(rng: &mut Rng, on_curve: bool) -> Vec<u8> {
    loop {
        let bytes = rng.bytes(32);
        if curve::is_x_only_key(&bytes) == on_curve {
            return bytes;
        }
    }
}

/// The x of a point with the prefix that the target wants, as bytes; off the curve if asked.
pub fn key_bytes(rng: &mut Rng, target: u8, on_curve: bool) -> Vec<u8> {
    let x = x(rng, on_curve);
    if target == TAPROOT {
        return x;
    }
    let mut bytes = vec![2 + rng.below(2) as u8];
    bytes.extend(x);
    bytes
}

/// A key of the target that lies on the curve, spelt in lower case, upper case or both.
pub fn good_key(rng: &mut Rng, target: u8) -> String {
    let digits = hex(&key_bytes(rng, target, true));
    match rng.below(4) {
        0 => digits.to_uppercase(),
        1 => mixed_case(rng, &digits),
        _ => digits,
    }
}

pub fn mixed_case(rng: &mut Rng, digits: &str) -> String {
    digits.chars().map(|c| if rng.chance(50) { c.to_ascii_uppercase() } else { c }).collect()
}
