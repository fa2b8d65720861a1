//! Stands in for the crate `bitcoin`: its two key constructors, over libsecp256k1 or over a listing's marks.

use std::cell::{Cell, RefCell};
use std::collections::HashMap;

/// The bytes are no key.
#[derive(Debug)]
pub struct NotAKey;

/// A public key: 33 bytes compressed or 65 bytes uncompressed.
pub struct PublicKey;

/// An x-only public key of BIP 340.
pub struct XOnlyPublicKey;

/// Who says which bytes are a key, on the calling thread.
pub enum Keys {
    /// libsecp256k1. Each thread begins with it.
    Curve,
    /// The marks of a listing: each key's bytes with its mark. All other bytes are no key.
    Marks(HashMap<Vec<u8>, bool>),
    /// A listing in which every key is marked 1: the mark is not even looked up.
    AllMarked,
}

thread_local! {
    static ALL_MARKED: Cell<bool> = const { Cell::new(false) };
    static MARKS: RefCell<Option<HashMap<Vec<u8>, bool>>> = const { RefCell::new(None) };
}

/// Sets who says which bytes are a key, until it is set again.
pub fn set_keys(keys: Keys) {
    ALL_MARKED.set(matches!(keys, Keys::AllMarked));
    MARKS.set(match keys {
        Keys::Marks(marks) => Some(marks),
        _ => None,
    });
}

fn is_key(bytes: &[u8], on_curve: fn(&[u8]) -> bool) -> Result<(), NotAKey> {
    let found = ALL_MARKED.get()
        || MARKS.with_borrow(|marks| match marks {
            Some(marks) => marks.get(bytes).copied().unwrap_or(false),
            None => on_curve(bytes),
        });
    found.then_some(()).ok_or(NotAKey)
}

impl PublicKey {
    pub fn from_slice(bytes: &[u8]) -> Result<PublicKey, NotAKey> {
        is_key(bytes, curve::is_public_key).map(|()| PublicKey)
    }
}

impl XOnlyPublicKey {
    pub fn from_slice(bytes: &[u8]) -> Result<XOnlyPublicKey, NotAKey> {
        is_key(bytes, curve::is_x_only_key).map(|()| XOnlyPublicKey)
    }
}
