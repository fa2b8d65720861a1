//! Which bytes are keys on secp256k1, asked of the C library libsecp256k1.

use std::os::raw::{c_int, c_uchar, c_uint, c_void};
use std::sync::OnceLock;

/// The library's public keys, plain and x-only, are 64 opaque bytes.
type Key = [c_uchar; 64];

/// SECP256K1_CONTEXT_NONE of secp256k1.h.
const CONTEXT_NONE: c_uint = 1;

#[link(name = "secp256k1")]
extern "C" {
    fn secp256k1_context_create(flags: c_uint) -> *mut c_void;
    fn secp256k1_ec_pubkey_parse(context: *const c_void, key: *mut Key, bytes: *const c_uchar, length: usize) -> c_int;
    fn secp256k1_xonly_pubkey_parse(context: *const c_void, key: *mut Key, bytes: *const c_uchar) -> c_int;
}

/// One context for the whole run. Parsing only reads it, so threads may share it.
fn context() -> *const c_void {
    static CONTEXT: OnceLock<usize> = OnceLock::new();
    *CONTEXT.get_or_init(|| {
        // SAFETY: creating a context has no conditions.
        let made = unsafe { secp256k1_context_create(CONTEXT_NONE) };
        assert!(!made.is_null());
        made as usize
    }) as *const c_void
}

/// Does the library read these bytes as a public key (33 bytes compressed, 65 bytes uncompressed or hybrid)?
pub fn is_public_key(bytes: &[u8]) -> bool {
    let mut key: Key = [0; 64];
    // SAFETY: the context is alive, the key has the library's size, the bytes have the length given.
    unsafe { secp256k1_ec_pubkey_parse(context(), &mut key, bytes.as_ptr(), bytes.len()) == 1 }
}

/// Are these bytes an x-only key of BIP 340: 32 bytes, the x of a point?
pub fn is_x_only_key(bytes: &[u8]) -> bool {
    let mut key: Key = [0; 64];
    // SAFETY: as above; the library reads exactly 32 bytes, and there are as many.
    bytes.len() == 32 && unsafe { secp256k1_xonly_pubkey_parse(context(), &mut key, bytes.as_ptr()) == 1 }
}
