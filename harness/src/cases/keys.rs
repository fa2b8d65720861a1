//! 22: the forms of a key, for each target; and the published keys of BIP 340.

use crate::case::Suite;
use crate::keys::{good_key, hex, key_bytes, x};
use crate::make::*;
use crate::tree::*;

/// The public keys of BIP 340's test vectors, by the vector's number. Two are no keys: 5 is not on the curve, 14 exceeds the
/// field's size.
const BIP340: &[(u32, &str)] = &[
    (0, "F9308A019258C31049344F85F89D5229B531C845836F99B08601F113BCE036F9"),
    (1, "DFF1D77F2A671C5F36183726DB2341BE58FEAE1DA2DECED843240F7B502BA659"),
    (2, "DD308AFEC5777E13121FA72B9CC1B7CC0139715309B086C960E18FD969774EB8"),
    (3, "25D1DFF95105F5253C4022F628A996AD3A0D95FBF21D468A1B33F8C160D8F517"),
    (4, "D69C3509BB99E412E68B0FE8544E72837DFA30746D8BE2AA65975F29D22DC7B9"),
    (5, "EEFDEA4CDB677750A420FEE807EACF21EB9898AE79B9768766E4FAA04A2D4A34"),
    (14, "FFFFFFFFFFFFFFFFFFFFFFFFFFFFFFFFFFFFFFFFFFFFFFFFFFFFFFFEFFFFFC30"),
    (15, "778CAA53B4393AC467774D09497A87224BF9FAB6F6E68B23086497324D6FD117"),
];

/// The field's size, which is no x.
const FIELD: &str = "fffffffffffffffffffffffffffffffffffffffffffffffffffffffefffffc2f";

pub fn add(suite: &mut Suite) {
    published(suite);
    for target in [LEGACY, SEGWIT, TAPROOT] {
        good(suite, target);
        any_target(suite, target);
        if target == TAPROOT {
            taproot(suite);
        } else {
            compressed(suite, target);
        }
    }
}

/// A contract whose key is this literal: alone, or in a multi-signature; accepted or 22 at the key.
fn case(suite: &mut Suite, label: &str, target: u8, literal: &str) {
    let fails = label.starts_with("22@");
    let key = || if fails { s(literal).here() } else { s(literal) };
    suite.target = target;
    suite.add_path(label, &[(SIGNATURE, "sig")], vec![returns(check(v("sig"), key()))]);
    suite.target = target;
    let other = suite.key();
    let whole = check_of(multi(1, vec![single(v("a"), other), single(v("b"), key())]));
    suite.add_path(label, &[(SIGNATURE, "a"), (SIGNATURE, "b")], vec![verify(not(whole)), returns(b(true))]);
}

fn published(suite: &mut Suite) {
    for (number, key) in BIP340 {
        let prefix = if matches!(number, 5 | 14) { 22 } else { 0 };
        case(suite, &format!("{prefix}@bip340-key-{number}"), TAPROOT, key);
        case(suite, &format!("{prefix}@bip340-key-{number}"), TAPROOT, &key.to_lowercase());
        for target in [LEGACY, SEGWIT] {
            case(suite, &format!("{prefix}@bip340-key-{number}-compressed"), target, &format!("02{key}"));
            case(suite, "22@key-32-bytes", target, key);
        }
    }
}

fn good(suite: &mut Suite, target: u8) {
    let digits = hex(&key_bytes(&mut suite.rng, target, true));
    case(suite, "0@key-lower-case", target, &digits.to_lowercase());
    case(suite, "0@key-upper-case", target, &digits.to_uppercase());
    let mixed = crate::keys::mixed_case(&mut suite.rng, &digits);
    case(suite, "0@key-mixed-case", target, &mixed);
    if target != TAPROOT {
        for prefix in ["02", "03"] {
            let digits = format!("{prefix}{}", hex(&x(&mut suite.rng, true)));
            case(suite, &format!("0@key-prefix-{prefix}"), target, &digits);
        }
    }
}

/// Literals that are a key for no target.
fn any_target(suite: &mut Suite, target: u8) {
    let key = good_key(&mut suite.rng, target);
    case(suite, "22@key-empty", target, "");
    case(suite, "22@key-odd-digits", target, &key[..key.len() - 1]);
    case(suite, "22@key-odd-digits", target, &format!("{key}0"));
    case(suite, "22@key-no-hex-digit", target, &format!("{}g", &key[..key.len() - 1]));
    case(suite, "22@key-no-hex-digit", target, &format!("0x{}", &key[2..]));
    case(suite, "22@key-no-hex-digit", target, &format!(" {}", &key[1..]));
    case(suite, "22@key-not-ascii", target, &format!("\u{e4}{}", &key[2..]));
    case(suite, "22@key-not-hex", target, "alice");
    case(suite, "22@key-one-byte-short", target, &key[..key.len() - 2]);
    case(suite, "22@key-one-byte-long", target, &format!("{key}00"));
    case(suite, "22@key-twice", target, &format!("{key}{key}"));
    case(suite, "22@key-uncompressed-65-bytes", target, UNCOMPRESSED);
    case(suite, "22@key-zero", target, &"0".repeat(key.len()));
    case(suite, "22@key-over-520-bytes", target, &"02".repeat(521));
}

/// The generator with both coordinates, which the library itself reads as a key.
const UNCOMPRESSED: &str = "0479be667ef9dcbbac55a06295ce870b07029bfcdb2dce28d959f2815b16f81798483ada7726a3c4655da4fbfc0e1108a8fd17b448a68554199c47d08ffb10d4b8";

fn compressed(suite: &mut Suite, target: u8) {
    for prefix in ["00", "01", "04", "05", "06", "07", "0a", "12", "22", "20", "30", "82", "ff"] {
        let digits = format!("{prefix}{}", hex(&x(&mut suite.rng, true)));
        case(suite, &format!("22@key-33-bytes-prefix-{prefix}"), target, &digits);
    }
    for _ in 0..3 {
        let digits = hex(&key_bytes(&mut suite.rng, target, false));
        case(suite, "22@key-not-on-curve", target, &digits);
    }
    case(suite, "22@key-exceeds-field", target, &format!("02{FIELD}"));
    case(suite, "22@key-exceeds-field", target, &format!("03{}", "f".repeat(64)));
    let digits = hex(&x(&mut suite.rng, true));
    case(suite, "22@key-32-bytes", target, &digits);
    let bad = format!("04{}", hex(&x(&mut suite.rng, false)));
    case(suite, "22@key-prefix-and-not-on-curve", target, &bad);
}

fn taproot(suite: &mut Suite) {
    for prefix in ["02", "03", "04"] {
        let digits = format!("{prefix}{}", hex(&x(&mut suite.rng, true)));
        case(suite, "22@taproot-33-bytes", TAPROOT, &digits);
    }
    for _ in 0..3 {
        let digits = hex(&x(&mut suite.rng, false));
        case(suite, "22@key-not-on-curve", TAPROOT, &digits);
    }
    case(suite, "22@key-exceeds-field", TAPROOT, FIELD);
    case(suite, "22@key-exceeds-field", TAPROOT, &"F".repeat(64));
    let digits = hex(&suite.rng.bytes(31));
    case(suite, "22@taproot-31-bytes", TAPROOT, &digits);
}
