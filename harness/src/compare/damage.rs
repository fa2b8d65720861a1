//! Damaged listings: bytes, fields and lines changed without regard to what they say.

use crate::rng::Rng;

/// Bytes that mean something to a reader of listings, and some that never may stand in one.
const BYTES: &[u8] = b",\n-+0123456789abcdefgTDPBILVEvnbslcmuhzgSM_ \r\0\t.AZz\x7f\x80\xff";

/// What may come in place of a field.
const FIELDS: &[&str] = &[
    "",
    "0",
    "1",
    "2",
    "3",
    "4",
    "5",
    "7",
    "8",
    "-0",
    "-1",
    "+1",
    "00",
    "01",
    "31",
    "32",
    "33",
    "63",
    "64",
    "65",
    "1023",
    "1024",
    "1025",
    "65535",
    "65536",
    "2147483647",
    "2147483648",
    "-2147483647",
    "-2147483648",
    "4194303",
    "4194304",
    "4259839",
    "4294967295",
    "4294967296",
    "9223372036854775807",
    "9223372036854775808",
    "-9223372036854775808",
    "-9223372036854775809",
    "18446744073709551616",
    "99999999999999999999999999",
    "000000000000000000000000001",
    "a",
    "_",
    "aa",
    "AA",
    "a-b",
    "abc",
    "6161",
    "616",
    "FF",
    "ff",
    "abcdefghijklmnopqrstuvwxyz012345",
    "abcdefghijklmnopqrstuvwxyz0123456",
];

/// Whole lines that may come in between.
const LINES: &[&str] = &[
    "",
    "T,0,1",
    "D,0",
    "D,1",
    "P,1,2,3,4,0,x",
    "B,0",
    "B,1",
    "I,1,2,3,4,1",
    "I,1,2,3,4,0",
    "L,1,2,3,4,1,5",
    "L,1,2,3,4,2,5",
    "L,1,2,3,4,2,65536",
    "L,1,2,3,4,2,-1",
    "L,1,2,3,4,2,",
    "L,1,2,3,4,2",
    "L,1,2,3,4,3,5",
    "V,1,2,3,4",
    "E,1,2,3,4",
    "v,1,2,3,4,x",
    "n,1,2,3,4,5",
    "b,1,2,3,4,1",
    "s,1,2,3,4,6161,0",
    "s,1,2,3,4,,0",
    "l,1,2,3,4,0",
    "c,1,2,3,4,0",
    "m,1,2,3,4,0",
    "u,1,2,3,4,4",
    "h,1,2,3,4,0",
    "z,1,2,3,4",
    "g,1,2,3,4",
    "S,1,2,3,4",
    "M,1,2,3,4,1,1",
    "M,1,2,3,4,1,65",
    "x",
    ",",
    "T",
    "v,1,2,3,4,",
    "V,1,2,3,4,",
    "b,1,2,3,4,2",
    "n,1,2,3,4,05",
];

/// Damages a listing in one to three ways.
pub fn damage(rng: &mut Rng, listing: &mut Vec<u8>) {
    for _ in 0..[1, 1, 1, 2, 3][rng.below(5)] {
        match rng.below(3) {
            0 => damage_bytes(rng, listing),
            1 => damage_lines(rng, listing),
            _ => damage_field(rng, listing),
        }
    }
}

fn damage_bytes(rng: &mut Rng, listing: &mut Vec<u8>) {
    if listing.is_empty() {
        listing.push(rng.pick(BYTES));
        return;
    }
    let place = rng.below(listing.len());
    let end = (place + 1 + rng.below(20)).min(listing.len());
    match rng.below(9) {
        0 => listing[place] ^= 1 << rng.below(8),
        1 => listing[place] = rng.pick(BYTES),
        2 => drop(listing.remove(place)),
        3 => listing.insert(place, rng.pick(BYTES)),
        4 => listing.insert(place, listing[place]),
        5 => drop(listing.drain(place..end)),
        6 => {
            let copied = listing[place..end].to_vec();
            let to = rng.below(listing.len() + 1);
            listing.splice(to..to, copied);
        }
        7 => listing.truncate(place),
        _ => listing.push(rng.pick(BYTES)),
    }
}

/// Where the lines begin, and the end of the last.
fn bounds(listing: &[u8]) -> Vec<usize> {
    let mut found = vec![0];
    found.extend((0..listing.len()).filter(|&i| listing[i] == b'\n').map(|i| i + 1));
    if found.last() != Some(&listing.len()) {
        found.push(listing.len());
    }
    found
}

fn damage_lines(rng: &mut Rng, listing: &mut Vec<u8>) {
    let bounds = bounds(listing);
    if bounds.len() < 2 {
        listing.extend_from_slice(b"T,0,1\n");
        return;
    }
    let i = rng.below(bounds.len() - 1);
    let (from, to) = (bounds[i], bounds[i + 1]);
    match rng.below(8) {
        0 => drop(listing.drain(from..to)),
        1 => {
            let copied = listing[from..to].to_vec();
            listing.splice(from..from, copied);
        }
        2 => {
            let other = rng.pick(&bounds);
            let copied = listing[from..to].to_vec();
            listing.splice(other..other, copied);
        }
        3 => listing.truncate(to),
        4 => {
            // Two neighbours change places.
            let next = bounds.get(i + 2).copied().unwrap_or(to);
            listing[from..next].rotate_left(to - from);
        }
        5 => {
            let line = format!("{}\n", rng.pick(LINES));
            listing.splice(from..from, line.bytes());
        }
        6 => {
            let line = format!("{}\n", rng.pick(LINES));
            listing.splice(from..to, line.bytes());
        }
        _ => {
            // The line loses its end.
            if to > from + 1 {
                listing.drain(from + 1 + rng.below(to - from - 1)..to);
            }
        }
    }
}

/// A field of a line gets another text, goes, or comes twice.
fn damage_field(rng: &mut Rng, listing: &mut Vec<u8>) {
    let bounds = bounds(listing);
    if bounds.len() < 2 {
        return;
    }
    let i = rng.below(bounds.len() - 1);
    let line = String::from_utf8_lossy(&listing[bounds[i]..bounds[i + 1]]).trim_end_matches('\n').to_string();
    let mut fields: Vec<&str> = line.split(',').collect();
    let place = rng.below(fields.len());
    match rng.below(6) {
        0 => drop(fields.remove(place)),
        1 => fields.insert(place, fields[place]),
        _ => fields[place] = rng.pick(FIELDS),
    }
    let changed = fields.join(",") + "\n";
    listing.splice(bounds[i]..bounds[i + 1], changed.bytes());
}
