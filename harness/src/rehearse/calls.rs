//! Calls at random: right and wrong items, paths that are not there, states that no call leaves.

use super::model::{Call, Known};
use crate::compare::stack::Shown;
use crate::rng::Rng;

/// Numbers that only look like the one given: more than 8, 16 or 31 bits of it count.
fn beyond(rng: &mut Rng, number: u32) -> u32 {
    number.wrapping_add(rng.pick(&[4, 32, 256, 1 << 16, 1 << 31]))
}

fn wild(rng: &mut Rng) -> u32 {
    match rng.below(3) {
        0 => rng.pick(&[u32::MAX, u32::MAX - 1, 1 << 31, (1 << 31) - 1]),
        1 => rng.below(40) as u32,
        _ => rng.next() as u32,
    }
}

/// A path of an accepted listing, which always has one.
pub fn some_path(rng: &mut Rng, known: &Known) -> u32 {
    rng.below(known.paths.len().max(1)) as u32
}

/// A path that an accepted listing does not have. It may be there after all where it is any number.
pub fn no_path(rng: &mut Rng, known: &Known) -> u32 {
    let count = known.paths.len() as u32;
    match rng.below(4) {
        0..=1 => count,
        2 => {
            let path = some_path(rng, known);
            beyond(rng, path)
        }
        _ => wild(rng),
    }
}

/// Any two words: most of them near what the listing has.
pub fn some_state(rng: &mut Rng, known: &Known) -> [u32; 2] {
    let path = if rng.chance(75) { some_path(rng, known) } else { no_path(rng, known) };
    let count = known.paths.get(path as usize).map_or(0, Vec::len) as u32;
    let position = match rng.below(6) {
        0..=1 => rng.below(count as usize + 1) as u32,
        2 => count,
        3 => count + 1 + rng.below(3) as u32,
        4 => {
            let position = rng.below(count as usize + 1) as u32;
            beyond(rng, position)
        }
        _ => wild(rng),
    };
    [path, position]
}

/// The item itself.
pub fn right(item: &Shown) -> Call {
    Call::Lay(item.name.clone(), item.kind)
}

/// An item that is not due at this position, as near to the one due as can be. Now and then it is right by chance.
pub fn wrong(rng: &mut Rng, items: &[Shown], position: u32) -> Call {
    let Some(due) = items.get(position as usize) else {
        return none_due(rng, items);
    };
    let (name, kind) = (&due.name, due.kind);
    match rng.below(12) {
        0..=1 => Call::Lay(name.clone(), (kind + 1 + rng.below(3) as u32) % 4),
        2 => Call::Lay(name.clone(), beyond(rng, kind)),
        3 => Call::Lay(name.clone(), rng.pick(&[4, 5, 255, 256, u32::MAX, u32::MAX - 3])),
        4 => Call::Lay(name[..rng.below(name.len())].to_vec(), kind),
        5 => Call::Lay(longer(rng, name), kind),
        6 => Call::Lay(vec![], rng.pick(&[kind, 0])),
        7..=8 => {
            // another item of the path: its name with its type, or with the type due
            let other = &items[rng.below(items.len())];
            Call::Lay(other.name.clone(), rng.pick(&[other.kind, kind]))
        }
        9 => Call::Lay(altered(rng, name), kind),
        10 => {
            let length = rng.pick(&[1, 31, 32, 33, 64, 300]);
            Call::Lay(rng.bytes(length), kind)
        }
        _ => Call::Lay(altered(rng, name), wild(rng)),
    }
}

/// Where nothing is due: items of the path, an empty name with type 0, and others.
fn none_due(rng: &mut Rng, items: &[Shown]) -> Call {
    match (rng.below(4), items.last()) {
        (0, Some(last)) => right(last),
        (1, Some(_)) => right(&items[rng.below(items.len())]),
        (2, _) => Call::Lay(vec![], 0),
        _ => Call::Lay(b"a".to_vec(), rng.below(5) as u32),
    }
}

/// More bytes after the name: the one that ends its line in the listing, or others.
fn longer(rng: &mut Rng, name: &[u8]) -> Vec<u8> {
    let mut longer = name.to_vec();
    match rng.below(4) {
        0 => longer.push(b'\n'),
        1 => longer.push(rng.pick(b"\0,a_0")),
        2 => longer.extend_from_slice(name),
        _ => longer.resize(name.len() + 256, b'a'),
    }
    longer
}

/// One bit of one byte is another.
fn altered(rng: &mut Rng, name: &[u8]) -> Vec<u8> {
    let mut altered = name.to_vec();
    let any = rng.below(name.len());
    let at = rng.pick(&[0, name.len() - 1, any]);
    altered[at] ^= 1 << rng.below(8);
    altered
}
