//! The listings that are rehearsed on: those of `compare`, most of them good, each judged as `compare` judges it.

use super::model::Known;
use crate::compare::damage::damage;
use crate::compare::inputs::{Input, Inputs};
use crate::compare::judge::judge;
use crate::compare::question::How;
use crate::compare::{shapes, stack};
use crate::rng::Rng;
use crate::{good, keys, make, seconds, writer};
use std::rc::Rc;

/// So many earlier listings are kept, to be lent in place of the one opened.
const KEPT: usize = 64;

pub struct Listings {
    inputs: Inputs,
    kept: Vec<Rc<Known>>,
}

impl Listings {
    pub fn new(seed: u64) -> Listings {
        Listings { inputs: Inputs::new(seed), kept: vec![] }
    }

    pub fn next(&mut self, rng: &mut Rng) -> Result<Rc<Known>, String> {
        let known = Rc::new(know(self.some(rng))?);
        if self.kept.len() < KEPT {
            self.kept.push(known.clone());
        } else {
            let place = rng.below(KEPT);
            self.kept[place] = known.clone();
        }
        Ok(known)
    }

    /// Five of eight are good, one of these at a ceiling; the others are any of `compare`'s, half of the refused left out.
    fn some(&mut self, rng: &mut Rng) -> Input {
        match rng.below(8) {
            0..=3 => {
                let size = shapes::some_size(rng);
                let mut contract = good::contract(rng, size);
                if rng.chance(30) {
                    seconds::put_in(rng, &mut contract);
                }
                make::place(&mut contract);
                keys::set_marks(&mut contract);
                Input { class: "good", listing: writer::write(&contract), due: None }
            }
            4 => Input { class: "at the ceilings", listing: writer::write(&shapes::contract(rng, false)), due: None },
            _ => loop {
                let input = self.inputs.next();
                if examiner::check(&input.listing).0 == 0 || rng.chance(50) {
                    return input;
                }
            },
        }
    }

    /// Another listing than this one: an earlier one, the same with another number in a field, or the same damaged.
    pub fn other(&mut self, rng: &mut Rng, known: &Known) -> Result<Rc<Known>, String> {
        let mut listing = known.listing.clone();
        match rng.below(4) {
            0 => damage(rng, &mut listing),
            1 => listing = other_number(rng, &listing),
            _ => return Ok(self.kept[rng.below(self.kept.len())].clone()),
        }
        Ok(Rc::new(know(Input { class: "in place of the one opened", listing, due: None })?))
    }
}

/// Check's answer and the items of each path, once `compare` has held the listing against the original and its models.
fn know(input: Input) -> Result<Known, String> {
    let listing = input.listing;
    let seen = judge(&listing, input.due, None).map_err(|found| {
        let text = String::from_utf8_lossy(&listing);
        format!("run compare: disagreement about {:?}\n{}\n--- the listing\n{text}", found.about, found.text)
    })?;
    let (_, check) = examiner::check(&listing);
    let paths = if check[0] == 0 { stack::paths(&listing).shown(&listing) } else { vec![] };
    Ok(Known { class: input.class, listing, check, paths, op_2: seen.how.is_some_and(How::is_op_2) })
}

/// One field that is a number has another one: most are locations, so the listing is as good as before and its names stand
/// elsewhere.
fn other_number(rng: &mut Rng, listing: &[u8]) -> Vec<u8> {
    let mut fields: Vec<Vec<u8>> = listing.split(|&byte| byte == b',').map(<[u8]>::to_vec).collect();
    let numbers: Vec<usize> = (0..fields.len()).filter(|&k| fields[k].iter().all(u8::is_ascii_digit)).collect();
    if !numbers.is_empty() {
        fields[numbers[rng.below(numbers.len())]] = rng.pick(&[0, 2, 3, 70, 123456]).to_string().into_bytes();
    }
    fields.join(&b','.to_owned())
}
