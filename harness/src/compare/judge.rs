//! Holds Check, Report and Name against the original and the models, on one listing.

use super::order;
use super::question::{self, How};
use super::stack;
use super::twin;
use crate::listing;
use crate::oracle::Answer;
use crate::tree::{Contract, Where};
use examiner::Numbers;

/// What a disagreement is about. While a listing is made smaller this stays.
#[derive(Clone, Copy, Debug, PartialEq, Eq)]
pub enum About {
    /// Check and the reader of listing.rs, on numbers 1 to 4.
    Reading,
    /// Check and the original.
    Original,
    /// Check and the number that the case was made for.
    Aim,
    /// Acceptance and demand 3 by running.
    Demand3,
    /// What Check hands back twice, or zeros with acceptance.
    Shape,
    /// Report with an output that is long enough.
    Report,
    /// Report with an output that is too short.
    ShortOutput,
    /// Name on every item, past them, and on a listing that is refused.
    Name,
    /// Check and Report with op 1 in place of op 2.
    Op2,
}

/// Two answers that should be one.
#[derive(Clone, Debug)]
pub struct Disagreement {
    pub about: About,
    pub text: String,
}

/// What was seen where all agree.
pub struct Seen {
    /// Check's number.
    pub number: u32,
    /// How the original was asked; nothing if the listing cannot be read.
    pub how: Option<How>,
    /// How many `W` lines the report has.
    pub waits: usize,
}

/// What a made case expects: its number, and its place if it names one.
pub type Due = (u8, Option<Where>);

/// Pretends that the original never answers this number, to see that a disagreement is found.
pub type Plant = Option<u8>;

pub fn disagree<T>(about: About, text: String) -> Result<T, Disagreement> {
    Err(Disagreement { about, text })
}

/// Holds everything against everything.
pub fn judge(listing: &[u8], due: Option<Due>, plant: Plant) -> Result<Seen, Disagreement> {
    let (returned, check) = examiner::check(listing);
    if returned != check[0] || check[0] == 0 && check != [0; 5] {
        return disagree(About::Shape, format!("Check returns {returned} and answers {check:?}"));
    }
    let (how, text) = match listing::read(listing) {
        Err(refusal) => {
            let expected = [u32::from(refusal.number), 0, 0, refusal.line, 0];
            if check != expected {
                return disagree(About::Reading, format!("Check {check:?}\nreader {expected:?}"));
            }
            (None, refusal_text(&check))
        }
        Ok(contract) => {
            let how = original(&contract, &check, plant)?;
            aim(&check, due)?;
            (Some(how), demand_3(&contract, listing, &check)?)
        }
    };
    reports(listing, &check, &text)?;
    names(listing, &check)?;
    if how.is_some_and(How::is_op_2) {
        twin::holds(listing, &check, &text)?;
    }
    let waits = text.split(|&byte| byte == b'\n').filter(|line| line.starts_with(b"W,")).count();
    Ok(Seen { number: check[0], how, waits })
}

/// Check's answer is the original's, wherever the original can be asked.
fn original(contract: &Contract, check: &Numbers, plant: Plant) -> Result<How, Disagreement> {
    let (answer, how) = question::ask(contract);
    let expected = match answer {
        None => return Ok(how),
        Some(Answer::Accepted) => [0; 5],
        Some(Answer::Refused(number, _)) if plant == Some(number) => [99, 0, 0, 0, 0],
        Some(Answer::Refused(number, at)) => [u32::from(number), at.start, at.end, at.line, at.column],
        Some(other) => return disagree(About::Original, format!("Check {check:?}\noriginal {other:?}")),
    };
    if *check != expected {
        return disagree(About::Original, format!("Check {check:?}\noriginal {expected:?}, asked: {how:?}"));
    }
    Ok(how)
}

/// Check's answer is the one that the case was made for.
fn aim(check: &Numbers, due: Option<Due>) -> Result<(), Disagreement> {
    let Some((number, at)) = due else {
        return Ok(());
    };
    let place = at.map(|at| [at.start, at.end, at.line, at.column]);
    if check[0] != u32::from(number) || place.is_some_and(|place| check[1..] != place) {
        return disagree(About::Aim, format!("Check {check:?}\ncase {number} at {at:?}"));
    }
    Ok(())
}

/// Check accepts exactly if all is in order and every path empties its stack. Gives the text that is due from Report.
fn demand_3(contract: &Contract, listing: &[u8], check: &Numbers) -> Result<Vec<u8>, Disagreement> {
    let accepted = check[0] == 0;
    if !order::flow(&contract.block) {
        return match accepted {
            true => disagree(About::Demand3, format!("Check {check:?}\nmodel: flow is not in order")),
            false => Ok(refusal_text(check)),
        };
    }
    let paths = stack::paths(listing);
    let counted = paths.count() == paths.declared();
    let named = counted && order::names(contract);
    let typed = named && order::types_and_limits(contract);
    let empty = counted && paths.all_empty();
    if accepted != (typed && empty) {
        let model = format!("count {counted}, names {named}, types and limits {typed}, all paths empty {empty}");
        return disagree(About::Demand3, format!("Check {check:?}\nmodel: {model}"));
    }
    Ok(if accepted { paths.report() } else { refusal_text(check) })
}

fn refusal_text(check: &Numbers) -> Vec<u8> {
    let [number, start, end, line, column] = check;
    format!("R,{number},{start},{end},{line},{column}\n").into_bytes()
}

/// What an output holds before Report.
fn untouched(length: usize) -> Vec<u8> {
    (0..length).map(|i| (i * 31 + 7) as u8).collect()
}

/// Report with room to spare, with just enough, with one byte too few, and with none.
fn reports(listing: &[u8], check: &Numbers, text: &[u8]) -> Result<(), Disagreement> {
    let spare = 1 + listing.len() % 97;
    for room in [text.len() + spare, text.len(), text.len() - 1] {
        report(listing, check, text, room)?;
    }
    if listing.len() % 16 == 0 {
        report(listing, check, text, 0)?;
    }
    Ok(())
}

fn report(listing: &[u8], check: &Numbers, text: &[u8], room: usize) -> Result<(), Disagreement> {
    let mut expected = untouched(room);
    let mut output = expected.clone();
    let (length, answer) = examiner::report(listing, &mut output);
    let (about, due) = if room < text.len() {
        (About::ShortOutput, (0, [6, 0, 0, 0, 0]))
    } else {
        expected[..text.len()].copy_from_slice(text);
        (About::Report, (text.len(), *check))
    };
    if (length, answer) != due || output != expected {
        let numbers = format!("Report {answer:?}, length {length}\ndue {:?}, length {}", due.1, due.0);
        let show = |bytes: &[u8]| String::from_utf8_lossy(bytes).into_owned();
        return disagree(about, format!("{numbers}\nReport's output:\n{}\ndue:\n{}", show(&output), show(&expected)));
    }
    Ok(())
}

/// Name gives the place of each item's name, as the lines of the listing have it, and none past the last item of a path, past the
/// last path, or if the listing is refused.
fn names(listing: &[u8], check: &Numbers) -> Result<(), Disagreement> {
    let length = listing.len() as u32;
    let mut none = vec![(0, 0), (length % 3, length % 5)];
    if check[0] == 0 {
        let places = stack::paths(listing).places(listing);
        let last = places.len() as u32;
        none = vec![(last, 0), (u32::MAX, 0), (last - 1, u32::MAX)];
        for (path, items) in (0..).zip(&places) {
            none.push((path, items.len() as u32));
            (0..).zip(items).try_for_each(|(position, &place)| name(listing, check, path, position, place))?;
        }
    }
    none.iter().try_for_each(|&(path, position)| name(listing, check, path, position, [0, 0]))
}

/// Name on one item: Check's number, and the place that is due.
fn name(listing: &[u8], check: &Numbers, path: u32, position: u32, due: [u32; 2]) -> Result<(), Disagreement> {
    let (returned, place) = examiner::name(listing, path, position);
    if (returned, place) != (check[0], due) {
        let asked = format!("Name of position {position} on path {path}");
        return disagree(About::Name, format!("{asked} {returned}, {place:?}\ndue {}, {due:?}", check[0]));
    }
    Ok(())
}

#[cfg(test)]
mod tests {
    use super::*;

    const CONTRACT: &str = "T,0,2\nD,2\nP,0,1,1,0,2,p\nP,3,4,1,3,3,c\nD,2\nP,6,7,2,0,1,n\nP,9,10,2,3,3,c\nB,1\n\
        I,20,60,3,0,1\nv,23,24,3,3,c\nB,1\nE,30,44,4,0\nc,37,44,4,7,0\nh,37,40,4,7,0\nv,38,39,4,8,p\n\
        s,42,44,4,12,6161,0\nB,1\nE,50,58,6,0\nc,53,58,6,3,0\nv,53,54,6,3,n\nn,57,58,6,7,7\n";

    /// Document 01, "One contract whole": the models give its report.
    #[test]
    fn one_contract_whole() {
        let contract = listing::read(CONTRACT.as_bytes()).unwrap();
        let text = demand_3(&contract, CONTRACT.as_bytes(), &[0; 5]).unwrap();
        let expected = "A,2\nD,0,2\nP,0,3,1,10,c\nP,1,2,1,15,p\nD,1,2\nP,0,3,1,10,c\nP,1,1,1,20,n\n";
        assert_eq!(String::from_utf8(text).unwrap(), expected);
        assert!(demand_3(&contract, CONTRACT.as_bytes(), &[14, 0, 0, 1, 0]).is_err());
    }

    /// Waits of each op before an if, in its if-block and in its else-block, with what the fields hold.
    fn with_waits(first: &str, second: &str, third: &str) -> String {
        format!(
            "T,1,2\nD,1\nP,1,2,3,4,3,c\nD,1\nP,1,2,3,4,3,c\nB,2\nL,1,2,3,4,{first}\nI,1,2,3,4,1\nv,1,2,3,4,c\nB,2\n\
             L,1,2,3,4,{second}\nE,1,2,3,4\nb,1,2,3,4,1\nB,2\nL,1,2,3,4,{third}\nE,1,2,3,4\nb,1,2,3,4,1\n"
        )
    }

    /// Document 02, b: the waits come after the last path, in listing order, op 2 with bit 22.
    #[test]
    fn waits_after_the_paths() {
        let listing = with_waits("2,65535", "0,4294967295", "1,0");
        let contract = listing::read(listing.as_bytes()).unwrap();
        let text = demand_3(&contract, listing.as_bytes(), &[0; 5]).unwrap();
        let paths = "A,2\nD,0,1\nP,0,3,1,9,c\nD,1,1\nP,0,3,1,9,c\n";
        let expected = format!("{paths}W,7,4259839\nW,11,4294967295\nW,15,0\n");
        assert_eq!(String::from_utf8(text).unwrap(), expected);
    }

    /// Op 2 is from 0 to 65535, and the original says so where op 1 stands in its place.
    #[test]
    fn bounds_of_op_2() {
        for (operand, accepted) in [(0, true), (1, true), (65535, true), (65536, false), (-1, false), (4194304, false)] {
            let listing = with_waits("0,1", "1,2", &format!("2,{operand}"));
            let contract = listing::read(listing.as_bytes()).unwrap();
            let check = if accepted { [0; 5] } else { [21, 1, 2, 3, 4] };
            assert!(demand_3(&contract, listing.as_bytes(), &check).is_ok(), "{operand}");
            assert_eq!(original(&contract, &check, None).unwrap(), How::Op1ForOp2);
        }
    }
}
