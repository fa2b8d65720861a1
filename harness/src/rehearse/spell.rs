//! Calls and answers as text, one call to a line, and a file of such lines asked again:
//!
//!     listing HEX                                        holds for the calls below it
//!     open PATH -> ANSWER REHEARSAL DUE
//!     lay REHEARSAL NAME TYPE -> ANSWER REHEARSAL DUE    NAME in hex
//!     back REHEARSAL -> ANSWER REHEARSAL DUE
//!
//! ANSWER, REHEARSAL and DUE are the words that the C functions write, with commas. A refusal has - for the last two, which
//! stay as they were handed in. HEX and NAME are - for no bytes. A line that begins with # says nothing.

use super::make;
use super::model::{Answer, Call};
use crate::keys;
use examiner::Words;

/// Disagreements beyond these are only counted.
const MOST_SHOWN: usize = 10;

pub fn bytes(bytes: &[u8]) -> String {
    if bytes.is_empty() {
        "-".to_string()
    } else {
        keys::hex(bytes)
    }
}

pub fn words(words: &[u32]) -> String {
    words.iter().map(u32::to_string).collect::<Vec<_>>().join(",")
}

pub fn call([path, due]: [u32; 2], call: &Call) -> String {
    match call {
        Call::Open(path) => format!("open {path}"),
        Call::Lay(name, kind) => format!("lay {path},{due} {} {kind}", bytes(name)),
        Call::TakeBack => format!("back {path},{due}"),
    }
}

pub fn answer(answer: Answer) -> String {
    match answer {
        Answer::Refused(numbers) => format!("{} - -", words(&numbers)),
        Answer::Shown(shown) => format!("0,0,0,0,0 {} {}", words(&shown.rehearsal), words(&shown.due)),
    }
}

fn read_bytes(text: &str) -> Option<Vec<u8>> {
    if text == "-" {
        Some(vec![])
    } else {
        keys::unhex(text.as_bytes())
    }
}

fn read_words<const COUNT: usize>(text: &str) -> Option<[u32; COUNT]> {
    text.split(',').map(|word| word.parse().ok()).collect::<Option<Vec<u32>>>()?.try_into().ok()
}

/// A line of a call: the state that it is handed (open is handed words that mean nothing), the call, and what is due.
fn read_call(line: &str) -> Option<([u32; 2], Call, Answer)> {
    let (asked, due) = line.split_once(" -> ")?;
    let (state, call) = match asked.split(' ').collect::<Vec<_>>()[..] {
        ["open", path] => ([0xdead_beef, 0xbeef_dead], Call::Open(path.parse().ok()?)),
        ["lay", state, name, kind] => (read_words(state)?, Call::Lay(read_bytes(name)?, kind.parse().ok()?)),
        ["back", state] => (read_words(state)?, Call::TakeBack),
        _ => return None,
    };
    let answer = match due.split(' ').collect::<Vec<_>>()[..] {
        [numbers, "-", "-"] => Answer::Refused(read_words(numbers)?),
        ["0,0,0,0,0", rehearsal, due] => Answer::Shown(Words { rehearsal: read_words(rehearsal)?, due: read_words(due)? }),
        _ => return None,
    };
    Some((state, call, answer))
}

/// Makes each call of a file. How many agree; a failure if one does not.
pub fn replay(stored: &[u8]) -> Result<String, String> {
    let text = std::str::from_utf8(stored).map_err(|e| e.to_string())?;
    let (mut listing, mut listings, mut calls) = (vec![], 0, 0);
    let mut faults: Vec<String> = vec![];
    for (number, line) in (1..).zip(text.lines()).filter(|(_, line)| !line.is_empty() && !line.starts_with('#')) {
        let unread = || format!("line {number} cannot be read: {line}");
        if let Some(hex) = line.strip_prefix("listing ") {
            listing = read_bytes(hex).ok_or_else(unread)?;
            listings += 1;
            continue;
        }
        let (state, call, due) = read_call(line).ok_or_else(unread)?;
        calls += 1;
        let handed = Words { rehearsal: state, due: [0xdead_beef; 4] };
        let got = make(&listing, &call, handed);
        if got != due.outcome(handed) {
            faults.push(format!("line {number}: {line}\n  got {got:?}"));
        }
    }
    if !faults.is_empty() {
        let shown = faults.iter().take(MOST_SHOWN).cloned().collect::<Vec<_>>().join("\n");
        return Err(format!("{shown}\n{} of {calls} calls on {listings} listings are answered otherwise", faults.len()));
    }
    Ok(format!("{calls} calls on {listings} listings are answered as stored"))
}
