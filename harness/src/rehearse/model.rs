//! What a call must answer, said twice: over calls from an open on, by the list of the items laid; and on any state, by path
//! and position due. Both know Check's answer and the report lines of each path (compare/stack.rs), nothing else.

use crate::compare::stack::Shown;
use examiner::{Numbers, Words};

/// A listing, Check's answer, and the items of each path from the top; no paths if it is refused.
pub struct Known {
    pub class: &'static str,
    pub listing: Vec<u8>,
    pub check: Numbers,
    pub paths: Vec<Vec<Shown>>,
    /// Has it a wait of op 2?
    pub op_2: bool,
}

#[derive(Clone, Debug, PartialEq, Eq)]
pub enum Call {
    /// A path.
    Open(u32),
    /// A name and a type.
    Lay(Vec<u8>, u32),
    TakeBack,
}

/// What a call hands back.
#[derive(Clone, Copy, Debug, PartialEq, Eq)]
pub enum Answer {
    Refused(Numbers),
    Shown(Words),
}

pub const NO_PATH: Answer = Answer::Refused([31, 0, 0, 0, 0]);
pub const NOT_DUE: Answer = Answer::Refused([32, 0, 0, 0, 0]);

/// Everything that a call writes or returns.
#[derive(Clone, Copy, Debug, PartialEq, Eq)]
pub struct Outcome {
    pub returned: u32,
    pub answer: Numbers,
    pub words: Words,
    /// Are the listing and the name as they were lent?
    pub intact: bool,
}

impl Answer {
    /// What is due from a call that is handed these words: a refusal leaves them as they are.
    pub fn outcome(self, handed: Words) -> Outcome {
        match self {
            Answer::Refused(answer) => Outcome { returned: answer[0], answer, words: handed, intact: true },
            Answer::Shown(words) => Outcome { returned: 0, answer: [0; 5], words, intact: true },
        }
    }
}

/// The state to go on with, and the item there, if there is one.
fn shows(path: u32, position: usize, item: Option<&Shown>) -> Answer {
    let due = item.map_or([0; 4], |item| [1, item.place[0], item.place[1], item.kind]);
    Answer::Shown(Words { rehearsal: [path, position as u32], due })
}

/// A rehearsal as the list of the items laid, first laid first.
#[derive(Clone, Debug)]
pub struct Machine {
    path: u32,
    laid: Vec<(Vec<u8>, u32)>,
}

impl Machine {
    /// Nothing is laid. The path exists.
    pub fn open(path: u32) -> Machine {
        Machine { path, laid: vec![] }
    }

    /// The answer to a call that lends the listing which was opened. `Open` shows where the machine stands.
    pub fn call(&mut self, known: &Known, call: &Call) -> Answer {
        let items = &known.paths[self.path as usize];
        let lines: Vec<(Vec<u8>, u32)> = items.iter().map(|item| (item.name.clone(), item.kind)).collect();
        match call {
            Call::Open(_) => {}
            Call::Lay(name, kind) => {
                let mut longer = self.laid.clone();
                longer.push((name.clone(), *kind));
                if !lines.starts_with(&longer) {
                    return NOT_DUE;
                }
                self.laid = longer;
            }
            Call::TakeBack => {
                self.laid.pop();
            }
        }
        let ended = self.laid == lines;
        shows(self.path, self.laid.len(), if ended { None } else { Some(&items[self.laid.len()]) })
    }
}

/// The answer to a call on any state and any listing.
pub fn counted(known: &Known, [path, due]: [u32; 2], call: &Call) -> Answer {
    if known.check[0] != 0 {
        return Answer::Refused(known.check);
    }
    let path = if let Call::Open(path) = call { *path } else { path };
    let Some(items) = known.paths.get(path as usize) else {
        return NO_PATH;
    };
    let position = match call {
        Call::Open(_) => 0,
        Call::Lay(name, kind) => match items.get(due as usize) {
            Some(item) if item.name == *name && item.kind == *kind => due + 1,
            _ => return NOT_DUE,
        },
        Call::TakeBack => due.saturating_sub(1),
    };
    shows(path, position as usize, items.get(position as usize))
}

#[cfg(test)]
mod tests {
    use super::*;

    /// One path of two items, a (3) and then b (1).
    fn known() -> Known {
        let item = |name: &str, kind, at| Shown { name: name.as_bytes().to_vec(), kind, place: [at, 1] };
        let paths = vec![vec![item("a", 3, 9), item("b", 1, 5)]];
        Known { class: "", listing: vec![], check: [0; 5], paths, op_2: false }
    }

    fn lay(name: &str, kind: u32) -> Call {
        Call::Lay(name.as_bytes().to_vec(), kind)
    }

    #[test]
    fn both_say_what_document_02_says() {
        let shown = |position, due| Answer::Shown(Words { rehearsal: [0, position], due });
        let (a, b, ended) = (shown(0, [1, 9, 1, 3]), shown(1, [1, 5, 1, 1]), shown(2, [0; 4]));
        let calls = [
            (Call::TakeBack, a),
            (lay("a", 1), NOT_DUE),
            (lay("b", 1), NOT_DUE),
            (lay("a", 3), b),
            (Call::TakeBack, a),
            (lay("a", 3), b),
            (lay("b", 1), ended),
            (lay("b", 1), NOT_DUE),
            (Call::TakeBack, b),
        ];
        let (known, mut machine, mut state) = (known(), Machine::open(0), [0, 0]);
        for (call, due) in calls {
            assert_eq!(counted(&known, state, &call), due);
            assert_eq!(machine.call(&known, &call), due);
            if let Answer::Shown(words) = due {
                state = words.rehearsal;
            }
        }
        assert_eq!(counted(&known, [0, 7], &Call::TakeBack), shown(6, [0; 4]));
        assert_eq!(counted(&known, [0, u32::MAX], &Call::TakeBack), shown(u32::MAX - 1, [0; 4]));
        assert_eq!(counted(&known, [1, 0], &lay("a", 3)), NO_PATH);
        assert_eq!(counted(&known, [9, 9], &Call::Open(1)), NO_PATH);
    }
}
