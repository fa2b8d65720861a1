//! Reads a listing, after document 01 ("The listing"), document 02 (b, op 2 of a wait) and their readings in
//! docs/DECISIONS.md: numbers 1 to 4, or the contract that it spells. It shares nothing with the original or with the
//! proved reader.

use crate::tree::{Contract, Form, Item, Node, Where};

const MOST_BYTES: usize = 32768;
const MOST_LINES: u32 = 1024;
const MOST_DECLARATIONS: i64 = 32;
const MOST_ITEMS: i64 = 32;
const LONGEST_NAME: usize = 32;
const LONGEST_LITERAL: usize = 1200;
const MOST_FACTORS: i64 = 64;
const DEEPEST: u32 = 32;

const TOO_LONG: u8 = 1;
const NO_FORM: u8 = 2;
const NO_PLACE: u8 = 3;
const CEILING: u8 = 4;

const EXPRESSIONS: &[u8] = b"vnbslcmuhzg";

/// A refusal of the reading: its number, and the line of the listing.
#[derive(Clone, Copy, Debug, PartialEq, Eq)]
pub struct Refusal {
    pub number: u8,
    pub line: u32,
}

/// What a field of a line may hold.
#[derive(Clone, Copy)]
enum Field {
    /// An enum's number, or 0 or 1: from 0 to the one given.
    UpTo(i64),
    /// 32 bits, unsigned.
    Unsigned,
    /// 64 bits, signed.
    Signed,
    Name,
    Bytes,
}

/// A line of one of the forms: its kind, its numbers in order (w first), its name or literal.
struct Line<'a> {
    kind: u8,
    numbers: Vec<i64>,
    text: &'a [u8],
}

struct Reader<'a> {
    rest: &'a [u8],
    /// Lines begun so far.
    line: u32,
}

/// Reads a whole listing.
pub fn read(listing: &[u8]) -> Result<Contract, Refusal> {
    if listing.len() > MOST_BYTES {
        return Err(Refusal { number: TOO_LONG, line: 0 });
    }
    let mut reader = Reader { rest: listing, line: 0 };
    let contract = reader.contract()?;
    reader.end()?;
    Ok(contract)
}

/// The fields of a form, without w. The second says whether the form has a w.
fn form_of(kind: u8) -> Option<(bool, &'static [Field])> {
    use Field::*;
    Some(match kind {
        b'T' => (false, &[UpTo(2), Unsigned]),
        b'D' | b'B' => (false, &[Unsigned]),
        b'P' => (true, &[UpTo(3), Name]),
        b'I' | b'b' | b'l' | b'h' => (true, &[UpTo(1)]),
        b'L' => (true, &[UpTo(2), Signed]),
        b'V' | b'E' | b'z' | b'g' | b'S' => (true, &[]),
        b'v' => (true, &[Name]),
        b'n' => (true, &[Signed]),
        b's' => (true, &[Bytes, UpTo(1)]),
        b'c' => (true, &[UpTo(7)]),
        b'm' => (true, &[UpTo(3)]),
        b'u' => (true, &[UpTo(4)]),
        b'M' => (true, &[Unsigned, Unsigned]),
        _ => return None,
    })
}

/// The line that these bytes are, if they have a form.
fn line_of(bytes: &[u8]) -> Option<Line<'_>> {
    let mut given = bytes.split(|&b| b == b',');
    let kind = match given.next() {
        Some(&[kind]) => kind,
        _ => return None,
    };
    let (located, wanted) = form_of(kind)?;
    let mut fields = vec![Field::Unsigned; if located { 4 } else { 0 }];
    fields.extend_from_slice(wanted);
    let mut line = Line { kind, numbers: Vec::new(), text: &[] };
    for field in fields {
        let text = given.next()?;
        match field {
            Field::UpTo(last) => line.numbers.push(number(text, 0, last)?),
            Field::Unsigned => line.numbers.push(number(text, 0, u32::MAX as i64)?),
            Field::Signed => line.numbers.push(number(text, i64::MIN, i64::MAX)?),
            Field::Name if is_name(text) => line.text = text,
            Field::Bytes if is_hex(text) => line.text = text,
            _ => return None,
        }
    }
    given.next().is_none().then_some(line)
}

/// The number spelt, if it has no plus sign, leading zero or minus zero, and lies between the two.
fn number(text: &[u8], least: i64, most: i64) -> Option<i64> {
    let (minus, digits) = match text {
        [b'-', digits @ ..] => (true, digits),
        digits => (false, digits),
    };
    let plain = !digits.is_empty() && digits.len() <= 19 && digits.iter().all(u8::is_ascii_digit);
    if !plain || (digits[0] == b'0' && (minus || digits.len() > 1)) {
        return None;
    }
    let size = digits.iter().fold(0i128, |sum, d| sum * 10 + i128::from(d - b'0'));
    let value = if minus { -size } else { size };
    (i128::from(least) <= value && value <= i128::from(most)).then_some(value as i64)
}

fn is_name(text: &[u8]) -> bool {
    !text.is_empty() && text.iter().all(|b| b.is_ascii_alphanumeric() || *b == b'_')
}

fn is_hex(text: &[u8]) -> bool {
    text.len() % 2 == 0 && text.iter().all(|b| matches!(b, b'0'..=b'9' | b'a'..=b'f'))
}

fn from_hex(text: &[u8]) -> Vec<u8> {
    let digit = |b: u8| if b <= b'9' { b - b'0' } else { b - b'a' + 10 };
    text.chunks(2).map(|pair| digit(pair[0]) * 16 + digit(pair[1])).collect()
}

impl Line<'_> {
    fn at(&self) -> Where {
        let w = |i: usize| self.numbers[i] as u32;
        Where { start: w(0), end: w(1), line: w(2), column: w(3) }
    }

    /// The first number after w.
    fn op(&self) -> u8 {
        self.numbers[4] as u8
    }

    fn name(&self) -> String {
        String::from_utf8(self.text.to_vec()).unwrap()
    }

    /// Does the line itself pass a ceiling, wherever it stands?
    fn is_over(&self) -> bool {
        match self.kind {
            b'T' => self.numbers[1] > MOST_DECLARATIONS,
            b'D' => self.numbers[0] > MOST_ITEMS,
            b'P' | b'v' => self.text.len() > LONGEST_NAME,
            b's' => self.text.len() > 2 * LONGEST_LITERAL,
            b'M' => self.numbers[5] > MOST_FACTORS,
            _ => false,
        }
    }

    fn node(&self, form: Form, parts: Vec<Node>) -> Node {
        Node { form, at: self.at(), parts, aimed: false }
    }
}

impl<'a> Reader<'a> {
    fn refuse<T>(&self, number: u8) -> Result<T, Refusal> {
        Err(Refusal { number, line: self.line })
    }

    /// The next line, or nothing at the end of the listing. Refuses a line of no form.
    fn next(&mut self) -> Result<Option<Line<'a>>, Refusal> {
        if self.rest.is_empty() {
            return Ok(None);
        }
        self.line += 1;
        let end = match self.rest.iter().position(|&b| b == b'\n') {
            Some(end) => end,
            None => return self.refuse(NO_FORM),
        };
        let line = line_of(&self.rest[..end]);
        self.rest = &self.rest[end + 1..];
        match line {
            Some(line) => Ok(Some(line)),
            None => self.refuse(NO_FORM),
        }
    }

    /// The next line, which must be of one of the kinds and within its ceilings. `depth` is what the line would reach.
    fn take(&mut self, kinds: &[u8], depth: u32) -> Result<Line<'a>, Refusal> {
        let line = match self.next()? {
            Some(line) => line,
            None => return Err(Refusal { number: NO_PLACE, line: self.line + 1 }),
        };
        if !kinds.contains(&line.kind) {
            return self.refuse(NO_PLACE);
        }
        if self.line > MOST_LINES || line.is_over() || depth > DEEPEST {
            return self.refuse(CEILING);
        }
        Ok(line)
    }

    /// Nothing may follow.
    fn end(&mut self) -> Result<(), Refusal> {
        match self.next()? {
            None => Ok(()),
            Some(_) => self.refuse(NO_PLACE),
        }
    }

    fn contract(&mut self) -> Result<Contract, Refusal> {
        let head = self.take(b"T", 1)?;
        let mut declarations = Vec::new();
        for _ in 0..head.numbers[1] {
            declarations.push(self.declaration()?);
        }
        let block = self.block(1)?;
        Ok(Contract { target: head.numbers[0] as u8, declarations, block })
    }

    fn declaration(&mut self) -> Result<Vec<Item>, Refusal> {
        let head = self.take(b"D", 1)?;
        let mut items = Vec::new();
        for _ in 0..head.numbers[0] {
            let line = self.take(b"P", 1)?;
            items.push(Item { at: line.at(), kind: line.op(), name: line.name(), aimed: false });
        }
        Ok(items)
    }

    fn block(&mut self, depth: u32) -> Result<Node, Refusal> {
        let head = self.take(b"B", depth)?;
        let mut statements = Vec::new();
        for _ in 0..head.numbers[0] {
            statements.push(self.statement(depth)?);
        }
        Ok(Node::new(Form::Block, statements))
    }

    /// A statement of a block at `depth`.
    fn statement(&mut self, depth: u32) -> Result<Node, Refusal> {
        let line = self.take(b"ILVE", 1)?;
        Ok(match line.kind {
            b'I' => {
                let mut parts = vec![self.expression(1)?, self.block(depth + 1)?];
                if line.op() == 1 {
                    parts.push(self.block(depth + 1)?);
                }
                line.node(Form::If, parts)
            }
            b'L' => line.node(Form::Wait(line.op(), line.numbers[5]), vec![]),
            b'V' => line.node(Form::Verify, vec![self.expression(1)?]),
            _ => line.node(Form::Return, vec![self.expression(1)?]),
        })
    }

    fn expression(&mut self, depth: u32) -> Result<Node, Refusal> {
        let line = self.take(EXPRESSIONS, depth)?;
        let form = match line.kind {
            b'v' => Form::Variable(line.name()),
            b'n' => Form::Number(line.numbers[4]),
            b'b' => Form::Boolean(line.op() == 1),
            b's' => Form::Literal(from_hex(line.text), line.op() == 1),
            b'l' => Form::Logic(line.op()),
            b'c' => Form::Compare(line.op()),
            b'm' => Form::Arithmetic(line.op()),
            b'u' => Form::Unary(line.op()),
            b'h' => Form::Hash(line.op()),
            b'z' => Form::Size,
            _ => Form::Check,
        };
        let mut parts = Vec::new();
        match line.kind {
            b'l' | b'c' | b'm' => {
                parts.push(self.expression(depth + 1)?);
                parts.push(self.expression(depth + 1)?);
            }
            b'u' | b'h' | b'z' => parts.push(self.expression(depth + 1)?),
            b'g' => parts.push(self.factor(depth + 1)?),
            _ => {}
        }
        Ok(line.node(form, parts))
    }

    fn factor(&mut self, depth: u32) -> Result<Node, Refusal> {
        let line = self.take(b"SM", depth)?;
        if line.kind == b'S' {
            let parts = vec![self.expression(depth + 1)?, self.expression(depth + 1)?];
            return Ok(line.node(Form::Single, parts));
        }
        let mut factors = Vec::new();
        for _ in 0..line.numbers[5] {
            factors.push(self.factor(depth + 1)?);
        }
        Ok(line.node(Form::Multi(line.numbers[4] as u32), factors))
    }
}

#[cfg(test)]
mod tests {
    use super::*;
    use crate::tree::CSV_TIME;

    fn with_wait(fields: &str) -> Result<Form, Refusal> {
        let listing = format!("T,0,1\nD,0\nB,2\nL,1,2,3,4,{fields}\nE,5,6,7,8\nb,1,2,3,4,1\n");
        read(listing.as_bytes()).map(|contract| contract.block.parts[0].form.clone())
    }

    /// Op 2 is a form with any operand of 64 bits; op 3 is none.
    #[test]
    fn ops_of_a_wait() {
        for operand in [0, 1, 65535, 65536, -1, 4194304, i64::MAX, i64::MIN] {
            assert_eq!(with_wait(&format!("2,{operand}")), Ok(Form::Wait(CSV_TIME, operand)));
        }
        for none in ["3,0", "4,0", "02,0", "-2,0", "22,0", "2", "2,", "2,0,0", "2,00", "2,-0", "2,9223372036854775808"] {
            assert_eq!(with_wait(none), Err(Refusal { number: NO_FORM, line: 4 }), "{none}");
        }
    }
}
