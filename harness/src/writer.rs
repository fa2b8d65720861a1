//! Writes a contract as a listing.

use crate::tree::{Contract, Form, Node, Where};

/// The listing of a contract, whatever stands in it: nothing is checked.
pub fn write(contract: &Contract) -> Vec<u8> {
    let mut text = format!("T,{},{}\n", contract.target, contract.declarations.len());
    for declaration in &contract.declarations {
        text += &format!("D,{}\n", declaration.len());
        for item in declaration {
            text += &format!("P,{},{},{}\n", w(item.at), item.kind, item.name);
        }
    }
    contract.block.each(&mut |node| text += &line(node));
    text.into_bytes()
}

fn w(at: Where) -> String {
    format!("{},{},{},{}", at.start, at.end, at.line, at.column)
}

fn hex(bytes: &[u8]) -> String {
    bytes.iter().map(|b| format!("{b:02x}")).collect()
}

/// The line of a node, without those of its parts.
fn line(node: &Node) -> String {
    let at = w(node.at);
    let count = node.parts.len();
    match &node.form {
        Form::Block => format!("B,{count}\n"),
        Form::If => format!("I,{at},{}\n", count - 2),
        Form::Wait(op, operand) => format!("L,{at},{op},{operand}\n"),
        Form::Verify => format!("V,{at}\n"),
        Form::Return => format!("E,{at}\n"),
        Form::Variable(name) => format!("v,{at},{name}\n"),
        Form::Number(value) => format!("n,{at},{value}\n"),
        Form::Boolean(value) => format!("b,{at},{}\n", u8::from(*value)),
        Form::Literal(bytes, mark) => format!("s,{at},{},{}\n", hex(bytes), u8::from(*mark)),
        Form::Logic(op) => format!("l,{at},{op}\n"),
        Form::Compare(op) => format!("c,{at},{op}\n"),
        Form::Arithmetic(op) => format!("m,{at},{op}\n"),
        Form::Unary(op) => format!("u,{at},{op}\n"),
        Form::Hash(op) => format!("h,{at},{op}\n"),
        Form::Size => format!("z,{at}\n"),
        Form::Check => format!("g,{at}\n"),
        Form::Single => format!("S,{at}\n"),
        Form::Multi(m) => format!("M,{at},{m},{count}\n"),
    }
}
