//! The answer of the original `analyze` on a contract.

use crate::tree::{self, Contract, Form, Node, Where};
use original::analyze::analyze;
use original::ast::*;

/// `analyze` copies trees as it goes down them; the deepest listing needs more than a thread has by default.
pub const STACK: usize = 64 << 20;

/// What the original says.
#[derive(Clone, Debug, PartialEq, Eq)]
pub enum Answer {
    Accepted,
    /// The number of document 01 for the kind of error, and its location.
    Refused(u8, Where),
    /// The original cannot be asked: a literal is not UTF-8, or a wait has op 2.
    Outside,
    /// The original panicked.
    Panicked,
}

/// A contract in the original's types.
pub struct Built {
    pub block: Vec<Statement>,
    pub declarations: Vec<Vec<StackParam>>,
    pub target: Target,
}

/// Builds the original's tree. Nothing if a literal is not UTF-8 or a wait has op 2.
pub fn build(contract: &Contract) -> Option<Built> {
    let block = block(&contract.block)?;
    let declarations = contract.declarations.iter().map(|d| d.iter().map(item).collect()).collect();
    Some(Built { block, declarations, target: target(contract.target) })
}

/// Asks `analyze`, on a thread of its own.
pub fn answer(contract: &Contract) -> Answer {
    let contract = contract.clone();
    let thread = std::thread::Builder::new().stack_size(STACK).spawn(move || ask(&contract)).unwrap();
    thread.join().unwrap_or(Answer::Panicked)
}

/// Asks `analyze` on this thread, which must have as much stack as `STACK`. A panic goes through.
pub fn ask(contract: &Contract) -> Answer {
    let Some(built) = build(contract) else {
        return Answer::Outside;
    };
    match analyze(&built.block, built.declarations, &built.target) {
        Ok(()) => Answer::Accepted,
        Err(error) => Answer::Refused(number(&error.kind), place(&error.loc)),
    }
}

/// The number that document 01 gives a kind of error.
fn number(kind: &ErrorKind) -> u8 {
    match kind {
        ErrorKind::DuplicateVariable(_) => 11,
        ErrorKind::UndefinedVariable(_) => 12,
        ErrorKind::VariableConsumed(_) => 13,
        ErrorKind::UnusedVariable(_) => 14,
        ErrorKind::InvalidConsumptionOrder(_) => 15,
        ErrorKind::TypeMismatch(_) => 16,
        ErrorKind::InvalidOperation(_) => 17,
        ErrorKind::NoReturn(_) => 18,
        ErrorKind::UnreachableCode(_) => 19,
        ErrorKind::DeclarationPathMismatch(_) => 20,
        ErrorKind::IntegerOverflow(_) => 21,
        ErrorKind::MalformedPubkey(_) => 22,
        other => panic!("document 01 has no number for {other:?}"),
    }
}

fn place(loc: &Location) -> Where {
    let field = |value: usize| u32::try_from(value).unwrap();
    Where { start: field(loc.start), end: field(loc.end), line: field(loc.line), column: field(loc.column) }
}

fn loc(at: Where) -> Location {
    Location { start: at.start as usize, end: at.end as usize, line: at.line as usize, column: at.column as usize }
}

fn target(number: u8) -> Target {
    [Target::Legacy, Target::Segwit, Target::Taproot][usize::from(number)].clone()
}

fn item(item: &tree::Item) -> StackParam {
    let ty = [Type::Signature, Type::Number, Type::String, Type::Boolean][usize::from(item.kind)].clone();
    StackParam { loc: loc(item.at), identifier: Identifier(item.name.clone()), ty }
}

fn block(node: &Node) -> Option<Vec<Statement>> {
    node.parts.iter().map(statement).collect()
}

fn statement(node: &Node) -> Option<Statement> {
    let loc = loc(node.at);
    let part = |i: usize| expression(&node.parts[i]);
    Some(match &node.form {
        Form::If => {
            let else_block = match node.parts.get(2) {
                Some(second) => Some(block(second)?),
                None => None,
            };
            Statement::IfStatement { loc, condition_expr: part(0)?, if_block: block(&node.parts[1])?, else_block }
        }
        Form::Wait(tree::CSV_TIME, _) => return None,
        Form::Wait(op, operand) => {
            let op = [LocktimeOp::Cltv, LocktimeOp::Csv][usize::from(*op)].clone();
            Statement::LocktimeStatement { loc, operand: *operand, op }
        }
        Form::Verify => Statement::VerifyStatement(loc, part(0)?),
        Form::Return => Statement::ExpressionStatement(loc, part(0)?),
        other => panic!("no statement: {other:?}"),
    })
}

fn expression(node: &Node) -> Option<Expression> {
    let loc = loc(node.at);
    let part = |i: usize| expression(&node.parts[i]).map(Box::new);
    Some(match &node.form {
        Form::Variable(name) => Expression::Variable(loc, Identifier(name.clone())),
        Form::Number(value) => Expression::NumberLiteral(loc, *value),
        Form::Boolean(value) => Expression::BooleanLiteral(loc, *value),
        Form::Literal(bytes, _) => Expression::StringLiteral(loc, String::from_utf8(bytes.clone()).ok()?),
        Form::Logic(op) => Expression::LogicalExpression { loc, lhs: part(0)?, op: logic(*op), rhs: part(1)? },
        Form::Compare(op) => Expression::CompareExpression { loc, lhs: part(0)?, op: compare(*op), rhs: part(1)? },
        Form::Arithmetic(op) => Expression::BinaryMathExpression { loc, lhs: part(0)?, op: arithmetic(*op), rhs: part(1)? },
        Form::Unary(op) => Expression::UnaryMathExpression { loc, operand: part(0)?, op: unary(*op) },
        Form::Hash(op) => Expression::UnaryCryptoExpression { loc, operand: part(0)?, op: hash(*op) },
        Form::Size => Expression::ByteExpression { loc, operand: part(0)?, op: ByteOp::Size },
        Form::Check => {
            let operand = Box::new(factor(&node.parts[0])?);
            Expression::CheckSigExpression { loc, operand, op: CheckSigOp::CheckSig }
        }
        other => panic!("no expression: {other:?}"),
    })
}

fn factor(node: &Node) -> Option<Factor> {
    let loc = loc(node.at);
    let part = |i: usize| expression(&node.parts[i]).map(Box::new);
    Some(match &node.form {
        Form::Single => Factor::SingleSigFactor { loc, sig: part(0)?, pubkey: part(1)? },
        Form::Multi(m) => {
            let n = node.parts.iter().map(factor).collect::<Option<Vec<_>>>()?;
            Factor::MultiSigFactor { loc, m: *m, n }
        }
        other => panic!("no factor: {other:?}"),
    })
}

// Enum numbers follow the order in src/ast.rs, from 0.

fn logic(op: u8) -> BinaryLogicalOp {
    [BinaryLogicalOp::BoolOr, BinaryLogicalOp::BoolAnd][usize::from(op)].clone()
}

fn compare(op: u8) -> BinaryCompareOp {
    [
        BinaryCompareOp::Equal,
        BinaryCompareOp::NotEqual,
        BinaryCompareOp::Greater,
        BinaryCompareOp::GreaterOrEqual,
        BinaryCompareOp::Less,
        BinaryCompareOp::LessOrEqual,
        BinaryCompareOp::NumEqual,
        BinaryCompareOp::NumNotEqual,
    ][usize::from(op)]
    .clone()
}

fn arithmetic(op: u8) -> BinaryMathOp {
    [BinaryMathOp::Add, BinaryMathOp::Sub, BinaryMathOp::Max, BinaryMathOp::Min][usize::from(op)].clone()
}

fn unary(op: u8) -> UnaryMathOp {
    [UnaryMathOp::Add, UnaryMathOp::Sub, UnaryMathOp::Negate, UnaryMathOp::Abs, UnaryMathOp::Not][usize::from(op)].clone()
}

fn hash(op: u8) -> UnaryCryptoOp {
    [UnaryCryptoOp::Sha256, UnaryCryptoOp::Ripemd160][usize::from(op)].clone()
}

#[cfg(test)]
mod tests {
    use super::*;

    /// The arrays above are in the order of src/ast.rs.
    #[test]
    fn orders() {
        assert!((0..2).all(|i| logic(i) as u8 == i));
        assert!((0..8).all(|i| compare(i) as u8 == i));
        assert!((0..4).all(|i| arithmetic(i) as u8 == i));
        assert!((0..5).all(|i| unary(i) as u8 == i));
        assert!((0..2).all(|i| hash(i) as u8 == i));
        assert!((0..3).all(|i| target(i) as u8 == i));
        assert_eq!((LocktimeOp::Cltv as u8, LocktimeOp::Csv as u8), (tree::AFTER, tree::OLDER));
        let types = [Type::Signature as u8, Type::Number as u8, Type::String as u8, Type::Boolean as u8];
        assert_eq!(types, [tree::SIGNATURE, tree::NUMBER, tree::STRING, tree::BOOLEAN]);
    }

    /// A wait of op 2 is not put to the original.
    #[test]
    fn op_2_is_outside() {
        use crate::make::{b, contract, returns, wait};
        let answer_with = |op| answer(&contract(0, vec![vec![]], vec![wait(op, 65535), returns(b(true))]));
        let answers = [tree::AFTER, tree::OLDER, tree::CSV_TIME].map(answer_with);
        assert_eq!(answers, [Answer::Accepted, Answer::Accepted, Answer::Outside]);
    }
}
