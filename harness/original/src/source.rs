//! Stands in for the original's `crate::source`: each node answers with the location stored in it.

use crate::ast::*;

pub trait Locatable {
    fn loc(&self) -> Location;
}

impl Locatable for StackParam {
    fn loc(&self) -> Location {
        self.loc.clone()
    }
}

impl Locatable for Statement {
    fn loc(&self) -> Location {
        match self {
            Statement::IfStatement { loc, .. } => loc.clone(),
            Statement::LocktimeStatement { loc, .. } => loc.clone(),
            Statement::VerifyStatement(loc, _) => loc.clone(),
            Statement::ExpressionStatement(loc, _) => loc.clone(),
        }
    }
}

impl Locatable for Expression {
    fn loc(&self) -> Location {
        match self {
            Expression::Variable(loc, _) => loc.clone(),
            Expression::NumberLiteral(loc, _) => loc.clone(),
            Expression::BooleanLiteral(loc, _) => loc.clone(),
            Expression::StringLiteral(loc, _) => loc.clone(),
            Expression::LogicalExpression { loc, .. } => loc.clone(),
            Expression::CompareExpression { loc, .. } => loc.clone(),
            Expression::UnaryMathExpression { loc, .. } => loc.clone(),
            Expression::BinaryMathExpression { loc, .. } => loc.clone(),
            Expression::UnaryCryptoExpression { loc, .. } => loc.clone(),
            Expression::CheckSigExpression { loc, .. } => loc.clone(),
            Expression::ByteExpression { loc, .. } => loc.clone(),
        }
    }
}

impl Locatable for Factor {
    fn loc(&self) -> Location {
        match self {
            Factor::SingleSigFactor { loc, .. } => loc.clone(),
            Factor::MultiSigFactor { loc, .. } => loc.clone(),
        }
    }
}
