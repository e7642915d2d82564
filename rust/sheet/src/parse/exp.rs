//! Expressions.

use super::operators::{Link, Operands, Operator};
use super::{Parsed, Parser};
use crate::error::Reason;
use diverplume_record::tree::{
    AndalsoExp, AppExp, Arm, CaseExp, Exp, FnExp, HandleExp, IfExp, InfixExp, Matcher, OrelseExp,
    RaiseExp, TypedExp, WhileExp,
};

fn joined(link: Link, lhs: Exp, rhs: Exp) -> Exp {
    match link {
        Link::Orelse => OrelseExp::new().lhs(lhs).rhs(rhs).into(),
        Link::Andalso => AndalsoExp::new().lhs(lhs).rhs(rhs).into(),
        Link::Infix(name) => InfixExp::new().name_star_eq(name).lhs(lhs).rhs(rhs).into(),
    }
}

impl Parser<'_> {
    pub(super) fn exp(&mut self) -> Parsed<Exp> {
        self.nested(Self::operators_exp)
    }

    fn operators_exp(&mut self) -> Parsed<Exp> {
        let mut operands = Operands::new(self.operand()?, joined);
        let mut is_typed = false;
        loop {
            while self.eat(":").is_some() {
                let ty = self.ty()?;
                operands = operands.wrap(|exp| TypedExp::new().exp(exp).ty(ty).into());
                is_typed = true;
            }
            let operator = match self.peek() {
                "orelse" => Some(Operator::ORELSE),
                "andalso" => Some(Operator::ANDALSO),
                // What has a type behind it is no operand of an infix name.
                _ if is_typed => None,
                _ => self.infix_ahead(0),
            };
            let Some(operator) = operator else { break };
            self.next();
            is_typed = false;
            let is_infix = matches!(operator.link, Link::Infix(_));
            let operand = if is_infix { self.infix_operand()? } else { self.operand()? };
            operands = operands.push(operator, operand);
        }
        let exp = operands.finish();
        if self.eat("handle").is_none() {
            return Ok(exp);
        }
        Ok(HandleExp::new().exp(exp).matcher(self.matcher()?).into())
    }

    fn starts_keyword_exp(&self) -> bool {
        matches!(self.peek(), "raise" | "if" | "while" | "case" | "fn")
    }

    /// An expression that reaches as far as it can, or applications.
    fn operand(&mut self) -> Parsed<Exp> {
        match self.peek() {
            "raise" => {
                self.next();
                Ok(RaiseExp::of(self.exp()?).into())
            }
            "fn" => {
                self.next();
                Ok(FnExp::of(self.matcher()?).into())
            }
            "if" => self.if_exp(),
            "while" => self.while_exp(),
            "case" => self.case_exp(),
            _ => self.app_exp(),
        }
    }

    /// What stands behind an infix name.
    fn infix_operand(&mut self) -> Parsed<Exp> {
        if self.starts_keyword_exp() {
            let problem = format!("{:?} is expected in parentheses here", self.peek());
            return Err(self.error(Reason::Syntax, problem));
        }
        self.app_exp()
    }

    fn if_exp(&mut self) -> Parsed<Exp> {
        self.expect("if")?;
        let exp = IfExp::new().cond(self.exp()?);
        self.expect("then")?;
        let exp = exp.yes(self.exp()?);
        self.expect("else")?;
        Ok(exp.no(self.exp()?).into())
    }

    fn while_exp(&mut self) -> Parsed<Exp> {
        self.expect("while")?;
        let exp = WhileExp::new().cond(self.exp()?);
        self.expect("do")?;
        Ok(exp.body(self.exp()?).into())
    }

    fn case_exp(&mut self) -> Parsed<Exp> {
        self.expect("case")?;
        let exp = CaseExp::new().exp(self.exp()?);
        self.expect("of")?;
        Ok(exp.matcher(self.matcher()?).into())
    }

    fn matcher(&mut self) -> Parsed<Matcher> {
        let arms = self.barred(|parser| {
            let arm = Arm::new().pat(parser.pat()?);
            parser.expect("=>")?;
            Ok(arm.exp(parser.exp()?))
        })?;
        Ok(Matcher::of(arms))
    }

    /// An expression and its arguments.
    fn app_exp(&mut self) -> Parsed<Exp> {
        let is_bang = self.peek() == "!" && self.text_ahead(1) != ".";
        let mut func = self.atomic_exp()?;
        if is_bang && self.starts_symbolic_mark() {
            self.lose(format!(
                "the \"!\" before {:?} would be written as one name with it; set parentheses",
                self.peek()
            ));
        }
        while self.starts_atomic_exp() {
            func = AppExp::new().func(func).arg(self.atomic_exp()?).into();
        }
        Ok(func)
    }

    pub(super) fn starts_exp(&self) -> bool {
        self.starts_keyword_exp() || self.starts_atomic_exp() || self.is_infix()
    }
}
