//! The clauses of `fun`.

use super::operators::Link;
use super::{Parsed, Parser};
use crate::lex::Class;
use diverplume_record::tree::{
    EqExp, FunBind, FunBindCase, FunBindCaseHead, FunDec, InfixFunBindCaseHead, Pat,
    PrefixFunBindCaseHead,
};

impl Parser<'_> {
    /// What follows `fun`.
    pub(super) fn fun_dec(&mut self) -> Parsed<FunDec> {
        let dec = FunDec::new().ty_var_seq(self.ty_var_seq()?);
        let bind = |parser: &mut Self| Ok(FunBind::of(parser.barred(Self::fun_bind_case)?));
        Ok(dec.fun_binds(self.separated("and", bind)?))
    }

    fn fun_bind_case(&mut self) -> Parsed<FunBindCase> {
        let (head, pats) = self.fun_bind_case_head()?;
        let case = FunBindCase::new()
            .fun_bind_case_head(head)
            .pats(pats)
            .ty_annotation(self.ty_annotation()?);
        self.expect("=")?;
        Ok(case.eq_exp(EqExp::of(self.exp()?)))
    }

    /// A name before its arguments or between two of them, and the arguments behind.
    fn fun_bind_case_head(&mut self) -> Parsed<(FunBindCaseHead, Vec<Pat>)> {
        let op = self.eat("op");
        if op.is_some() || self.is_prefix_head() {
            let head = PrefixFunBindCaseHead::new().op_kw(op).name_star_eq(self.name_or_equals()?);
            let first = self.atomic_pat()?;
            return Ok((head.into(), self.atomic_pats(vec![first])?));
        }
        if self.peek() == "(" && !self.is_operand_in_parentheses() {
            let open = self.open_parenthesis()?;
            let head = self.infix_head()?.l_round(open);
            self.expect(")")?;
            return Ok((head.into(), self.atomic_pats(Vec::new())?));
        }
        Ok((self.infix_head()?.into(), Vec::new()))
    }

    /// Whether a name is next that no infix name follows.
    fn is_prefix_head(&self) -> bool {
        self.is_at(Class::Name) && !self.is_infix() && !self.is_infix_in_pat(1)
    }

    /// Whether an infix name follows the parenthesis that closes the one that is next.
    fn is_operand_in_parentheses(&self) -> bool {
        let mut open = 0_usize;
        for by in 0.. {
            match self.text_ahead(by) {
                "(" => open += 1,
                ")" if open == 1 => return self.is_infix_in_pat(by + 1),
                ")" => open -= 1,
                "" => break,
                _ => {}
            }
        }
        false
    }

    /// An atomic pattern, an infix name and another.
    fn infix_head(&mut self) -> Parsed<InfixFunBindCaseHead> {
        let head = InfixFunBindCaseHead::new().lhs(self.atomic_pat()?);
        let operator = self.infix_ahead(0).filter(|_| self.is_infix_in_pat(0));
        let Some(Link::Infix(name)) = operator.map(|operator| operator.link) else {
            return Err(self.unexpected("an infix name"));
        };
        self.next();
        Ok(head.name_star_eq(name).rhs(self.atomic_pat()?))
    }

    /// The atomic patterns that follow.
    fn atomic_pats(&mut self, mut pats: Vec<Pat>) -> Parsed<Vec<Pat>> {
        while self.starts_atomic_pat() {
            pats.push(self.atomic_pat()?);
        }
        Ok(pats)
    }
}
