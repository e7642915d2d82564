//! Atomic expressions, and sequences.

use super::{Parsed, Parser};
use crate::lex::{is_symbolic, Class};
use diverplume_record::tree::{
    EqExp, Exp, ExpArg, ExpInSeq, ExpRow, HoleExp, LetExp, ListExp, OpAndalsoExp, OpOrelseExp,
    ParenExp, Path, PathExp, RecordExp, SConExp, SelectorExp, SeqExp, TupleExp, VectorExp,
    WildcardExp,
};

impl Parser<'_> {
    pub(super) fn starts_atomic_exp(&self) -> bool {
        matches!(self.peek(), "{" | "(" | "[" | "#" | "let" | "op" | "_" | "...")
            || self.starts_constant()
            || (self.is_at(Class::Name) && !self.is_infix())
    }

    pub(super) fn atomic_exp(&mut self) -> Parsed<Exp> {
        match self.peek() {
            _ if self.starts_constant() => Ok(SConExp::of(self.constant()?).into()),
            _ if !self.starts_atomic_exp() => Err(self.unexpected("an expression")),
            "(" => self.exp_in_parentheses(),
            "let" => self.let_exp(),
            "op" => self.op_exp(),
            "#" => self.selector_or_vector(),
            "{" => {
                self.next();
                Ok(RecordExp::of(self.until("}", Self::exp_row)?).into())
            }
            "[" => {
                self.next();
                Ok(ListExp::of(self.exp_args("]")?).into())
            }
            "_" => {
                self.next();
                Ok(WildcardExp::new().into())
            }
            "..." => {
                self.next();
                Ok(HoleExp::new().into())
            }
            _ => Ok(PathExp::new().path(self.exp_path()?).into()),
        }
    }

    fn exp_path(&mut self) -> Parsed<Path> {
        let path = self.path_or_equals()?;
        self.star_before_close();
        Ok(path)
    }

    fn op_exp(&mut self) -> Parsed<Exp> {
        let op = self.expect("op")?;
        if self.eat("andalso").is_some() {
            return Ok(OpAndalsoExp::new().into());
        }
        if self.eat("orelse").is_some() {
            return Ok(OpOrelseExp::new().into());
        }
        Ok(PathExp::new().op_kw(op).path(self.exp_path()?).into())
    }

    fn selector_or_vector(&mut self) -> Parsed<Exp> {
        self.expect("#")?;
        if self.eat("[").is_some() {
            return Ok(VectorExp::of(ListExp::of(self.exp_args("]")?)).into());
        }
        if self.peek().bytes().next().is_some_and(is_symbolic) {
            self.lose(format!("the \"#\" before {:?} would become one name with it", self.peek()));
        }
        Ok(SelectorExp::of(self.label()?).into())
    }

    fn exp_args(&mut self, close: &str) -> Parsed<Vec<ExpArg>> {
        self.until(close, |parser| Ok(ExpArg::of(parser.exp()?)))
    }

    fn exp_row(&mut self) -> Parsed<ExpRow> {
        let row = ExpRow::new().lab(self.label()?);
        if self.eat("=").is_none() {
            return Ok(row);
        }
        Ok(row.eq_exp(EqExp::of(self.exp()?)))
    }

    /// Nothing, one expression, several, or a sequence in parentheses.
    fn exp_in_parentheses(&mut self) -> Parsed<Exp> {
        self.open_parenthesis()?;
        if self.eat(")").is_some() {
            return Ok(TupleExp::new().into());
        }
        let first = self.exp()?;
        match self.peek() {
            ")" => {
                self.next();
                Ok(ParenExp::of(first).into())
            }
            "," => {
                self.next();
                let rest = self.separated(",", Self::exp)?;
                self.close_list(")")?;
                let args = std::iter::once(first).chain(rest).map(ExpArg::of);
                Ok(TupleExp::of(args).into())
            }
            ";" => {
                let sequence = self.sequence(first, ")")?;
                Ok(SeqExp::of(sequence).into())
            }
            _ => Err(self.unexpected("\",\", \";\" or \")\"")),
        }
    }

    /// A sequence whose first expression is read, and the closing word.
    fn sequence(&mut self, first: Exp, close: &str) -> Parsed<Vec<ExpInSeq>> {
        let mut items = Vec::new();
        let mut exp = first;
        while self.peek() == ";" {
            let is_last = self.text_ahead(1) == close;
            if is_last && (items.is_empty() || close == ")") {
                self.lose("the semicolon behind the last expression would be lost; remove it");
            }
            items.push(ExpInSeq::new().exp(exp).semicolon(self.next()));
            if is_last {
                self.next();
                return Ok(items);
            }
            exp = self.exp()?;
        }
        items.push(ExpInSeq::new().exp(exp));
        self.eat(close).ok_or_else(|| self.unexpected(&format!("\";\" or {close:?}")))?;
        Ok(items)
    }

    fn let_exp(&mut self) -> Parsed<Exp> {
        self.expect("let")?;
        let scope = self.fixities.mark();
        let decs = self.decs()?;
        self.expect_after_decs("in")?;
        let first = self.exp()?;
        let sequence = self.sequence(first, "end")?;
        self.fixities.end(scope);
        Ok(LetExp::new().decs(decs).exps_in_seq(sequence).into())
    }
}
