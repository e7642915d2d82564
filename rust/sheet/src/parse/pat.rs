//! Patterns.

use super::operators::{Link, Operands};
use super::{Parsed, Parser};
use crate::lex::Class;
use diverplume_record::tree::{
    AsPat, AsPatTail, ConPat, InfixPat, LabAndPatPatRow, LabPatRow, ListPat, OrPat, ParenPat, Pat,
    PatArg, PatRow, RecordPat, RestPatRow, SConPat, TuplePat, TypedPat, VectorPat, WildcardPat,
};

fn joined(link: Link, lhs: Pat, rhs: Pat) -> Pat {
    match link {
        Link::Infix(name) => InfixPat::new().lhs(lhs).name_star_eq(name).rhs(rhs).into(),
        Link::Andalso | Link::Orelse => unreachable!("no pattern has {link:?}"),
    }
}

impl Parser<'_> {
    pub(super) fn pat(&mut self) -> Parsed<Pat> {
        self.nested(|parser| {
            let mut pat = parser.infix_pat()?;
            while parser.eat(":").is_some() {
                pat = TypedPat::new().pat(pat).ty(parser.ty()?).into();
            }
            if parser.eat("as").is_none() {
                return Ok(pat);
            }
            Ok(AsPat::new().pat(pat).as_pat_tail(AsPatTail::of(parser.pat()?)).into())
        })
    }

    fn infix_pat(&mut self) -> Parsed<Pat> {
        let mut operands = Operands::new(self.con_pat()?, joined);
        while self.is_infix_in_pat(0) {
            let Some(operator) = self.infix_ahead(0) else { break };
            self.next();
            operands = operands.push(operator, self.con_pat()?);
        }
        Ok(operands.finish())
    }

    /// A constructor with an argument, or an atomic pattern.
    fn con_pat(&mut self) -> Parsed<Pat> {
        if !self.starts_path_pat() {
            return self.atomic_pat();
        }
        let con = self.path_pat()?;
        if self.starts_atomic_pat() {
            return Ok(con.pat(self.atomic_pat()?).into());
        }
        Ok(con.into())
    }

    fn starts_path_pat(&self) -> bool {
        self.peek() == "op" || (self.is_at(Class::Name) && !self.is_infix())
    }

    fn path_pat(&mut self) -> Parsed<ConPat> {
        let op = self.eat("op");
        let path = if op.is_some() { self.path_or_equals()? } else { self.path()? };
        self.star_before_close();
        Ok(ConPat::new().op_kw(op).path(path))
    }

    pub(super) fn starts_atomic_pat(&self) -> bool {
        match self.peek() {
            "_" | "{" | "(" | "[" => true,
            "#" => self.text_ahead(1) == "[",
            _ => self.starts_constant() || self.starts_path_pat(),
        }
    }

    pub(super) fn atomic_pat(&mut self) -> Parsed<Pat> {
        match self.peek() {
            _ if self.starts_constant() => Ok(SConPat::of(self.constant()?).into()),
            _ if self.starts_path_pat() => Ok(self.path_pat()?.into()),
            _ if !self.starts_atomic_pat() => Err(self.unexpected("a pattern")),
            "(" => self.nested(Self::pat_in_parentheses),
            "{" => {
                self.next();
                Ok(RecordPat::of(self.until("}", Self::pat_row)?).into())
            }
            "[" => {
                self.next();
                Ok(ListPat::of(self.pat_args("]")?).into())
            }
            "#" => {
                self.next();
                self.expect("[")?;
                Ok(VectorPat::of(ListPat::of(self.pat_args("]")?)).into())
            }
            _ => {
                self.expect("_")?;
                Ok(WildcardPat::new().into())
            }
        }
    }

    /// Patterns with bars between, inside brackets.
    fn or_pat(&mut self) -> Parsed<Pat> {
        let mut pat = self.pat()?;
        while self.eat("|").is_some() {
            pat = OrPat::new().lhs(pat).rhs(self.pat()?).into();
        }
        Ok(pat)
    }

    fn pat_args(&mut self, close: &str) -> Parsed<Vec<PatArg>> {
        self.until(close, |parser| Ok(PatArg::of(parser.or_pat()?)))
    }

    /// Nothing, one pattern, or several in parentheses.
    fn pat_in_parentheses(&mut self) -> Parsed<Pat> {
        self.open_parenthesis()?;
        let mut pats = self.until(")", Self::or_pat)?;
        match pats.pop() {
            Some(inside) if pats.is_empty() => Ok(ParenPat::of(inside).into()),
            last => Ok(TuplePat::of(pats.into_iter().chain(last).map(PatArg::of)).into()),
        }
    }

    fn pat_row(&mut self) -> Parsed<PatRow> {
        if self.eat("...").is_some() {
            return Ok(PatRow::of(RestPatRow::new()));
        }
        let label = self.label()?;
        if self.eat("=").is_some() {
            return Ok(PatRow::of(LabAndPatPatRow::new().lab(label).pat(self.or_pat()?)));
        }
        let mut row = LabPatRow::new().name_star_eq(label).ty_annotation(self.ty_annotation()?);
        if self.eat("as").is_some() {
            row = row.as_pat_tail(AsPatTail::of(self.pat()?));
        }
        Ok(PatRow::of(row))
    }
}
