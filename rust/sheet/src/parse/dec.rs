//! Programs and declarations.

use super::{Parsed, Parser};
use crate::fixity::Fixity;
use crate::lex::Class;
use diverplume_record::tree::{
    Dec, DecInSeq, DecOne, DoDec, ExDec, ExpDec, FunctorDec, HoleDec, InfixDec, InfixrDec,
    LocalDec, LocalDecHd, LocalDecTl, NonfixDec, OpenDec, SignatureDec, StructureDec, TyDec,
    ValDec,
};
use diverplume_record::Token;

/// Where a declaration stands.
#[derive(Debug, Clone, Copy, PartialEq, Eq)]
pub(super) enum Site {
    /// Among declarations.
    Dec,
    /// Among the specifications of a signature.
    Spec,
}

impl Parser<'_> {
    /// All declarations of a file.
    pub(super) fn program(&mut self) -> Parsed<Vec<Dec>> {
        let items = self.dec_items(Self::top_dec)?;
        if self.at < self.words.len() {
            return Err(self.unexpected("a declaration"));
        }
        Ok(one_each(items))
    }

    /// Declarations, as many as there are.
    pub(super) fn decs(&mut self) -> Parsed<Vec<Dec>> {
        Ok(one_each(self.dec_items(Self::dec_one)?))
    }

    /// The word that ends a list of declarations.
    pub(super) fn expect_after_decs(&mut self, text: &str) -> Parsed<Token> {
        self.eat(text).ok_or_else(|| self.unexpected(&format!("a declaration or {text:?}")))
    }

    /// Declarations of a kind, as many as there are; a semicolon may stand behind each.
    pub(super) fn dec_items(
        &mut self,
        dec_one: fn(&mut Self, Token) -> Parsed<Option<DecOne>>,
    ) -> Parsed<Vec<DecInSeq>> {
        let mut items = Vec::new();
        loop {
            while self.peek() == ";" {
                self.lose(
                    "this semicolon has no declaration before it and would be lost; remove it",
                );
                self.next();
            }
            let Some(first) = self.ahead(0) else { break };
            let Some(dec) = self.nested(|parser| dec_one(parser, first.token))? else { break };
            let dec = self.last().into_iter().fold(dec, DecOne::last);
            items.push(DecInSeq::new().dec_one(dec).semicolon(self.eat(";")));
        }
        Ok(items)
    }

    /// A declaration or an expression with a semicolon behind it.
    fn top_dec(&mut self, first: Token) -> Parsed<Option<DecOne>> {
        if let Some(dec) = self.dec_one(first)? {
            return Ok(Some(dec));
        }
        if !self.starts_exp() {
            return Ok(None);
        }
        let exp = self.exp()?;
        if !matches!(self.peek(), ";" | "") {
            return Err(self.unexpected("\";\""));
        }
        Ok(Some(ExpDec::of(exp).first(first)))
    }

    /// A declaration; none where none begins.
    pub(super) fn dec_one(&mut self, first: Token) -> Parsed<Option<DecOne>> {
        let keyword = self.peek();
        self.at += 1;
        Ok(Some(match keyword {
            "val" => ValDec::of(self.val_binds()?).first(first),
            "fun" => self.fun_dec()?.first(first),
            "type" => self.ty_dec(first, Site::Dec)?,
            "datatype" => self.datatype(first)?,
            "abstype" => self.abstype()?.first(first),
            "exception" => ExDec::of(self.separated("and", Self::ex_bind)?).first(first),
            "open" => self.open_dec()?.first(first),
            "infix" | "infixr" | "nonfix" => self.fixity_dec(keyword, first)?,
            "do" => DoDec::of(self.exp()?).first(first),
            "local" => self.local_dec()?.first(first),
            "structure" => StructureDec::of(self.str_binds(Site::Dec)?).first(first),
            "signature" => SignatureDec::of(self.separated("and", Self::sig_bind)?).first(first),
            "functor" => FunctorDec::of(self.separated("and", Self::functor_bind)?).first(first),
            "..." => HoleDec::new().first(first),
            _ => {
                self.at -= 1;
                return Ok(None);
            }
        }))
    }

    /// What follows `type` or `eqtype`.
    pub(super) fn ty_dec(&mut self, head: Token, site: Site) -> Parsed<DecOne> {
        Ok(TyDec::new().ty_head(head).ty_binds(self.ty_binds(site)?).first(head))
    }

    /// What follows `open`.
    pub(super) fn open_dec(&mut self) -> Parsed<OpenDec> {
        let mut paths = vec![self.path()?];
        while self.is_at(Class::Name) {
            paths.push(self.path()?);
        }
        Ok(OpenDec::of(paths))
    }

    /// What follows `infix`, `infixr` or `nonfix`.
    pub(super) fn fixity_dec(&mut self, keyword: &str, first: Token) -> Parsed<DecOne> {
        let (digit, precedence) = match self.peek().parse::<u8>() {
            Ok(precedence @ 0..=9) if keyword != "nonfix" => (self.next(), precedence),
            _ => (None, 0),
        };
        let fixity = Fixity { precedence, is_right: keyword == "infixr" };
        let fixity = (keyword != "nonfix").then_some(fixity);
        let mut names = Vec::new();
        while names.is_empty() || self.is_at(Class::Name) || self.peek() == "=" {
            let text = self.peek();
            names.push(self.name_or_equals()?);
            self.fixities.set(text, fixity);
        }
        Ok(match keyword {
            "infix" => InfixDec::new().int_lit(digit).name_star_eqs(names).first(first),
            "infixr" => InfixrDec::new().int_lit(digit).name_star_eqs(names).first(first),
            _ => NonfixDec::of(names).first(first),
        })
    }

    /// What follows `local`.
    fn local_dec(&mut self) -> Parsed<LocalDec> {
        let head = self.fixities.mark();
        let dec = LocalDec::new().local_dec_hd(LocalDecHd::of(self.decs()?));
        self.expect_after_decs("in")?;
        let tail = self.fixities.mark();
        let dec = dec.local_dec_tl(LocalDecTl::of(self.decs()?));
        self.expect_after_decs("end")?;
        self.fixities.end_local(head, tail);
        Ok(dec)
    }
}

/// Each declaration as a `Dec` of its own.
fn one_each(items: Vec<DecInSeq>) -> Vec<Dec> {
    items.into_iter().map(|item| Dec::sequence([item])).collect()
}
