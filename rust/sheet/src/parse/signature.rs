//! Signatures and specifications.

use super::dec::Site;
use super::{Parsed, Parser};
use crate::lex::Class;
use diverplume_record::tree::{
    Dec, DecOne, DecWithTail, ExDec, HoleDec, IncludeDec, NameSigExp, PathEq, SharingTail, SigBind,
    SigExp, SigSigExp, StructureDec, ValDec, WhereSigExp, WhereTypeSigExp,
};
use diverplume_record::Token;

impl Parser<'_> {
    pub(super) fn sig_bind(&mut self) -> Parsed<SigBind> {
        let bind = SigBind::new().name(self.name()?);
        self.expect("=")?;
        Ok(bind.sig_exp(self.sig_exp()?))
    }

    pub(super) fn sig_exp(&mut self) -> Parsed<SigExp> {
        self.nested(|parser| {
            let mut exp = parser.atomic_sig_exp()?;
            while parser.eat("where").is_some() {
                exp = parser.where_sig_exp(exp)?;
            }
            Ok(exp)
        })
    }

    fn atomic_sig_exp(&mut self) -> Parsed<SigExp> {
        if self.eat("sig").is_none() {
            return Ok(NameSigExp::of(self.of_class(Class::Name, "a signature")?).into());
        }
        let scope = self.fixities.mark();
        let specs = self.specs()?;
        self.eat("end").ok_or_else(|| self.unexpected("a specification or \"end\""))?;
        self.fixities.end(scope);
        Ok(SigSigExp::of(specs).into())
    }

    /// What follows `where`: a structure, or types with `and` between.
    fn where_sig_exp(&mut self, exp: SigExp) -> Parsed<SigExp> {
        if self.peek() != "type" {
            let exp = WhereSigExp::new().sig_exp(exp).lhs(self.path()?);
            self.expect("=")?;
            return Ok(exp.rhs(self.path()?).into());
        }
        let mut exp = self.where_type(exp)?;
        while self.peek() == "and" && self.text_ahead(1) == "type" {
            self.lose("\"and type\" would be written as \"where type\"; write that here");
            self.next();
            exp = self.where_type(exp)?;
        }
        Ok(exp)
    }

    fn where_type(&mut self, exp: SigExp) -> Parsed<SigExp> {
        self.expect("type")?;
        let exp = WhereTypeSigExp::new().sig_exp(exp).ty_var_seq(self.ty_var_seq()?);
        let exp = exp.path(self.path()?);
        self.expect("=")?;
        Ok(exp.ty(self.ty()?).into())
    }

    /// Specifications, as many as there are: one `Dec` for all that `sharing` constrains.
    pub(super) fn specs(&mut self) -> Parsed<Vec<Dec>> {
        let mut decs = Vec::new();
        loop {
            let items = self.dec_items(Self::spec_one)?;
            let tails = self.sharing_tails()?;
            if items.is_empty() && tails.is_empty() {
                return Ok(decs);
            }
            let has_tails = !tails.is_empty();
            let specs = DecWithTail::new().dec_in_seqs(items).sharing_tails(tails);
            let semicolon = if has_tails { self.eat(";") } else { None };
            decs.push(Dec::new().dec_with_tail(specs).semicolon(semicolon));
        }
    }

    fn sharing_tails(&mut self) -> Parsed<Vec<SharingTail>> {
        let mut tails = Vec::new();
        while self.peek() == "sharing" {
            if self.text_ahead(1) != "type" {
                self.lose(
                    "\"sharing\" of structures would be written as \"sharing type\"; name the \
                     types that they share",
                );
            }
            self.next();
            self.eat("type");
            let path = |parser: &mut Self| Ok(PathEq::of(parser.path()?));
            tails.push(SharingTail::of(self.separated("=", path)?));
        }
        Ok(tails)
    }

    /// A specification; none where none begins.
    fn spec_one(&mut self, first: Token) -> Parsed<Option<DecOne>> {
        let keyword = self.peek();
        self.at += 1;
        Ok(Some(match keyword {
            "val" => ValDec::of(self.separated("and", Self::val_desc)?).first(first),
            "type" | "eqtype" => self.ty_dec(first, Site::Spec)?,
            "datatype" => self.datatype(first)?,
            "exception" => ExDec::of(self.separated("and", Self::ex_bind)?).first(first),
            "structure" => StructureDec::of(self.str_binds(Site::Spec)?).first(first),
            "include" => self.include_dec()?.first(first),
            "open" => self.open_dec()?.first(first),
            "infix" | "infixr" | "nonfix" => self.fixity_dec(keyword, first)?,
            "..." => HoleDec::new().first(first),
            _ => {
                self.at -= 1;
                return Ok(None);
            }
        }))
    }

    /// What follows `include`: a signature, or several names.
    fn include_dec(&mut self) -> Parsed<IncludeDec> {
        let mut sig_exps = vec![self.sig_exp()?];
        while self.is_at(Class::Name) {
            sig_exps.push(self.sig_exp()?);
        }
        Ok(IncludeDec::of(sig_exps))
    }
}
