//! What declarations of values, types and exceptions bind.

use super::dec::Site;
use super::{Parsed, Parser};
use diverplume_record::tree::{
    AbstypeDec, ConBind, ConPat, DatBind, DatCopyDec, DatDec, DecOne, EqConBinds, EqExp, EqTy,
    ExBind, OfTy, Path, TyBind, TypedPat, ValBind, WithType,
};
use diverplume_record::Token;

impl Parser<'_> {
    /// What follows `val` in a declaration.
    pub(super) fn val_binds(&mut self) -> Parsed<Vec<ValBind>> {
        if self.is_ty_var_seq() {
            self.lose("type variables behind \"val\" would be lost; annotate the pattern instead");
            self.ty_var_seq()?;
        }
        self.separated("and", |parser| {
            let rec = parser.eat("rec");
            while parser.peek() == "rec" {
                parser.lose("a second \"rec\" would be lost; remove it");
                parser.next();
            }
            let bind = ValBind::new().rec_kw(rec).pat(parser.pat()?);
            parser.expect("=")?;
            Ok(bind.eq_exp(EqExp::of(parser.exp()?)))
        })
    }

    /// A name with its type, as a specification has it; the name may be infix.
    pub(super) fn val_desc(&mut self) -> Parsed<ValBind> {
        let op = self.eat("op");
        let pat = ConPat::new().op_kw(op).path(Path::named([self.name_or_equals()?]));
        self.expect(":")?;
        Ok(ValBind::new().pat(TypedPat::new().pat(pat).ty(self.ty()?)))
    }

    pub(super) fn ty_bind(&mut self, site: Site) -> Parsed<TyBind> {
        let bind = TyBind::new().ty_var_seq(self.ty_var_seq()?).name(self.name()?);
        if site == Site::Spec && self.peek() != "=" {
            return Ok(bind);
        }
        self.expect("=")?;
        Ok(bind.eq_ty(EqTy::of(self.ty()?)))
    }

    pub(super) fn ty_binds(&mut self, site: Site) -> Parsed<Vec<TyBind>> {
        self.separated("and", |parser| parser.ty_bind(site))
    }

    /// What follows `datatype`.
    pub(super) fn datatype(&mut self, first: Token) -> Parsed<DecOne> {
        if self.text_ahead(1) == "=" && self.text_ahead(2) == "datatype" {
            let dec = DatCopyDec::new().name(self.name()?);
            self.expect("=")?;
            self.expect("datatype")?;
            return Ok(dec.path(self.path()?).first(first));
        }
        let dec = DatDec::new().dat_binds(self.separated("and", Self::dat_bind)?);
        Ok(dec.with_type(self.with_type()?).first(first))
    }

    /// What follows `abstype`.
    pub(super) fn abstype(&mut self) -> Parsed<AbstypeDec> {
        let dec = AbstypeDec::new().dat_binds(self.separated("and", Self::dat_bind)?);
        let dec = dec.with_type(self.with_type()?);
        self.expect("with")?;
        let dec = dec.decs(self.decs()?);
        self.expect_after_decs("end")?;
        Ok(dec)
    }

    fn with_type(&mut self) -> Parsed<Option<WithType>> {
        let withtype = self.eat("withtype");
        withtype.map(|_| Ok(WithType::of(self.ty_binds(Site::Dec)?))).transpose()
    }

    fn dat_bind(&mut self) -> Parsed<DatBind> {
        let bind = DatBind::new().ty_var_seq(self.ty_var_seq()?).name(self.name()?);
        self.expect("=")?;
        let cons = self.barred(|parser| {
            let con = ConBind::new().name_star_eq(parser.bound_name()?);
            Ok(con.of_ty(parser.of_ty()?))
        })?;
        Ok(bind.eq_con_binds(EqConBinds::of(cons)))
    }

    /// The name of a constructor or exception that is being bound.
    fn bound_name(&mut self) -> Parsed<Token> {
        if self.peek() == "op" {
            self.lose("this \"op\" would be lost; remove it, no name needs it where it is bound");
            self.next();
        }
        self.name()
    }

    fn of_ty(&mut self) -> Parsed<Option<OfTy>> {
        let of = self.eat("of");
        of.map(|_| Ok(OfTy::of(self.ty()?))).transpose()
    }

    pub(super) fn ex_bind(&mut self) -> Parsed<ExBind> {
        let bind = ExBind::new().name_star_eq(self.bound_name()?);
        if self.eat("=").is_some() {
            return Ok(bind.ex_bind_inner(EqExp::of(self.exp()?)));
        }
        Ok(match self.of_ty()? {
            Some(of_ty) => bind.ex_bind_inner(of_ty),
            None => bind,
        })
    }
}
