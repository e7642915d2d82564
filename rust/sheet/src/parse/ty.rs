//! Types.

use super::{Parsed, Parser};
use crate::lex::Class;
use diverplume_record::tree::{
    ConTy, FnTy, HoleTy, OneArgConTy, ParenTy, RecordTy, StarTy, TupleTy, Ty, TyAnnotation, TyArg,
    TyRow, TySeq, TyVarArg, TyVarSeq, TyVarTy, WildcardTy,
};
use diverplume_record::Token;

impl Parser<'_> {
    pub(super) fn ty(&mut self) -> Parsed<Ty> {
        self.nested(|parser| {
            let param = parser.tuple_ty()?;
            if parser.eat("->").is_none() {
                return Ok(param);
            }
            Ok(FnTy::new().param(param).res(parser.ty()?).into())
        })
    }

    /// A colon and a type, if a colon is next.
    pub(super) fn ty_annotation(&mut self) -> Parsed<Option<TyAnnotation>> {
        let colon = self.eat(":");
        colon.map(|_| Ok(TyAnnotation::of(self.ty()?))).transpose()
    }

    fn tuple_ty(&mut self) -> Parsed<Ty> {
        let first = self.con_ty()?;
        let mut stars = Vec::new();
        while self.eat("*").is_some() {
            stars.push(StarTy::of(self.con_ty()?));
        }
        if stars.is_empty() {
            return Ok(first);
        }
        Ok(TupleTy::new().ty(first).star_tys(stars).into())
    }

    /// A type and the constructors behind it.
    fn con_ty(&mut self) -> Parsed<Ty> {
        let mut ty = self.atomic_ty()?;
        while self.is_ty_con() {
            ty = OneArgConTy::new().ty(ty).path(self.path()?).into();
        }
        Ok(ty)
    }

    fn is_ty_con(&self) -> bool {
        self.is_at(Class::Name) && self.peek() != "*"
    }

    fn atomic_ty(&mut self) -> Parsed<Ty> {
        match self.peek() {
            "{" => {
                self.next();
                Ok(RecordTy::of(self.until("}", Self::ty_row)?).into())
            }
            "(" => self.ty_in_parentheses(),
            "_" => {
                self.next();
                Ok(WildcardTy::new().into())
            }
            "..." => {
                self.next();
                Ok(HoleTy::new().into())
            }
            _ if self.is_at(Class::TyVar) => Ok(TyVarTy::of(self.ty_var()?).into()),
            _ if self.is_ty_con() => Ok(ConTy::new().path(self.path()?).into()),
            _ => Err(self.unexpected("a type")),
        }
    }

    /// A type in parentheses, or several with a constructor behind.
    fn ty_in_parentheses(&mut self) -> Parsed<Ty> {
        self.expect("(")?;
        let mut args = self.separated(",", Self::ty)?;
        self.close_list(")")?;
        match args.pop() {
            Some(inside) if args.is_empty() => Ok(ParenTy::of(inside).into()),
            last => {
                let args = args.into_iter().chain(last).map(TyArg::of);
                Ok(ConTy::new().ty_seq(TySeq::of(args)).path(self.path()?).into())
            }
        }
    }

    fn ty_row(&mut self) -> Parsed<TyRow> {
        let label = self.label()?;
        self.expect(":")?;
        Ok(TyRow::new().lab(label).ty(self.ty()?))
    }

    fn ty_var(&mut self) -> Parsed<Token> {
        self.of_class(Class::TyVar, "a type variable")
    }

    /// A type variable, several in parentheses, or none.
    pub(super) fn ty_var_seq(&mut self) -> Parsed<Option<TyVarSeq>> {
        let arg = |parser: &mut Self| Ok(TyVarArg::of(parser.ty_var()?));
        if self.is_at(Class::TyVar) {
            return Ok(Some(TyVarSeq::new().ty_var_args([arg(self)?])));
        }
        if !self.is_ty_var_seq() {
            return Ok(None);
        }
        let open = self.expect("(")?;
        Ok(Some(TyVarSeq::new().l_round(open).ty_var_args(self.until(")", arg)?)))
    }

    /// Whether type variables are next.
    pub(super) fn is_ty_var_seq(&self) -> bool {
        let is_ty_var = |by| self.ahead(by).is_some_and(|word| word.class == Class::TyVar);
        is_ty_var(0) || (self.peek() == "(" && is_ty_var(1))
    }
}
