//! Structures and functors.

use super::dec::Site;
use super::{Parsed, Parser};
use crate::error::Reason;
use crate::lex::Class;
use diverplume_record::tree::{
    AppStrExp, AppStrExpArg, AppStrExpArgStrExp, AscriptionStrExp, AscriptionTail, Dec, EqStrExp,
    FunctorArg, FunctorArgNameSigExp, FunctorBind, LetStrExp, PathStrExp, StrBind, StrExp,
    StructStrExp,
};

impl Parser<'_> {
    /// What follows `structure`. A specification need not say what the structure is.
    pub(super) fn str_binds(&mut self, site: Site) -> Parsed<Vec<StrBind>> {
        self.separated("and", |parser| {
            let bind = StrBind::new().name(parser.name()?);
            let bind = bind.ascription_tail(parser.ascription_tail()?);
            if site == Site::Spec && parser.peek() != "=" {
                return Ok(bind);
            }
            parser.expect("=")?;
            Ok(bind.eq_str_exp(EqStrExp::of(parser.str_exp()?)))
        })
    }

    /// A colon, transparent or opaque, and a signature, if a colon is next.
    fn ascription_tail(&mut self) -> Parsed<Option<AscriptionTail>> {
        let colon = self.eat(":").or_else(|| self.eat(":>"));
        let tail = |colon| Ok(AscriptionTail::new().ascription(colon).sig_exp(self.sig_exp()?));
        colon.map(tail).transpose()
    }

    pub(super) fn str_exp(&mut self) -> Parsed<StrExp> {
        self.nested(|parser| {
            let mut exp = parser.atomic_str_exp()?;
            while let Some(tail) = parser.ascription_tail()? {
                exp = AscriptionStrExp::new().str_exp(exp).ascription_tail(tail).into();
            }
            Ok(exp)
        })
    }

    fn atomic_str_exp(&mut self) -> Parsed<StrExp> {
        match self.peek() {
            "struct" => self.struct_exp(),
            "let" => self.let_str_exp(),
            _ if !self.is_at(Class::Name) => Err(self.unexpected("a structure")),
            _ if self.text_ahead(1) == "(" => self.app_str_exp(),
            _ => {
                let path = self.path()?;
                if self.peek() == "(" {
                    let problem =
                        "a functor's name without dots is expected before this parenthesis";
                    return Err(self.error(Reason::Syntax, problem.to_owned()));
                }
                Ok(PathStrExp::of(path).into())
            }
        }
    }

    fn struct_exp(&mut self) -> Parsed<StrExp> {
        self.expect("struct")?;
        let scope = self.fixities.mark();
        let decs = self.decs()?;
        self.expect_after_decs("end")?;
        self.fixities.end(scope);
        Ok(StructStrExp::of(decs).into())
    }

    fn let_str_exp(&mut self) -> Parsed<StrExp> {
        self.expect("let")?;
        let scope = self.fixities.mark();
        let exp = LetStrExp::new().decs(self.decs()?);
        self.expect_after_decs("in")?;
        let exp = exp.str_exp(self.str_exp()?);
        self.expect("end")?;
        self.fixities.end(scope);
        Ok(exp.into())
    }

    /// A functor's name and its argument: a structure, declarations, or nothing.
    fn app_str_exp(&mut self) -> Parsed<StrExp> {
        let exp = AppStrExp::new().name(self.name()?);
        self.expect("(")?;
        let scope = self.fixities.mark();
        let items = self.dec_items(Self::dec_one)?;
        self.fixities.end(scope);
        let mut args: Vec<AppStrExpArg> = Vec::new();
        if !items.is_empty() {
            args.push(Dec::sequence(items).into());
        } else if self.peek() != ")" {
            args.push(AppStrExpArgStrExp::of(self.str_exp()?).into());
        }
        self.expect(")")?;
        Ok(exp.app_str_exp_args(args).into())
    }

    pub(super) fn functor_bind(&mut self) -> Parsed<FunctorBind> {
        let bind = FunctorBind::new().functor_name(self.name()?);
        self.expect("(")?;
        let bind = bind.functor_args(self.functor_args()?);
        self.expect(")")?;
        let bind = bind.ascription_tail(self.ascription_tail()?);
        self.expect("=")?;
        Ok(bind.body(self.str_exp()?))
    }

    /// A structure's name and signature, specifications, or nothing.
    fn functor_args(&mut self) -> Parsed<Vec<FunctorArg>> {
        if !self.is_at(Class::Name) {
            return Ok(self.specs()?.into_iter().map(FunctorArg::from).collect());
        }
        let arg = FunctorArgNameSigExp::new().name(self.name()?);
        self.expect(":")?;
        Ok(vec![arg.sig_exp(self.sig_exp()?).into()])
    }
}
