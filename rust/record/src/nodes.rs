//! The one declaration of all nodes.

/// Hands the declaration of all nodes, families and choices to the macro `$then`.
///
/// `nodes` gives each node its fields: the accessors that 000 calls on it, in the order in which
/// 000's text first names them. A field's kind is one of
///
/// - `(token)`, or `(token W)` where 000 reads the token through the wrapper `W`,
/// - `(group N)`: the node `N`, written as a group,
/// - `(choice C)`: one of the nodes of the choice `C`,
/// - `(form F)`: one of the forms of the family `F`,
/// - `(list ...)` of one of these.
///
/// `families` gives each family its first command and its forms in the order of 000's match arms,
/// `choices` gives each choice its nodes in the order of 000's match.
#[macro_export]
macro_rules! with_nodes {
    ($then:ident) => {
        $then! {
            nodes {
                Root { decs: (list group Dec), }

                // get_dec
                Dec { dec_with_tail: (group DecWithTail), semicolon: (token), }
                DecWithTail {
                    dec_in_seqs: (list group DecInSeq),
                    sharing_tails: (list group SharingTail),
                }
                DecInSeq { dec_one: (form DecOne), semicolon: (token), }
                SharingTail { path_eqs: (list group PathEq), }
                PathEq { path: (group Path), }

                // get_dec_one
                HoleDec {}
                ValDec { val_binds: (list group ValBind), }
                ValBind { rec_kw: (token), pat: (form Pat), eq_exp: (group EqExp), }
                EqExp { exp: (form Exp), }
                FunDec { ty_var_seq: (group TyVarSeq), fun_binds: (list group FunBind), }
                FunBind { fun_bind_cases: (list group FunBindCase), }
                FunBindCase {
                    fun_bind_case_head: (choice FunBindCaseHead),
                    pats: (list form Pat),
                    ty_annotation: (group TyAnnotation),
                    eq_exp: (group EqExp),
                }
                PrefixFunBindCaseHead { op_kw: (token), name_star_eq: (token NameStarEq), }
                InfixFunBindCaseHead {
                    l_round: (token),
                    lhs: (form Pat),
                    name_star_eq: (token NameStarEq),
                    rhs: (form Pat),
                }
                TyDec { ty_head: (token TyHead), ty_binds: (list group TyBind), }
                DatDec { dat_binds: (list group DatBind), with_type: (group WithType), }
                WithType { ty_binds: (list group TyBind), }
                DatCopyDec { name: (token), path: (group Path), }
                AbstypeDec {
                    dat_binds: (list group DatBind),
                    with_type: (group WithType),
                    decs: (list group Dec),
                }
                ExDec { ex_binds: (list group ExBind), }
                ExBind { name_star_eq: (token NameStarEq), ex_bind_inner: (choice ExBindInner), }
                OfTy { ty: (form Ty), }
                OpenDec { paths: (list group Path), }
                InfixDec { int_lit: (token), name_star_eqs: (list token NameStarEq), }
                InfixrDec { int_lit: (token), name_star_eqs: (list token NameStarEq), }
                NonfixDec { name_star_eqs: (list token NameStarEq), }
                DoDec { exp: (form Exp), }
                LocalDec { local_dec_hd: (group LocalDecHd), local_dec_tl: (group LocalDecTl), }
                LocalDecHd { decs: (list group Dec), }
                LocalDecTl { decs: (list group Dec), }
                StructureDec { str_binds: (list group StrBind), }
                StrBind {
                    name: (token),
                    ascription_tail: (group AscriptionTail),
                    eq_str_exp: (group EqStrExp),
                }
                EqStrExp { str_exp: (form StrExp), }
                SignatureDec { sig_binds: (list group SigBind), }
                SigBind { name: (token), sig_exp: (form SigExp), }
                FunctorDec { functor_binds: (list group FunctorBind), }
                FunctorBind {
                    functor_name: (token),
                    functor_args: (list choice FunctorArg),
                    ascription_tail: (group AscriptionTail),
                    body: (form StrExp),
                }
                FunctorArgNameSigExp { name: (token), sig_exp: (form SigExp), }
                ExpDec { exp: (form Exp), }
                IncludeDec { sig_exps: (list form SigExp), }
                EsImportDec {}

                // dat_binds, con_bind, ascription_tail
                DatBind {
                    ty_var_seq: (group TyVarSeq),
                    name: (token),
                    eq_con_binds: (group EqConBinds),
                }
                EqConBinds { con_binds: (list group ConBind), }
                ConBind { name_star_eq: (token NameStarEq), of_ty: (group OfTy), }
                AscriptionTail { ascription: (token Ascription), sig_exp: (form SigExp), }

                // get_str_exp
                StructStrExp { decs: (list group Dec), }
                PathStrExp { path: (group Path), }
                AscriptionStrExp {
                    str_exp: (form StrExp),
                    ascription_tail: (group AscriptionTail),
                }
                AppStrExp { name: (token), app_str_exp_args: (list choice AppStrExpArg), }
                AppStrExpArgStrExp { str_exp: (form StrExp), }
                LetStrExp { decs: (list group Dec), str_exp: (form StrExp), }

                // get_sig_exp
                SigSigExp { decs: (list group Dec), }
                NameSigExp { name: (token), }
                WhereTypeSigExp {
                    sig_exp: (form SigExp),
                    ty_var_seq: (group TyVarSeq),
                    path: (group Path),
                    ty: (form Ty),
                }
                WhereSigExp { sig_exp: (form SigExp), lhs: (group Path), rhs: (group Path), }

                // ty_annotation, ty_binds, ty_var_seq
                TyAnnotation { ty: (form Ty), }
                TyBind { ty_var_seq: (group TyVarSeq), name: (token), eq_ty: (group EqTy), }
                EqTy { ty: (form Ty), }
                TyVarSeq { l_round: (token), ty_var_args: (list group TyVarArg), }
                TyVarArg { ty_var: (token), }

                // get_exp
                HoleExp {}
                WildcardExp {}
                OpAndalsoExp {}
                OpOrelseExp {}
                SConExp { s_con: (token SCon), }
                PathExp { op_kw: (token), path: (group Path), }
                RecordExp { exp_rows: (list group ExpRow), }
                ExpRow { lab: (token Lab), eq_exp: (group EqExp), }
                SelectorExp { lab: (token Lab), }
                ParenExp { exp: (form Exp), }
                TupleExp { exp_args: (list group ExpArg), }
                ListExp { exp_args: (list group ExpArg), }
                VectorExp { list_exp: (group ListExp), }
                SeqExp { exps_in_seq: (list group ExpInSeq), }
                LetExp { decs: (list group Dec), exps_in_seq: (list group ExpInSeq), }
                AppExp { func: (form Exp), arg: (form Exp), }
                InfixExp { name_star_eq: (token NameStarEq), lhs: (form Exp), rhs: (form Exp), }
                TypedExp { exp: (form Exp), ty: (form Ty), }
                AndalsoExp { lhs: (form Exp), rhs: (form Exp), }
                OrelseExp { lhs: (form Exp), rhs: (form Exp), }
                HandleExp { exp: (form Exp), matcher: (group Matcher), }
                RaiseExp { exp: (form Exp), }
                IfExp { cond: (form Exp), yes: (form Exp), no: (form Exp), }
                WhileExp { cond: (form Exp), body: (form Exp), }
                CaseExp { exp: (form Exp), matcher: (group Matcher), }
                FnExp { matcher: (group Matcher), }
                Matcher { arms: (list group Arm), }
                Arm { pat: (form Pat), exp: (form Exp), }

                // get_pat
                WildcardPat {}
                SConPat { s_con: (token SCon), }
                ConPat { op_kw: (token), path: (group Path), pat: (form Pat), }
                RecordPat { pat_rows: (list group PatRow), }
                PatRow { pat_row_inner: (choice PatRowInner), }
                RestPatRow {}
                LabAndPatPatRow { lab: (token Lab), pat: (form Pat), }
                LabPatRow {
                    name_star_eq: (token NameStarEq),
                    ty_annotation: (group TyAnnotation),
                    as_pat_tail: (group AsPatTail),
                }
                AsPatTail { pat: (form Pat), }
                ParenPat { pat: (form Pat), }
                TuplePat { pat_args: (list group PatArg), }
                ListPat { pat_args: (list group PatArg), }
                VectorPat { list_pat: (group ListPat), }
                InfixPat { lhs: (form Pat), name_star_eq: (token NameStarEq), rhs: (form Pat), }
                TypedPat { pat: (form Pat), ty: (form Ty), }
                AsPat { pat: (form Pat), as_pat_tail: (group AsPatTail), }
                OrPat { lhs: (form Pat), rhs: (form Pat), }

                // get_ty
                HoleTy {}
                WildcardTy {}
                TyVarTy { ty_var: (token), }
                RecordTy { ty_rows: (list group TyRow), }
                TyRow { lab: (token Lab), ty: (form Ty), }
                ConTy { ty_seq: (group TySeq), path: (group Path), }
                TySeq { ty_args: (list group TyArg), }
                TyArg { ty: (form Ty), }
                OneArgConTy { ty: (form Ty), path: (group Path), }
                TupleTy { ty: (form Ty), star_tys: (list group StarTy), }
                StarTy { ty: (form Ty), }
                FnTy { param: (form Ty), res: (form Ty), }
                ParenTy { ty: (form Ty), }

                // path, pat_args, exp_args, exp_semi_seq
                Path { name_star_eq_dots: (list group NameStarEqDot), }
                NameStarEqDot { name_star_eq: (token NameStarEq), }
                PatArg { pat: (form Pat), }
                ExpArg { exp: (form Exp), }
                ExpInSeq { exp: (form Exp), semicolon: (token), }
            }
            families {
                DecOne 0x10 [
                    HoleDec ValDec FunDec TyDec DatDec DatCopyDec AbstypeDec ExDec OpenDec InfixDec
                    InfixrDec NonfixDec DoDec LocalDec StructureDec SignatureDec FunctorDec ExpDec
                    IncludeDec EsImportDec
                ]
                StrExp 0x28 [StructStrExp PathStrExp AscriptionStrExp AppStrExp LetStrExp]
                SigExp 0x30 [SigSigExp NameSigExp WhereTypeSigExp WhereSigExp]
                Exp 0x40 [
                    HoleExp WildcardExp OpAndalsoExp OpOrelseExp SConExp PathExp RecordExp
                    SelectorExp ParenExp TupleExp ListExp VectorExp SeqExp LetExp AppExp InfixExp
                    TypedExp AndalsoExp OrelseExp HandleExp RaiseExp IfExp WhileExp CaseExp FnExp
                ]
                Pat 0x60 [
                    WildcardPat SConPat ConPat RecordPat ParenPat TuplePat ListPat VectorPat
                    InfixPat TypedPat AsPat OrPat
                ]
                Ty 0x70 [
                    HoleTy WildcardTy TyVarTy RecordTy ConTy OneArgConTy TupleTy FnTy ParenTy
                ]
            }
            choices {
                FunBindCaseHead [PrefixFunBindCaseHead InfixFunBindCaseHead]
                ExBindInner [OfTy EqExp]
                FunctorArg [FunctorArgNameSigExp Dec]
                AppStrExpArg [AppStrExpArgStrExp Dec]
                PatRowInner [RestPatRow LabAndPatPatRow LabPatRow]
            }
        }
    };
}
