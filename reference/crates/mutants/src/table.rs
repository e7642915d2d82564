//! The changes.

/// A change of 000 in one place.
#[derive(Debug, Clone, Copy, PartialEq, Eq)]
pub struct Mutation {
    /// What is changed.
    pub change: &'static str,
    /// What stands in 000, once.
    pub from: &'static str,
    /// What stands in its place.
    pub to: &'static str,
}

impl Mutation {
    /// The source with the change; an error where the place isn't there just once.
    ///
    /// # Errors
    ///
    /// If the source has the text to be replaced other than once.
    pub fn apply(&self, source: &str) -> Result<String, String> {
        match source.matches(self.from).count() {
            1 => Ok(source.replacen(self.from, self.to, 1)),
            count => Err(format!("{}: 000 has {:?} {count} times", self.change, self.from)),
        }
    }
}

/// All changes, by the functions of 000.
#[rustfmt::skip]
pub const MUTATIONS: &[Mutation] = &[
    Mutation {
        change: "go: a token of any kind is a comment",
        from: "(tok.kind() == SyntaxKind::BlockComment).then",
        to: "(tok.kind() != SyntaxKind::Other).then",
    },
    Mutation {
        change: "go: comments left are let pass",
        from: "if st.comment_ranges.is_empty() {",
        to: "if st.comment_ranges.len() < 2 {",
    },
    Mutation {
        change: "go: comments come before Syntax",
        from: "    None => Err(Error::Syntax),",
        to: "    None if st.comment_ranges.is_empty() => Err(Error::Syntax),\n    None => Err(Error::Comments(st.comment_ranges)),",
    },
    Mutation {
        change: "Cfg::new: no blank line at the top",
        from: "tab_size, extra_blank: true }",
        to: "tab_size, extra_blank: false }",
    },
    Mutation {
        change: "Cfg::indented: one more than the tab size",
        from: "self.indent + self.tab_size, ..self",
        to: "self.indent + self.tab_size + 1, ..self",
    },
    Mutation {
        change: "Cfg::output_indent: one tab at every depth",
        from: "for _ in 0..self.indent {",
        to: "for _ in 0..self.indent.min(self.tab_size) {",
    },
    Mutation {
        change: "get_dec: a blank line between the parts of a sequence is left out",
        from: r#"sep_with_lines(st, cfg, "", dwt.dec_in_seqs()"#,
        to: r#"sep_with_lines(st, cfg.extra_blank(false), "", dwt.dec_in_seqs()"#,
    },
    Mutation {
        change: "get_dec: the blank lines are inherited",
        from: "get_dec_one(st, cfg.extra_blank(false), dec_in_seq.dec_one()?)?;",
        to: "get_dec_one(st, cfg, dec_in_seq.dec_one()?)?;",
    },
    Mutation {
        change: "get_dec: the semicolon of a DecInSeq is dropped",
        from: "if dec_in_seq.semicolon().is_some() {\n        st.write(\";\");",
        to: "if dec_in_seq.semicolon().is_some() {\n        st.write(\"\");",
    },
    Mutation {
        change: "get_dec: the semicolon of a Dec is written where there is none",
        from: "if dwt_in_seq.semicolon().is_some() {",
        to: "if dwt_in_seq.semicolon().is_none() {",
    },
    Mutation {
        change: "get_dec: the semicolon of a Dec is dropped behind a sequence",
        from: "if dwt_in_seq.semicolon().is_some() {",
        to: "if dwt_in_seq.semicolon().is_some() && dwt.dec_in_seqs().count() < 2 {",
    },
    Mutation {
        change: "get_dec: a sharing tail on the same line",
        from: "for sharing in dwt.sharing_tails() {\n      st.write(\"\\n\");",
        to: "for sharing in dwt.sharing_tails() {\n      st.write(\" \");",
    },
    Mutation {
        change: "get_dec: a sharing tail without indent",
        from: "cfg.output_indent(st);\n      st.write(\"sharing type \");",
        to: r#"st.write("sharing type ");"#,
    },
    Mutation {
        change: "get_dec: `sharing` without `type`",
        from: r#"st.write("sharing type ");"#,
        to: r#"st.write("sharing ");"#,
    },
    Mutation {
        change: "get_dec: sharing paths separated by commas",
        from: r#"sep(st, " = ", sharing.path_eqs()"#,
        to: r#"sep(st, ", ", sharing.path_eqs()"#,
    },
    Mutation {
        change: "get_dec: only the first sharing tail",
        from: "for sharing in dwt.sharing_tails() {",
        to: "for sharing in dwt.sharing_tails().take(1) {",
    },
    Mutation {
        change: "get_dec_one: the comment stays in the set",
        from: "    st.comment_ranges.remove(&tok.text_range());\n",
        to: "",
    },
    Mutation {
        change: "get_dec_one: the comment untrimmed",
        from: "st.write(tok.text().trim());",
        to: "st.write(tok.text());",
    },
    Mutation {
        change: "get_dec_one: the comment trimmed at its start only",
        from: "st.write(tok.text().trim());",
        to: "st.write(tok.text().trim_start());",
    },
    Mutation {
        change: "get_dec_one: the comment trimmed of spaces only",
        from: "st.write(tok.text().trim());",
        to: "st.write(tok.text().trim_matches(' '));",
    },
    Mutation {
        change: "get_dec_one: the comment trimmed of all but vertical tabs",
        from: "st.write(tok.text().trim());",
        to: "st.write(tok.text().trim_matches([' ', '\\t', '\\n', '\\r', '\\x0C']));",
    },
    Mutation {
        change: "get_dec_one: a comment already taken out is not written again",
        from: "    st.comment_ranges.remove(&tok.text_range());\n    st.write(tok.text().trim());\n    st.write(\"\\n\");\n    cfg.output_indent(st);\n",
        to: "    if st.comment_ranges.remove(&tok.text_range()) {\n      st.write(tok.text().trim());\n      st.write(\"\\n\");\n      cfg.output_indent(st);\n    }\n",
    },
    Mutation {
        change: "get_dec_one: no line feed behind the comment",
        from: "st.write(tok.text().trim());\n    st.write(\"\\n\");",
        to: "st.write(tok.text().trim());\n    st.write(\" \");",
    },
    Mutation {
        change: "get_dec_one: no indent behind the comment",
        from: "st.write(\"\\n\");\n    cfg.output_indent(st);\n  }\n  match dec {",
        to: "st.write(\"\\n\");\n  }\n  match dec {",
    },
    Mutation {
        change: "HoleDec: nothing is written",
        from: r#"ast::DecOne::HoleDec(_) => st.write("..."),"#,
        to: r#"ast::DecOne::HoleDec(_) => st.write(""),"#,
    },
    Mutation {
        change: "ValDec: `rec` where there is none",
        from: "if val_bind.rec_kw().is_some() {",
        to: "if val_bind.rec_kw().is_none() {",
    },
    Mutation {
        change: "ValDec: bindings separated as in `fun`",
        from: r#"sep_with_lines(st, cfg, "and ", dec.val_binds()"#,
        to: r#"sep_with_lines(st, cfg, "| ", dec.val_binds()"#,
    },
    Mutation {
        change: "ValDec: a blank line between bindings",
        from: r#"sep_with_lines(st, cfg, "and ", dec.val_binds()"#,
        to: r#"sep_with_lines(st, cfg.extra_blank(true), "and ", dec.val_binds()"#,
    },
    Mutation {
        change: "ValDec: the body one deeper",
        from: "get_body_exp(st, cfg, eq_exp.exp()?)?;\n        }\n        Some(())\n      })?;\n    }\n    ast::DecOne::FunDec",
        to: "get_body_exp(st, cfg.indented(), eq_exp.exp()?)?;\n        }\n        Some(())\n      })?;\n    }\n    ast::DecOne::FunDec",
    },
    Mutation {
        change: "FunDec: the type variables are left out",
        from: "      ty_var_seq(st, dec.ty_var_seq())?;\n      sep_with_lines(st, cfg, \"and \", dec.fun_binds()",
        to: r#"      sep_with_lines(st, cfg, "and ", dec.fun_binds()"#,
    },
    Mutation {
        change: "FunDec: the bars at the declaration's depth",
        from: r#"sep_with_lines(st, cfg.indented(), "| ", fun_bind"#,
        to: r#"sep_with_lines(st, cfg, "| ", fun_bind"#,
    },
    Mutation {
        change: "FunDec: the body from the bars' depth",
        from: "get_body_exp(st, cfg, eq_exp.exp()?)?;\n          }\n          Some(())\n        })\n",
        to: "get_body_exp(st, cfg.indented(), eq_exp.exp()?)?;\n          }\n          Some(())\n        })\n",
    },
    Mutation {
        change: "FunDec: `op` without a space",
        from: r#"st.write("op ");"#,
        to: r#"st.write("op");"#,
    },
    Mutation {
        change: "FunDec: parentheses closed where none are opened",
        from: "if parens {\n                st.write(\")\");",
        to: "if !parens {\n                st.write(\")\");",
    },
    Mutation {
        change: "FunDec: arguments without a space",
        from: "st.write(\" \");\n            get_pat(st, arg)?;",
        to: "get_pat(st, arg)?;",
    },
    Mutation {
        change: "FunDec: the type annotation before the arguments",
        from: "for arg in fun_bind_case.pats() {\n            st.write(\" \");\n            get_pat(st, arg)?;\n          }\n          ty_annotation(st, fun_bind_case.ty_annotation())?;",
        to: "ty_annotation(st, fun_bind_case.ty_annotation())?;\n          for arg in fun_bind_case.pats() {\n            st.write(\" \");\n            get_pat(st, arg)?;\n          }",
    },
    Mutation {
        change: "TyDec: always `type`",
        from: "st.write(dec.ty_head()?.token.text());",
        to: "dec.ty_head()?;\n      st.write(\"type\");",
    },
    Mutation {
        change: "DatDec: `withtype` without indent",
        from: "st.write(\"datatype \");\n      dat_binds(st, cfg, dec.dat_binds())?;\n      if let Some(withtype) = dec.with_type() {\n        st.write(\"\\n\");\n        cfg.output_indent(st);",
        to: "st.write(\"datatype \");\n      dat_binds(st, cfg, dec.dat_binds())?;\n      if let Some(withtype) = dec.with_type() {\n        st.write(\"\\n\");",
    },
    Mutation {
        change: "DatCopyDec: the second `datatype` is left out",
        from: r#"st.write(" = datatype ");"#,
        to: r#"st.write(" = ");"#,
    },
    Mutation {
        change: "AbstypeDec: blank lines between the declarations",
        from: "get_dec(st, cfg, dec.decs())?;\n      st.write(\" end\");",
        to: "get_dec(st, cfg.extra_blank(true), dec.decs())?;\n      st.write(\" end\");",
    },
    Mutation {
        change: "AbstypeDec: the declarations one deeper",
        from: "get_dec(st, cfg, dec.decs())?;\n      st.write(\" end\");",
        to: "get_dec(st, cfg.indented(), dec.decs())?;\n      st.write(\" end\");",
    },
    Mutation {
        change: "ExDec: the expression as a body",
        from: "st.write(\" = \");\n              get_exp(st, cfg, eq_exp.exp()?)",
        to: "st.write(\" =\");\n              get_body_exp(st, cfg, eq_exp.exp()?)",
    },
    Mutation {
        change: "OpenDec: paths separated by commas",
        from: r#"sep(st, " ", dec.paths(), path)?;"#,
        to: r#"sep(st, ", ", dec.paths(), path)?;"#,
    },
    Mutation {
        change: "InfixDec: no space behind the number",
        from: "st.write(\"infix \");\n      if let Some(int_lit) = dec.int_lit() {\n        st.write(int_lit.text());\n        st.write(\" \");",
        to: "st.write(\"infix \");\n      if let Some(int_lit) = dec.int_lit() {\n        st.write(int_lit.text());",
    },
    Mutation {
        change: "InfixrDec: `infix`",
        from: r#"st.write("infixr ");"#,
        to: r#"st.write("infix ");"#,
    },
    Mutation {
        change: "LocalDec: the second part is the first again",
        from: "dec.local_dec_tl().into_iter()",
        to: "dec.local_dec_hd().into_iter()",
    },
    Mutation {
        change: "LocalDec: an absent first part is Syntax",
        from: "|st, cfg| get_dec(st, cfg, dec.local_dec_hd().into_iter().flat_map(|x| x.decs())),",
        to: "|st, cfg| get_dec(st, cfg, dec.local_dec_hd()?.decs()),",
    },
    Mutation {
        change: "StructureDec: the ascription is left out",
        from: "if let Some(tail) = str_bind.ascription_tail() {\n          ascription_tail(st, cfg, tail)?;",
        to: "if let Some(tail) = str_bind.ascription_tail() {\n          tail.ascription()?;",
    },
    Mutation {
        change: "FunctorDec: a declaration as argument not deeper",
        from: "st.write(\"\\n\");\n              let new_cfg = cfg.indented();",
        to: "st.write(\"\\n\");\n              let new_cfg = cfg;",
    },
    Mutation {
        change: "FunctorDec: an indent before the parenthesis",
        from: "get_dec(st, new_cfg, std::iter::once(arg))?;\n              st.write(\"\\n\");\n            }\n          }\n        }\n        st.write(\")\");",
        to: "get_dec(st, new_cfg, std::iter::once(arg))?;\n              st.write(\"\\n\");\n              cfg.output_indent(st);\n            }\n          }\n        }\n        st.write(\")\");",
    },
    Mutation {
        change: "IncludeDec: separated by commas",
        from: r#"sep(st, " ", dec.sig_exps()"#,
        to: r#"sep(st, ", ", dec.sig_exps()"#,
    },
    Mutation {
        change: "EsImportDec: accepted",
        from: "ast::DecOne::EsImportDec(_) => return None,",
        to: "ast::DecOne::EsImportDec(_) => {}",
    },
    Mutation {
        change: "names_space: no space between names",
        from: r#"sep(st, " ", iter, |st, n| {"#,
        to: r#"sep(st, "", iter, |st, n| {"#,
    },
    Mutation {
        change: "dat_binds: one constructor goes on its own line",
        from: "eq_con_binds.con_binds().count() > 1",
        to: "eq_con_binds.con_binds().count() > 0",
    },
    Mutation {
        change: "dat_binds: two constructors stay on the line",
        from: "eq_con_binds.con_binds().count() > 1",
        to: "eq_con_binds.con_binds().count() > 2",
    },
    Mutation {
        change: "dat_binds: the first constructor not indented",
        from: "cfg.indented().output_indent(st);\n      sep_with_lines(st, cfg, \"| \", eq_con_binds",
        to: "cfg.output_indent(st);\n      sep_with_lines(st, cfg, \"| \", eq_con_binds",
    },
    Mutation {
        change: "dat_binds: the bars indented",
        from: r#"sep_with_lines(st, cfg, "| ", eq_con_binds"#,
        to: r#"sep_with_lines(st, cfg.indented(), "| ", eq_con_binds"#,
    },
    Mutation {
        change: "ascription_tail: no space before the signature",
        from: "st.write(tail.ascription()?.token.text());\n  st.write(\" \");",
        to: "st.write(tail.ascription()?.token.text());",
    },
    Mutation {
        change: "StructStrExp: no blank lines",
        from: "let new_cfg = cfg.indented().extra_blank(true);",
        to: "let new_cfg = cfg.indented();",
    },
    Mutation {
        change: "StructStrExp: `end` as deep as the declarations",
        from: "cfg.output_indent(st);\n      st.write(\"end\");\n    }\n    ast::StrExp::PathStrExp",
        to: "new_cfg.output_indent(st);\n      st.write(\"end\");\n    }\n    ast::StrExp::PathStrExp",
    },
    Mutation {
        change: "AppStrExp: the end is never indented",
        from: "needs_end_indent = true;",
        to: "needs_end_indent = false;",
    },
    Mutation {
        change: "AppStrExp: the end is indented without declarations too",
        from: "if needs_end_indent {",
        to: "if needs_end_indent || cfg.indent > 0 {",
    },
    Mutation {
        change: "LetStrExp: the structure as deep as `let`",
        from: "|st, cfg| get_str_exp(st, cfg, exp.str_exp()?),",
        to: "|st, _| get_str_exp(st, cfg, exp.str_exp()?),",
    },
    Mutation {
        change: "SigSigExp: blank lines",
        from: "st.write(\"sig\\n\");\n      let new_cfg = cfg.indented();",
        to: "st.write(\"sig\\n\");\n      let new_cfg = cfg.indented().extra_blank(true);",
    },
    Mutation {
        change: "WhereTypeSigExp: the type variables are left out",
        from: "      ty_var_seq(st, exp.ty_var_seq())?;\n",
        to: "",
    },
    Mutation {
        change: "WhereSigExp: the left path twice",
        from: "path(st, exp.rhs()?)?;",
        to: "path(st, exp.lhs()?)?;",
    },
    Mutation {
        change: "ty_binds: a colon for the equals sign",
        from: "if let Some(eq_ty) = ty_bind.eq_ty() {\n      st.write(\" = \");",
        to: "if let Some(eq_ty) = ty_bind.eq_ty() {\n      st.write(\" : \");",
    },
    Mutation {
        change: "ty_var_seq: no space behind",
        from: "st.write(\")\");\n  }\n  st.write(\" \");\n  Some(())",
        to: "st.write(\")\");\n  }\n  Some(())",
    },
    Mutation {
        change: "ty_var_seq: parentheses where there are two or more",
        from: "let parens = tvs.l_round().is_some();",
        to: "let parens = tvs.ty_var_args().count() > 1;",
    },
    Mutation {
        change: "body_exp_needs_newline: not for SeqExp",
        from: "    ast::Exp::SeqExp(_)\n    | ast::Exp::LetExp(_)",
        to: "    ast::Exp::LetExp(_)",
    },
    Mutation {
        change: "body_exp_needs_newline: not for LetExp",
        from: "    | ast::Exp::LetExp(_)\n",
        to: "",
    },
    Mutation {
        change: "body_exp_needs_newline: not for HandleExp",
        from: "    | ast::Exp::HandleExp(_)\n",
        to: "",
    },
    Mutation {
        change: "body_exp_needs_newline: not for IfExp",
        from: "    | ast::Exp::IfExp(_)\n",
        to: "",
    },
    Mutation {
        change: "body_exp_needs_newline: not for WhileExp",
        from: "    | ast::Exp::WhileExp(_)\n",
        to: "",
    },
    Mutation {
        change: "body_exp_needs_newline: not for CaseExp",
        from: "    | ast::Exp::CaseExp(_) => true,",
        to: "    => true,",
    },
    Mutation {
        change: "body_exp_needs_newline: not through parentheses",
        from: "exp.exp().as_ref().is_some_and(body_exp_needs_newline)",
        to: "exp.exp().is_none()",
    },
    Mutation {
        change: "body_exp_needs_newline: through TypedExp",
        from: "    _ => false,\n  }\n}\n\nfn get_body_exp(",
        to: "    ast::Exp::TypedExp(exp) => exp.exp().as_ref().is_some_and(body_exp_needs_newline),\n    _ => false,\n  }\n}\n\nfn get_body_exp(",
    },
    Mutation {
        change: "body_exp_needs_newline: for FnExp too",
        from: "    | ast::Exp::CaseExp(_) => true,",
        to: "    | ast::Exp::CaseExp(_) | ast::Exp::FnExp(_) => true,",
    },
    Mutation {
        change: "get_body_exp: two levels",
        from: "get_body_exp_level(st, cfg, 1, exp)",
        to: "get_body_exp_level(st, cfg, 2, exp)",
    },
    Mutation {
        change: "get_body_exp_level: only the first level counts",
        from: "for _ in 0..level {",
        to: "for _ in 0..level.min(1) {",
    },
    Mutation {
        change: "get_body_exp_level: depths are formed without a new line too",
        from: "  if body_exp_needs_newline(&exp) {",
        to: "  cfg.indented();\n  if body_exp_needs_newline(&exp) {",
    },
    Mutation {
        change: "get_body_exp_level: the body at depth 0",
        from: "cfg.output_indent(st);\n    get_exp(st, cfg, exp)\n  } else",
        to: "cfg.output_indent(st);\n    get_exp(st, Cfg { indent: 0, ..cfg }, exp)\n  } else",
    },
    Mutation {
        change: "get_body_exp_level: no space before a body on the line",
        from: "st.write(\" \");\n    get_exp(st, cfg, exp)",
        to: "get_exp(st, cfg, exp)",
    },
    Mutation {
        change: "OpAndalsoExp: without `op`",
        from: r#"st.write("op andalso")"#,
        to: r#"st.write("andalso")"#,
    },
    Mutation {
        change: "RecordExp: a row's expression is left out",
        from: "st.write(\" = \");\n          get_exp(st, cfg, eq_exp.exp()?)?;\n        }\n        Some(())\n      })?;\n      st.write(\" }\");",
        to: "st.write(\" = \");\n          eq_exp.exp()?;\n        }\n        Some(())\n      })?;\n      st.write(\" }\");",
    },
    Mutation {
        change: "VectorExp: written as a list",
        from: "st.write(\"#[\");\n      exp_args",
        to: "st.write(\"[\");\n      exp_args",
    },
    Mutation {
        change: "SeqExp: a last semicolon is written",
        from: "exp_semi_seq(st, new_cfg, false, exp.exps_in_seq())?;",
        to: "exp_semi_seq(st, new_cfg, true, exp.exps_in_seq())?;",
    },
    Mutation {
        change: "SeqExp: the expressions not deeper",
        from: "exp_semi_seq(st, new_cfg, false, exp.exps_in_seq())?;",
        to: "exp_semi_seq(st, cfg, false, exp.exps_in_seq())?;",
    },
    Mutation {
        change: "LetExp: a last semicolon vanishes",
        from: "|st, cfg| exp_semi_seq(st, cfg, true, exp.exps_in_seq()),",
        to: "|st, cfg| exp_semi_seq(st, cfg, false, exp.exps_in_seq()),",
    },
    Mutation {
        change: "AppExp: a path that begins with `!` is a bang",
        from: "fst_is_bang && iter.next().is_none()",
        to: "fst_is_bang",
    },
    Mutation {
        change: "AppExp: a path that ends with `!` is a bang",
        from: "fst_is_bang && iter.next().is_none()",
        to: r#"fst_is_bang || iter.last().is_some_and(|x| x.name_star_eq().is_some_and(|x| x.token.text() == "!"))"#,
    },
    Mutation {
        change: "AppExp: a name that begins with `!` is a bang",
        from: r#"token.text() == "!";"#,
        to: r#"token.text().starts_with("!");"#,
    },
    Mutation {
        change: "AppExp: a digit is no symbol",
        from: "bytes().next()?.is_ascii_alphabetic()",
        to: "bytes().next()?.is_ascii_alphanumeric()",
    },
    Mutation {
        change: "AppExp: no space after a bang at all",
        from: "if !func_is_bang || arg_is_symbolic {",
        to: "if !func_is_bang {",
    },
    Mutation {
        change: "AppExp: no space before any symbol",
        from: "if !func_is_bang || arg_is_symbolic {",
        to: "if !func_is_bang && !arg_is_symbolic {",
    },
    Mutation {
        change: "AppExp: an argument that is a path without names is fine",
        from: "let fst = path.path()?.name_star_eq_dots().next()?.name_star_eq()?;\n          !fst.token.text().bytes().next()?.is_ascii_alphabetic()",
        to: "path.path()?.name_star_eq_dots().next().is_some_and(|fst| {\n            fst.name_star_eq().is_some_and(|fst| !fst.token.text().as_bytes()[0].is_ascii_alphabetic())\n          })",
    },
    Mutation {
        change: "InfixExp: `|>` stays on the line",
        from: r#"if operator == "|>" {"#,
        to: r#"if operator == "|>|" {"#,
    },
    Mutation {
        change: "InfixExp: `|` breaks the line too",
        from: r#"if operator == "|>" {"#,
        to: "if operator.starts_with('|') {",
    },
    Mutation {
        change: "InfixExp: `|>` not indented",
        from: "cfg.indented().output_indent(st);\n        st.write(\"|> \");",
        to: "cfg.output_indent(st);\n        st.write(\"|> \");",
    },
    Mutation {
        change: "InfixExp: the right side of `|>` is deeper",
        from: "get_exp(st, cfg, exp.rhs()?)?;\n    }\n    ast::Exp::TypedExp",
        to: "get_exp(st, if operator == \"|>\" { cfg.indented() } else { cfg }, exp.rhs()?)?;\n    }\n    ast::Exp::TypedExp",
    },
    Mutation {
        change: "OrelseExp: `andalso`",
        from: r#"st.write(" orelse ");"#,
        to: r#"st.write(" andalso ");"#,
    },
    Mutation {
        change: "HandleExp: no line feed",
        from: "st.write(\" handle\\n\");",
        to: r#"st.write(" handle ");"#,
    },
    Mutation {
        change: "IfExp: the yes branch not deeper",
        from: "get_exp(st, new_cfg, exp.yes()?)?;",
        to: "get_exp(st, cfg, exp.yes()?)?;",
    },
    Mutation {
        change: "IfExp: `else` as deep as the branch",
        from: "cfg.output_indent(st);\n      st.write(\"else\");",
        to: "new_cfg.output_indent(st);\n      st.write(\"else\");",
    },
    Mutation {
        change: "IfExp: `else if` on two lines",
        from: "if matches!(no, ast::Exp::IfExp(_)) {",
        to: "if matches!(no, ast::Exp::HoleExp(_)) {",
    },
    Mutation {
        change: "IfExp: a parenthesised `if` behind `else` stays on the line",
        from: "if matches!(no, ast::Exp::IfExp(_)) {",
        to: "if matches!(no, ast::Exp::IfExp(_) | ast::Exp::ParenExp(_)) {",
    },
    Mutation {
        change: "IfExp: an `if` behind `else` is deeper",
        from: "st.write(\" \");\n        get_exp(st, cfg, no)?;",
        to: "st.write(\" \");\n        get_exp(st, new_cfg, no)?;",
    },
    Mutation {
        change: "WhileExp: the body as a body",
        from: "st.write(\" do \");\n      get_exp(st, cfg, exp.body()?)?;",
        to: "st.write(\" do\");\n      get_body_exp(st, cfg, exp.body()?)?;",
    },
    Mutation {
        change: "CaseExp: no line feed",
        from: "st.write(\" of\\n\");",
        to: r#"st.write(" of ");"#,
    },
    Mutation {
        change: "FnExp: a line for each arm",
        from: r#"sep(st, " | ", exp.matcher()?.arms()"#,
        to: r#"sep_with_lines(st, cfg, "| ", exp.matcher()?.arms()"#,
    },
    Mutation {
        change: "get_matcher_across_lines: no matcher is Syntax",
        from: "    return Some(());\n  };\n  cfg.indented()",
        to: "    return None;\n  };\n  cfg.indented()",
    },
    Mutation {
        change: "get_matcher_across_lines: the first arm not indented",
        from: "cfg.indented().output_indent(st);\n  sep_with_lines(st, cfg, \"| \", matcher.arms()",
        to: "cfg.output_indent(st);\n  sep_with_lines(st, cfg, \"| \", matcher.arms()",
    },
    Mutation {
        change: "get_matcher_across_lines: the bars indented",
        from: r#"sep_with_lines(st, cfg, "| ", matcher.arms()"#,
        to: r#"sep_with_lines(st, cfg.indented(), "| ", matcher.arms()"#,
    },
    Mutation {
        change: "get_matcher_arm: one level",
        from: "get_body_exp_level(st, cfg, 2, arm.exp()?)",
        to: "get_body_exp_level(st, cfg, 1, arm.exp()?)",
    },
    Mutation {
        change: "ConPat: no space before the argument",
        from: "if let Some(pat) = pat.pat() {\n        st.write(\" \");",
        to: "if let Some(pat) = pat.pat() {",
    },
    Mutation {
        change: "LabPatRow: the type annotation is left out",
        from: "            ty_annotation(st, row.ty_annotation())?;\n",
        to: "",
    },
    Mutation {
        change: "LabPatRow: the tail before the type annotation",
        from: "            ty_annotation(st, row.ty_annotation())?;\n            if let Some(tail) = row.as_pat_tail() {\n              st.write(\" as \");\n              get_pat(st, tail.pat()?)?;\n            }\n",
        to: "            if let Some(tail) = row.as_pat_tail() {\n              st.write(\" as \");\n              get_pat(st, tail.pat()?)?;\n            }\n            ty_annotation(st, row.ty_annotation())?;\n",
    },
    Mutation {
        change: "RestPatRow: nothing is written",
        from: r#"ast::PatRowInner::RestPatRow(_) => st.write("..."),"#,
        to: r#"ast::PatRowInner::RestPatRow(_) => st.write(""),"#,
    },
    Mutation {
        change: "VectorPat: written as a list",
        from: "st.write(\"#[\");\n      pat_args",
        to: "st.write(\"[\");\n      pat_args",
    },
    Mutation {
        change: "OrPat: no spaces",
        from: "get_pat(st, pat.lhs()?)?;\n      st.write(\" | \");",
        to: "get_pat(st, pat.lhs()?)?;\n      st.write(\"|\");",
    },
    Mutation {
        change: "ConTy: no space behind the arguments",
        from: r#"st.write(") ");"#,
        to: r#"st.write(")");"#,
    },
    Mutation {
        change: "TupleTy: the first result is kept",
        from: "      get_ty(st, ty.ty()?);\n",
        to: "      get_ty(st, ty.ty()?)?;\n",
    },
    Mutation {
        change: "TupleTy: the other results are dropped too",
        from: "st.write(\" * \");\n        get_ty(st, ty.ty()?)?;",
        to: "st.write(\" * \");\n        get_ty(st, ty.ty()?);",
    },
    Mutation {
        change: "TupleTy: an absent first type is fine",
        from: "      get_ty(st, ty.ty()?);\n",
        to: "      ty.ty().and_then(|ty| get_ty(st, ty));\n",
    },
    Mutation {
        change: "FnTy: the sides swapped",
        from: "get_ty(st, ty.param()?)?;",
        to: "ty.param()?;\n      get_ty(st, ty.res()?)?;",
    },
    Mutation {
        change: "ParenTy: no closing parenthesis",
        from: "get_ty(st, ty.ty()?)?;\n      st.write(\")\");",
        to: "get_ty(st, ty.ty()?)?;",
    },
    Mutation {
        change: "in_end: the head at the outer depth",
        from: "f1(st, new_cfg)?;",
        to: "f1(st, cfg)?;",
    },
    Mutation {
        change: "in_end: the tail at the outer depth",
        from: "f2(st, new_cfg)?;",
        to: "f2(st, cfg)?;",
    },
    Mutation {
        change: "in_end: `in` without indent",
        from: "cfg.output_indent(st);\n  st.write(\"in\\n\");",
        to: "st.write(\"in\\n\");",
    },
    Mutation {
        change: "in_end: no indent behind `in`",
        from: "st.write(\"in\\n\");\n  new_cfg.output_indent(st);",
        to: "st.write(\"in\\n\");",
    },
    Mutation {
        change: "in_end: `end` without indent",
        from: "cfg.output_indent(st);\n  st.write(\"end\");\n  Some(())",
        to: "st.write(\"end\");\n  Some(())",
    },
    Mutation {
        change: "path: names without dots",
        from: r#"sep(st, ".", p.name_star_eq_dots()"#,
        to: r#"sep(st, "", p.name_star_eq_dots()"#,
    },
    Mutation {
        change: "op_path: a space before letters only",
        from: "is_some_and(|x| x.is_ascii_alphanumeric());",
        to: "is_some_and(|x| x.is_ascii_alphabetic());",
    },
    Mutation {
        change: "op_path: a space before symbols too",
        from: "if needs_space {",
        to: "if needs_space || p.name_star_eq_dots().count() > 0 {",
    },
    Mutation {
        change: "op_path: a path without names takes a space",
        from: "if needs_space {",
        to: "if needs_space || p.name_star_eq_dots().count() == 0 {",
    },
    Mutation {
        change: "pat_args: no space behind the comma",
        from: r#"sep(st, ", ", iter.map(|x| x.pat())"#,
        to: r#"sep(st, ",", iter.map(|x| x.pat())"#,
    },
    Mutation {
        change: "exp_args: only two arguments",
        from: r#"sep(st, ", ", iter.map(|x| x.exp())"#,
        to: r#"sep(st, ", ", iter.map(|x| x.exp()).take(2)"#,
    },
    Mutation {
        change: "sep: the separator behind the item",
        from: "    st.write(s);\n    get_t(st, arg)?;\n  }\n  Some(())\n}\n\nfn sep_with_lines",
        to: "    get_t(st, arg)?;\n    st.write(s);\n  }\n  Some(())\n}\n\nfn sep_with_lines",
    },
    Mutation {
        change: "sep_with_lines: the blank lines the other way round",
        from: "if cfg.extra_blank {",
        to: "if !cfg.extra_blank {",
    },
    Mutation {
        change: "sep_with_lines: the separator before the indent",
        from: "cfg.output_indent(st);\n    st.write(s);",
        to: "st.write(s);\n    cfg.output_indent(st);",
    },
    Mutation {
        change: "sep_with_lines: the indent on the blank line too",
        from: "if cfg.extra_blank {\n      st.write(\"\\n\");",
        to: "if cfg.extra_blank {\n      cfg.output_indent(st);\n      st.write(\"\\n\");",
    },
    Mutation {
        change: "exp_semi_seq: the first item's semicolon counts",
        from: "    get_exp(st, cfg, e.exp()?)?;\n  }\n  let mut last = false;\n",
        to: "    get_exp(st, cfg, e.exp()?)?;\n    if allow_last_semi && e.semicolon().is_some() && iter.size_hint().1 == Some(0) {\n      st.write(\";\");\n    }\n  }\n  let mut last = false;\n",
    },
    Mutation {
        change: "exp_semi_seq: any item's semicolon counts",
        from: "last = e.semicolon().is_some();",
        to: "last |= e.semicolon().is_some();",
    },
    Mutation {
        change: "exp_semi_seq: no indent behind a semicolon",
        from: "st.write(\";\\n\");\n    cfg.output_indent(st);",
        to: "st.write(\";\\n\");",
    },
    Mutation {
        change: "exp_semi_seq: the last semicolon is written everywhere",
        from: "if last && allow_last_semi {",
        to: "if last || allow_last_semi {",
    },
];
