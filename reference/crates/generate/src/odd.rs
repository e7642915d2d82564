//! Odd forms: an `AppExp` whose operands lack a first name, and a `TupleTy` whose first type is dropped.

use crate::grammar::Grammar;
use schema::{command, Family, Node};

impl Grammar<'_> {
    /// Writes the operands of an `AppExp`, each whole or without some part.
    pub(crate) fn odd_operands(&mut self) {
        for accessor in ["func", "arg"] {
            match self.out.rng.below(12) {
                0 | 1 => self.path_exp(&[command::ABSENT]),
                2 | 3 => self.path_exp(&[command::GROUP, command::LIST, 0, 0]),
                4 | 5 => {
                    self.path_exp(&[command::GROUP, command::LIST, 1, 0]);
                    self.out.tree.extend([command::GROUP, command::ABSENT]);
                }
                6 | 7 => self.out.tree.push(command::ABSENT),
                8 | 9 => self.without_part(Family::Exp, Node::ParenExp),
                _ => self.form(Family::Exp, accessor, false),
            }
        }
    }

    /// Writes a `PathExp` without `op`, its path up to some command.
    fn path_exp(&mut self, path: &[u8]) {
        self.head(Family::Exp, Node::PathExp);
        self.out.tree.push(command::ABSENT);
        self.out.tree.extend(path);
    }

    /// Writes the fields of a `TupleTy` whose first type lacks a part, or is such a `TupleTy` itself.
    pub(crate) fn odd_types(&mut self) {
        if self.out.rng.chance(1, 4) {
            self.head(Family::Ty, Node::TupleTy);
            self.without_part(Family::Ty, Node::ParenTy);
            self.star_types();
        } else {
            self.without_part(Family::Ty, Node::ParenTy);
        }
        self.star_types();
    }

    /// Writes up to two star types, some of them absent.
    fn star_types(&mut self) {
        let count = self.out.rng.below(3);
        let at = self.out.tree.len();
        self.out.tree.extend([command::LIST, 0, 0]);
        self.out.set_operand(at, count);
        for _ in 0..count {
            self.out.tree.push(command::GROUP);
            if self.out.rng.chance(1, 3) {
                self.out.tree.push(command::ABSENT);
            } else {
                self.form(Family::Ty, "ty", false);
            }
        }
    }

    /// Writes a form of one field that is absent.
    fn without_part(&mut self, family: Family, form: Node) {
        self.head(family, form);
        self.out.tree.push(command::ABSENT);
    }

    fn head(&mut self, family: Family, form: Node) {
        self.out.tree.push(family.command(form).expect("a form of the family"));
    }
}
