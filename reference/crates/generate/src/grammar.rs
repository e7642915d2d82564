//! The grammar: nodes, fields and lists, driven by the schema.

use crate::course::{Course, Step};
use crate::rng::Rng;
use crate::shape::{is_required, Shape};
use crate::style::{Comments, Size, Style};
use crate::words;
use crate::write::Writer;
use schema::{command, Choice, Family, Field, FieldKind, Node, Part, SyntaxKind};
use std::mem::take;

/// The operand of an `AppExp` whose path is being written.
#[derive(Clone, Copy, PartialEq, Eq, Default)]
enum Operand {
    #[default]
    No,
    Func,
    Arg,
}

pub(crate) struct Grammar<'r> {
    pub(crate) out: Writer<'r>,
    shape: &'static Shape,
    /// Forms that may still be written before only terminal ones are.
    budget: usize,
    course: Course,
    /// The count that one list is still to have.
    wide: usize,
    operand: Operand,
}

impl<'r> Grammar<'r> {
    pub(crate) fn new(rng: &'r mut Rng, size: Size) -> Self {
        let mut style = Style::pick(rng);
        let (mut budget, mut course, mut wide) = (rng.from_to(1, 30), Course::Free, 0);
        match size {
            Size::Small if rng.chance(1, 2) => {
                (budget, course) = (rng.from_to(1, 8), Course::aimed(rng));
            }
            Size::Medium => budget = rng.from_to(30, 300),
            Size::Wide(count) => wide = count,
            Size::Deep(forms) => (budget, course) = (0, Course::Deep(forms)),
            Size::Small | Size::Text(_) | Size::Tokens(_) | Size::Record(_) => {}
        }
        if !course.is_free() {
            (style.faults, style.odd) = (0, 0);
        }
        let out = Writer::new(rng, style);
        Self { out, shape: Shape::get(), budget, course, wide, operand: Operand::No }
    }

    /// Writes the list `root.decs()`.
    pub(crate) fn root(&mut self) {
        for field in 0..Node::Root.fields().len() {
            self.field(Node::Root, field, !self.course.is_free());
        }
    }

    /// Writes a node's fields and its words.
    fn fields(&mut self, node: Node, carries: bool) {
        let (before, behind) = words::frame(node);
        self.words(before);
        match carries.then(|| self.course.step(self.out.rng, node)) {
            Some(Step::Fault) => self.faulty_fields(node),
            step => {
                for at in 0..node.fields().len() {
                    self.field(node, at, step == Some(Step::Carrier(at)));
                }
            }
        }
        self.words(behind);
    }

    /// Writes a node's fields with a required one absent; an empty list in a path.
    fn faulty_fields(&mut self, node: Node) {
        let fields = node.fields();
        let is_wanted = |&at: &usize| node == Node::Path || is_required(node, at);
        let required: Vec<_> = (0..fields.len()).filter(is_wanted).collect();
        let fault = (!required.is_empty()).then(|| self.out.rng.pick(&required));
        for (at, field) in fields.iter().enumerate() {
            match field.kind {
                _ if fault != Some(at) => self.field(node, at, false),
                FieldKind::One(_) => self.out.tree.push(command::ABSENT),
                FieldKind::List(_) => self.out.tree.extend([command::LIST, 0, 0]),
            }
        }
    }

    fn words(&mut self, texts: &[&str]) {
        for text in texts {
            self.out.word(SyntaxKind::of_text(text.as_bytes()), text);
        }
    }

    fn field(&mut self, node: Node, at: usize, carries: bool) {
        let field = node.fields()[at];
        match field.kind {
            FieldKind::List(part) => self.list(node, field, part, carries),
            FieldKind::One(part) if !carries && self.is_absent(node, at, part) => {
                self.out.tree.push(command::ABSENT);
            }
            FieldKind::One(part) => self.part(node, field, part, carries),
        }
    }

    fn is_absent(&mut self, node: Node, at: usize, part: Part) -> bool {
        let rng = &mut *self.out.rng;
        if !self.shape.is_optional(node, at) {
            return rng.chance(self.out.style.faults, 256);
        }
        match part {
            Part::Token => rng.chance(1, 2),
            _ if matches!(self.course, Course::Deep(_)) => true,
            _ if self.budget == 0 => rng.chance(15, 16),
            _ => rng.chance(2, 5),
        }
    }

    fn list(&mut self, node: Node, field: Field, part: Part, carries: bool) {
        let count = self.count(node, field, part, carries);
        let carrier = carries.then(|| self.out.rng.below(count));
        let at = self.out.tree.len();
        self.out.tree.extend([command::LIST, 0, 0]);
        let mut written = 0;
        while written < count && (carries || self.out.has_room()) {
            if let (1.., Some(word)) = (written, words::separator(field.accessor)) {
                self.words(&[word]);
            }
            self.part(node, field, part, carrier == Some(written));
            written += 1;
        }
        self.out.set_operand(at, written);
    }

    /// The count of a list's items.
    fn count(&mut self, node: Node, field: Field, part: Part, carries: bool) -> usize {
        let operand = take(&mut self.operand);
        let rng = &mut *self.out.rng;
        if carries {
            return rng.pick(&[1, 1, 2, 3]);
        }
        if self.wide > 0 && rng.chance(1, 3) {
            return take(&mut self.wide);
        }
        match field.accessor {
            "name_star_eq_dots" => {
                self.operand = operand;
                let required = operand != Operand::No && self.out.style.faults == 0;
                rng.pick(&[1, 1, 1, 1, 1, 1, 1, 1, 1, 2, 2, 3, 0]).max(usize::from(required))
            }
            "decs" if node == Node::Root => {
                rng.pick(&[1, 1, 1, 1, 1, 1, 1, 1, 2, 2, 2, 2, 2, 2, 3, 3, 3, 5, 5, 0])
            }
            "dec_in_seqs" => rng.pick(&[1, 1, 1, 1, 1, 1, 1, 1, 2, 3, 0]),
            "sharing_tails" => rng.pick(&[0, 0, 0, 0, 0, 0, 0, 0, 1, 2]),
            _ if self.budget > 0 => {
                let several = rng.from_to(3, 7);
                rng.pick(&[0, 1, 1, 1, 1, 2, 2, 2, several])
            }
            _ if part == Part::Token => rng.pick(&[0, 1, 2]),
            _ => rng.pick(&[0, 0, 1]),
        }
    }

    fn part(&mut self, node: Node, field: Field, part: Part, carries: bool) {
        match part {
            Part::Token => self.token(node, field),
            Part::Group(group) => {
                self.out.tree.push(command::GROUP);
                self.fields(group, carries);
            }
            Part::Choice(choice) => self.choice(choice, carries),
            Part::Form(family) => self.form(family, field.accessor, carries),
        }
    }

    /// Writes a token into the text and names it, seldom a comment or a long name.
    fn token(&mut self, node: Node, field: Field) {
        let number = match self.out.rng.below(64) {
            0 if self.out.style.any_token > 0 => self.out.comment(),
            1 => {
                let name = self.out.rng.pick(&["x", "+", "aB3'"]);
                let name = name.repeat(self.out.rng.from_to(2, 80));
                self.out.word(SyntaxKind::Other, &name)
            }
            _ => {
                let is_name = node == Node::NameStarEqDot;
                let operand = if is_name { take(&mut self.operand) } else { Operand::No };
                let text = match operand {
                    Operand::Func => words::func(self.out.rng),
                    Operand::Arg => words::arg(self.out.rng),
                    Operand::No => words::of_field(self.out.rng, node, field.accessor),
                };
                self.out.word(SyntaxKind::of_text(text.as_bytes()), text)
            }
        };
        self.out.with_token(command::TOKEN_REF, number);
    }

    fn choice(&mut self, choice: Choice, carries: bool) {
        let node = if carries {
            self.course.node(self.out.rng, choice.nodes())
        } else {
            self.out.rng.pick(choice.nodes())
        };
        let which = choice.which(node).expect("a node of the choice");
        self.out.tree.extend([command::CHOICE, which]);
        self.fields(node, carries);
    }

    pub(crate) fn form(&mut self, family: Family, accessor: &str, carries: bool) {
        self.budget = self.budget.saturating_sub(1);
        let carries = carries && self.course_goes_on();
        let form = self.choose(family, accessor, carries);
        let command = family.command(form).expect("a form of the family");
        if family.has_first_token() {
            self.declaration(command, form, carries);
            return;
        }
        self.out.tree.push(command);
        let is_odd = self.out.style.odd > 0 && self.out.rng.chance(self.out.style.odd, 256);
        match form {
            Node::AppExp if is_odd => self.odd_operands(),
            Node::TupleTy if is_odd => self.odd_types(),
            _ => {
                self.operand = match accessor {
                    "func" if form == Node::PathExp => Operand::Func,
                    "arg" if form == Node::PathExp => Operand::Arg,
                    _ => Operand::No,
                };
                self.fields(form, carries);
                self.operand = Operand::No;
            }
        }
    }

    /// Counts a form that carries the course; whether another one has to stand inside it.
    fn course_goes_on(&mut self) -> bool {
        match &mut self.course {
            Course::Deep(left) => {
                *left -= 1;
                *left > 0
            }
            Course::Free | Course::Aimed(_) => true,
        }
    }

    /// Any form of the family that the course allows, a terminal one where the budget is spent.
    /// An `AppExp` is frequent, its operands are often paths, and an `if` often follows `else`. In an
    /// odd sheet tuples are frequent among types, and an import may stand.
    fn choose(&mut self, family: Family, accessor: &str, carries: bool) -> Node {
        let rng = &mut *self.out.rng;
        let is_odd = self.out.style.odd > 0;
        let frequent = match accessor {
            "func" | "arg" if rng.chance(1, 2) => Some(Node::PathExp),
            "no" if rng.chance(1, 3) => Some(Node::IfExp),
            _ if family == Family::Exp && rng.chance(1, 12) => Some(Node::AppExp),
            _ if is_odd && family == Family::Exp && rng.chance(1, 2) => Some(Node::AppExp),
            _ if is_odd && family == Family::Ty && rng.chance(1, 3) => Some(Node::TupleTy),
            _ => None,
        };
        match frequent {
            Some(form) if carries && self.course.can_lead_through(form) => return form,
            Some(form) if !carries && self.budget > 0 => return form,
            _ if carries => return self.course.node(rng, family.forms()),
            _ => {}
        }
        loop {
            let form = rng.pick(family.forms());
            let fits = match form {
                Node::EsImportDec => (is_odd || self.out.style.faults > 0) && rng.chance(1, 4),
                _ => self.budget > 0 || self.shape.is_terminal(form),
            };
            if fits {
                return form;
            }
        }
    }

    /// Writes a declaration with the first token that follows as its operand, a comment above.
    fn declaration(&mut self, command: u8, form: Node, carries: bool) {
        if self.out.style.comments != Comments::Nowhere && self.out.rng.chance(1, 3) {
            self.out.comment();
        }
        let first = self.out.token_count();
        let at = self.out.tree.len();
        self.out.with_token(command, usize::from(command::NO_TOKEN));
        self.fields(form, carries);
        let is_there = self.out.token_count() > first;
        if is_there && !self.out.rng.chance(self.out.style.no_first, 256) {
            self.out.set_operand(at, first);
        }
    }
}
