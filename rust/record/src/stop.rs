//! What a walk over a record stops at, in the names of the schema.

use crate::{command, Choice, Family, Field, FieldKind, Node, Part, Position};
use std::fmt;

/// A part of a record at which formatting may stop: one that is absent, an empty list, or an import.
///
/// As text it names the part from the innermost form around it, where in the text that is, and what to
/// do:
///
/// ```
/// use diverplume_record::tree::{ConPat, Dec, EqExp, Path, ValBind, ValDec};
/// use diverplume_record::{SheetBuilder, Stop};
///
/// let mut sheet = SheetBuilder::new();
/// let [val, _, x, _, _] = sheet.words(["val", " ", "x", " ", "="]);
/// let pat = ConPat::new().path(Path::named([x]));
/// let bind = ValBind::new().pat(pat).eq_exp(EqExp::new());
/// let sheet = sheet.finish([Dec::one(ValDec::of([bind]).first(val))])?;
/// assert_eq!(
///     Stop::at(&sheet.text, &sheet.record, 49).expect("a part").to_string(),
///     "ValDec at offset 29 of the record: the `exp` of its binding's `eq_exp` is missing, behind the \
///      token at line 1, column 5 of the text (offset 4); complete the file's syntax there"
/// );
/// # Ok::<(), diverplume_record::BuildError>(())
/// ```
#[derive(Debug, Clone, PartialEq, Eq)]
pub struct Stop {
    /// The innermost form around the part, or the import, and its offset in the record; none where no
    /// form stands around the part.
    pub form: Option<(Node, usize)>,
    /// What stands between that form, or the root, and the part.
    inside: Vec<Step>,
    /// The node that lacks the part, or the import.
    pub node: Node,
    /// The field of the node that is missing; none for an import.
    pub field: Option<&'static str>,
    /// Whether the field is a list.
    is_list: bool,
    /// The nearest token, by its offset in the text and its position: the one that the record names
    /// last before the part, or an import's first.
    pub token: Option<(usize, Position)>,
    /// Whether it is the import's first.
    is_own: bool,
}

/// A node on the way to a part.
#[derive(Debug, Clone, Copy, PartialEq, Eq)]
enum Step {
    /// What a field holds.
    Field(&'static str),
    /// An item of a list: its number from 0, and the count of items.
    Item(Node, usize, usize),
}

impl Stop {
    /// What stands at an offset of the record; none where the record does not fit the schema before
    /// it, or no absent field, no empty list and no import begins there.
    #[must_use]
    pub fn at(text: &[u8], record: &[u8], place: usize) -> Option<Self> {
        let starts = token_starts(record);
        let mut pass = Pass { record, at: 4 * starts.len(), open: Vec::new(), token: None };
        pass.open.push(Open::node(Node::Root, None, None));
        while pass.at < place {
            pass.step()?;
        }
        let mut stop = pass.stop().filter(|_| pass.at == place)?;
        let offset = pass.token.and_then(|number| starts.get(usize::from(number)).copied());
        stop.token = offset.map(|offset| (offset, Position::of(text, offset)));
        Some(stop)
    }
}

/// Where the tokens at the record's start begin in the text.
fn token_starts(record: &[u8]) -> Vec<usize> {
    let tokens = record.chunks_exact(4).take_while(|token| token[0] == command::TOKEN);
    let mut end = 0;
    let start = |token: &[u8]| {
        let start = end;
        end += usize::from(u16::from_le_bytes([token[2], token[3]]));
        start
    };
    tokens.map(start).collect()
}

/// A node or a list that is being read.
struct Open {
    /// The node, or the one that has the list.
    node: Node,
    /// The offset of a form's command.
    form: Option<usize>,
    /// How the node stands in the one around it; none for a form and for a list.
    step: Option<Step>,
    /// The list: the field's number in the node, and the count of items.
    list: Option<(usize, usize)>,
    /// How many fields or items have been read.
    read: usize,
}

impl Open {
    fn node(node: Node, form: Option<usize>, step: Option<Step>) -> Self {
        Self { node, form, step, list: None, read: 0 }
    }
}

/// What is read next.
enum Next {
    /// A field.
    Field(Field),
    /// An item of a list: the part that it is, its number and the count.
    Item(Part, usize, usize),
}

struct Pass<'a> {
    record: &'a [u8],
    at: usize,
    open: Vec<Open>,
    /// The token named last.
    token: Option<u16>,
}

impl Pass<'_> {
    /// What is read at the cursor, behind closing what is read to its end.
    fn next(&mut self) -> Option<Next> {
        loop {
            let Open { node, list, read, .. } = *self.open.last()?;
            match list {
                Some((field, count)) if read < count => {
                    return Some(Next::Item(node.fields()[field].kind.part(), read, count));
                }
                None if read < node.fields().len() => {
                    return Some(Next::Field(node.fields()[read]))
                }
                _ => self.open.pop(),
            };
        }
    }

    /// Reads the command at the cursor.
    fn step(&mut self) -> Option<()> {
        let next = self.next()?;
        let open = self.open.last_mut()?;
        open.read += 1;
        let (node, number) = (open.node, open.read - 1);
        match (next, *self.record.get(self.at)?) {
            (Next::Field(Field { kind: FieldKind::List(_), .. }), command::LIST) => {
                let list = Some((number, usize::from(self.operand()?)));
                self.open.push(Open { node, form: None, step: None, list, read: 0 });
                self.at += 3;
            }
            (Next::Field(Field { kind: FieldKind::List(_), .. }), _) => return None,
            (Next::Field(_), command::ABSENT) => self.at += 1,
            (Next::Field(Field { accessor, kind }), _) => {
                self.part(kind.part(), |_| Step::Field(accessor))?;
            }
            (Next::Item(part, item, count), _) => {
                self.part(part, |node| Step::Item(node, item, count))?;
            }
        }
        Some(())
    }

    /// Reads the command of a part that is there.
    fn part(&mut self, part: Part, step: impl FnOnce(Node) -> Step) -> Option<()> {
        let byte = *self.record.get(self.at)?;
        match (part, byte) {
            (Part::Token, command::TOKEN_REF) => {
                self.token = Some(self.operand()?);
                self.at += 3;
            }
            (Part::Group(node), command::GROUP) => {
                self.open.push(Open::node(node, None, Some(step(node))));
                self.at += 1;
            }
            (Part::Choice(choice), command::CHOICE) => {
                let node = self.held(choice)?;
                self.open.push(Open::node(node, None, Some(step(node))));
                self.at += 2;
            }
            (Part::Form(family), _) => {
                self.open.push(Open::node(family.form(byte)?, Some(self.at), None));
                self.first_token(family)?;
                self.at += if family.has_first_token() { 3 } else { 1 };
            }
            _ => return None,
        }
        Some(())
    }

    /// The node that the choice at the cursor holds.
    fn held(&self, choice: Choice) -> Option<Node> {
        choice.node(*self.record.get(self.at + 1)?)
    }

    /// Notes the first token of a form at the cursor; whether it has one.
    fn first_token(&mut self, family: Family) -> Option<bool> {
        let first = if family.has_first_token() { self.operand()? } else { command::NO_TOKEN };
        let has_one = first != command::NO_TOKEN;
        if has_one {
            self.token = Some(first);
        }
        Some(has_one)
    }

    /// The u16 behind the command at the cursor.
    fn operand(&self) -> Option<u16> {
        let bytes = self.record.get(self.at + 1..self.at + 3)?;
        Some(u16::from_le_bytes([bytes[0], bytes[1]]))
    }

    /// What stands at the cursor; its token is still to be found.
    fn stop(&mut self) -> Option<Stop> {
        let next = self.next()?;
        let byte = *self.record.get(self.at)?;
        match (next, byte) {
            (Next::Field(field @ Field { kind: FieldKind::List(_), .. }), command::LIST) => {
                self.missing(field).filter(|_| self.operand() == Some(0))
            }
            (Next::Field(Field { kind: FieldKind::List(_), .. }), _) => None,
            (Next::Field(field), command::ABSENT) => self.missing(field),
            (Next::Field(Field { kind: FieldKind::One(Part::Form(family)), .. }), _) => {
                self.import(family, byte)
            }
            _ => None,
        }
    }

    /// The import at the cursor.
    fn import(&mut self, family: Family, byte: u8) -> Option<Stop> {
        let import = family.form(byte).filter(|&form| form == Node::EsImportDec)?;
        let is_own = self.first_token(family)?;
        let (form, inside) = (Some((import, self.at)), Vec::new());
        Some(Stop { form, inside, node: import, field: None, is_list: false, token: None, is_own })
    }

    /// The field at the cursor, in which something is missing.
    fn missing(&self, field: Field) -> Option<Stop> {
        let outer = self.open.iter().rposition(|open| open.form.is_some());
        let form = outer.and_then(|at| Some((self.open[at].node, self.open[at].form?)));
        let inside = self.open[outer.unwrap_or(0)..].iter().filter_map(|open| open.step).collect();
        let (node, is_list) = (self.open.last()?.node, matches!(field.kind, FieldKind::List(_)));
        let field = Some(field.accessor);
        Some(Stop { form, inside, node, field, is_list, token: None, is_own: false })
    }
}

impl fmt::Display for Stop {
    fn fmt(&self, f: &mut fmt::Formatter<'_>) -> fmt::Result {
        match self.form {
            Some((node, at)) => write!(f, "{} at offset {at} of the record", node.name())?,
            None => f.write_str(Node::Root.name())?,
        }
        if let Some(field) = self.field {
            let (one, what) = if self.is_list { ("is empty", "list ") } else { ("is missing", "") };
            match self.inside[..] {
                [] => write!(f, ": its {what}`{field}` {one}")?,
                _ => write!(f, ": the {what}`{field}` of its {} {one}", Chain(&self.inside))?,
            }
        }
        if let Some((offset, at)) = self.token {
            let behind = if self.is_own { "" } else { "behind the token at " };
            write!(f, ", {behind}{at} of the text (offset {offset})")?;
        }
        f.write_str(match self.field {
            Some(_) => "; complete the file's syntax there",
            None => ": an import is not formatted; keep imports out of the file",
        })
    }
}

/// Nodes inside one another, as in "binding's `eq_exp`".
struct Chain<'a>(&'a [Step]);

impl fmt::Display for Chain<'_> {
    fn fmt(&self, f: &mut fmt::Formatter<'_>) -> fmt::Result {
        for (at, step) in self.0.iter().enumerate() {
            if at > 0 {
                f.write_str("'s ")?;
            }
            match *step {
                Step::Field(field) => write!(f, "`{field}`")?,
                Step::Item(node, _, 1) => f.write_str(noun(node))?,
                Step::Item(node, number, _) => {
                    write!(f, "{} {}", ordinal(number + 1), noun(node))?;
                }
            }
        }
        Ok(())
    }
}

/// What an item of a list is called.
fn noun(node: Node) -> &'static str {
    match node {
        Node::Dec | Node::DecInSeq => "declaration",
        Node::SharingTail => "sharing tail",
        Node::ValBind
        | Node::FunBind
        | Node::TyBind
        | Node::DatBind
        | Node::ExBind
        | Node::StrBind
        | Node::SigBind
        | Node::FunctorBind => "binding",
        Node::FunBindCase => "case",
        Node::ConBind => "constructor",
        Node::FunctorArgNameSigExp
        | Node::AppStrExpArgStrExp
        | Node::TyVarArg
        | Node::ExpArg
        | Node::PatArg
        | Node::TyArg => "argument",
        Node::ExpRow | Node::PatRow | Node::TyRow => "row",
        Node::ExpInSeq => "expression",
        Node::Arm => "arm",
        Node::StarTy => "type",
        Node::Path | Node::PathEq => "path",
        Node::NameStarEqDot => "name",
        _ => node.name(),
    }
}

/// A number from 1 as an ordinal.
fn ordinal(number: usize) -> String {
    let ending = match (number % 10, number % 100) {
        (1, rest) if rest != 11 => "st",
        (2, rest) if rest != 12 => "nd",
        (3, rest) if rest != 13 => "rd",
        _ => "th",
    };
    format!("{number}{ending}")
}
