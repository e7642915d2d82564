//! The builder: checks a description against the schema and writes the record.

use crate::describe::{Name, NodeDescription, PartDescription, Token};
use crate::error::{BuildError, Problem};
use crate::tokens::Tokens;
use crate::tree::{Dec, Root};
use crate::{command, limit, FieldKind, Node, Part, Sheet, SyntaxKind};

/// Builds a sheet: first the tokens in the order of the text, then the tree.
#[derive(Debug, Clone, Default)]
pub struct SheetBuilder {
    tokens: Tokens,
    /// Whether the sheet may be past the limits.
    unlimited: bool,
}

impl SheetBuilder {
    /// A builder without tokens.
    #[must_use]
    pub fn new() -> Self {
        Self::default()
    }

    /// A builder whose sheet may be past the limits, and is refused then. For tests.
    #[must_use]
    pub fn unlimited() -> Self {
        Self { unlimited: true, ..Self::default() }
    }

    /// Appends a token to the text. A token that can't be written is told by [`Self::finish`].
    pub fn token(&mut self, kind: SyntaxKind, text: impl AsRef<[u8]>) -> Token {
        self.tokens.push(kind, text.as_ref())
    }

    /// Appends a token of the kind that its text has in Standard ML.
    pub fn word(&mut self, text: impl AsRef<[u8]>) -> Token {
        self.token(SyntaxKind::of_text(text.as_ref()), text)
    }

    /// Appends several tokens, each of the kind that its text has in Standard ML.
    pub fn words<const N: usize>(&mut self, texts: [&str; N]) -> [Token; N] {
        texts.map(|text| self.word(text))
    }

    /// The sheet with these declarations at the top.
    ///
    /// # Errors
    ///
    /// If a token can't be written, a field is set twice, the tree names a token of another
    /// builder, or the sheet is past a limit.
    pub fn finish<T>(self, decs: T) -> Result<Sheet, BuildError>
    where
        T: IntoIterator<Item = Dec>,
    {
        self.finish_named(decs.into_iter().map(NodeDescription::from))
    }

    /// The sheet with these declarations at the top, each a node named `Dec`.
    ///
    /// # Errors
    ///
    /// As [`Self::finish`], and if a description doesn't fit the schema.
    pub fn finish_named<T>(self, decs: T) -> Result<Sheet, BuildError>
    where
        T: IntoIterator<Item = NodeDescription>,
    {
        let decs: Vec<_> = decs.into_iter().collect();
        self.write(&NodeDescription::known(Node::Root).with("decs", decs))
    }

    /// The sheet with this tree, in which neighbouring tokens of kind [`SyntaxKind::Other`] that no
    /// node names are one token. It is formatted as that of [`Self::finish`], and has fewer tokens.
    ///
    /// # Errors
    ///
    /// As [`Self::finish`].
    pub fn finish_fused(self, root: &Root) -> Result<Sheet, BuildError> {
        let tokens = self.tokens.fused(root.as_ref());
        Self { tokens, ..self }.write(root.as_ref())
    }

    fn write(self, root: &NodeDescription) -> Result<Sheet, BuildError> {
        let record = self.tokens.record(self.unlimited)?;
        let most_forms = if self.unlimited { usize::MAX } else { limit::FORMS };
        let writer = TreeWriter { record, tokens: &self.tokens, most_forms, steps: Vec::new() };
        let record = writer.write(root)?;
        if record.len() > limit::RECORD && !self.unlimited {
            return Err(BuildError::on_the_whole(Problem::LongRecord(record.len()), None));
        }
        Ok(Sheet { text: self.tokens.into_text(), record })
    }
}

/// A field or an item that is still to be written.
struct Task<'a> {
    kind: FieldKind,
    /// Whether it is an item of the list that the field is.
    is_item: bool,
    part: &'a PartDescription,
    /// Its place in the steps.
    step: usize,
    /// What stands around it.
    around: Around,
}

/// What stands around a field.
#[derive(Clone, Copy, Default)]
struct Around {
    /// The number of forms.
    forms: usize,
    /// The first token of the declaration.
    declaration: Option<Token>,
}

/// A step from a node to a field or from a list to an item.
struct Step {
    outer: Option<usize>,
    name: StepName,
}

enum StepName {
    Field(&'static str),
    Item(usize),
}

/// Writes the tree without recursion, so that deep nesting needs no deep stack.
struct TreeWriter<'b> {
    record: Vec<u8>,
    tokens: &'b Tokens,
    /// The most forms inside one another.
    most_forms: usize,
    steps: Vec<Step>,
}

/// What a field that is not named holds.
static ABSENT: PartDescription = PartDescription::Absent;
/// What a list that is not named holds.
static EMPTY: PartDescription = PartDescription::List(Vec::new());

impl TreeWriter<'_> {
    fn write(mut self, root: &NodeDescription) -> Result<Vec<u8>, BuildError> {
        let mut tasks = self.fields(Node::Root, root, None, Around::default())?;
        while let Some(task) = tasks.pop() {
            let inner = match (task.kind, task.part) {
                (FieldKind::List(_), PartDescription::List(items)) if !task.is_item => {
                    self.list(&task, items)?
                }
                (FieldKind::One(_), PartDescription::Absent) => {
                    self.record.push(command::ABSENT);
                    Vec::new()
                }
                (FieldKind::List(_), _) if !task.is_item => return Err(self.unfitting(&task)),
                _ => self.part(&task)?,
            };
            tasks.extend(inner);
        }
        Ok(self.record)
    }

    /// The fields of a node, the first one last.
    fn fields<'a>(
        &mut self,
        node: Node,
        description: &'a NodeDescription,
        outer: Option<usize>,
        around: Around,
    ) -> Result<Vec<Task<'a>>, BuildError> {
        check_names(node, description).map_err(|problem| self.error(outer, around, problem))?;
        let tasks = node.fields().iter().rev().map(|field| {
            let given = description.fields.iter().find(|(name, _)| name == field.accessor);
            let unnamed = match field.kind {
                FieldKind::One(_) => &ABSENT,
                FieldKind::List(_) => &EMPTY,
            };
            let part = given.map_or(unnamed, |(_, part)| part);
            self.steps.push(Step { outer, name: StepName::Field(field.accessor) });
            Task { kind: field.kind, is_item: false, part, step: self.steps.len() - 1, around }
        });
        Ok(tasks.collect())
    }

    /// Writes a list's command and gives its items, the first one last.
    fn list<'a>(
        &mut self,
        task: &Task<'a>,
        items: &'a [PartDescription],
    ) -> Result<Vec<Task<'a>>, BuildError> {
        let count = u16::try_from(items.len())
            .map_err(|_| self.error_at(task, Problem::LongList(items.len())))?;
        self.record.push(command::LIST);
        self.record.extend(count.to_le_bytes());
        let tasks = items.iter().enumerate().rev().map(|(at, part)| {
            self.steps.push(Step { outer: Some(task.step), name: StepName::Item(at) });
            let step = self.steps.len() - 1;
            Task { kind: task.kind, is_item: true, part, step, around: task.around }
        });
        Ok(tasks.collect())
    }

    /// Writes the command of a part that is there and gives its fields, the first one last.
    fn part<'a>(&mut self, task: &Task<'a>) -> Result<Vec<Task<'a>>, BuildError> {
        match (task.kind.part(), task.part) {
            (Part::Token, PartDescription::Token(token)) => {
                let number = self.known(*token).map_err(|problem| self.error_at(task, problem))?;
                self.record.push(command::TOKEN_REF);
                self.record.extend(number.to_le_bytes());
                Ok(Vec::new())
            }
            (_, PartDescription::Node(description)) => self.node(task, description),
            _ => Err(self.unfitting(task)),
        }
    }

    /// Writes a node's command and gives its fields, the first one last.
    fn node<'a>(
        &mut self,
        task: &Task<'a>,
        description: &'a NodeDescription,
    ) -> Result<Vec<Task<'a>>, BuildError> {
        let part = task.kind.part();
        let node = match &description.name {
            Name::Known(node) => *node,
            Name::Unknown(name) => {
                return Err(self.error_at(task, Problem::UnknownNode(name.clone())));
            }
        };
        let bytes = head(part, node).ok_or_else(|| self.unfitting(task))?;
        let forms = task.around.forms + usize::from(matches!(part, Part::Form(_)));
        if forms > self.most_forms {
            return Err(self.error_at(task, Problem::TooDeep(node)));
        }
        self.record.extend(bytes);
        self.first_token(part, node, description)
            .map_err(|problem| self.error_at(task, problem))?;
        let declaration = description.first_token.or(task.around.declaration);
        self.fields(node, description, Some(task.step), Around { forms, declaration })
    }

    /// Writes a declaration's operand.
    fn first_token(
        &mut self,
        part: Part,
        node: Node,
        description: &NodeDescription,
    ) -> Result<(), Problem> {
        if matches!(part, Part::Form(family) if family.has_first_token()) {
            let number = description.first_token.map(|token| self.known(token)).transpose()?;
            self.record.extend(number.unwrap_or(command::NO_TOKEN).to_le_bytes());
        } else if description.first_token.is_some() {
            return Err(Problem::FirstToken(node));
        }
        Ok(())
    }

    fn known(&self, token: Token) -> Result<u16, Problem> {
        self.tokens.number(token).ok_or(Problem::UnknownToken(token.0))
    }

    fn unfitting(&self, task: &Task<'_>) -> BuildError {
        let found = match task.part {
            PartDescription::Absent => "absent".to_owned(),
            PartDescription::Token(token) => format!("token {}", token.0),
            PartDescription::Node(node) => format!("node {}", node.name()),
            PartDescription::List(items) => format!("a list of {}", items.len()),
        };
        self.error_at(task, Problem::Unfitting { expected: task.kind, found })
    }

    fn error_at(&self, task: &Task<'_>, problem: Problem) -> BuildError {
        self.error(Some(task.step), task.around, problem)
    }

    /// The error with the steps from the root to this one.
    fn error(&self, step: Option<usize>, around: Around, problem: Problem) -> BuildError {
        let mut names = Vec::new();
        let mut next = step;
        while let Some(Step { outer, name }) = next.map(|step| &self.steps[step]) {
            names.push(match name {
                StepName::Field(field) if outer.is_some() => format!(".{field}"),
                StepName::Field(field) => (*field).to_owned(),
                StepName::Item(at) => format!("[{at}]"),
            });
            next = *outer;
        }
        names.reverse();
        let offset = around.declaration.map(|token| self.tokens.offset(token));
        BuildError { at: names.concat(), problem, offset }
    }
}

/// The command that stands before a node's operand and fields; none where the node doesn't fit.
fn head(part: Part, node: Node) -> Option<Vec<u8>> {
    match part {
        Part::Token => None,
        Part::Group(group) => (group == node).then(|| vec![command::GROUP]),
        Part::Choice(choice) => choice.which(node).map(|which| vec![command::CHOICE, which]),
        Part::Form(family) => family.command(node).map(|byte| vec![byte]),
    }
}

/// Checks that each field given is one of the node's and is given once.
fn check_names(node: Node, description: &NodeDescription) -> Result<(), Problem> {
    for (at, (name, _)) in description.fields.iter().enumerate() {
        let Some(field) = node.fields().iter().find(|field| field.accessor == name) else {
            return Err(Problem::UnknownField(node, name.clone().into_owned()));
        };
        if description.fields[..at].iter().any(|(other, _)| other == name) {
            return Err(Problem::FieldTwice(node, field.accessor));
        }
    }
    Ok(())
}
