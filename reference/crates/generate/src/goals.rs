//! What a run of sheets is to reach.

use crate::damage::Damage;
use crate::shape::Shape;
use crate::told::Shown;
use schema::{limit, FieldKind, Node, SyntaxKind};
use std::sync::OnceLock;
use stops::Missing;

macro_rules! marks {
    ($($mark:ident $name:literal,)*) => {
        /// What a case may show besides nodes, sites, numbers, damage and kinds.
        #[derive(Debug, Clone, Copy, PartialEq, Eq)]
        pub(crate) enum Mark { $($mark,)* }

        /// The marks with their names.
        const MARKS: &[(Mark, &str)] = &[$((Mark::$mark, $name),)*];
    };
}

marks! {
    CommentFound "comment_above finds a comment",
    CommentNone "comment_above finds none",
    DocFound "doc_comment_above finds a doc text",
    DocEmpty "doc_comment_above finds an empty doc text",
    DocNone "doc_comment_above finds none under a comment",
    CommentTwice "a comment is written twice",
    SeveralLeft "several comments are left",
    LeftPastWord "a comment is left past the first word of the set",
    NamedTwice "a token is named twice",
    NamedBefore "a token is named behind a later one",
    CommentNamed "a block comment is named by a token field",
    FirstNone "a declaration has no first token",
    FirstComment "a declaration's first token is a block comment",
    IndentWritten "an indent is written at a tab size over 1",
}

/// The calls by their numbers in [`Goals::number`].
pub(crate) const CALLS: [(&str, &[u8]); 4] = [
    ("check", &[0, 1, 2, 3, 4, 6, 13, 14]),
    ("get", &[0, 1, 2, 3, 4, 6, 7, 8, 13, 14]),
    ("comment_above", &[0, 1, 2, 3, 4, 9]),
    ("doc_comment_above", &[0, 1, 2, 3, 4, 8, 9]),
];

/// The sizes at the limits: a name, and the limit that the sizes are one below, at, and one above.
pub(crate) const SIZES: [(&str, usize); 4] = [
    ("text bytes", limit::TEXT),
    ("tokens", limit::TOKENS),
    ("record bytes", limit::RECORD),
    ("forms inside one another", limit::FORMS),
];

/// All goals, by kind and by number.
pub(crate) struct Goals {
    /// The kind and the name of each.
    pub(crate) names: Vec<(&'static str, String)>,
    /// For each node: that it stands in an accepted sheet.
    pub(crate) nodes: Vec<Option<usize>>,
    /// For each node and field: absent or there, or a list of 0, 1, several items.
    pub(crate) fields: Vec<Vec<[Option<usize>; 3]>>,
    /// For each site: that it fails.
    pub(crate) sites: Vec<Option<usize>>,
    /// For each call and number: that the call gives it.
    pub(crate) number: [[Option<usize>; 15]; 4],
    pub(crate) damage: Vec<usize>,
    pub(crate) kinds: Vec<usize>,
    pub(crate) sizes: Vec<[usize; 3]>,
    /// What stops and imports show.
    pub(crate) told: Vec<(Shown, usize)>,
    marks: Vec<usize>,
}

impl Goals {
    pub(crate) fn get() -> &'static Self {
        static GOALS: OnceLock<Goals> = OnceLock::new();
        GOALS.get_or_init(Self::new)
    }

    pub(crate) fn mark(&self, mark: Mark) -> usize {
        self.marks[mark as usize]
    }

    fn new() -> Self {
        let mut names = Names(Vec::new());
        let nodes = Node::ALL.iter().map(|&node| names.node(node)).collect();
        let fields = Node::ALL.iter().map(|&node| names.fields(node)).collect();
        let sites = stops::missing().map(|(place, missing)| names.site(place, missing)).collect();
        let number = CALLS.map(|(call, numbers)| {
            std::array::from_fn(|number| {
                let given = numbers.iter().any(|&given| usize::from(given) == number);
                given.then(|| names.add("number", format!("{call} gives {number}")))
            })
        });
        let damage =
            Damage::ALL.iter().map(|kind| names.add("damage", kind.name().to_owned())).collect();
        let kinds = SyntaxKind::ALL.iter().map(|kind| names.add("kind", format!("{kind:?}")));
        let kinds = kinds.collect();
        let sizes = SIZES.iter().map(|&(name, limit)| {
            [limit - 1, limit, limit + 1].map(|size| names.add("size", format!("{size} {name}")))
        });
        let sizes = sizes.collect();
        let told = Shown::all().into_iter().map(|shown| (shown, names.add("told", shown.name())));
        let told = told.collect();
        let marks = MARKS.iter().map(|(_, name)| names.add("mark", (*name).to_owned())).collect();
        Self { names: names.0, nodes, fields, sites, number, damage, kinds, sizes, told, marks }
    }
}

/// The goals while they are listed.
struct Names(Vec<(&'static str, String)>);

impl Names {
    fn add(&mut self, kind: &'static str, name: String) -> usize {
        self.0.push((kind, name));
        self.0.len() - 1
    }

    /// An import is never accepted; the root is no part of the record.
    fn node(&mut self, node: Node) -> Option<usize> {
        let given = !matches!(node, Node::EsImportDec | Node::Root);
        given.then(|| self.add("node", node.name().to_owned()))
    }

    fn fields(&mut self, node: Node) -> Vec<[Option<usize>; 3]> {
        let mut goals = Vec::new();
        for (at, field) in node.fields().iter().enumerate() {
            let name = |how: &str| format!("{}.{} {how}", node.name(), field.accessor);
            goals.push(match field.kind {
                FieldKind::List(_) => {
                    ["empty", "of 1", "of several"].map(|how| Some(self.add("list", name(how))))
                }
                FieldKind::One(_) if Shape::get().is_optional(node, at) => {
                    let [absent, there] =
                        ["absent", "there"].map(|how| self.add("field", name(how)));
                    [Some(absent), Some(there), None]
                }
                FieldKind::One(_) => [None, Some(self.add("field", name("there"))), None],
            });
        }
        goals
    }

    fn site(&mut self, place: &stops::Place, missing: Option<Missing>) -> Option<usize> {
        if place.never_fails() {
            return None;
        }
        let what = match missing {
            Some(Missing::Field(node, field)) => format!("{}.{field} is absent", node.name()),
            Some(Missing::FirstName) => "a path of an AppExp has no names".to_owned(),
            Some(Missing::Import) => "an import".to_owned(),
            None => format!("handed on by {:?}", place.before.trim()),
        };
        Some(self.add("site", format!("line {}: {what}", place.line)))
    }
}
