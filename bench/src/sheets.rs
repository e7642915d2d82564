//! The sheets that are timed.

use diverplume::record::tree::{Dec, HoleDec};
use diverplume::record::{limit, Sheet};
use diverplume_sheet::tokens_and_tree;
use sheet::worst;
use std::iter;

/// The rule file that the realistic sheets repeat.
const RULES: &str = include_str!("../../examples/sample.sml");

/// A sheet with its name.
pub struct Named {
    pub name: String,
    pub sheet: Sheet,
}

/// The text of several branches: the rule file so many times, the structure's name numbered.
pub fn branches(count: usize) -> String {
    (1..=count).map(|branch| RULES.replace("HarbourStreet", &format!("Branch{branch}"))).collect()
}

/// The same text, of as many bytes, with accents in its comments.
pub fn accented(text: &str) -> String {
    let mut parts = text.split("(*");
    let first = parts.next().unwrap_or_default().to_owned();
    parts.fold(first, |before, part| {
        let (comment, behind) = part.split_once("*)").expect("a comment has an end");
        let comment = ["th", "he", "an", "re", "s ", "e "]
            .iter()
            .fold(comment.to_owned(), |comment, pair| comment.replace(pair, "\u{e9}"));
        format!("{before}(*{comment}*){behind}")
    })
}

/// The sheet of a rule file.
fn parsed(text: &str) -> Sheet {
    let (builder, decs) = tokens_and_tree(text).expect("the rule file is Standard ML");
    builder.finish(decs).expect("a sheet within the limits")
}

/// The rules of a branch, without its structure and its last paragraph: 1,080 bytes of tokens.
fn paragraphs() -> &'static str {
    let (_, inside) = RULES.split_once("struct\n").expect("the rules stand in a structure");
    let (inside, _) = inside.rsplit_once("\n\n").expect("paragraphs");
    inside
}

/// A record of this many bytes, or a few less: the text of so many branches, the declarations repeated
/// in the tree while they fit, then `...` while they do.
fn repeated(branches: usize, record: usize) -> Sheet {
    let text = format!("{}\n", paragraphs()).repeat(branches);
    let (builder, decs) = tokens_and_tree(&text).expect("the rules are Standard ML");
    let hole = Dec::one(HoleDec::new().without_first());
    let sheet = |rules: usize, holes: usize| {
        let rules = decs.iter().cycle().take(rules);
        let decs = rules.chain(iter::repeat_n(&hole, holes)).cloned();
        let sheet = builder.clone().finish(decs).ok();
        sheet.filter(|sheet| sheet.record.len() <= record)
    };
    let rules = (0..).take_while(|&rules| sheet(rules, 0).is_some()).last().unwrap_or(0);
    let holes = (0..).map_while(|holes| sheet(rules, holes)).last();
    holes.expect("a record that holds the tokens")
}

/// All sheets: realistic ones by size, then those on which a call takes long.
pub fn all() -> Vec<Named> {
    let mut sheets = Vec::new();
    for count in [1, 2, 4, 8] {
        sheets.push(Named { name: format!("rules-{count}"), sheet: parsed(&branches(count)) });
    }
    let accents = parsed(&accented(&branches(8)));
    sheets.push(Named { name: "accents-8".to_owned(), sheet: accents });
    for (name, branches, record) in [("4KiB", 1, 4_096), ("64KiB", 15, limit::RECORD)] {
        sheets.push(Named { name: format!("record-{name}"), sheet: repeated(branches, record) });
    }
    let worst = worst::all().into_iter();
    sheets.extend(worst.map(|(name, sheet)| Named { name: name.to_owned(), sheet }));
    sheets
}
