//! The golden files have every form of the record.

use diverplume_record::{Family, NodeDescription, PartDescription};
use diverplume_sheet::tokens_and_tree;
use std::collections::HashSet;

const FILES: [&str; 4] = [
    include_str!("golden/core.sml"),
    include_str!("golden/modules.sml"),
    include_str!("golden/open.sml"),
    include_str!("../../../examples/sample.sml"),
];

fn add(node: &NodeDescription, names: &mut HashSet<String>) {
    names.insert(node.name().to_owned());
    let mut parts: Vec<_> = node.fields().map(|(_, part)| part).collect();
    while let Some(part) = parts.pop() {
        match part {
            PartDescription::Node(node) => add(node, names),
            PartDescription::List(items) => parts.extend(items),
            PartDescription::Absent | PartDescription::Token(_) => {}
        }
    }
}

#[test]
fn every_form_is_there() {
    let mut names = HashSet::new();
    for text in FILES {
        let (_, decs) = tokens_and_tree(text).expect("Standard ML");
        for dec in &decs {
            add(dec.as_ref(), &mut names);
        }
    }
    let forms = Family::ALL.iter().flat_map(|family| family.forms());
    let missing: Vec<_> =
        forms.map(|form| form.name()).filter(|name| !names.contains(*name)).collect();
    // Imports are another language's, and have no layout.
    assert_eq!(missing, ["EsImportDec"]);
}
