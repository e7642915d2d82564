//! The files of 000 and 001 stand here as published, and the profile lets their u32 sum panic.

use answers::Reference;
use sheet::{node, parts, SheetBuilder};

mod sha256;

fn file_hash(krate: &str) -> String {
    let path = format!("{}/../{krate}/src/lib.rs", env!("CARGO_MANIFEST_DIR"));
    let bytes = std::fs::read(&path).unwrap_or_else(|error| panic!("{path}: {error}"));
    sha256::hex(&bytes)
}

#[test]
fn source_000_is_unchanged() {
    assert_eq!(
        file_hash("sml-naive-fmt"),
        "c73a38cc858069660720a753c4c24066c3e5d26fade08f7095222481b219ec37"
    );
}

#[test]
fn source_001_is_unchanged() {
    assert_eq!(
        file_hash("sml-comment"),
        "27e082e0e6546173e13d689e774a529c37b62c6f0343bbf10759b926e4a549d6"
    );
}

#[test]
fn sha256_of_known_texts() {
    assert_eq!(
        sha256::hex(b""),
        "e3b0c44298fc1c149afbf4c8996fb92427ae41e4649b934ca495991b7852b855"
    );
    assert_eq!(
        sha256::hex(b"abc"),
        "ba7816bf8f01cfea414140de5dae2223b00361a396177a9cb410ff61f20015ad"
    );
    // The padding takes a block of its own.
    assert_eq!(
        sha256::hex(b"abcdbcdecdefdefgefghfghighijhijkijkljklmklmnlmnomnopnopq"),
        "248d6a61d20638b8e5c026930c3e6039a33ce45964ff2167f6ecedd419db06c1"
    );
}

#[test]
#[should_panic(expected = "attempt to add with overflow")]
fn the_indent_sum_panics_on_overflow() {
    // `fn _ => while _ do _` forms depth 2 before it writes an indent.
    let while_exp =
        node("WhileExp").with("cond", node("WildcardExp")).with("body", node("WildcardExp"));
    let arm = node("Arm").with("pat", node("WildcardPat")).with("exp", while_exp);
    let fn_exp = node("FnExp").with("matcher", node("Matcher").with("arms", [arm]));
    let dec = parts::dec(node("ExpDec").with("exp", fn_exp));
    let reference = Reference::new(&SheetBuilder::new().finish_named([dec]).unwrap());
    let root = reference.root().expect("the sheet meets none of 1 to 4");
    let _ = sml_naive_fmt::get(root, 2_147_483_648);
}
