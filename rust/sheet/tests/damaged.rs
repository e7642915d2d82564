//! Damaged files: nothing panics, and what is formatted all the same is sound.

use diverplume::format;
use diverplume_sheet::{judge, File, Stray};

const FILES: [&str; 4] = [
    include_str!("golden/core.sml"),
    include_str!("golden/modules.sml"),
    include_str!("golden/comments.sml"),
    include_str!("../../../examples/sample.sml"),
];

/// Words that are put into a file.
const WORDS: [&str; 24] = [
    "(", ")", "[", "]", "{", "}", ",", ";", "...", "_", "|", "=", "=>", "#", "op", "val", "fun",
    "end", "let", "in", "*", "::", "~1", "(* c *)",
];

/// Numbers that look random (xorshift).
struct Random(u64);

impl Random {
    fn below(&mut self, count: usize) -> usize {
        self.0 ^= self.0 << 13;
        self.0 ^= self.0 >> 7;
        self.0 ^= self.0 << 17;
        usize::try_from(self.0 % count as u64).expect("a small number")
    }
}

/// A file with some words taken out, written twice, put in or exchanged.
fn damaged(random: &mut Random) -> String {
    let text = FILES[random.below(FILES.len())];
    let mut words: Vec<_> = text.split_inclusive([' ', '\n', '(', ')', ',', ';', '=']).collect();
    // Three damages at most leave a word.
    for _ in 0..=random.below(3) {
        let (at, other) = (random.below(words.len()), random.below(words.len()));
        match random.below(5) {
            0 => drop(words.remove(at)),
            1 => words.insert(at, words[at]),
            2 => words.insert(at, WORDS[random.below(WORDS.len())]),
            3 => words.swap(at, other),
            _ => words.truncate(at + 4),
        }
    }
    words.concat()
}

/// Whether a text is formatted. What is formatted has to have the file's tokens and comments, to
/// parse to the same tree, and to stay as it is.
fn is_formatted(text: &str) -> bool {
    let once = |file: &File<'_>| {
        let sheet = file.sheet().ok()?;
        format(&sheet.text, &sheet.record, 2).ok()
    };
    let Ok(file) = File::parse(text.as_bytes()) else { return false };
    let Some(formatted) = once(&file) else { return false };
    assert_eq!(judge(text.as_bytes(), &formatted), Ok(Ok(())), "{text}");
    let again = File::parse(&formatted).unwrap_or_else(|error| panic!("{text}\n{error}"));
    assert_eq!(file.same_tree(&again), Ok(()), "{text}");
    let is_repeated = file.strays().iter().any(|stray| matches!(stray, Stray::Repeated { .. }));
    assert!(is_repeated || once(&again) == Some(formatted), "{text}");
    true
}

#[test]
fn damaged_files() {
    let count: usize = if cfg!(debug_assertions) { 2_000 } else { 20_000 };
    let mut random = Random(2_026);
    let formatted = (0..count).filter(|_| is_formatted(&damaged(&mut random))).count();
    assert!(formatted > count / 20 && formatted < count / 2, "{formatted} of {count}");
}
