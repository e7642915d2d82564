//! The place of the tables in the README, between two comments.

use std::fs;

const PATH: &str = concat!(env!("CARGO_MANIFEST_DIR"), "/../README.md");
const BEGIN: &str = "<!-- times: `bench/run --readme` writes what stands from here -->";
const END: &str = "<!-- times: to here -->";

/// The README around the place.
pub struct Readme {
    before: String,
    behind: String,
}

impl Readme {
    /// Reads the README.
    ///
    /// # Errors
    ///
    /// The file cannot be read, or has no place.
    pub fn open() -> Result<Self, String> {
        let readme = fs::read_to_string(PATH).map_err(|error| format!("{PATH}: {error}"))?;
        Self::around(&readme).ok_or_else(|| format!("{PATH} has no lines {BEGIN} and {END}"))
    }

    fn around(readme: &str) -> Option<Self> {
        let (before, inside) = readme.split_once(BEGIN)?;
        let (_, behind) = inside.split_once(END)?;
        Some(Self { before: before.to_owned(), behind: behind.to_owned() })
    }

    /// Writes the README with these tables.
    ///
    /// # Errors
    ///
    /// The file cannot be written.
    pub fn with(&self, tables: &str) -> Result<(), String> {
        fs::write(PATH, self.text(tables)).map_err(|error| format!("{PATH}: {error}"))
    }

    fn text(&self, tables: &str) -> String {
        format!("{}{BEGIN}\n\n{tables}\n{END}{}", self.before, self.behind)
    }
}

#[cfg(test)]
mod tests {
    use super::{Readme, BEGIN, END, PATH};
    use crate::sheets;
    use std::fs;

    #[test]
    fn tables_replace_those_between_the_comments() {
        let readme = Readme::around(&format!("a\n{BEGIN}\nold\n{END}\nb\n")).expect("the place");
        let new = readme.text("new\n");
        assert_eq!(new, format!("a\n{BEGIN}\n\nnew\n\n{END}\nb\n"));
        assert_eq!(Readme::around(&new).expect("the place").text("new\n"), new);
        assert!(Readme::around("a\nb\n").is_none());
    }

    /// Each sheet has a row in both tables, in the order of the sheets.
    #[test]
    fn the_readme_has_all_sheets() {
        let readme = fs::read_to_string(PATH).expect("the README");
        let (_, inside) = readme.split_once(BEGIN).expect("the place");
        let (inside, _) = inside.split_once(END).expect("the place");
        let rows = inside.lines().filter_map(|line| line.strip_prefix("| `")?.split_once("` |"));
        let names: Vec<_> = sheets::all().into_iter().map(|named| named.name).collect();
        let twice: Vec<_> = names.iter().chain(&names).map(String::as_str).collect();
        assert_eq!(rows.map(|(name, _)| name).collect::<Vec<_>>(), twice);
    }
}
