//! The files that the arguments name.

use std::collections::HashSet;
use std::path::{Path, PathBuf};
use std::{fs, io};

/// A file to format, or why there is none.
#[derive(Debug)]
pub struct Found {
    pub path: PathBuf,
    pub error: Option<io::Error>,
}

/// The files named, and those of Standard ML in the folders named and below them, in order. Hidden
/// folders and links inside a folder are passed over.
pub fn find(paths: &[PathBuf]) -> Vec<Found> {
    let mut found = Vec::new();
    for path in paths {
        if path.is_dir() {
            folder(path, &mut found);
        } else {
            found.push(Found { path: path.clone(), error: None });
        }
    }
    found
}

/// Leaves each file once, by whatever paths and links it was found.
pub fn keep_once(found: &mut Vec<Found>) {
    let mut seen = HashSet::new();
    // What can't be resolved is told when it is read.
    found.retain(|file| fs::canonicalize(&file.path).map_or(true, |path| seen.insert(path)));
}

/// Adds the files of a folder. Folders that wait are kept in a list, so that deep ones need no deep
/// stack.
fn folder(path: &Path, found: &mut Vec<Found>) {
    let mut waiting = vec![path.to_path_buf()];
    while let Some(path) = waiting.pop() {
        match entries(&path) {
            Ok((folders, files)) => {
                found.extend(files.into_iter().map(|path| Found { path, error: None }));
                waiting.extend(folders.into_iter().rev());
            }
            Err(error) => found.push(Found { path, error: Some(error) }),
        }
    }
}

/// The folders and the files of Standard ML in a folder, each in order.
fn entries(folder: &Path) -> io::Result<(Vec<PathBuf>, Vec<PathBuf>)> {
    let (mut folders, mut files) = (Vec::new(), Vec::new());
    for entry in fs::read_dir(folder)? {
        let entry = entry?;
        let (path, kind) = (entry.path(), entry.file_type()?);
        let is_hidden = entry.file_name().as_encoded_bytes().starts_with(b".");
        if kind.is_dir() && !is_hidden {
            folders.push(path);
        } else if kind.is_file() && !is_hidden && is_standard_ml(&path) {
            files.push(path);
        }
    }
    folders.sort();
    files.sort();
    Ok((folders, files))
}

fn is_standard_ml(path: &Path) -> bool {
    let extension = path.extension().and_then(|extension| extension.to_str());
    matches!(extension, Some("sml" | "sig" | "fun"))
}
