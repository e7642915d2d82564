//! Writing a file back.

use std::ffi::OsString;
use std::io::Write as _;
use std::path::{Path, PathBuf};
use std::{fs, io, process};

/// Puts another text into a file whose text was read before: into a new file beside it, which then
/// takes its name. Nothing is touched where that fails, or where the file has another text by now.
///
/// # Errors
///
/// Why the file is left alone.
pub fn write(path: &Path, before: &[u8], after: &[u8]) -> Result<(), String> {
    // A link stays a link: the file behind it is written.
    let path = fs::canonicalize(path).map_err(|error| error.to_string())?;
    let metadata = fs::metadata(&path).map_err(|error| error.to_string())?;
    if !metadata.is_file() {
        return Err("it is a pipe or a device, no file that can be written back".to_owned());
    }
    if metadata.permissions().readonly() {
        return Err("the file is write-protected and left alone".to_owned());
    }
    let beside = Beside::create(&path, after, &metadata)
        .map_err(|error| format!("no file can be written beside it: {error}"))?;
    let now = fs::read(&path).map_err(|error| error.to_string())?;
    if now != before {
        return Err("the file changed while it was formatted, and is left alone".to_owned());
    }
    beside.take_name(&path).map_err(|error| format!("it can't be replaced: {error}"))
}

/// A new file beside another. It is removed unless it takes the other's name.
struct Beside {
    path: Option<PathBuf>,
}

impl Beside {
    fn create(path: &Path, text: &[u8], like: &fs::Metadata) -> io::Result<Self> {
        let mut name = OsString::from(".");
        name.push(path.file_name().unwrap_or_default());
        name.push(format!(".diverplume-{}", process::id()));
        let path = path.with_file_name(name);
        let mut file = fs::OpenOptions::new().write(true).create_new(true).open(&path)?;
        let beside = Self { path: Some(path) };
        file.write_all(text)?;
        keep_owner(&file, like);
        file.set_permissions(like.permissions())?;
        file.sync_all()?;
        Ok(beside)
    }

    fn take_name(mut self, of: &Path) -> io::Result<()> {
        if let Some(path) = &self.path {
            fs::rename(path, of)?;
        }
        self.path = None;
        Ok(())
    }
}

/// Gives a file the owner and the group of another, as far as the system lets the user.
#[cfg(unix)]
fn keep_owner(file: &fs::File, like: &fs::Metadata) {
    use std::os::unix::fs::{fchown, MetadataExt as _};
    let _ = fchown(file, None, Some(like.gid()));
    let _ = fchown(file, Some(like.uid()), None);
}

#[cfg(not(unix))]
fn keep_owner(_: &fs::File, _: &fs::Metadata) {}

impl Drop for Beside {
    fn drop(&mut self) {
        if let Some(path) = &self.path {
            // There is no one to tell of a failure, and the file itself is whole.
            let _ = fs::remove_file(path);
        }
    }
}

#[cfg(test)]
mod tests {
    use super::*;

    fn in_folder(name: &str, run: impl Fn(&Path)) {
        let folder = std::env::temp_dir().join(format!("diverplume-{name}-{}", process::id()));
        fs::create_dir_all(&folder).unwrap();
        run(&folder);
        fs::remove_dir_all(&folder).unwrap();
    }

    fn names(folder: &Path) -> Vec<OsString> {
        fs::read_dir(folder).unwrap().map(|entry| entry.unwrap().file_name()).collect()
    }

    #[test]
    fn a_file_is_replaced() {
        in_folder("replaced", |folder| {
            let path = folder.join("a.sml");
            fs::write(&path, "before").unwrap();
            assert_eq!(write(&path, b"before", b"after"), Ok(()));
            assert_eq!(fs::read(&path).unwrap(), b"after");
            assert_eq!(names(folder), ["a.sml"]);
        });
    }

    #[test]
    fn a_file_that_changed_is_left_alone() {
        in_folder("changed", |folder| {
            let path = folder.join("a.sml");
            fs::write(&path, "other").unwrap();
            let problem = write(&path, b"before", b"after").unwrap_err();
            assert_eq!(problem, "the file changed while it was formatted, and is left alone");
            assert_eq!(fs::read(&path).unwrap(), b"other");
            assert_eq!(names(folder), ["a.sml"]);
        });
    }

    #[test]
    fn a_protected_file_is_left_alone() {
        in_folder("protected", |folder| {
            let path = folder.join("a.sml");
            fs::write(&path, "before").unwrap();
            let mut permissions = fs::metadata(&path).unwrap().permissions();
            permissions.set_readonly(true);
            fs::set_permissions(&path, permissions).unwrap();
            assert!(write(&path, b"before", b"after").unwrap_err().contains("write-protected"));
            assert_eq!(fs::read(&path).unwrap(), b"before");
        });
    }

    #[cfg(unix)]
    #[test]
    fn the_owner_stays() {
        use std::os::unix::fs::{chown, MetadataExt as _};
        in_folder("owner", |folder| {
            let path = folder.join("a.sml");
            fs::write(&path, "before").unwrap();
            // Only the superuser may give a file away.
            if chown(&path, Some(1), Some(2)).is_ok() {
                assert_eq!(write(&path, b"before", b"after"), Ok(()));
                let metadata = fs::metadata(&path).unwrap();
                assert_eq!((metadata.uid(), metadata.gid()), (1, 2));
            }
        });
    }

    #[cfg(unix)]
    #[test]
    fn links_and_permissions_stay() {
        use std::os::unix::fs::{symlink, PermissionsExt as _};
        in_folder("links", |folder| {
            let (path, link) = (folder.join("a.sml"), folder.join("b.sml"));
            fs::write(&path, "before").unwrap();
            fs::set_permissions(&path, fs::Permissions::from_mode(0o640)).unwrap();
            symlink(&path, &link).unwrap();
            assert_eq!(write(&link, b"before", b"after"), Ok(()));
            assert_eq!(fs::read(&path).unwrap(), b"after");
            assert!(fs::symlink_metadata(&link).unwrap().is_symlink());
            assert_eq!(fs::metadata(&path).unwrap().permissions().mode() & 0o777, 0o640);
        });
    }
}
