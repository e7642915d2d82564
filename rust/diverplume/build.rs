//! Links the archive of the proved calls: the one that `DIVERPLUME_ARCHIVE` names, else the one
//! that `tools/build diverplume` writes to the repository's `target/`.

use std::path::{Path, PathBuf};
use std::process::exit;
use std::{env, fs};

const VARIABLE: &str = "DIVERPLUME_ARCHIVE";
const BUILT: &str = "../../target/staticlib/libdiverplume.a";

fn main() {
    println!("cargo:rerun-if-env-changed={VARIABLE}");
    let named = env::var_os(VARIABLE).map(PathBuf::from);
    let built = || Path::new(env!("CARGO_MANIFEST_DIR")).join(BUILT);
    let archive = named.clone().unwrap_or_else(built);
    println!("cargo:rerun-if-changed={}", archive.display());
    let Ok(archive) = fs::canonicalize(&archive) else {
        fail(&archive, named.is_some());
    };
    let file = archive.file_name().and_then(|name| name.to_str());
    let library = file.and_then(|name| name.strip_prefix("lib")?.strip_suffix(".a"));
    let (Some(folder), Some(library)) = (archive.parent(), library) else {
        fail(&archive, named.is_some());
    };
    // Build scripts of crates that use this one read it as DEP_DIVERPLUME_FOLDER.
    println!("cargo:folder={}", folder.display());
    println!("cargo:rustc-link-search=native={}", folder.display());
    println!("cargo:rustc-link-lib=static={library}");
}

/// Says which archive is missing and what makes it.
fn fail(archive: &Path, is_named: bool) -> ! {
    eprintln!("diverplume: no archive libNAME.a at {}", archive.display());
    if is_named {
        eprintln!("diverplume: {VARIABLE} names it; set it to the archive, or leave it unset");
    }
    eprintln!(
        "diverplume: `tools/build diverplume`, run in the repository's root, makes the archive"
    );
    exit(1);
}
