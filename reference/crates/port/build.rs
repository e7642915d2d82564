//! Links the archive of the calls for tests, `libtesting.a`. It stands beside the one that `diverplume` links.

use std::env;
use std::path::Path;
use std::process::exit;

fn main() {
    let folder =
        env::var("DEP_DIVERPLUME_FOLDER").expect("`diverplume` tells its archive's folder");
    let archive = Path::new(&folder).join("libtesting.a");
    println!("cargo:rerun-if-changed={}", archive.display());
    if !archive.is_file() {
        eprintln!("port: no archive at {}", archive.display());
        eprintln!("port: `tools/build testing`, run in the repository's root, makes it");
        exit(1);
    }
    println!("cargo:rustc-link-search=native={folder}");
    println!("cargo:rustc-link-lib=static=testing");
}
