//! Whole files: `golden/NAME.sml` is formatted to `golden/NAME.formatted.sml`.

mod common;

use common::formatted;
use std::fs;
use std::path::Path;

#[test]
fn files() {
    let folder = Path::new(env!("CARGO_MANIFEST_DIR")).join("tests/golden");
    let mut count = 0;
    for entry in fs::read_dir(&folder).expect("the folder") {
        let path = entry.expect("an entry").path();
        let name = path.file_name().and_then(|name| name.to_str()).expect("a name");
        let Some(name) = name.strip_suffix(".sml").filter(|name| !name.ends_with(".formatted"))
        else {
            continue;
        };
        let read = |path: &Path| fs::read_to_string(path).expect("a file");
        let expected = read(&folder.join(format!("{name}.formatted.sml")));
        assert_eq!(formatted(&read(&path)) + "\n", expected, "{name}");
        count += 1;
    }
    assert_eq!(count, 4);
}
