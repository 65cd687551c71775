//! One version everywhere: the header's, as a text and as a number, the crate's, the lock files', and the newest of CHANGELOG.md.

use drobulets::VERSION;
use std::fs;
use std::path::Path;

/// A file of the repository.
fn file(name: &str) -> String {
    let path = Path::new(env!("CARGO_MANIFEST_DIR")).join("../..").join(name);
    fs::read_to_string(&path).unwrap_or_else(|error| panic!("{}: {error}", path.display()))
}

/// The rest of the first line that begins so.
fn after<'t>(beginning: &str, text: &'t str) -> &'t str {
    let rest = text.lines().find_map(|line| line.strip_prefix(beginning));
    rest.unwrap_or_else(|| panic!("no line begins with '{beginning}'"))
}

#[test]
fn the_header_has_the_version_as_a_text_and_as_a_number() {
    let parts = [env!("CARGO_PKG_VERSION_MAJOR"), env!("CARGO_PKG_VERSION_MINOR"), env!("CARGO_PKG_VERSION_PATCH")];
    let [major, minor, patch] = parts.map(|part| part.parse::<u32>().unwrap());
    assert_eq!(VERSION, format!("{major}.{minor}.{patch}"));
    assert!(minor < 100 && patch < 100);
    let header = file("include/drobulets.h");
    assert_eq!(after("#define DROBULETS_VERSION_TEXT ", &header), format!("\"{VERSION}\""));
    assert_eq!(after("#define DROBULETS_VERSION ", &header), (major * 10_000 + minor * 100 + patch).to_string());
}

#[test]
fn the_newest_of_the_changes_are_of_this_version() {
    let changes = file("CHANGELOG.md");
    assert_eq!(after("## ", &changes).split(' ').next(), Some(&format!("[{VERSION}]")[..]));
}

#[test]
fn the_lock_files_name_it() {
    for lock in ["bindings/rust/Cargo.lock", "tests/Cargo.lock", "bench/Cargo.lock"] {
        let named = format!("name = \"drobulets\"\nversion = \"{VERSION}\"\n");
        assert!(file(lock).contains(&named), "{lock} names another version");
    }
}
