//! What docs/AUDIT.md says of files: those that must be believed are there and have as many lines as it
//! counts, and those it names are there.

use std::fs::read_to_string;

fn file(path: &str) -> Option<String> {
    read_to_string(format!("{}/../{path}", env!("CARGO_MANIFEST_DIR"))).ok()
}

fn audit() -> String {
    file("docs/AUDIT.md").expect("docs/AUDIT.md")
}

/// The cells of a table's row.
fn cells(line: &str) -> Vec<&str> {
    line.trim_matches('|').split('|').map(str::trim).collect()
}

#[test]
fn files_that_must_be_believed_have_the_lines_counted() {
    let (mut files, mut sum) = (0, 0);
    for line in audit().lines().filter(|line| line.starts_with('|')) {
        let [path, lines, _] = cells(line)[..] else {
            continue;
        };
        let Ok(lines) = lines.parse::<usize>() else {
            continue;
        };
        if path == "all" {
            assert_eq!(lines, sum, "the sum of the lines above");
            sum = 0;
            continue;
        }
        let text =
            file(path).unwrap_or_else(|| panic!("docs/AUDIT.md names {path}, which is not there"));
        assert_eq!(text.lines().count(), lines, "lines of {path}");
        files += 1;
        sum += lines;
    }
    assert!(
        files > 20,
        "docs/AUDIT.md counts the lines of {files} files only"
    );
}

#[test]
fn specs_and_proofs_that_are_named_are_there() {
    let text = audit();
    let mut named = 0;
    for word in text.split(|c: char| !(c.is_ascii_alphanumeric() || c == '/' || c == '_')) {
        let parts: Vec<_> = word.split('/').collect();
        let [.., name, folder @ ("specs" | "proofs"), module] = parts[..] else {
            continue;
        };
        let path = format!("crates/{name}/{folder}/{module}.antt");
        assert!(
            file(&path).is_some(),
            "docs/AUDIT.md names {word}: {path} is not there"
        );
        named += 1;
    }
    assert!(named > 20, "docs/AUDIT.md names {named} files only");
}
