//! The stored scripts still have the stored answers.

use std::fs;
use std::path::Path;

use second::script::replay::{replay, End};

#[test]
fn stored_scripts_have_their_answers() {
    let directory = Path::new(env!("CARGO_MANIFEST_DIR")).join("scripts");
    let mut count = 0;
    for entry in fs::read_dir(directory).expect("stored scripts") {
        let path = entry.expect("an entry").path();
        if path.extension().is_some_and(|end| end == "script") {
            check(&path);
            count += 1;
        }
    }
    assert!(count > 0);
}

fn check(path: &Path) {
    let script = fs::read(path).expect("a script");
    let mut out = Vec::new();
    let end = replay(script.as_slice(), &mut out).expect("memory takes all");
    let answers = fs::read(path.with_extension("answers")).expect("its answers");
    assert!(out == answers, "{} has other answers", path.display());
    let ended = match end {
        End::Reached => None,
        End::Unreadable { line, .. } => Some(format!("line {line}\n")),
    };
    let error = fs::read_to_string(path.with_extension("error")).ok();
    assert_eq!(ended, error, "{}", path.display());
}
