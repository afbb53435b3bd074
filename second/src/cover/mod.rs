//! Counts what a directory of scripts covers, and whether that is all of it.

mod wanted;

use std::collections::BTreeMap;
use std::fs;
use std::io;
use std::path::{Path, PathBuf};

use crate::script::line::{Kind, Line};

const LEAST_CALLS: usize = 20_000;

/// How often each thing was seen.
type Seen = BTreeMap<String, usize>;

/// Prints the counts; true if nothing is missing.
pub fn cover(directory: &Path) -> io::Result<bool> {
    let mut seen = Seen::new();
    let mut calls = 0;
    let mut complete = true;
    for path in scripts_in(directory)? {
        let (lines, whole) = cover_script(&path, &mut seen)?;
        calls += lines;
        if !whole {
            println!("{}: lines and answers do not go together", path.display());
            complete = false;
        }
    }
    for (what, count) in &seen {
        println!("{what}: {count}");
    }
    let missing: Vec<String> = wanted::all().filter(|what| !seen.contains_key(what)).collect();
    for what in &missing {
        println!("missing: {what}");
    }
    println!(
        "{calls} calls, {} of {} covered",
        wanted::all().count() - missing.len(),
        wanted::all().count()
    );
    Ok(complete && missing.is_empty() && calls >= LEAST_CALLS)
}

fn scripts_in(directory: &Path) -> io::Result<Vec<PathBuf>> {
    let mut paths = Vec::new();
    for entry in fs::read_dir(directory)? {
        let path = entry?.path();
        if path.extension().is_some_and(|end| end == "script") {
            paths.push(path);
        }
    }
    paths.sort();
    Ok(paths)
}

/// Tells how many answers there are, and whether each has its line.
fn cover_script(path: &Path, seen: &mut Seen) -> io::Result<(usize, bool)> {
    let script = fs::read(path)?;
    let answers = fs::read_to_string(path.with_extension("answers"))?;
    let mut answers = answers.lines();
    let mut calls = 0;
    for text in script.split(|byte| *byte == b'\n') {
        let line = match Line::read(text) {
            Ok(None) => continue,
            Ok(Some(line)) => line,
            Err(_) => break,
        };
        let Some(answer) = answers.next() else {
            break;
        };
        calls += 1;
        let name = text.split(|byte| byte.is_ascii_whitespace()).find(|word| !word.is_empty());
        let name = String::from_utf8_lossy(name.unwrap_or_default()).into_owned();
        see(seen, format!("{name} {}", sort_of(answer)));
        see_layout(seen, &line, answer);
    }
    if path.with_extension("error").exists() {
        see(seen, "unreadable line".to_string());
    }
    Ok((calls, answers.next().is_none()))
}

fn see(seen: &mut Seen, what: String) {
    *seen.entry(what).or_default() += 1;
}

/// The answer without the numbers that only say how much.
fn sort_of(answer: &str) -> String {
    let words: Vec<&str> = answer.split(' ').collect();
    match words.as_slice() {
        ["value", .., "way", way] => format!("value way {way}"),
        ["fault", number, "at", _, "layer", layer] => format!("fault {number} layer {layer}"),
        ["kind", kind, ..] => format!("kind {kind}"),
        [name @ ("removed" | "history" | "lane"), "0"] => format!("{name} 0"),
        [name @ ("removed" | "history" | "lane"), _] => format!("{name} some"),
        ["refused" | "outcome" | "nothing", _] => answer.to_string(),
        [name, ..] => name.to_string(),
        [] => String::new(),
    }
}

fn see_layout(seen: &mut Seen, line: &Line, answer: &str) {
    match line {
        Line::Group { field, sizes, .. } if answer == "ready" => {
            see(seen, format!("field {field:?}"));
            see(seen, format!("servers {}", sizes.servers));
            see(seen, format!("objects {}", sizes.objects));
            see(seen, format!("cells {}", sizes.cells));
        }
        Line::Carrier { kind, places, .. } if answer == "ready" => {
            let name = match kind {
                Kind::Records => "records",
                Kind::Bytes => "bytes",
            };
            see(seen, format!("carrier of {name}"));
            see(seen, format!("places {places}"));
        }
        _ => {}
    }
}
