//! What scripts are to cover: every answer of every line, and every size.
//! Refusal 14 of `read` and `encode` is left out, since it takes a million reads.

const ANSWERS: [(&str, &[&str]); 19] = [
    ("group", &["ready"]),
    ("carrier", &["ready"]),
    ("write", &["tag"]),
    ("read", &["value way 1", "value way 2", "opened"]),
    ("collect", &["open", "value way 3", "value way 4"]),
    ("deliver", &[]),
    ("apply", &["tag", "nothing ready"]),
    ("encode", &[]),
    ("sweep", &["removed 0", "removed some"]),
    ("symbol", &["symbol"]),
    ("own", &["tag"]),
    ("told", &["tag"]),
    ("clock", &["clock"]),
    ("history", &["history 0", "history some"]),
    ("lane", &["lane 0", "lane some"]),
    ("recovers", &["yes", "no"]),
    ("post", &["posted"]),
    ("first", &["record"]),
    ("bytes", &["kind 1", "kind 2", "kind 3", "kind 4", "kind 5"]),
];

const REFUSALS: [(&str, &[u8]); 18] = [
    ("group", &[1, 2, 3, 4, 5]),
    ("carrier", &[1, 6]),
    ("write", &[7, 8, 9, 11, 14, 15, 17]),
    ("read", &[7, 8, 9, 16, 17]),
    ("collect", &[7, 9, 10]),
    ("deliver", &[7, 12, 13, 15, 17, 18]),
    ("apply", &[7, 15]),
    ("encode", &[7, 8, 15, 17]),
    ("sweep", &[7, 8]),
    ("symbol", &[7]),
    ("own", &[7, 8]),
    ("told", &[7, 8]),
    ("clock", &[7]),
    ("history", &[7]),
    ("lane", &[7, 12]),
    ("recovers", &[7, 8]),
    ("post", &[7, 12, 17]),
    ("first", &[7, 12, 13]),
];

/// Faults by number and layer.
const FAULTS: [(u8, u8); 7] = [(19, 1), (20, 1), (19, 2), (21, 2), (22, 3), (23, 3), (24, 3)];

pub fn all() -> impl Iterator<Item = String> {
    answers().chain(refusals()).chain(outcomes()).chain(faults()).chain(sizes())
}

fn answers() -> impl Iterator<Item = String> {
    let each = |(line, answers): (&'static str, &'static [&str])| {
        answers.iter().map(move |answer| format!("{line} {answer}"))
    };
    ANSWERS.into_iter().flat_map(each)
}

fn refusals() -> impl Iterator<Item = String> {
    let each = |(line, numbers): (&'static str, &'static [u8])| {
        numbers.iter().map(move |number| format!("{line} refused {number}"))
    };
    REFUSALS.into_iter().flat_map(each)
}

fn outcomes() -> impl Iterator<Item = String> {
    let delivered = (0..=7).map(|outcome| format!("deliver outcome {outcome}"));
    delivered.chain((0..=4).map(|outcome| format!("encode outcome {outcome}")))
}

fn faults() -> impl Iterator<Item = String> {
    let each = |line: &'static str| {
        FAULTS.iter().map(move |(number, layer)| format!("{line} fault {number} layer {layer}"))
    };
    ["bytes", "post"].into_iter().flat_map(each)
}

fn sizes() -> impl Iterator<Item = String> {
    let names = [
        "field Mod251",
        "field Gf256",
        "carrier of records",
        "carrier of bytes",
        "unreadable line",
    ];
    let named = names.into_iter().map(str::to_string);
    named
        .chain((2..=6).map(|n| format!("servers {n}")))
        .chain((1..=6).map(|n| format!("objects {n}")))
        .chain((1..=16).map(|n| format!("cells {n}")))
        .chain((1..=16).map(|n| format!("places {n}")))
}
