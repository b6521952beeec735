//! Both sides by running: the original Rust, unchanged, and our static libraries.
//!
//! `compare [PART ..]` compares every answer and every lent byte, prints how many of which kind were tried, and stops at the first
//! difference with the input that shows it. `compare zint FILE` compares the marks of a list that scripts/zint_vectors has made. `compare
//! bench [--all] [PART ..]` times both, `compare instructions` runs what callgrind counts. `compare record [PART ..]` writes, from the
//! Rust's answers, the lists that the programs `replay_PART` of the repository run on and what they must print.
#![allow(dead_code)]
include!(concat!(env!("OUT_DIR"), "/original.rs"));

mod blocks;
mod erased;
mod others;
mod places;
mod queue;
mod requests;
mod segments;
mod sheet;
mod squares;
mod symbol;
mod tools;
mod written;

/// Stands in for the module of the original that is not at hand.
pub mod numeric {
    pub fn usize_u16(n: usize) -> u16 {
        u16::try_from(n).unwrap()
    }
}

/// Stands in for text conversion: one character per byte, whatever the character set.
pub mod encoding {
    pub fn decode(bytes: &[u8], _eci: Option<usize>) -> Option<String> {
        Some(bytes.iter().map(|&b| char::from(b)).collect())
    }
}

/// A part: its comparison; and the list that its replay runs on with what that must print, where it has one.
struct Part {
    name: &'static str,
    compare: fn(),
    record: Option<fn() -> (Vec<u8>, String)>,
}

const PARTS: [Part; 6] = [
    Part {
        name: "blocks",
        compare: blocks::compare,
        record: Some(blocks::record),
    },
    Part {
        name: "symbol",
        compare: symbol::compare,
        record: Some(symbol::record),
    },
    Part {
        name: "segments",
        compare: segments::compare,
        record: Some(segments::record),
    },
    Part {
        name: "squares",
        compare: squares::compare,
        record: Some(squares::record),
    },
    Part {
        name: "queue",
        compare: queue::compare,
        record: None,
    },
    Part {
        name: "requests",
        compare: requests::compare,
        record: None,
    },
];

/// The parts of the benchmark.
const BENCHES: [(&str, fn(&mut sheet::Sheet)); 8] = [
    ("read", squares::reading),
    ("write", squares::writing_speed),
    ("blocks", blocks::bench),
    ("places", places::bench),
    ("segments", segments::bench),
    ("symbol", symbol::bench),
    ("queue", queue::bench),
    ("stack", |_| squares::stack()),
];

/// Ends where a word is none of the parts.
fn known(words: &[String], parts: &[&str]) {
    if let Some(w) = words.iter().find(|w| !parts.contains(&w.as_str())) {
        eprintln!("compare: no part {w}, but {}", parts.join(", "));
        std::process::exit(2);
    }
}

fn bench(mut words: Vec<String>) {
    let all = words.iter().any(|w| w == "--all");
    words.retain(|w| w != "--all");
    known(&words, &BENCHES.map(|b| b.0));
    let mut sheet = sheet::Sheet::new(all);
    for (_, run) in BENCHES.iter().filter(|b| words.is_empty() || words.iter().any(|w| w == b.0)) {
        run(&mut sheet);
    }
    sheet.end();
}

fn record(name: &str, list: fn() -> (Vec<u8>, String)) {
    let (list, answers) = list();
    let folder = format!("crates/replay_{name}");
    std::fs::write(format!("{folder}/stdin"), list).unwrap();
    std::fs::write(format!("{folder}/stdout"), answers).unwrap();
}

/// The marks of zint in a file.
fn zint(words: &[String]) {
    match words {
        [file] => squares::zint(file),
        _ => tools::fail("zint needs one file, which scripts/zint_vectors --long makes"),
    }
}

fn main() {
    let mut words: Vec<String> = std::env::args().skip(1).collect();
    let mode = match words.first().map(String::as_str) {
        Some("bench" | "instructions" | "record" | "zint") => words.remove(0),
        _ => "compare".to_string(),
    };
    match mode.as_str() {
        "bench" => return bench(words),
        "instructions" => return squares::instructions(),
        "zint" => return zint(&words),
        _ => {}
    }
    let recorded = mode == "record";
    let parts: Vec<&Part> = PARTS.iter().filter(|p| !recorded || p.record.is_some()).collect();
    known(&words, &parts.iter().map(|p| p.name).collect::<Vec<_>>());
    for part in parts.iter().filter(|p| words.is_empty() || words.iter().any(|w| w == p.name)) {
        match part.record {
            Some(list) if recorded => record(part.name, list),
            _ => (part.compare)(),
        }
    }
}
