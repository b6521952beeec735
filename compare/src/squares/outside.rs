//! The marks of another writer, zint, in the lines of scripts/zint_vectors: those that are recorded, and a long list that `compare/run zint`
//! makes where zint is installed.
use super::{Both, Reading, packed};
use crate::tools::{differs, fail, hex, same, unhex};
use std::collections::{BTreeMap, BTreeSet};

const RECORDED: &str = include_str!("../../../crates/replay_squares/zint.txt");

/// A mark of another writer: what it was asked for, its square, and the payload that it was given.
pub struct Given {
    pub name: String,
    pub square: Vec<u8>,
    pub payload: Vec<u8>,
}

impl Given {
    fn of(line: &str) -> Option<Self> {
        let [name, side, modules, payload] = line.split('\t').collect::<Vec<_>>().try_into().ok()?;
        let side: usize = side.parse().ok()?;
        let (modules, payload) = (unhex(modules)?, unhex(payload)?);
        let square = (0..side * side).map(|i| Some(modules.get(i / 8)? >> (7 - i % 8) & 1)).collect::<Option<_>>()?;
        let given = Self { name: name.to_owned(), square, payload };
        // The level is always asked for.
        given.asked("level").map(|_| given)
    }

    /// The version, level or mask that was asked for; nothing where zint chose it.
    fn asked(&self, what: &str) -> Option<usize> {
        self.name.split(", ").find_map(|part| part.strip_prefix(what)?.trim_start().parse().ok())
    }

    /// Reads it as what the other writer was given and asked for; and written again with what was read, it is the same square. The script.
    fn compare(&self, both: &mut Both) -> Vec<u8> {
        let (answer, script, again) = both.and_again(&self.square, Reading::Side(self.square.len().isqrt()));
        let told = (answer.number, answer.corrected, answer.distance, hex(&answer.payload));
        same("the mark of another writer", &self.name, told, (0, 0, 0, hex(&self.payload)));
        for (what, told) in [("version", answer.version), ("level", answer.level), ("mask", answer.mask)] {
            same(&format!("the {what} of another writer"), &self.name, told, self.asked(what).unwrap_or(told));
        }
        let differing: Vec<usize> = (0..again.len()).filter(|&i| again[i] != self.square[i]).collect();
        if let Some(first) = differing.first() {
            let (count, script, payload) = (differing.len(), hex(&script), hex(&answer.payload));
            let input = format!("{}; {count} modules, the first at place {first}; script {script}, payload {payload}", self.name);
            differs("the mark of another writer, written again,", &input, &hex(&packed(&again)), &hex(&packed(&self.square)));
        }
        script
    }
}

/// Which of the commands 1 to 8 a script has.
fn commands(mut script: &[u8]) -> [bool; 8] {
    let mut found = [false; 8];
    while let Some(&command) = script.first() {
        let n = usize::from(command) - 1;
        found[n] = true;
        script = &script[[3, 3, 3, 3, 3, 3, 1, 4][n]..];
    }
    found
}

/// The marks of a list, of which there is at least one.
fn marks(list: &str, text: &str) -> Vec<Given> {
    let one = |(n, line)| Given::of(line).unwrap_or_else(|| fail(&format!("{list}, line {}: no mark of another writer", n + 1)));
    let marks: Vec<Given> = text.lines().enumerate().map(one).collect();
    if marks.is_empty() {
        fail(&format!("{list}: no marks"));
    }
    marks
}

pub fn recorded() -> Vec<Given> {
    marks("zint.txt", RECORDED)
}

pub fn compare(both: &mut Both) {
    let marks = recorded();
    for mark in &marks {
        mark.compare(both);
    }
    both.report("marks of another writer", &format!("read, {} the same bit for bit when written again", marks.len()));
}

/// The marks of a file, each with a version, level and mask that were asked for: how many of which kind, and with which commands.
pub fn zint(file: &str) {
    let text = std::fs::read_to_string(file).unwrap_or_else(|e| fail(&format!("{file}: {e}")));
    let marks = marks(file, &text);
    let (mut both, mut kinds, mut choices, mut with) = (Both::new(), BTreeMap::new(), BTreeSet::new(), [0; 8]);
    for mark in &marks {
        let open = || fail(&format!("{file}: no version, level or mask in '{}'", mark.name));
        choices.insert(["version", "level", "mask"].map(|what| mark.asked(what).unwrap_or_else(open)));
        let script = mark.compare(&mut both);
        for (count, found) in with.iter_mut().zip(commands(&script)) {
            *count += usize::from(found);
        }
        *kinds.entry(mark.name.split(", ").next()).or_insert(0) += 1;
    }
    for (kind, count) in kinds {
        println!("zint:    {count:9} marks of kind {}", kind.unwrap_or_default());
    }
    println!("zint:              marks with each of the commands 1 to 8: {with:?}");
    let all = "read as what zint was given and asked for, and the same bit for bit when written again";
    println!("zint:    {:9} marks of {} choices of version, level and mask: {all}", marks.len(), choices.len());
}
