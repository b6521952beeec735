//! The change requests: cases out of a model of the specification that was made apart from this project, against our exports.
//!
//! In a file compare/requests/Q-*.txt, a line that begins with `#` says what the lines behind it are for. Every other line is one case,
//! `operation name=value .. -> name=value ..`: what is given before the arrow, what must be answered behind it. Numbers are decimal. Bytes
//! are hexadecimal; `HEX*COUNT` repeats, `+` joins pieces, `-` is none. A square has its modules as digits that are repeated and joined in
//! the same way, or as bytes under its name with `hex` behind it. `erased` is a list of places in a block, which are counted from 0, and
//! `block` behind the arrow is the whole block after the call. A name with `_room` behind it, and `receipt` before the arrow, is the
//! length of a lent buffer. Every lent byte is EE before the call; after it, a buffer begins with what stands behind the arrow, and all
//! other bytes are still EE.
//!
//! `new` is the empty queue, and calls nothing. The lines from there to the next `new` are events on one queue, whose 12 bytes stay as each
//! call leaves them. `served` is `yes`, with the head and the side, or `nobody`. `at_turn` belongs to a later request, Q-12, and is not
//! compared.
use crate::blocks::Answer;
use crate::erased;
use crate::queue::{self, Served};
use crate::squares::{Found, Reading, read, write, write_smallest};
use crate::tools::{fail, unhex};
use std::collections::BTreeMap;

const FOLDER: &str = "compare/requests";
const LENT: u8 = 0xEE;

/// The operations: each makes the call of a case, holds every answer to what stands behind the arrow, and gives back the number.
const OPERATIONS: [(&str, fn(&mut Case) -> usize); 8] = [
    ("write", write_square),
    ("smallest", smallest),
    ("read", read_square),
    ("read_known", read_known),
    ("correct_erased", correct_erased),
    ("new", new),
    ("hand_in", hand_in),
    ("turn", turn),
];

/// A queue, and what a turn answers if nobody waits in it.
type Queue = [u8; queue::SIZE];
const NOBODY: Served = Served { number: 0, head: 0, side: 0 };

/// The values on one side of the arrow that are not yet taken.
struct Values<'a> {
    place: &'a str,
    values: Vec<(&'a str, &'a str)>,
}

impl<'a> Values<'a> {
    fn new(place: &'a str, text: &'a str) -> Self {
        let value = |word: &'a str| word.split_once('=').unwrap_or_else(|| fail(&format!("{place}: '{word}' is no name=value")));
        Self { place, values: text.split_whitespace().map(value).collect() }
    }

    fn find(&mut self, name: &str) -> Option<&'a str> {
        let at = self.values.iter().position(|v| v.0 == name)?;
        Some(self.values.remove(at).1)
    }

    /// A value that must be there and have its form.
    fn take<T>(&mut self, name: &str, form: impl Fn(&str) -> Option<T>) -> T {
        let Some(text) = self.find(name) else { fail(&format!("{}: there is no {name}", self.place)) };
        form(text).unwrap_or_else(|| fail(&format!("{}: {name} has a wrong form", self.place)))
    }

    fn number(&mut self, name: &str) -> usize {
        self.take(name, |text| text.parse().ok())
    }

    fn numbers<const N: usize>(&mut self, names: [&str; N]) -> [usize; N] {
        names.map(|name| self.number(name))
    }

    fn bytes(&mut self, name: &str) -> Vec<u8> {
        self.take(name, |text| pieces(text, unhex))
    }

    fn square(&mut self, name: &str) -> Vec<u8> {
        if self.values.iter().any(|v| v.0 == name) {
            return self.take(name, |text| pieces(text, modules));
        }
        self.bytes(&format!("{name}hex"))
    }

    /// A lent buffer, of a length that is given.
    fn lent(&mut self, name: &str) -> Vec<u8> {
        vec![LENT; self.number(name)]
    }

    /// Ends unless every value was taken.
    fn end(&self) {
        if let Some((name, _)) = self.values.first() {
            fail(&format!("{}: {name} is none of the operation's values, or stands there twice", self.place));
        }
    }
}

/// Pieces joined by `+`, each repeated as the number behind its `*` says; `-` is none.
fn pieces(text: &str, piece: fn(&str) -> Option<Vec<u8>>) -> Option<Vec<u8>> {
    let mut all = Vec::new();
    for part in text.split('+').filter(|_| text != "-") {
        let (one, count) = part.split_once('*').unwrap_or((part, "1"));
        let one = piece(one).filter(|bytes| !bytes.is_empty())?;
        all.extend(one.repeat(count.parse().ok()?));
    }
    Some(all)
}

/// Modules as digits.
fn modules(text: &str) -> Option<Vec<u8>> {
    text.bytes().map(|b| matches!(b, b'0'..=b'2').then(|| b - b'0')).collect()
}

/// Places of a block that are erased, as flags.
fn flags(text: &str, length: usize) -> Option<Vec<u8>> {
    let mut flags = vec![0; length];
    for place in text.split(',').filter(|_| text != "-") {
        *flags.get_mut(place.parse::<usize>().ok()?)? = 1;
    }
    Some(flags)
}

/// A case: where it stands, its values, and the queue of the last `new` before it in the file.
struct Case<'a> {
    place: &'a str,
    given: Values<'a>,
    expected: Values<'a>,
    queue: &'a mut Option<Queue>,
}

impl Case<'_> {
    /// A number that was answered.
    fn answered(&mut self, name: &str, answer: usize) {
        let expected = self.expected.number(name);
        if answer != expected {
            fail(&format!("{}: answered {name} {answer}, not {expected}", self.place));
        }
    }

    /// What was altered by the call, as a whole.
    fn is(&self, name: &str, expected: &[u8], bytes: &[u8]) {
        let (n, length) = (expected.len(), bytes.len());
        if n != length {
            fail(&format!("{}: {name} is to have {n} bytes, but has {length}", self.place));
        }
        self.holds(name, expected, bytes);
    }

    /// A lent buffer after the call.
    fn holds(&self, name: &str, expected: &[u8], buffer: &[u8]) {
        let (n, room) = (expected.len(), buffer.len());
        if n > room {
            fail(&format!("{}: {name} is to have {n} bytes, more than its room of {room}", self.place));
        }
        let wanted = expected.iter().chain(std::iter::repeat(&LENT));
        let differing: Vec<_> = buffer.iter().zip(wanted).enumerate().filter(|(_, (a, b))| a != b).collect();
        if let Some((at, (ours, wanted))) = differing.first() {
            let count = differing.len();
            fail(&format!("{}: {name} differs in {count} of {room} bytes, first in byte {at}: {ours:02X}, not {wanted:02X}", self.place));
        }
    }
}

fn write_square(case: &mut Case) -> usize {
    let [version, level, mask] = case.given.numbers(["version", "level", "mask"]);
    let (script, payload) = (case.given.bytes("script"), case.given.bytes("payload"));
    let mut square = case.given.lent("square_room");
    let number = write(version, level, mask, &script, &payload, &mut square);
    case.answered("number", number);
    let expected = case.expected.square("square");
    case.holds("square", &expected, &square);
    number
}

fn smallest(case: &mut Case) -> usize {
    let [level, mask] = case.given.numbers(["level", "mask"]);
    let (script, payload) = (case.given.bytes("script"), case.given.bytes("payload"));
    let mut square = case.given.lent("square_room");
    let Found { number, version } = write_smallest(level, mask, &script, &payload, &mut square);
    case.answered("number", number);
    case.answered("version", version);
    let expected = case.expected.square("square");
    case.holds("square", &expected, &square);
    number
}

fn read_square(case: &mut Case) -> usize {
    let side = case.given.number("side");
    reading(case, Reading::Side(side))
}

fn read_known(case: &mut Case) -> usize {
    let [version, level, mask] = case.given.numbers(["version", "level", "mask"]);
    reading(case, Reading::Known(version, level, mask))
}

fn reading(case: &mut Case, how: Reading) -> usize {
    let square = case.given.square("square");
    let [mut payload, mut script, mut receipt] = ["payload_room", "script_room", "receipt"].map(|name| case.given.lent(name));
    let number = read(&square, how, &mut payload, &mut script, &mut receipt);
    case.answered("number", number);
    for (name, buffer) in [("receipt", receipt), ("payload", payload), ("script", script)] {
        let expected = case.expected.bytes(name);
        case.holds(name, &expected, &buffer);
    }
    number
}

fn correct_erased(case: &mut Case) -> usize {
    let (parity, mut block) = (case.given.number("parity"), case.given.bytes("block"));
    let flags = case.given.take("erased", |text| flags(text, block.len()));
    let Answer { number, count } = erased::correct_erased(&mut block, &flags, parity);
    case.answered("number", number);
    case.answered("count", count);
    let expected = case.expected.bytes("block");
    case.is("block", &expected, &block);
    number
}

/// The number is that of no refusal.
fn new(case: &mut Case) -> usize {
    *case.queue = Some([0; queue::SIZE]);
    0
}

/// One event: what it answered, and whether the queue is as it was.
fn event<T>(case: &mut Case, call: impl FnOnce(&mut Queue) -> T) -> (T, bool) {
    let Some(queue) = case.queue else { fail(&format!("{}: there is no new before it", case.place)) };
    let before = *queue;
    (call(queue), *queue == before)
}

fn hand_in(case: &mut Case) -> usize {
    let [head, side] = case.given.numbers(["head", "side"]);
    let (number, kept) = event(case, |queue| queue::hand_in(queue, head, side));
    case.answered("number", number);
    // Q-12's number, which a hand-in does not answer before that request: it is taken out and compared with nothing.
    case.expected.number("at_turn");
    if number != 0 && !kept {
        fail(&format!("{}: refused, but the queue has changed", case.place));
    }
    number
}

fn turn(case: &mut Case) -> usize {
    let (served, kept) = event(case, |queue| queue::turn(queue));
    let somebody = case.expected.take("served", |text| ["nobody", "yes"].iter().position(|&word| word == text)) == 1;
    if served.number != 0 || somebody != (served != NOBODY) {
        let expected = if somebody { "somebody" } else { "nobody" };
        fail(&format!("{}: answered {served:?}, and {expected} is to be served", case.place));
    }
    if !somebody && !kept {
        fail(&format!("{}: nobody waits, but the queue has changed", case.place));
    }
    if somebody {
        case.answered("head", served.head);
        case.answered("side", served.side);
    }
    served.number
}

/// One case: its operation's name and the number that it answered.
fn one(place: &str, line: &str, queue: &mut Option<Queue>) -> (&'static str, usize) {
    let (before, behind) = line.split_once(" -> ").unwrap_or((line, ""));
    let (operation, values) = before.split_once(' ').unwrap_or((before, ""));
    let Some((name, call)) = OPERATIONS.iter().find(|o| o.0 == operation) else {
        fail(&format!("{place}: there is no operation '{operation}'"))
    };
    let mut case = Case { place, given: Values::new(place, values), expected: Values::new(place, behind), queue };
    let number = call(&mut case);
    case.given.end();
    case.expected.end();
    (name, number)
}

/// All cases of a file, of which there is at least one.
fn replay(file: &str) {
    let path = format!("{FOLDER}/{file}");
    let text = std::fs::read_to_string(&path).unwrap_or_else(|e| fail(&format!("{path}: {e}")));
    let (mut operations, mut numbers, mut queue) = (BTreeMap::new(), BTreeMap::new(), None);
    for (n, line) in text.lines().enumerate().filter(|(_, line)| !line.starts_with('#')) {
        let (operation, number) = one(&format!("{path}, line {}", n + 1), line, &mut queue);
        *operations.entry(operation).or_insert(0usize) += 1;
        *numbers.entry(number).or_insert(0usize) += 1;
    }
    if operations.is_empty() {
        fail(&format!("{path}: no cases"));
    }
    let cases: usize = operations.values().sum();
    let operations: Vec<_> = operations.iter().map(|(name, count)| format!("{count} {name}")).collect();
    let numbers: Vec<_> = numbers.iter().map(|(number, count)| format!("{count} answered {number}")).collect();
    println!("requests:{cases:9} cases of {file}: {}; {}", operations.join(", "), numbers.join(", "));
}

pub fn compare() {
    let entries = std::fs::read_dir(FOLDER).unwrap_or_else(|e| fail(&format!("{FOLDER}: {e}")));
    let mut files: Vec<String> = entries.map(|entry| entry.unwrap().file_name().into_string().unwrap()).collect();
    files.sort_by_key(|name| (name.len(), name.clone()));
    if files.is_empty() {
        fail(&format!("{FOLDER}: no files"));
    }
    for file in files {
        if !file.starts_with("Q-") || !file.ends_with(".txt") {
            fail(&format!("{FOLDER}/{file}: not a file Q-*.txt"));
        }
        replay(&file);
    }
}
