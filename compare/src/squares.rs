//! Whole squares: both readings against `decode_matrix` and `decode_data` of the original, on acceptance, payload, count of corrections,
//! level, mask and information distance. The marks are written by our writer and held to those that plan.rs makes. What the original does
//! not tell, the script and the number of a refusal, is held to the script that was written and to the original's own steps. Squares with
//! unknown modules, which the original does not read, are held to a reading out of its parts (unknown.rs).
mod bad;
mod instructions;
mod kinds;
mod outside;
mod plan;
mod record;
mod smallest;
mod speed;
mod stack;
mod unknown;
mod writing;

use crate::han_xin::{Read, decode_data, decode_matrix, nearest_info};
use crate::tools::{MARK, ROOM, Random, differs, hex, same};
use crate::written::Written;
pub use kinds::compare;
pub use outside::zint;
use plan::Plan;
pub use record::record;
pub use instructions::instructions;
pub use speed::{VERSIONS, reading, writing as writing_speed};
pub use stack::stack;

unsafe extern "C" {
    fn hx_read_square(
        square: *const u8, square_len: usize, side: usize,
        payload: *mut u8, payload_len: usize, script: *mut u8, script_len: usize, receipt: *mut u8, receipt_len: usize,
    ) -> usize;
    fn hx_read_known(
        square: *const u8, square_len: usize, version: usize, level: usize, mask: usize,
        payload: *mut u8, payload_len: usize, script: *mut u8, script_len: usize, receipt: *mut u8, receipt_len: usize,
    ) -> usize;
    fn hx_write_square(
        version: usize, level: usize, mask: usize,
        script: *const u8, script_len: usize, payload: *const u8, payload_len: usize, square: *mut u8, square_len: usize,
    ) -> usize;
    fn hx_write_smallest(
        level: usize, mask: usize,
        script: *const u8, script_len: usize, payload: *const u8, payload_len: usize, square: *mut u8, square_len: usize,
    ) -> Found;
}

/// One more than the greatest refusal number of a reading or a writing.
const NUMBERS: usize = 16;

/// What the smallest mark answers: a refusal number, and the version that was found.
#[repr(C)]
#[derive(Clone, Copy, PartialEq, Eq, Debug)]
pub struct Found {
    pub number: usize,
    pub version: usize,
}

impl Found {
    fn refused(number: usize) -> Self {
        Self { number, version: 0 }
    }
}

/// Which reading, with the numbers that it is given.
#[derive(Clone, Copy, Debug)]
pub enum Reading {
    Side(usize),
    Known(usize, usize, usize),
}

pub fn read(square: &[u8], how: Reading, payload: &mut [u8], script: &mut [u8], receipt: &mut [u8]) -> usize {
    let (q, qn) = (square.as_ptr(), square.len());
    let (p, pn) = (payload.as_mut_ptr(), payload.len());
    let (s, sn) = (script.as_mut_ptr(), script.len());
    let (r, rn) = (receipt.as_mut_ptr(), receipt.len());
    // SAFETY: each slice is passed with its own length, and no mutable one overlaps another.
    unsafe {
        match how {
            Reading::Side(side) => hx_read_square(q, qn, side, p, pn, s, sn, r, rn),
            Reading::Known(version, level, mask) => hx_read_known(q, qn, version, level, mask, p, pn, s, sn, r, rn),
        }
    }
}

pub fn write(version: usize, level: usize, mask: usize, script: &[u8], payload: &[u8], square: &mut [u8]) -> usize {
    let (s, sn) = (script.as_ptr(), script.len());
    let (p, pn) = (payload.as_ptr(), payload.len());
    // SAFETY: each slice is passed with its own length, and the mutable one overlaps no other.
    unsafe { hx_write_square(version, level, mask, s, sn, p, pn, square.as_mut_ptr(), square.len()) }
}

pub fn write_smallest(level: usize, mask: usize, script: &[u8], payload: &[u8], square: &mut [u8]) -> Found {
    let (s, sn) = (script.as_ptr(), script.len());
    let (p, pn) = (payload.as_ptr(), payload.len());
    // SAFETY: each slice is passed with its own length, and the mutable one overlaps no other.
    unsafe { hx_write_smallest(level, mask, s, sn, p, pn, square.as_mut_ptr(), square.len()) }
}

/// Eight modules to a byte, to show and to record a square.
fn packed(square: &[u8]) -> Vec<u8> {
    square.chunks(8).map(|c| c.iter().enumerate().map(|(i, b)| b << (7 - i)).sum()).collect()
}

/// What a reading answers: the receipt's numbers and the bytes.
#[derive(Clone, PartialEq, Eq, Debug, Default)]
struct Answer {
    number: usize,
    version: usize,
    level: usize,
    mask: usize,
    corrected: usize,
    distance: usize,
    payload: Vec<u8>,
}

impl Answer {
    fn refused(number: usize) -> Self {
        Self { number, ..Self::default() }
    }

    fn receipt(&self, script: usize) -> [u8; 12] {
        let byte = |n: usize| u8::try_from(n).unwrap();
        let [c, d] = u16::try_from(self.corrected).unwrap().to_be_bytes();
        let [p, q] = u16::try_from(self.payload.len()).unwrap().to_be_bytes();
        let [s, t] = u16::try_from(script).unwrap().to_be_bytes();
        [byte(self.number), byte(self.version), byte(self.level), byte(self.mask), c, d, byte(self.distance), p, q, s, t, 0]
    }
}

/// A mark that our writer made.
#[derive(Clone)]
struct Mark {
    version: usize,
    level: usize,
    mask: usize,
    script: Vec<u8>,
    payload: Vec<u8>,
    square: Vec<u8>,
}

/// Both sides, with lent buffers that hold MARK between two calls, and what was tried of a kind.
struct Both {
    plans: Vec<Plan>,
    payload: Vec<u8>,
    script: Vec<u8>,
    untouched: Vec<u8>,
    numbers: [usize; NUMBERS],
    again: usize,
    distances: [usize; 69],
}

impl Both {
    fn new() -> Self {
        let lent = vec![MARK; ROOM];
        let plans = (1..=84).map(Plan::new).collect();
        let (payload, script) = (lent.clone(), lent.clone());
        Self { plans, payload, script, untouched: lent, numbers: [0; NUMBERS], again: 0, distances: [0; 69] }
    }

    fn plan(&self, version: usize) -> &Plan {
        &self.plans[version - 1]
    }

    /// The original's answer, with the refusal number of SPECIFICATION 10.9 or 10.10 where it refuses.
    fn theirs(&self, square: &[u8], how: Reading) -> Answer {
        let modules: Vec<bool> = square.iter().map(|&b| b == 1).collect();
        let (read, version, (level, mask, distance)) = match how {
            Reading::Side(side) => {
                let version = (side - 21) / 2;
                (decode_matrix(&modules, side), version, nearest_info(version, self.plan(version).copies(square)))
            }
            Reading::Known(version, level, mask) => (decode_data(&modules, version, level, mask), version, (level, mask, 0)),
        };
        match read {
            Some(Read { bytes: payload, corrected, .. }) => {
                let distance = distance as usize;
                Answer { number: 0, version, level, mask, corrected, distance, payload }
            }
            None if distance > 10 => Answer::refused(4),
            None => Answer::refused(self.plan(version).refusal(square, level, mask)),
        }
    }

    /// One square on both sides: the answer, which is the same, and our script.
    fn one(&mut self, square: &[u8], how: Reading) -> (Answer, Vec<u8>) {
        let theirs = self.theirs(square, how);
        let mut receipt = [MARK; 12];
        let number = read(square, how, &mut self.payload, &mut self.script, &mut receipt);
        let script = usize::from(receipt[9]) << 8 | usize::from(receipt[10]);
        let n = theirs.payload.len();
        let (payload, beyond) = self.payload.split_at(n);
        let kept = beyond == &self.untouched[n..] && self.script.get(script..) == self.untouched.get(script..);
        let told = number == theirs.number && receipt == theirs.receipt(script) && (script == 0) == (number != 0);
        if !told || payload != theirs.payload || !kept {
            let beyond = if kept { "stay" } else { "changed" };
            let ours = format!("{number}, receipt {receipt:?}, payload {}, bytes beyond {beyond}", hex(payload));
            differs("a reading", &format!("{how:?}, modules {}", hex(&packed(square))), &ours, &format!("{theirs:?}"));
        }
        let told = self.script[..script].to_vec();
        self.payload[..n].fill(MARK);
        self.script[..script].fill(MARK);
        (theirs, told)
    }

    /// One square of a mark by both readings: number, script and payload as written, with these counts.
    fn as_written(&mut self, mark: &Mark, square: &[u8], corrected: usize, distance: usize) {
        let Mark { version, level, mask, .. } = *mark;
        for (how, distance) in [(Reading::Side(2 * version + 21), distance), (Reading::Known(version, level, mask), 0)] {
            let expected = Answer { number: 0, version, level, mask, corrected, distance, payload: mark.payload.clone() };
            let input = format!("{how:?}, modules {}", hex(&packed(square)));
            same("a mark within reach", &input, self.one(square, how), (expected, mark.script.clone()));
            self.numbers[0] += 1;
        }
    }

    /// One square that may be read as anything. What is read is written again, and must then be read as it was.
    fn as_any(&mut self, square: &[u8], how: Reading) -> Answer {
        self.and_again(square, how).0
    }

    /// The same, with the script and the square that was written again; both are empty where the answer is a refusal.
    fn and_again(&mut self, square: &[u8], how: Reading) -> (Answer, Vec<u8>, Vec<u8>) {
        let (answer, script) = self.one(square, how);
        self.numbers[answer.number] += 1;
        if answer.number > 0 {
            return (answer, script, Vec::new());
        }
        let again = self.write(answer.version, answer.level, answer.mask, &script, &answer.payload);
        let expected = Answer { corrected: 0, distance: 0, ..answer.clone() };
        let how = Reading::Known(answer.version, answer.level, answer.mask);
        same("a mark written again", &hex(&packed(square)), self.one(&again, how), (expected, script.clone()));
        self.again += 1;
        (answer, script, again)
    }

    /// A mark of a script that has room.
    fn write(&self, version: usize, level: usize, mask: usize, script: &[u8], payload: &[u8]) -> Vec<u8> {
        let side = self.plan(version).side;
        let mut square = vec![MARK; side * side];
        let input = format!("version {version}, level {level}, mask {mask}, script {}, payload {}", hex(script), hex(payload));
        same("writing", &input, write(version, level, mask, script, payload, &mut square), 0);
        square
    }

    /// The mark of segments, which must be the one of the plan.
    fn mark(&self, version: usize, level: usize, mask: usize, written: Written) -> Mark {
        let Written { bits, script, payload } = written;
        let square = self.write(version, level, mask, &script, &payload);
        let plan = self.plan(version);
        let expected = plan.square(level, mask, &plan.stream(level, &bits.bytes()));
        if square != expected {
            let input = format!("version {version}, level {level}, mask {mask}, script {}, payload {}", hex(&script), hex(&payload));
            differs("a written mark", &input, &hex(&packed(&square)), &hex(&packed(&expected)));
        }
        Mark { version, level, mask, script, payload, square }
    }

    /// A mark of random segments; one of eight fills its square.
    fn random_mark(&self, random: &mut Random, version: usize, level: usize, mask: usize) -> Mark {
        let (count, most) = if random.below(8) == 0 { (400, 60) } else { (1 + random.below(5), 12) };
        let first = 1 + random.below(8);
        let room = 8 * self.plan(version).room(level);
        self.mark(version, level, mask, Written::starting(random, first, count, most, room))
    }

    /// What was tried of a kind, and how it was answered.
    fn report(&mut self, kind: &str, done: &str) {
        let tried: usize = self.numbers.iter().sum();
        let mut line = format!("squares: {tried:9} {kind}: {} {done}", self.numbers[0]);
        for number in (1..NUMBERS).filter(|&n| self.numbers[n] > 0) {
            line += &format!(", {} answered {number}", self.numbers[number]);
        }
        if self.again > 0 {
            line += &format!("; {} written again and read", self.again);
        }
        if self.distances[10] > 0 {
            line += &format!("; {} at distance 10, {} at 11", self.distances[10], self.distances[11]);
        }
        println!("{line}");
        (self.numbers, self.again, self.distances) = ([0; NUMBERS], 0, [0; 69]);
    }
}
