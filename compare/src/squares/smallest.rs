//! The smallest mark, which the original lacks: against Write a square at each version from 1 up, and against the version that follows from
//! the bits of the second writer (written.rs) and the original's block table. Every byte of the lent square is compared.
use super::writing::changed;
use super::{Both, Found, kinds, write, write_smallest};
use crate::segments::SCRIPTS;
use crate::tools::{Random, differs, hex, same};
use crate::written::{Written, encode};

/// What a lent square holds before a call.
const LENT: u8 = 0xEE;
/// The length of the largest square.
const LARGEST: usize = 189 * 189;

/// What is asked for, and the length of the lent square.
#[derive(Clone, Copy)]
struct Asked<'a> {
    level: usize,
    mask: usize,
    script: &'a [u8],
    payload: &'a [u8],
    length: usize,
}

/// How many modules a version has.
fn area(version: usize) -> usize {
    (2 * version + 21).pow(2)
}

impl Asked<'_> {
    fn shown(&self) -> String {
        let Self { level, mask, script, payload, length } = *self;
        format!("level {level}, mask {mask}, {length} bytes, script {}, payload {}", hex(script), hex(payload))
    }

    fn ours(&self) -> (Found, Vec<u8>) {
        let mut square = vec![LENT; self.length];
        let found = write_smallest(self.level, self.mask, self.script, self.payload, &mut square);
        (found, square)
    }

    /// Each version from 1 up by Write a square, as long as the answer is 13.
    fn by_trying(&self) -> (Found, Vec<u8>) {
        let (mut square, mut tried) = (vec![LENT; self.length], vec![LENT; LARGEST]);
        for version in 1..=84 {
            let mark = &mut tried[..area(version)];
            match write(version, self.level, self.mask, self.script, self.payload, mark) {
                13 => {}
                0 if mark.len() > self.length => return (Found::refused(2), square),
                0 => {
                    square[..mark.len()].copy_from_slice(mark);
                    return (Found { number: 0, version }, square);
                }
                number => return (Found::refused(number), square),
            }
        }
        (Found::refused(14), square)
    }

    /// The answer by the second writer's bits and the original's block table.
    fn by_table(&self, both: &Both) -> Found {
        if self.level > 3 || self.mask > 3 {
            return Found::refused(1);
        }
        let bits = match encode(self.script, self.payload) {
            Err(number) => return Found::refused(number),
            Ok(bits) => bits.0.len(),
        };
        match both.plans.iter().find(|plan| 8 * plan.room(self.level) >= bits) {
            None => Found::refused(14),
            Some(plan) if area(plan.version) > self.length => Found::refused(2),
            Some(plan) => Found { number: 0, version: plan.version },
        }
    }

    /// One call, held to both.
    fn compare(&self, both: &mut Both) -> Found {
        let ((found, square), (tried, expected)) = (self.ours(), self.by_trying());
        let table = self.by_table(both);
        if found != tried || found != table {
            differs("the smallest mark", &self.shown(), &format!("{found:?}"), &format!("{tried:?} by trying, {table:?} by the table"));
        }
        if let Some(at) = (0..self.length).find(|&at| square[at] != expected[at]) {
            let input = format!("byte {at} of {found:?}, {}", self.shown());
            differs("the square of the smallest mark", &input, &format!("{:02X}", square[at]), &format!("{:02X}", expected[at]));
        }
        both.numbers[found.number] += 1;
        found
    }

    /// One call whose answer is known.
    fn answers(&self, both: &mut Both, expected: Found) {
        let found = self.compare(both);
        if found != expected {
            differs("the smallest mark", &self.shown(), &format!("{found:?}"), &format!("{expected:?}"));
        }
    }
}

pub fn compare(both: &mut Both) {
    let mut random = Random::new(18);
    for version in 1..=84 {
        for (level, mask) in (0..16).map(|k| (k / 4, k % 4)) {
            boundary(both, &mut random, version, level, mask);
        }
    }
    both.report("smallest marks, of scripts exactly full and one bit over, each version, level and mask", "found");
    let mut versions = [false; 85];
    for _ in 0..3000 {
        versions[any(both, &mut random).version] = true;
    }
    // Every version, and the 0 of a refusal by 14.
    same("the versions found", "random scripts", versions, [true; 85]);
    both.report("smallest marks of random scripts, all versions, in squares of any length", "found");
    for _ in 0..6000 {
        any_changed(both, &mut random);
    }
    both.report("smallest marks of scripts and payloads, as they are and changed", "found");
    for level in 0..4 {
        bad(both, level);
    }
    both.report("smallest marks of bad input, and of two faults at once", "found");
}

/// A script that takes so many data codewords to the last bit: an ECI of 12, 20 or 28 bits, and text, 10 bits and 6 for each character.
fn full(random: &mut Random, room: usize) -> (Vec<u8>, Vec<u8>) {
    let rest = |width| 8 * room - width - 10;
    let (eci, width) = [(26, 12), (899, 20), (20_000, 28)].into_iter().find(|&(_, width)| rest(width) % 6 == 0).unwrap();
    let n = rest(width) / 6;
    let script = vec![8, (eci >> 16) as u8, (eci >> 8) as u8, eci as u8, 2, (n >> 8) as u8, n as u8];
    (script, (0..n).map(|_| b'A' + random.byte() % 26).collect())
}

/// A script that takes one bit more: bytes, 17 bits and 8 for each.
fn over(random: &mut Random, room: usize) -> (Vec<u8>, Vec<u8>) {
    let n = room - 2;
    (vec![3, (n >> 8) as u8, n as u8], (0..n).map(|_| random.byte()).collect())
}

/// A script that fills a version, and one of a bit more, which gets the next version or 14.
fn boundary(both: &mut Both, random: &mut Random, version: usize, level: usize, mask: usize) {
    let room = both.plan(version).room(level);
    let next = if version == 84 { Found::refused(14) } else { Found { number: 0, version: version + 1 } };
    let cases = [(full(random, room), 8 * room, Found { number: 0, version }), (over(random, room), 8 * room + 1, next)];
    for ((script, payload), bits, expected) in cases {
        same("bits", &hex(&script), encode(&script, &payload).unwrap().0.len(), bits);
        let exact = area(expected.version);
        let asked = Asked { level, mask, script: &script, payload: &payload, length: exact + [0, 1, 1000, LARGEST][mask] };
        asked.answers(both, expected);
        let short = if expected.number == 0 { Found::refused(2) } else { expected };
        Asked { length: exact - 1, ..asked }.answers(both, short);
    }
}

/// The length of a lent square: a version's, one byte less or more, any that is shorter or longer, and the largest.
fn length(random: &mut Random, version: usize) -> usize {
    let exact = area(version);
    [exact, exact - 1, exact + 1, random.below(exact), exact + random.below(5000), LARGEST][random.below(6)]
}

/// Random segments of about as many bits as a version has and the one below has not, or of more than the last one has; in the largest
/// square, and in one of any length.
fn any(both: &mut Both, random: &mut Random) -> Found {
    let (version, level, mask) = (1 + random.below(85), random.below(4), random.below(4));
    let [below, room] = [version - 1, version].map(|v| match v {
        0 => 0,
        1..=84 => 8 * both.plan(v).room(level),
        _ => 8 * both.plan(84).room(level) + 1000,
    });
    // At least 64, so that each mode with a character fits.
    let limit = (below + 1 + random.below(room - below)).max(64);
    let (first, most) = (1 + random.below(8), [3, 12, 24][random.below(3)]);
    let Written { script, payload, .. } = Written::starting(random, first, 4000, most, limit);
    let asked = Asked { level, mask, script: &script, payload: &payload, length: LARGEST };
    let found = asked.compare(both);
    Asked { length: length(random, found.version), ..asked }.compare(both);
    found
}

/// Segments with some bytes changed, many of which are refused by 11, 12 or 8.
fn any_changed(both: &mut Both, random: &mut Random) {
    let (version, level, mask) = (kinds::version(random), random.below(4), random.below(4));
    let (script, payload) = changed(both, random, version, level);
    Asked { level, mask, script: &script, payload: &payload, length: length(random, version) }.compare(both);
}

/// Scripts, levels, masks and squares that are turned away; and two faults at once, in the order of SPECIFICATION 10.12. An empty payload
/// has no byte that a mode lacks, so 12 and 8 do not meet.
fn bad(both: &mut Both, level: usize) {
    let n = both.plan(84).room(level) - 2;
    let (long, lacking) = (vec![7; n], [vec![7; n], vec![0x1C]].concat());
    let bytes = [3, (n >> 8) as u8, n as u8];
    let [cut, text] = [&[9][..], &[2, 0, 1]].map(|more| [&bytes[..], more].concat());
    let empty: Vec<u8> = [8u8, 0x1F, 0xFF, 0xFF].repeat(933);
    let cases: [(&[u8], &[u8], usize); 9] = [
        (&[2, 0, 1, 9], &[65], 11),
        (&[2, 0, 1, 9], &[0x1C], 11),
        (&[8, 0, 0, 5, 9], &[], 11),
        (&cut, &long, 11),
        (&[2, 0, 1], &[0x1C], 12),
        (&text, &lacking, 12),
        (&[], &[], 8),
        (&empty, &[], 8),
        (&bytes, &long, 14),
    ];
    for (script, payload, number) in cases.into_iter().chain(SCRIPTS) {
        for length in [LARGEST, 529, 528, 0] {
            let asked = Asked { level, mask: level, script, payload, length };
            let expected = match number {
                0 if length < 529 => Found::refused(2),
                0 => Found { number, version: 1 },
                _ => Found::refused(number),
            };
            asked.answers(both, expected);
            for wrong in [4, 256, 1 << 63, usize::MAX] {
                Asked { level: wrong, ..asked }.answers(both, Found::refused(1));
                Asked { mask: wrong, ..asked }.answers(both, Found::refused(1));
            }
        }
    }
}
