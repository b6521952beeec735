//! Write a square, which the original lacks: against the second writer (written.rs, plan.rs) on any script and payload, refusals too. A
//! square that is refused keeps every byte.
use super::{Both, NUMBERS, write};
use crate::segments::SCRIPTS;
use crate::tools::{MARK, Random, hex, same};
use crate::written::{Written, encode};

pub fn compare(both: &mut Both) {
    let mut random = Random::new(16);
    let mut numbers = [0; NUMBERS];
    for _ in 0..60_000 {
        let (version, level, mask) = (super::kinds::version(&mut random), random.below(4), random.below(4));
        let (script, payload) = changed(both, &mut random, version, level);
        numbers[one(both, [version, level, mask], &script, &payload)] += 1;
    }
    for (script, payload, number) in SCRIPTS {
        same("the number of a script", &hex(script), one(both, [84, 0, 1], script, payload), number);
        numbers[number] += 1;
    }
    both.numbers = numbers;
    both.report("writings of scripts and payloads, as they are and changed", "written");
    let mut count = 0;
    for version in [1, 2, 30, 84] {
        for level in 0..4 {
            count += full(both, version, level);
            count += bad(both, version, level, &mut random);
        }
    }
    println!("squares: {count:9} writings of bad input, of scripts exactly full and one bit over, and of two faults at once");
    // The full marks were read as well: they count as writings, above.
    both.numbers = [0; NUMBERS];
}

/// One writing on both sides: its number.
fn one(both: &Both, numbers: [usize; 3], script: &[u8], payload: &[u8]) -> usize {
    let [version, level, mask] = numbers;
    let plan = both.plan(version);
    let untouched = vec![MARK; plan.side * plan.side];
    let expected = match encode(script, payload) {
        Err(number) => (number, untouched.clone()),
        Ok(bits) if bits.0.len() > 8 * plan.room(level) => (13, untouched.clone()),
        Ok(bits) => (0, plan.square(level, mask, &plan.stream(level, &bits.bytes()))),
    };
    let mut square = untouched;
    let number = write(version, level, mask, script, payload, &mut square);
    same("a writing", &format!("{numbers:?}, script {}, payload {}", hex(script), hex(payload)), (number, square), expected.clone());
    expected.0
}

/// Random segments that may be too long, with some bytes of script and payload changed, added or taken off.
pub fn changed(both: &Both, random: &mut Random, version: usize, level: usize) -> (Vec<u8>, Vec<u8>) {
    let room = 8 * both.plan(version).room(level);
    let count = 1 + random.below(8);
    let Written { mut script, mut payload, .. } = Written::random(random, count, 12, room + 60);
    for bytes in [&mut script, &mut payload] {
        let at = random.below(bytes.len() + 1);
        match random.below(12) {
            0 => bytes.truncate(at),
            1 => bytes.insert(at, random.byte()),
            2 if at < bytes.len() => bytes[at] = random.byte(),
            3 if at < bytes.len() => bytes[at] ^= 1 << random.below(8),
            4 if at < bytes.len() => bytes[at] = [0, 1, 7, 8, 9, 0x1B, 0x1C, 0x30, 0x3A, 0x7F, 0x80, 0xFE, 0xFF][random.below(13)],
            _ => {}
        }
    }
    (script, payload)
}

/// A writing that must be refused, with every byte of the square as it was.
fn unwritten(what: &str, numbers: [usize; 3], script: &[u8], payload: &[u8], length: usize, number: usize) {
    let mut square = vec![MARK; length];
    let got = write(numbers[0], numbers[1], numbers[2], script, payload, &mut square);
    let input = format!("{what}: {numbers:?}, {length} bytes, script {}, payload {}", hex(script), hex(payload));
    same("bad input of writing", &input, (got, square.iter().all(|&b| b == MARK)), (number, true));
}

/// Scripts whose bits fill all data codewords, and have one bit more: a four-byte character, text of two and bytes; and bytes alone.
fn full(both: &mut Both, version: usize, level: usize) -> usize {
    let (room, side) = (both.plan(version).room(level), both.plan(version).side);
    let n = room - 8;
    let mut payload = vec![0x81, 0x30, 0x81, 0x30, b'A', b'B'];
    payload.extend((0..n).map(|i| (i % 256) as u8));
    let script = [7, 2, 0, 2, 3, (n >> 8) as u8, n as u8].to_vec();
    let bits = encode(&script, &payload).unwrap();
    same("bits", "a full script", bits.0.len(), 8 * room);
    let mark = both.mark(version, level, 2, Written { bits, script, payload });
    both.as_written(&mark, &mark.square, 0, 0);
    let n = room - 2;
    let (script, payload) = ([3, (n >> 8) as u8, n as u8], vec![7; n]);
    same("bits", "one bit over", encode(&script, &payload).unwrap().0.len(), 8 * room + 1);
    unwritten("one bit over", [version, level, 2], &script, &payload, side * side, 13);
    3
}

/// Versions, levels, masks, squares and scripts that writing turns away; and two faults at once, in the order of SPECIFICATION 10.11.
fn bad(both: &mut Both, version: usize, level: usize, random: &mut Random) -> usize {
    let mark = both.random_mark(random, version, level, 3);
    let full = mark.square.len();
    let legal = [version, level, 3];
    let long: Vec<u8> = [8u8, 0x1F, 0xFF, 0xFF].repeat(3886);
    let (s, p) = (&mark.script[..], &mark.payload[..]);
    let text = [&[2, 0, 1][..], &long].concat();
    let cut = [&text[..], &[9]].concat();
    let cases: [(&str, [usize; 3], &[u8], &[u8], usize, usize); 19] = [
        ("version 0", [0, level, 3], s, p, full, 1),
        ("version 85", [85, level, 3], s, p, full, 1),
        ("level 4", [version, 4, 3], s, p, full, 1),
        ("mask 4", [version, level, 4], s, p, full, 1),
        ("a huge version", [1 << 63, level, 3], s, p, full, 1),
        ("1 before 2", [0, level, 3], s, p, full - 1, 1),
        ("1 before 11", [version, 4, 3], &[9], p, full, 1),
        ("one byte short", legal, s, p, full - 1, 2),
        ("one byte long", legal, s, p, full + 1, 2),
        ("an empty square", legal, s, p, 0, 2),
        ("2 before 11", legal, &[9], p, full - 1, 2),
        ("11 before 12", legal, &[2, 0, 1, 9], &[0x1C], full, 11),
        ("11 before 8", legal, &[8, 0x20, 0, 0], &[], full, 11),
        ("11 before 13", legal, &cut, &[65], full, 11),
        ("12 before 13", legal, &text, &[0x1C], full, 12),
        ("8 before 13", legal, &long, &[], full, 8),
        ("8", legal, &[], &[], full, 8),
        ("13", legal, &text, &[65], full, 13),
        ("2 before 13", legal, &text, &[65], full + 1, 2),
    ];
    for (what, numbers, script, payload, length, number) in cases {
        unwritten(what, numbers, script, payload, length, number);
    }
    cases.len()
}
