//! Readings of bad input, on our side alone: SPECIFICATION 10.9 and 10.10 say what is right. Lent buffers hold MARK before each call.
use super::{Both, Mark, Reading, packed, read};
use crate::han_xin::{decode_data, nearest_info};
use crate::tools::{MARK, Random, differs, hex, same};
use crate::written::Bits;

/// How long the three lent buffers are.
#[derive(Clone, Copy, Debug)]
pub struct Lengths {
    pub payload: usize,
    pub script: usize,
    pub receipt: usize,
}

const PLENTY: Lengths = Lengths { payload: 300, script: 300, receipt: 12 };

/// A reading that must be refused: the number, its receipt, and nothing else written. A receipt of another length gets nothing.
fn refused(what: &str, square: &[u8], how: Reading, lengths: Lengths, number: usize) {
    let [mut payload, mut script, mut receipt] = [lengths.payload, lengths.script, lengths.receipt].map(|n| vec![MARK; n]);
    let got = read(square, how, &mut payload, &mut script, &mut receipt);
    let mut expected = vec![0; 12];
    expected[0] = number as u8;
    if lengths.receipt != 12 {
        expected = vec![MARK; lengths.receipt];
    }
    let kept = payload.iter().chain(&script).all(|&b| b == MARK);
    if got != number || receipt != expected || !kept {
        let input = format!("{what}: {how:?}, {lengths:?}, {} modules, a byte each {}", square.len(), hex(square));
        let told = |number, receipt, kept| format!("{number}, receipt {receipt:?}, lent bytes {}", if kept { "stay" } else { "changed" });
        differs("bad input", &input, &told(got, receipt, kept), &told(number, expected, true));
    }
}

/// A reading that must be accepted, with buffers that may be full: payload and script as written, bytes beyond as they were.
fn accepted(mark: &Mark, how: Reading, lengths: Lengths) {
    let [mut payload, mut script, mut receipt] = [lengths.payload, lengths.script, lengths.receipt].map(|n| vec![MARK; n]);
    let got = read(&mark.square, how, &mut payload, &mut script, &mut receipt);
    let mut expected = (mark.payload.clone(), mark.script.clone());
    expected.0.resize(lengths.payload, MARK);
    expected.1.resize(lengths.script, MARK);
    let input = format!("{how:?}, {lengths:?}, modules {}", hex(&packed(&mark.square)));
    same("lent buffers", &input, (got, payload, script), (0, expected.0, expected.1));
}

pub fn compare(both: &mut Both) {
    let mut random = Random::new(12);
    let mut count = 0;
    for version in [1, 2, 7, 40, 84] {
        for level in 0..4 {
            let mark = both.random_mark(&mut random, version, level, level);
            count += inputs(both, &mark);
            count += lent(&mark);
        }
    }
    for version in [1, 3, 84] {
        for level in 0..4 {
            count += orders(both, version, level, &mut random);
        }
    }
    println!("squares: {count:9} readings of bad input, of buffers full, short and long, and of two faults at once");
    differences(both, &mut random);
}

/// What docs/DIFFERENCES.md says of the original outside its domain: where it panics, and what it reads.
fn differences(both: &Both, random: &mut Random) {
    let mark = both.random_mark(random, 5, 1, 0);
    let modules: Vec<bool> = mark.square.iter().map(|&b| b == 1).collect();
    let long = [&modules[..], &[true; 9]].concat();
    let (half, short) = (&modules[..modules.len() / 2], &modules[..modules.len() - 1]);
    let read = |modules: &[bool], version, level, mask| {
        std::panic::catch_unwind(|| decode_data(modules, version, level, mask).map(|r| r.bytes)).ok()
    };
    let hook = std::panic::take_hook();
    std::panic::set_hook(Box::new(|_| {}));
    let outside = [(&modules[..], 0, 0), (&modules, 85, 0), (&modules, 5, 4), (half, 5, 1)];
    let panics = outside.map(|(modules, version, level)| read(modules, version, level, 0).is_none());
    let reads = [read(&modules, 5, 1, 4), read(&long, 5, 1, 0), read(short, 5, 1, 0)];
    std::panic::set_hook(hook);
    same("the original's panics", "version 0, version 85, level 4, half a square", panics, [true; 4]);
    let payload = [(); 3].map(|()| Some(Some(mark.payload.clone())));
    same("what the original reads", "mask 4 as mask 0, a long square, one that lacks its last module", reads, payload);
    println!("squares:         7 readings of the original outside its domain, as docs/DIFFERENCES.md has them");
}

/// The two readings of a mark.
pub fn both_readings(mark: &Mark) -> [Reading; 2] {
    [Reading::Side(2 * mark.version + 21), Reading::Known(mark.version, mark.level, mark.mask)]
}

/// Receipts, sides, squares and modules that are turned away.
fn inputs(both: &Both, mark: &Mark) -> usize {
    let (square, side, mut count) = (&mark.square, both.plan(mark.version).side, 0);
    let mut turn = |what: &str, square: &[u8], how, lengths, number| {
        refused(what, square, how, lengths, number);
        count += 1;
    };
    for side in [0, 1, 21, 22, 24, 190, 191, 1 << 31, 1 << 63, usize::MAX] {
        turn("side", square, Reading::Side(side), PLENTY, 1);
    }
    for version in [0, 85, 256 + mark.version, 1 << 63, usize::MAX] {
        turn("version", square, Reading::Known(version, mark.level, mark.mask), PLENTY, 1);
    }
    for n in [4, 256, 1 << 63, usize::MAX] {
        turn("level", square, Reading::Known(mark.version, n, mark.mask), PLENTY, 1);
        turn("mask", square, Reading::Known(mark.version, mark.level, n), PLENTY, 1);
    }
    let other = if mark.version == 1 { 2 } else { mark.version - 1 };
    turn("another version", square, Reading::Known(other, mark.level, mark.mask), PLENTY, 2);
    turn("another side", square, Reading::Side(2 * other + 21), PLENTY, 2);
    for how in both_readings(mark) {
        for receipt in [0, 1, 11, 13, 24] {
            turn("receipt", square, how, Lengths { receipt, ..PLENTY }, 2);
        }
        turn("one byte short", &square[1..], how, PLENTY, 2);
        turn("one byte long", &[&square[..], &[0]].concat(), how, PLENTY, 2);
        turn("empty square", &[], how, PLENTY, 2);
        for (place, byte) in [(0, 3), (0, 255), (side * side / 2, 4), (side * side - 1, 3), (side * side - 1, 255)] {
            let mut other = square.clone();
            other[place] = byte;
            turn("module", &other, how, PLENTY, 3);
        }
    }
    count
}

/// Payload and script buffers: exactly full, longer, one short, empty.
fn lent(mark: &Mark) -> usize {
    let (p, s) = (mark.payload.len(), mark.script.len());
    for how in both_readings(mark) {
        for (payload, script) in [(p, s), (p + 1, s), (p, s + 1), (p + 9, s + 30_000)] {
            accepted(mark, how, Lengths { payload, script, receipt: 12 });
        }
        for (payload, script, number) in [(p - 1, s, 9), (p - 1, s - 1, 9), (0, 0, 9), (0, s, 9), (p, s - 1, 10), (p, 0, 10)] {
            refused("buffers", &mark.square, how, Lengths { payload, script, receipt: 12 }, number);
        }
    }
    20
}

/// A square of data bits with their parity.
pub fn square_of(both: &Both, mark: &Mark, fields: &[(usize, usize)]) -> Vec<u8> {
    let mut bits = Bits::default();
    for &(n, v) in fields {
        bits.put(n, v);
    }
    let plan = both.plan(mark.version);
    plan.square(mark.level, mark.mask, &plan.stream(mark.level, &bits.bytes()))
}

/// A square with its first block beyond reach, so that the original too answers 6.
fn beyond(both: &mut Both, mark: &Mark, square: &[u8], random: &mut Random) -> Vec<u8> {
    loop {
        let mut other = square.to_vec();
        let plan = both.plan(mark.version);
        let block = plan.blocks(mark.level)[0];
        random.each_of(block.data + block.parity, block.parity / 2 + 2, |random, place| {
            plan.change(&mut other, place, random.change());
        });
        if both.one(&other, Reading::Known(mark.version, mark.level, mark.mask)).0.number == 6 {
            return other;
        }
    }
}

/// Two faults at once, for each two neighbours in the order of SPECIFICATION 10.9 that can meet.
fn orders(both: &mut Both, version: usize, level: usize, random: &mut Random) -> usize {
    let mark = both.random_mark(random, version, level, 1);
    // An unknown mode behind no payload; an ECI alone; an unknown mode behind some text.
    let broken = square_of(both, &mark, &[(4, 8), (8, 5), (4, 9)]);
    let empty = square_of(both, &mark, &[(4, 8), (8, 5), (4, 0)]);
    let cut = square_of(both, &mark, &[(4, 2), (6, 1), (6, 63), (4, 9)]);
    let out = beyond(both, &mark, &broken, random);
    let short = Lengths { payload: 0, script: 0, receipt: 12 };
    let none = Lengths { receipt: 11, ..short };
    let mut three = mark.square.clone();
    three[both.plan(version).informed(0)] = 3;
    let mut count = early(both, &mark, &three, &out, none);
    for how in both_readings(&mark) {
        let cases: [(&str, &[u8], usize); 6] = [
            ("2 before 3", &three[1..], 2),
            ("6 before 7", &out, 6),
            ("7 before 8", &broken, 7),
            ("7 before 9", &cut, 7),
            ("8 before 9", &empty, 8),
            ("9 before 10", &mark.square, 9),
        ];
        for (what, square, number) in cases {
            refused(what, square, how, short, number);
            count += 1;
        }
        refused("8 before 10", &empty, how, Lengths { payload: 1, ..short }, 8);
        count += 1;
    }
    count
}

/// The first refusals: receipt before side, side before length, a module before the distance, the distance before the blocks.
fn early(both: &Both, mark: &Mark, three: &[u8], out: &[u8], none: Lengths) -> usize {
    let short = Lengths { receipt: 12, ..none };
    let mut far = out.to_vec();
    let plan = both.plan(mark.version);
    let word = (0..1 << 34).step_by(0x1234_567).find(|&w| nearest_info(mark.version, [w, w]).2 > 10);
    plan.inform(&mut far, word.unwrap());
    let mut far_three = far.clone();
    far_three[plan.informed(40)] = 3;
    let side = Reading::Side(plan.side);
    refused("receipt before side", three, Reading::Side(22), none, 2);
    refused("receipt before version", three, Reading::Known(0, 4, 4), none, 2);
    refused("receipt before length", &three[1..], side, none, 2);
    refused("side before length", &three[1..], Reading::Side(22), short, 1);
    refused("version before length", &three[1..], Reading::Known(85, 0, 0), short, 1);
    refused("level before length", &three[1..], Reading::Known(mark.version, 4, 0), short, 1);
    refused("mask before length", &three[1..], Reading::Known(mark.version, 0, 4), short, 1);
    refused("4 before 6", &far, side, short, 4);
    refused("3 before 4", &far_three, side, short, 3);
    refused("no 4 with known numbers", &far, Reading::Known(mark.version, mark.level, mark.mask), short, 6);
    let mut out_three = out.to_vec();
    out_three[plan.side * plan.side - 1] = 3;
    refused("3 before 6", &out_three, Reading::Known(mark.version, mark.level, mark.mask), short, 3);
    11
}
