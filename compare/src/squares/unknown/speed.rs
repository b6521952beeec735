//! Times of squares with unknown modules: beside our own time for the mark without them, and beside the plain reading.
use super::damage::{Which, hurt};
use super::reading::decoded;
use crate::han_xin::access::parse;
use crate::sheet::{Line, Sheet, Times, time};
use crate::squares::plan::Plan;
use crate::squares::{Both, Mark, Reading, read};
use crate::tools::{ROOM, Random};
use std::hint::black_box;

/// One module of each block is unknown.
fn one_each(plan: &Plan, random: &mut Random, mark: &Mark) -> Vec<u8> {
    let mut square = mark.square.clone();
    for block in plan.blocks(mark.level) {
        let modules = plan.codewords[block.start + random.below(block.data + block.parity)];
        square[modules[random.below(8)]] = 2;
    }
    square
}

/// As many codewords of each block are erased as can be corrected.
pub fn most_each(plan: &Plan, random: &mut Random, mark: &Mark) -> Vec<u8> {
    let mut square = mark.square.clone();
    for block in plan.blocks(mark.level) {
        hurt(plan, random, &mut square, block, block.parity - 2, 0, Which::Any);
    }
    square
}

/// What is timed: a mark's square, how it is read, and the other side's time.
type Timed = fn(&Mark, &[u8], Reading) -> Times;

/// Both readings, a line for each version over all levels and masks.
pub fn bench(sheet: &mut Sheet, both: &Both, marks: &[Vec<Mark>]) {
    let mut random = Random::new(21);
    let situations: [(&str, &str, fn(&Plan, &mut Random, &Mark) -> Vec<u8>, Timed); 2] = [
        ("one unknown in each block, beside clean", "clean", one_each, beside_clean),
        ("parity - 2 erased in each block", "Rust", most_each, beside_plain),
    ];
    for (name, other, change, timed) in situations {
        sheet.part("reading a square with unknown modules", other);
        for known in [false, true] {
            for marks in marks {
                let cases = marks.iter().map(|mark| {
                    let Mark { version, level, mask, .. } = *mark;
                    let how = if known { Reading::Known(version, level, mask) } else { Reading::Side(2 * version + 21) };
                    let square = change(both.plan(version), &mut random, mark);
                    (format!("level {level}, mask {mask}"), timed(mark, &square, how))
                });
                let (cases, first) = (cases.collect(), &marks[0]);
                let line = Line { name: format!("v{}", first.version), modules: first.square.len(), cases };
                sheet.line(&format!("{}, {name}", if known { "known" } else { "read" }), line);
            }
        }
    }
}

/// Our reading of a square, of which each call must be accepted.
fn ours<'a>(square: &'a [u8], how: Reading) -> impl FnMut() + 'a {
    let (mut payload, mut script, mut receipt) = (vec![0; ROOM], vec![0; ROOM], [0; 12]);
    move || assert_eq!(black_box(read(black_box(square), how, &mut payload, &mut script, &mut receipt)), 0)
}

fn beside_clean(mark: &Mark, square: &[u8], how: Reading) -> Times {
    time(&mut ours(square, how), Some(&mut ours(&mark.square, how)))
}

/// Beside the plain reading, as far as the original reads: without a script.
fn beside_plain(mark: &Mark, square: &[u8], how: Reading) -> Times {
    let plain = || parse(&decoded(black_box(square), mark.version, how).ok()?.data).map(|read| read.1);
    assert_eq!(plain().as_ref(), Some(&mark.payload));
    let mut theirs = || {
        black_box(plain());
    };
    time(&mut ours(square, how), Some(&mut theirs))
}
