//! Times of whole squares: both readings beside the original, writing beside zint's library, and the smallest mark beside writing.
//! Readings of squares with unknown modules are in unknown/speed.rs.
use super::kinds::{damage, damage_full};
use super::{Both, Found, Mark, Reading, read, unknown, write, write_smallest};
use crate::han_xin::{decode_data, decode_matrix};
use crate::others::Zint;
use crate::sheet::{Line, Sheet, Times, time};
use crate::tools::{ROOM, Random};
use crate::written::Written;
use std::hint::black_box;

pub const VERSIONS: [usize; 7] = [1, 3, 10, 20, 40, 60, 84];

/// A mark that random segments fill.
pub fn filled(both: &Both, random: &mut Random, version: usize, level: usize, mask: usize) -> Mark {
    let room = 8 * both.plan(version).room(level);
    both.mark(version, level, mask, Written::starting(random, 2, 4000, 24, room))
}

/// What happened to a mark before it is read: its name, the square, and the number that reading answers.
type Situation = (&'static str, fn(&Both, &mut Random, &Mark) -> Vec<u8>, usize);

const SITUATIONS: [Situation; 4] = [
    ("clean", |_, _, mark| mark.square.clone(), 0),
    ("one wrong in each block", one_each, 0),
    ("full reach", full_reach, 0),
    ("last block out of reach", out_of_reach, 6),
];

fn one_each(both: &Both, random: &mut Random, mark: &Mark) -> Vec<u8> {
    let (plan, mut square) = (both.plan(mark.version), mark.square.clone());
    for block in 0..plan.blocks(mark.level).len() {
        damage(plan, random, &mut square, mark.level, block, 1);
    }
    square
}

pub fn full_reach(both: &Both, random: &mut Random, mark: &Mark) -> Vec<u8> {
    let mut square = mark.square.clone();
    damage_full(both.plan(mark.version), random, &mut square, mark.level);
    square
}

/// A block with as many wrong codewords as it has parity may by chance lie in reach of another word: then it is changed anew.
fn out_of_reach(both: &Both, random: &mut Random, mark: &Mark) -> Vec<u8> {
    let Mark { version, level, mask, .. } = *mark;
    let plan = both.plan(version);
    let blocks = plan.blocks(level);
    let last = blocks.len() - 1;
    loop {
        let mut square = mark.square.clone();
        damage(plan, random, &mut square, level, last, blocks[last].parity);
        if plan.refusal(&square, level, mask) == 6 {
            return square;
        }
    }
}

/// Both readings of each situation, a line for each version over all levels and masks.
pub fn reading(sheet: &mut Sheet) {
    let both = Both::new();
    let mut random = Random::new(13);
    let marks = VERSIONS.map(|v| (0..16).map(|k| filled(&both, &mut random, v, k / 4, k % 4)).collect::<Vec<_>>());
    sheet.part("reading a square", "Rust");
    for known in [false, true] {
        for (name, change, number) in SITUATIONS {
            for marks in &marks {
                let cases = marks.iter().map(|mark| {
                    let Mark { version, level, mask, .. } = *mark;
                    let how = if known { Reading::Known(version, level, mask) } else { Reading::Side(2 * version + 21) };
                    (format!("level {level}, mask {mask}"), read_both(&change(&both, &mut random, mark), how, number))
                });
                let (cases, first) = (cases.collect(), &marks[0]);
                let line = Line { name: format!("v{}", first.version), modules: first.square.len(), cases };
                sheet.line(&format!("{}, {name}", if known { "known" } else { "read" }), line);
            }
        }
    }
    unknown::bench(sheet, &both, &marks);
}

fn read_both(square: &[u8], how: Reading, number: usize) -> Times {
    let modules: Vec<bool> = square.iter().map(|&b| b == 1).collect();
    let (mut payload, mut script, mut receipt) = (vec![0; ROOM], vec![0; ROOM], [0; 12]);
    let mut ours = || {
        black_box(read(black_box(square), how, &mut payload, &mut script, &mut receipt));
    };
    let mut theirs = || {
        black_box(original(black_box(&modules), how));
    };
    let times = time(&mut ours, Some(&mut theirs));
    assert_eq!((usize::from(receipt[0]), original(&modules, how)), (number, number == 0));
    times
}

/// Whether the original reads it.
pub fn original(modules: &[bool], how: Reading) -> bool {
    let read = match how {
        Reading::Side(side) => decode_matrix(modules, side),
        Reading::Known(version, level, mask) => decode_data(modules, version, level, mask),
    };
    black_box(read).is_some()
}

/// A mark of one segment of digits that takes nine tenths of the room.
pub fn digits(both: &Both, random: &mut Random, version: usize, level: usize, mask: usize) -> Mark {
    digits_of(both, random, [version, level, mask], 8 * both.plan(version).room(level) * 9 / 10)
}

/// A mark of digits whose smallest version this is: of the room beyond that of the version below, they take nine tenths.
pub fn digits_beyond(both: &Both, random: &mut Random, version: usize, level: usize, mask: usize) -> Mark {
    let below = if version == 1 { 0 } else { 8 * both.plan(version - 1).room(level) };
    let room = 8 * both.plan(version).room(level);
    digits_of(both, random, [version, level, mask], below + (room - below) * 9 / 10)
}

/// A mark of one segment of digits in at most so many bits.
fn digits_of(both: &Both, random: &mut Random, [version, level, mask]: [usize; 3], bits: usize) -> Mark {
    let payload: Vec<u8> = (0..3 * ((bits - 14) / 10)).map(|_| b'0' + random.byte() % 10).collect();
    let [high, low] = u16::try_from(payload.len()).unwrap().to_be_bytes();
    let script = vec![1, high, low];
    let square = both.write(version, level, mask, &script, &payload);
    Mark { version, level, mask, script, payload, square }
}

/// Writing, a line for each version over all levels and masks. The original has no writer.
pub fn writing(sheet: &mut Sheet) {
    let both = Both::new();
    let mut random = Random::new(15);
    sheet.part("writing a square of digits", "zint");
    if Zint::new(1, 0, 0, b"1").is_none() {
        println!("zint's library (Debian's libzint-dev) is not installed, so its times are left out");
    }
    for version in VERSIONS {
        let cases = (0..16).map(|k| {
            let mark = digits(&both, &mut random, version, k / 4, k % 4);
            (format!("level {}, mask {}", mark.level, mark.mask), write_both(&mark))
        });
        let (cases, side) = (cases.collect(), 2 * version + 21);
        sheet.line("write", Line { name: format!("v{version}"), modules: side * side, cases });
    }
    smallest(sheet, &both, &mut random);
}

/// The smallest mark beside Write a square at the version that it finds, both ours, a line for each version over all levels and masks.
fn smallest(sheet: &mut Sheet, both: &Both, random: &mut Random) {
    sheet.part("the smallest mark of digits", "write");
    for version in [1, 3, 10, 11, 20, 40, 60, 84] {
        let cases = (0..16).map(|k| {
            let mark = digits_beyond(both, random, version, k / 4, k % 4);
            (format!("level {}, mask {}", mark.level, mark.mask), find_and_write(&mark))
        });
        let (cases, side) = (cases.collect(), 2 * version + 21);
        sheet.line("smallest", Line { name: format!("v{version}"), modules: side * side, cases });
    }
}

/// Both must write the mark.
fn find_and_write(mark: &Mark) -> Times {
    let Mark { version, level, mask, ref script, ref payload, .. } = *mark;
    let [mut found, mut written] = [(); 2].map(|()| vec![0; mark.square.len()]);
    let answers = (write_smallest(level, mask, script, payload, &mut found), write(version, level, mask, script, payload, &mut written));
    assert_eq!(answers, (Found { number: 0, version }, 0));
    assert!(found == mark.square && written == mark.square);
    let mut ours = || {
        black_box(write_smallest(level, mask, black_box(script), payload, &mut found));
    };
    let mut theirs = || {
        black_box(write(version, level, mask, black_box(script), payload, &mut written));
    };
    time(&mut ours, Some(&mut theirs))
}

/// zint must write the same square.
fn write_both(mark: &Mark) -> Times {
    let mut square = mark.square.clone();
    let mut ours = || {
        black_box(write(mark.version, mark.level, mark.mask, black_box(&mark.script), &mark.payload, &mut square));
    };
    let Some(zint) = Zint::new(mark.version, mark.level, mark.mask, &mark.payload) else {
        return time(&mut ours, None);
    };
    assert!(zint.write() && zint.wrote(&mark.square), "zint writes another mark");
    let mut theirs = || {
        black_box(zint.write());
    };
    time(&mut ours, Some(&mut theirs))
}
