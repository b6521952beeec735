//! The times of blocks with erased places beside the original's.
use super::{correct_erased, damage, places, their_answer};
use crate::blocks::{SHAPES, damaged};
use crate::reed_solomon::gf256;
use crate::sheet::{Sheet, time};
use crate::tools::{Random, same};
use std::hint::black_box;

/// What is timed: its name, how many places are erased and how many other bytes are wrong with a parity, and the number answered. Every
/// byte at an erased place is wrong.
type Situation = (&'static str, fn(usize) -> (usize, usize), usize);

const SITUATIONS: [Situation; 4] = [
    ("one erased", |_| (1, 0), 0),
    ("half erased", |parity| (parity / 2, (parity - parity / 2 - 2) / 2), 0),
    ("parity - 2 erased", |parity| (parity - 2, 0), 0),
    ("erased out of reach", |parity| (parity / 2, parity / 2), 6),
];

/// A block, its flags for ours and its erased places for the original.
struct Damaged {
    block: Vec<u8>,
    flags: Vec<u8>,
    erased: Vec<usize>,
}

/// Calls on a copy of the next of some blocks.
fn each<'a, T>(blocks: &'a [Damaged], call: impl Fn(&mut [u8], &Damaged) -> T + 'a) -> impl FnMut() + 'a {
    let (mut work, mut i) = (blocks[0].block.clone(), 0);
    move || {
        let next = &blocks[i % blocks.len()];
        work.copy_from_slice(&next.block);
        i += 1;
        black_box(call(&mut work, next));
    }
}

/// Blocks in a situation. Both sides answer them as it says, or else what is timed would not be what its name says.
fn blocks(random: &mut Random, (name, counts, number): Situation, length: usize, parity: usize) -> Vec<Damaged> {
    let field = gf256(0x163);
    let (erased, errors) = counts(parity);
    let one = |_| {
        let word = damaged(field, random, length, parity, 0);
        let (block, flags) = damage(random, &word, erased, 2, errors);
        let (ours, theirs) = (correct_erased(&mut block.clone(), &flags, parity), their_answer(field, &mut block.clone(), &flags, parity));
        same("a block that is timed", name, [ours.number, theirs.number], [number; 2]);
        Damaged { erased: places(&flags), block, flags }
    };
    (0..64).map(one).collect()
}

pub fn bench(sheet: &mut Sheet) {
    let field = gf256(0x163);
    let mut random = Random::new(6);
    for situation in SITUATIONS {
        for (length, parity) in SHAPES {
            let blocks = blocks(&mut random, situation, length, parity);
            let mut ours = each(&blocks, |b, next| correct_erased(b, &next.flags, parity));
            let mut theirs = each(&blocks, |b, next| field.correct_with_erasures(b, parity, 1, &next.erased));
            let times = time(&mut ours, Some(&mut theirs));
            sheet.case(&format!("block, {}", situation.0), &format!("({length}, {parity})"), 0, times);
        }
    }
}
