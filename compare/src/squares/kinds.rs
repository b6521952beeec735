//! The kinds of squares that are compared.
use super::plan::{Block, Plan};
use super::{Both, Mark, Reading, bad, outside, smallest, unknown, writing};
use crate::blocks::our_parity;
use crate::han_xin::{info_bits, nearest_info};
use crate::tools::{Random, hex, same};
use crate::written::Written;

/// A version, small ones more often: the least of three.
pub fn version(random: &mut Random) -> usize {
    1 + random.below(84).min(random.below(84)).min(random.below(84))
}

/// A kind of random squares: how many, one of them, and what to call it.
type Kind = (usize, fn(&mut Both, &mut Random), &'static str);

const KINDS: [Kind; 6] = [
    (40_000, within, "readings of marks within reach, with up to 8 information modules and any other modules changed"),
    (40_000, information, "marks with 0 to 12 information modules changed"),
    (40_000, one_beyond, "marks with one block changed beyond its reach"),
    (20_000, mistaken, "marks read with another level or mask"),
    (60_000, any_data, "squares of random data, and of segments changed, with their parity"),
    (40_000, any_square, "squares of random modules, with and without an information word"),
];

pub fn compare() {
    let mut both = Both::new();
    let mut random = Random::new(11);
    outside::compare(&mut both);
    bad::compare(&mut both);
    unknown::compare(&mut both);
    nine(&mut both, &mut random);
    plain(&mut both);
    clean(&mut both, &mut random);
    writing::compare(&mut both);
    smallest::compare(&mut both);
    for (count, one, name) in KINDS {
        for _ in 0..count {
            one(&mut both, &mut random);
        }
        both.report(name, "read");
    }
}

/// Every version, level and mask, eight marks each that start with each of the modes.
fn clean(both: &mut Both, random: &mut Random) {
    for version in 1..=84 {
        for (level, mask) in (0..16).map(|k| (k / 4, k % 4)) {
            let room = 8 * both.plan(version).room(level);
            for mode in 1..=8 {
                let (count, most) = if (version + mode) % 8 == 0 { (400, 60) } else { (1 + random.below(9), 12) };
                let mark = both.mark(version, level, mask, Written::starting(random, mode, count, most, room));
                both.as_written(&mark, &mark.square, 0, 0);
            }
        }
    }
    both.report("readings of clean marks: each version, level and mask with each mode first", "read");
}

/// Changes `count` codewords of a block.
pub fn damage(plan: &Plan, random: &mut Random, square: &mut [u8], level: usize, block: usize, count: usize) {
    let block = plan.blocks(level)[block];
    random.each_of(block.data + block.parity, count, |random, place| {
        plan.change(square, block.start + place, random.change());
    });
}

/// Flips `count` information modules.
pub fn misinform(plan: &Plan, random: &mut Random, square: &mut [u8], count: usize) {
    random.each_of(68, count, |_, n| square[plan.informed(n)] ^= 1);
}

/// Changes every block to its full reach.
pub fn damage_full(plan: &Plan, random: &mut Random, square: &mut [u8], level: usize) -> usize {
    let blocks = plan.blocks(level);
    for (n, block) in blocks.iter().enumerate() {
        damage(plan, random, square, level, n, block.parity / 2);
    }
    blocks.iter().map(|b| b.parity / 2).sum()
}

/// Changes every block up to its reach, all of them fully in one of three: how many codewords.
pub fn damage_all(plan: &Plan, random: &mut Random, square: &mut [u8], level: usize) -> usize {
    if random.below(3) == 0 {
        return damage_full(plan, random, square, level);
    }
    let mut corrected = 0;
    for (n, block) in plan.blocks(level).iter().enumerate() {
        let count = random.below(block.parity / 2 + 1);
        damage(plan, random, square, level, n, count);
        corrected += count;
    }
    corrected
}

pub fn random_mark(both: &Both, random: &mut Random) -> Mark {
    let (version, level, mask) = (version(random), random.below(4), random.below(4));
    both.random_mark(random, version, level, mask)
}

/// A mark within reach is read as it was written, whatever its leftover and function modules say.
fn within(both: &mut Both, random: &mut Random) {
    let mark = random_mark(both, random);
    let (plan, mut square) = (both.plan(mark.version), mark.square.clone());
    let corrected = damage_all(plan, random, &mut square, mark.level);
    let flips = random.below(9);
    misinform(plan, random, &mut square, flips);
    for modules in [&plan.leftover, &plan.fixed] {
        let count = random.below(modules.len() + 1);
        random.each_of(modules.len(), count, |_, n| square[modules[n]] ^= 1);
    }
    both.as_written(&mark, &square, corrected, flips);
}

/// Information flips: random ones, or in half of the turns on the way to another word of the version.
fn information(both: &mut Both, random: &mut Random) {
    let mark = random_mark(both, random);
    let (plan, mut square) = (both.plan(mark.version), mark.square.clone());
    let flips = random.below(13);
    if random.below(2) == 0 {
        misinform(plan, random, &mut square, flips);
    } else {
        let other = info_bits(mark.version, random.below(4), random.below(4));
        toward(plan, random, &mut square, other, flips);
    }
    let (side, distance) = (plan.side, nearest_info(mark.version, plan.copies(&square)).2);
    both.distances[distance as usize] += 1;
    let answer = both.as_any(&square, Reading::Side(side));
    if flips <= 8 {
        let input = format!("modules {}", hex(&super::packed(&square)));
        let told = (answer.number, answer.level, answer.mask, &answer.payload);
        same("8 information flips", &input, told, (0, mark.level, mark.mask, &mark.payload));
    }
}

/// Flips `count` of the information modules that differ from a word.
pub fn toward(plan: &Plan, random: &mut Random, square: &mut [u8], word: u64, count: usize) {
    let mut other = square.to_vec();
    plan.inform(&mut other, word);
    let differing: Vec<usize> = (0..68).map(|n| plan.informed(n)).filter(|&i| square[i] != other[i]).collect();
    random.each_of(differing.len(), count, |_, n| square[differing[n]] ^= 1);
}

/// Nine flips halfway from (level 2, mask 0) to (0, 0) are read as (0, 0): over the data of level 0, and over those of level 2, which
/// are then read in the wrong blocks.
fn nine(both: &mut Both, random: &mut Random) {
    for version in 1..=84 {
        for turn in 0..24 {
            let level = 2 * (turn % 2);
            let mut mark = both.random_mark(random, version, level, 0);
            let plan = both.plan(version);
            plan.inform(&mut mark.square, info_bits(version, 2, 0));
            toward(plan, random, &mut mark.square, info_bits(version, 0, 0), 9);
            let input = format!("modules {}", hex(&super::packed(&mark.square)));
            same("the flips", &input, nearest_info(version, plan.copies(&mark.square)), (0, 0, 9));
            let answer = both.as_any(&mark.square, Reading::Side(2 * version + 21));
            if level == 0 {
                same("nine flips", &input, (answer.number, answer.level, answer.mask, answer.distance), (0, 0, 0, 9));
            }
        }
    }
    both.report("nine information flips halfway from level 2 to level 0, each version", "read");
}

/// Changes one block beyond its reach: at random; or by another codeword of few places but for some of these, so that the block lies
/// within reach of a codeword that was not written.
pub fn beyond(plan: &Plan, random: &mut Random, square: &mut [u8], level: usize) {
    let blocks = plan.blocks(level);
    let at = random.below(blocks.len());
    let Block { start, data, parity } = blocks[at];
    if random.below(2) == 0 {
        let more = if random.below(4) == 0 { random.below(data + parity - parity / 2) } else { random.below(3) };
        damage(plan, random, square, level, at, parity / 2 + 1 + more);
        return;
    }
    let mut word = vec![0; data + parity];
    word[random.below(data)] = random.change();
    our_parity(&mut word, parity);
    let kept = random.below(parity / 2 + 1);
    random.each_of(data + parity, kept, |_, place| word[place] = 0);
    for (place, &by) in word.iter().enumerate() {
        plan.change(square, start + place, by);
    }
}

/// One block beyond its reach, and in half of the turns one more change somewhere.
fn one_beyond(both: &mut Both, random: &mut Random) {
    let mark = random_mark(both, random);
    let (plan, mut square) = (both.plan(mark.version), mark.square.clone());
    beyond(plan, random, &mut square, mark.level);
    if random.below(2) == 0 {
        let other = random.below(plan.blocks(mark.level).len());
        damage(plan, random, &mut square, mark.level, other, 1);
    }
    let how = if random.below(2) == 0 { Reading::Side(plan.side) } else { Reading::Known(mark.version, mark.level, mark.mask) };
    both.as_any(&square, how);
}

/// A mark read with a level or mask that it does not have.
fn mistaken(both: &mut Both, random: &mut Random) {
    let mark = random_mark(both, random);
    let other = 1 + random.below(15);
    let how = Reading::Known(mark.version, mark.level ^ other / 4, mark.mask ^ other % 4);
    both.as_any(&mark.square, how);
}

/// A square of data with their parity, so that the segments are reached: segments with some bits changed, or random data.
pub fn data_square(plan: &Plan, random: &mut Random, level: usize, mask: usize) -> Vec<u8> {
    let room = plan.room(level);
    let mut data = vec![0; room];
    let turn = random.below(8);
    if turn == 0 {
        random.fill(&mut data);
    } else {
        let count = 1 + random.below(if turn == 1 { 400 } else { 6 });
        let bytes = Written::random(random, count, 12, 8 * room).bits.bytes();
        data[..bytes.len()].copy_from_slice(&bytes);
        for _ in 0..random.below(4) {
            data[random.below(bytes.len().max(1))] ^= 1 << random.below(8);
        }
    }
    plan.square(level, mask, &plan.stream(level, &data))
}

fn any_data(both: &mut Both, random: &mut Random) {
    let (version, level, mask) = (version(random), random.below(4), random.below(4));
    let plan = both.plan(version);
    let mut square = data_square(plan, random, level, mask);
    if random.below(2) == 0 {
        damage_all(plan, random, &mut square, level);
    }
    let how = if random.below(2) == 0 { Reading::Side(plan.side) } else { Reading::Known(version, level, mask) };
    both.as_any(&square, how);
}

/// Random modules; in half of the turns with the information of a level and mask.
fn any_square(both: &mut Both, random: &mut Random) {
    let (version, level, mask) = (version(random), random.below(4), random.below(4));
    let plan = both.plan(version);
    let side = plan.side;
    let mut square: Vec<u8> = (0..side * side).map(|_| random.byte() & 1).collect();
    let valid = random.below(2) == 0;
    if valid {
        plan.inform(&mut square, info_bits(version, level, mask));
    }
    both.as_any(&square, if valid || random.below(2) == 0 { Reading::Side(side) } else { Reading::Known(version, level, mask) });
}

/// All light and all dark squares.
fn plain(both: &mut Both) {
    for version in 1..=84 {
        let side = 2 * version + 21;
        for module in [0, 1] {
            let square = vec![module; side * side];
            both.as_any(&square, Reading::Side(side));
            for k in 0..16 {
                both.as_any(&square, Reading::Known(version, k / 4, k % 4));
            }
        }
    }
    both.report("all light and all dark squares, each version, level and mask", "read");
}
