//! What happens to a mark: modules of it become unknown and others flip. And what the theorem's premises say of it then.
use crate::blocks::encode;
use crate::han_xin::info_bits;
use crate::reed_solomon::gf256;
use crate::squares::Mark;
use crate::squares::kinds::{misinform, toward};
use crate::squares::plan::{Block, Plan};
use crate::tools::Random;

/// A square that a mark has become.
pub type Damage = fn(&Plan, &mut Random, &Mark) -> Vec<u8>;

/// The kinds of damage, and what to call marks that have it.
pub const KINDS: [(Damage, &str); 7] = [
    (one_block, "marks with unknown modules in 1 to all codewords of one block, mostly in about as many as its parity"),
    (mixed, "marks with erased and changed codewords in one block about 2e + f + 2 = parity, the others in reach"),
    (in_reach, "marks with unknown and flipped modules everywhere, each block in reach"),
    (scratched, "marks with unknown rows, columns, rectangles and diagonals"),
    (misread, "marks with unknown and flipped information modules"),
    (no_codeword, "marks with unknown modules that belong to no codeword"),
    (between, "marks with one block between two codewords, erased codewords where these differ"),
];

/// Which modules of a codeword become unknown. A light one leaves it as it was.
#[derive(Clone, Copy, PartialEq)]
pub enum Which {
    Any,
    Light,
    Dark,
}

/// Makes one or more of some modules unknown, if there are such.
fn blot(random: &mut Random, square: &mut [u8], modules: &[usize], which: Which) {
    let fits = |i: &usize| which == Which::Any || square[*i] == u8::from(which == Which::Dark);
    let modules: Vec<usize> = modules.iter().copied().filter(fits).collect();
    let count = if modules.len() < 2 || random.below(2) == 0 { 1 } else { 1 + random.below(modules.len()) };
    random.each_of(modules.len(), count, |_, n| square[modules[n]] = 2);
}

/// Erases codewords of a block and changes others. A codeword of which any modules become unknown may be changed as well.
pub fn hurt(plan: &Plan, random: &mut Random, square: &mut [u8], block: Block, erased: usize, changed: usize, which: Which) {
    let mut met = 0;
    random.each_of(block.data + block.parity, erased + changed, |random, place| {
        let place = block.start + place;
        if met >= erased || which == Which::Any && random.below(4) == 0 {
            plan.change(square, place, random.change());
        }
        if met < erased {
            blot(random, square, &plan.codewords[place], which);
        }
        met += 1;
    });
}

fn any_block(plan: &Plan, random: &mut Random, level: usize) -> Block {
    let blocks = plan.blocks(level);
    blocks[random.below(blocks.len())]
}

fn one_block(plan: &Plan, random: &mut Random, mark: &Mark) -> Vec<u8> {
    let (mut square, block) = (mark.square.clone(), any_block(plan, random, mark.level));
    let p = block.parity;
    let erased = [1, 1 + random.below(block.data + p), p - 3, p - 2, p - 2, p - 1, p, p + 1][random.below(8)];
    let which = [Which::Any, Which::Light, Which::Dark][random.below(3)];
    hurt(plan, random, &mut square, block, erased, 0, which);
    square
}

/// A number near the most codewords that may be changed beside so many erased ones.
fn turning(random: &mut Random, parity: usize, erased: usize) -> usize {
    ((parity - erased) / 2 + random.below(4)).saturating_sub(2)
}

fn mixed(plan: &Plan, random: &mut Random, mark: &Mark) -> Vec<u8> {
    let mut square = mark.square.clone();
    let blocks = plan.blocks(mark.level);
    let at = random.below(blocks.len());
    for (n, &block) in blocks.iter().enumerate() {
        if n == at {
            let erased = random.below(block.parity + 1);
            let changed = turning(random, block.parity, erased);
            hurt(plan, random, &mut square, block, erased, changed, Which::Any);
        } else if random.below(2) == 0 {
            hurt_in_reach(plan, random, &mut square, block, false);
        }
    }
    square
}

/// Damage after which the codeword that was written is still in reach of the block; where it is to be hard, only just so.
pub fn hurt_in_reach(plan: &Plan, random: &mut Random, square: &mut [u8], block: Block, hard: bool) {
    let p = block.parity;
    let (erased, most, which) = match random.below(4) {
        0 => (0, p / 2, Which::Any),
        1 => (random.below(p + 1), 0, Which::Light),
        _ => {
            let erased = 1 + random.below(p - 2);
            (erased, (p - 2 - erased) / 2, Which::Any)
        }
    };
    let changed = if hard { most } else { random.below(most + 1) };
    hurt(plan, random, square, block, erased, changed, which);
}

fn in_reach(plan: &Plan, random: &mut Random, mark: &Mark) -> Vec<u8> {
    let mut square = no_codeword(plan, random, mark);
    let flips = random.below(9);
    misinform_unknown(plan, random, &mut square, None, flips);
    let hard = random.below(3) == 0;
    for block in plan.blocks(mark.level) {
        hurt_in_reach(plan, random, &mut square, block, hard);
    }
    square
}

/// Flips information modules, in some order or on the way to a word, of which those that are light then may become unknown.
fn misinform_unknown(plan: &Plan, random: &mut Random, square: &mut [u8], word: Option<u64>, flips: usize) {
    match word {
        Some(word) => toward(plan, random, square, word, flips),
        None => misinform(plan, random, square, flips),
    }
    let chance = random.below(4);
    for i in (0..68).map(|n| plan.informed(n)) {
        if square[i] == 0 && random.below(3) < chance {
            square[i] = 2;
        }
    }
}

fn misread(plan: &Plan, random: &mut Random, mark: &Mark) -> Vec<u8> {
    let mut square = mark.square.clone();
    let other = info_bits(mark.version, random.below(4), random.below(4));
    let (word, flips) = ((random.below(2) == 0).then_some(other), random.below(14));
    misinform_unknown(plan, random, &mut square, word, flips);
    square
}

/// Leftover modules and those of patterns become anything.
fn no_codeword(plan: &Plan, random: &mut Random, mark: &Mark) -> Vec<u8> {
    let mut square = mark.square.clone();
    for modules in [&plan.leftover, &plan.fixed] {
        let count = random.below(modules.len() + 1);
        random.each_of(modules.len(), count, |random, n| square[modules[n]] = [0, 1, 2, 2][random.below(4)]);
    }
    square
}

/// One or two scratches, on a mark that may have some codewords changed before.
fn scratched(plan: &Plan, random: &mut Random, mark: &Mark) -> Vec<u8> {
    let (mut square, side) = (mark.square.clone(), plan.side);
    for _ in 0..random.below(3) {
        plan.change(&mut square, random.below(plan.codewords.len()), random.change());
    }
    for _ in 0..1 + random.below(2) {
        let [row, column] = [(); 2].map(|()| random.below(side));
        let (width, length) = (1 + random.below(3), 1 + random.below(side));
        match random.below(4) {
            0 => rectangle(&mut square, side, [row, 0], [width, side]),
            1 => rectangle(&mut square, side, [0, column], [side, width]),
            2 => {
                let [height, width] = [(); 2].map(|()| 1 + random.below(side / 4));
                rectangle(&mut square, side, [row, column], [height, width]);
            }
            _ => {
                let left = random.below(2) == 0;
                // Each row of the scratch begins one module farther to the right or to the left.
                for n in 0..length.min(side - row) {
                    let start = if left { column.checked_sub(n) } else { Some(column + n) };
                    start.into_iter().for_each(|start| rectangle(&mut square, side, [row + n, start], [1, width]));
                }
            }
        }
    }
    square
}

/// Makes a rectangle unknown, as far as it lies in the square.
fn rectangle(square: &mut [u8], side: usize, [row, column]: [usize; 2], [height, width]: [usize; 2]) {
    for row in row..(row + height).min(side) {
        for column in column..(column + width).min(side) {
            square[row * side + column] = 2;
        }
    }
}

/// One block becomes another codeword that differs from its own in as few places as it can. Some of these are erased, about as many of the
/// others as may be in reach of the other codeword stay as they were.
fn between(plan: &Plan, random: &mut Random, mark: &Mark) -> Vec<u8> {
    let (mut square, block) = (mark.square.clone(), any_block(plan, random, mark.level));
    let Block { start, data, parity } = block;
    let mut step = vec![0; data + parity];
    step[data - 1] = random.change();
    encode(gf256(0x163), &mut step, parity);
    let erased = random.below(parity + 1);
    let kept = turning(random, parity, erased);
    let mut met = 0;
    random.each_of(parity + 1, parity + 1, |random, n| {
        let place = data - 1 + n;
        if met >= erased + kept || met < erased && random.below(2) == 0 {
            plan.change(&mut square, start + place, step[place]);
        }
        if met < erased {
            blot(random, &mut square, &plan.codewords[start + place], Which::Any);
        }
        met += 1;
    });
    square
}

/// A block of a damaged mark beside the block that was written.
#[derive(Clone, Copy)]
pub struct Beside {
    pub parity: usize,
    /// How many codewords have an unknown module.
    pub erased: usize,
    /// How many codewords differ, an unknown module taken as light.
    pub changed: usize,
    /// How many of these are not erased.
    pub wrong: usize,
}

impl Beside {
    /// The premise: the codeword that was written is in reach.
    pub fn in_reach(&self) -> bool {
        let Self { parity, erased, changed, wrong } = *self;
        let reach = if erased == 0 { 2 * changed <= parity } else { 2 * wrong + erased + 2 <= parity };
        erased <= parity && (changed == 0 || reach)
    }

    /// Whether it is with erased codewords, but would not be with one more wrong codeword.
    pub fn hardly(&self) -> bool {
        self.erased > 0 && self.changed > 0 && self.in_reach() && !Self { wrong: self.wrong + 1, ..*self }.in_reach()
    }

    /// Whether it is not, with erased codewords, but would be with one erased or wrong codeword less.
    pub fn hardly_not(&self) -> bool {
        let more = 2 * self.wrong + self.erased + 2;
        self.changed > 0 && (1..=self.parity).contains(&self.erased) && more > self.parity && more <= self.parity + 2
    }
}

/// The blocks of a square beside those of the mark that it was, with the version, level and mask that were written.
pub fn beside(plan: &Plan, mark: &Mark, square: &[u8]) -> Vec<Beside> {
    let [before, after] = [&mark.square[..], square].map(|square| plan.bytes(square, mark.mask));
    let one = |block: Block| {
        let places = || block.start..block.start + block.data + block.parity;
        let erased = |place: &usize| plan.codewords[*place].iter().any(|&i| square[i] == 2);
        let changed = |place: &usize| before[*place] != after[*place];
        Beside {
            parity: block.parity,
            erased: places().filter(erased).count(),
            changed: places().filter(changed).count(),
            wrong: places().filter(|place| changed(place) && !erased(place)).count(),
        }
    };
    plan.blocks(mark.level).into_iter().map(one).collect()
}

/// How many information modules differ from those of the mark, an unknown one taken as light.
pub fn misinformed(plan: &Plan, mark: &Mark, square: &[u8]) -> usize {
    (0..68).map(|n| plan.informed(n)).filter(|&i| (square[i] == 1) != (mark.square[i] == 1)).count()
}
