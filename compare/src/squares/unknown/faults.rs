//! Two faults at once in squares with unknown modules, for each two that can meet in the order of refusals; and short buffers.
use super::damage::{Which, beside, hurt, hurt_in_reach};
use super::{Lengths, Unknowns};
use crate::han_xin::nearest_info;
use crate::squares::bad::{both_readings, square_of};
use crate::squares::plan::Plan;
use crate::squares::{Mark, Reading};
use crate::tools::Random;

const SHORT: Lengths = Lengths { payload: 0, script: 0, receipt: 12 };

pub fn compare(unknowns: &mut Unknowns, random: &mut Random) {
    for version in [1, 2, 5, 7, 12, 30, 84] {
        for (level, mask) in (0..16).map(|k| (k / 4, k % 4)) {
            let mark = unknowns.both.random_mark(random, version, level, mask);
            early(unknowns, random, &mark);
            in_blocks(unknowns, random, &mark);
            in_data(unknowns, random, &mark);
            lent(unknowns, random, &mark);
        }
    }
    unknowns.report("two faults at once in squares with unknown modules, and short buffers");
}

impl Unknowns<'_> {
    /// Both readings of a mark's square, with plenty of room and with none.
    fn refused(&mut self, what: &str, mark: &Mark, square: &[u8], numbers: [usize; 2]) {
        self.answer(what, mark, square, numbers);
        for (how, number) in both_readings(mark).into_iter().zip(numbers) {
            self.answers(what, square, how, SHORT, number);
        }
    }
}

/// What happens to a block: it is accepted with erased codewords, it gets 15, or it gets 6.
#[derive(Clone, Copy, PartialEq)]
enum Fate {
    Accepted,
    Over,
    Lost,
}

/// A square like that of a mark, with a block that meets its fate. The square has the mark's level and mask.
fn meet(plan: &Plan, random: &mut Random, mark: &Mark, square: &[u8], block: usize, fate: Fate) -> Vec<u8> {
    let (before, at) = (Mark { square: square.to_vec(), ..mark.clone() }, plan.blocks(mark.level)[block]);
    let p = at.parity;
    loop {
        let (mut square, more) = (square.to_vec(), random.below(2));
        match fate {
            Fate::Accepted => hurt_in_reach(plan, random, &mut square, at, true),
            Fate::Over => hurt(plan, random, &mut square, at, p + 1 + more, 0, Which::Any),
            Fate::Lost => hurt(plan, random, &mut square, at, p - more, 0, Which::Any),
        }
        let met = beside(plan, &before, &square)[block];
        // With so many erased codewords and any of them changed, no codeword is in reach.
        let lost = met.changed > 0 && (p - 1..=p).contains(&met.erased);
        if [met.erased > 0 && met.in_reach(), met.erased > p, lost][fate as usize] {
            return square;
        }
    }
}

/// Information far from each word of the version, with unknown modules.
fn misinformed(plan: &Plan, random: &mut Random, mark: &Mark, square: &[u8]) -> Vec<u8> {
    let mut far = square.to_vec();
    let words = || (0..1 << 34).step_by(0x1234_567);
    plan.inform(&mut far, words().find(|&w| nearest_info(mark.version, [w, w]).2 > 10).unwrap());
    for i in (0..68).map(|n| plan.informed(n)) {
        if far[i] == 0 && random.below(2) == 0 {
            far[i] = 2;
        }
    }
    far
}

/// Receipt before side, version and length; these before 3; 3 before 4, 15 and 6; 4 before 15 and 6.
fn early(unknowns: &mut Unknowns, random: &mut Random, mark: &Mark) {
    let Mark { version, level, mask, .. } = *mark;
    let plan = unknowns.both.plan(version);
    let last = plan.blocks(level).len() - 1;
    let [over, lost] = [Fate::Over, Fate::Lost].map(|fate| meet(plan, random, mark, &mark.square, last, fate));
    let [far_over, far_lost] = [&over, &lost].map(|square| misinformed(plan, random, mark, square));
    let side = plan.side;
    let [over_three, lost_three, far_three] = [&over, &lost, &far_over].map(|square| {
        let mut square = square.clone();
        square[random.below(side * side)] = 3;
        square
    });
    let none = Lengths { receipt: [0, 11, 13][random.below(3)], ..SHORT };
    for how in both_readings(mark).into_iter().chain([Reading::Side(22), Reading::Known(0, 4, 4)]) {
        unknowns.answers("receipt before all else", &far_three[1..], how, none, 2);
    }
    for how in [Reading::Side(side + 1), Reading::Side(191), Reading::Known(85, level, mask), Reading::Known(version, 4, mask)] {
        unknowns.answers("1 before 2, 3, 4 and 15", &far_three[1..], how, SHORT, 1);
        unknowns.answers("1 before 3, 4 and 15", &far_three, how, SHORT, 1);
    }
    unknowns.refused("2 before 3, 4 and 15: one module short", mark, &[&[3], &far_three[2..]].concat(), [2, 2]);
    unknowns.refused("2 before 3, 4 and 15: one module long", mark, &[&far_three[..], &[3]].concat(), [2, 2]);
    unknowns.refused("3 before 4 and 15", mark, &far_three, [3, 3]);
    unknowns.refused("3 before 15", mark, &over_three, [3, 3]);
    unknowns.refused("3 before 6", mark, &lost_three, [3, 3]);
    unknowns.refused("4 before 15, which the known reading gets", mark, &far_over, [4, 15]);
    unknowns.refused("4 before 6, which the known reading gets", mark, &far_lost, [4, 6]);
}

/// The first block that is not accepted decides between 15 and 6, and a block that is lost as well as over gets 15.
fn in_blocks(unknowns: &mut Unknowns, random: &mut Random, mark: &Mark) {
    let plan = unknowns.both.plan(mark.version);
    let (blocks, last) = (plan.blocks(mark.level), plan.blocks(mark.level).len() - 1);
    let mut cases = Vec::new();
    let fates = [Fate::Accepted, Fate::Over, Fate::Lost];
    for (first, second) in fates.into_iter().flat_map(|first| fates.map(|second| (first, second))).filter(|_| last > 0) {
        let square = meet(plan, random, mark, &mark.square, 0, first);
        let number = [0, 15, 6][if first == Fate::Accepted { second } else { first } as usize];
        cases.push((meet(plan, random, mark, &square, last, second), number));
    }
    for (n, &block) in blocks.iter().enumerate().filter(|(n, _)| *n == 0 || *n == last) {
        let mut square = mark.square.clone();
        hurt(plan, random, &mut square, block, 0, block.data + block.parity, Which::Any);
        cases.push((meet(plan, random, mark, &square, n, Fate::Over), 15));
    }
    for (square, number) in cases {
        unknowns.answer("two blocks", mark, &square, [number; 2]);
    }
}

/// 15 and 6 of any block before 7 and 8 of the data, which stand at the front of the first block; 7 and 8 where all blocks are accepted.
fn in_data(unknowns: &mut Unknowns, random: &mut Random, mark: &Mark) {
    // An unknown mode behind no payload; an ECI alone; an unknown mode behind some text.
    let broken: [(&[(usize, usize)], usize); 3] =
        [(&[(4, 8), (8, 5), (4, 9)], 7), (&[(4, 8), (8, 5), (4, 0)], 8), (&[(4, 2), (6, 1), (6, 63), (4, 9)], 7)];
    let blocks = unknowns.both.plan(mark.version).blocks(mark.level).len();
    for (fields, number) in broken {
        let square = square_of(unknowns.both, mark, fields);
        for (fate, number) in [(Fate::Accepted, number), (Fate::Over, 15), (Fate::Lost, 6)] {
            for block in [0, random.below(blocks), blocks - 1] {
                let square = meet(unknowns.both.plan(mark.version), random, mark, &square, block, fate);
                unknowns.refused("blocks before data, these before buffers", mark, &square, [number; 2]);
            }
        }
    }
}

/// 15 and 6 before 9 and 10; and a mark with unknown modules in each block in buffers that are exactly full, a byte short or empty.
fn lent(unknowns: &mut Unknowns, random: &mut Random, mark: &Mark) {
    let plan = unknowns.both.plan(mark.version);
    let blocks = plan.blocks(mark.level).len();
    let at = random.below(blocks);
    let [over, lost] = [Fate::Over, Fate::Lost].map(|fate| meet(plan, random, mark, &mark.square, at, fate));
    let square = (0..blocks).fold(mark.square.clone(), |square, block| meet(plan, random, mark, &square, block, Fate::Accepted));
    let (p, s) = (mark.payload.len(), mark.script.len());
    let rooms = [(p, s, 0), (p + 1, s + 1, 0), (p - 1, s, 9), (p - 1, s - 1, 9), (0, 0, 9), (0, s, 9), (p, s - 1, 10), (p, 0, 10)];
    for (payload, script, number) in rooms {
        let lengths = Lengths { payload, script, receipt: 12 };
        unknowns.damaged(mark, &square, lengths);
        for how in both_readings(mark) {
            unknowns.answers("buffers", &square, how, lengths, number);
            unknowns.answers("15 before 9 and 10", &over, how, lengths, 15);
            unknowns.answers("6 before 9 and 10", &lost, how, lengths, 6);
        }
    }
}
