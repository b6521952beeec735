//! Squares with unknown modules: both readings against a plain one (unknown/reading.rs) that is put together from parts of the original, on
//! number, receipt, payload, script and all other bytes of the lent buffers. And marks that meet the premises of the theorem are read as
//! they were written, with a count of their changed codewords.
mod damage;
mod faults;
mod reading;
mod speed;
use super::bad::{Lengths, both_readings};
use super::plan::Block;
use super::{Answer, Both, Mark, NUMBERS, Reading, kinds, read};
use crate::han_xin::{info_bits, nearest_info};
use crate::tools::{MARK, ROOM, Random, differs, fail, hex};
use damage::{Damage, beside, hurt_in_reach, misinformed};
pub use speed::{bench, most_each};

const PLENTY: Lengths = Lengths { payload: ROOM, script: ROOM, receipt: 12 };

/// How often each of these numbers must be met, so that the comparison says something of it.
const OFTEN: [(usize, usize); 9] =
    [(0, 50_000), (3, 5_000), (4, 5_000), (6, 20_000), (7, 5_000), (8, 2_000), (9, 5_000), (10, 2_000), (15, 10_000)];

/// Both sides, and what was met in all.
struct Unknowns<'a> {
    both: &'a mut Both,
    numbers: [usize; NUMBERS],
    /// Readings of marks that meet the premises; of those with a block with erased codewords that hardly does; and of marks that are
    /// refused with 6 and have a block that hardly misses them.
    promised: usize,
    hardly: usize,
    beyond: usize,
}

/// What is given.
struct Given<'a> {
    square: &'a [u8],
    how: Reading,
    lengths: Lengths,
}

/// What is answered: the number, and the lent receipt, payload and script after it.
type Told = (usize, [Vec<u8>; 3]);

impl Given<'_> {
    fn ours(&self) -> Told {
        let Lengths { payload, script, receipt } = self.lengths;
        let [mut receipt, mut payload, mut script] = [receipt, payload, script].map(|n| vec![MARK; n]);
        let number = read(self.square, self.how, &mut payload, &mut script, &mut receipt);
        (number, [receipt, payload, script])
    }

    /// What the lent buffers hold after an answer: a receipt of 12 bytes always, the rest at their front, and MARK beyond.
    fn lent(&self, answer: &Answer, script: &[u8]) -> Told {
        let Lengths { payload: p, script: s, receipt: r } = self.lengths;
        let full = |bytes: &[u8], n: usize| [bytes, &vec![MARK; n - bytes.len()]].concat();
        let receipt = if r == 12 { answer.receipt(script.len()).to_vec() } else { vec![MARK; r] };
        (answer.number, [receipt, full(&answer.payload, p), full(script, s)])
    }

    /// Ends at a difference.
    fn same<T: PartialEq + std::fmt::Debug>(&self, what: &str, ours: T, theirs: T) {
        if ours != theirs {
            differs(what, &self.shown(), &format!("{ours:?}"), &format!("{theirs:?}"));
        }
    }

    fn shown(&self) -> String {
        let modules: Vec<String> = self.square.iter().map(u8::to_string).collect();
        let between = if self.square.iter().all(|&b| b < 10) { "" } else { " " };
        format!("{:?}, {:?}, modules {}", self.how, self.lengths, modules.join(between))
    }
}

/// Where two answers differ: number, receipt, and in payload and script the first byte.
fn shown((number, [receipt, payload, script]): &Told, (_, [_, p, s]): &Told) -> String {
    let first = |ours: &[u8], theirs: &[u8]| match (0..ours.len()).find(|&i| ours[i] != theirs[i]) {
        None => "the same".to_owned(),
        Some(i) => format!("byte {i} {:02X}", ours[i]),
    };
    format!("{number}, receipt {}, payload {}, script {}", hex(receipt), first(payload, p), first(script, s))
}

impl Unknowns<'_> {
    /// One square on both sides: the answer, which is the same, and the script.
    fn one(&mut self, square: &[u8], how: Reading, lengths: Lengths) -> (Answer, Vec<u8>) {
        let given = Given { square, how, lengths };
        let (answer, script) = reading::read(square, how, lengths);
        let (ours, theirs) = (given.ours(), given.lent(&answer, &script));
        if ours != theirs {
            differs("a square with unknown modules", &given.shown(), &shown(&ours, &theirs), &shown(&theirs, &ours));
        }
        self.both.numbers[answer.number] += 1;
        (answer, script)
    }

    /// A damaged mark by both readings. Where the premises are met, it is read as it was written.
    fn damaged(&mut self, mark: &Mark, square: &[u8], lengths: Lengths) {
        let plan = self.both.plan(mark.version);
        let (blocks, differing) = (beside(plan, mark, square), misinformed(plan, mark, square));
        let distance = nearest_info(mark.version, plan.copies(square)).2;
        self.both.distances[distance as usize] += 1;
        for (how, distance) in both_readings(mark).into_iter().zip([differing, 0]) {
            let told = self.one(square, how, lengths);
            self.beyond += usize::from(told.0.number == 6 && blocks.iter().any(|b| b.hardly_not()));
            if distance > 8 || !blocks.iter().all(|b| b.in_reach()) {
                continue;
            }
            let Mark { version, level, mask, ref script, ref payload, .. } = *mark;
            let corrected = blocks.iter().map(|b| b.changed).sum();
            let written = Answer { number: 0, version, level, mask, corrected, distance, payload: payload.clone() };
            let expected = match (payload.len() > lengths.payload, script.len() > lengths.script) {
                (true, _) => (Answer::refused(9), Vec::new()),
                (_, true) => (Answer::refused(10), Vec::new()),
                _ => (written, script.clone()),
            };
            Given { square, how, lengths }.same("a mark that meets the premises (theirs: as written)", told, expected);
            self.promised += 1;
            self.hardly += usize::from(blocks.iter().any(|b| b.hardly()));
        }
    }

    /// Both readings of a mark's square, whose numbers are known.
    fn answer(&mut self, what: &str, mark: &Mark, square: &[u8], numbers: [usize; 2]) {
        for (how, number) in both_readings(mark).into_iter().zip(numbers) {
            self.answers(what, square, how, PLENTY, number);
        }
    }

    /// A reading whose number is known.
    fn answers(&mut self, what: &str, square: &[u8], how: Reading, lengths: Lengths, number: usize) {
        let (answer, _) = self.one(square, how, lengths);
        Given { square, how, lengths }.same(what, answer.number, number);
    }

    fn report(&mut self, kind: &str) {
        for (all, count) in self.numbers.iter_mut().zip(self.both.numbers) {
            *all += count;
        }
        self.both.report(kind, "read");
    }

    /// Says what was met in all, and ends where one of the answers was not met often.
    fn often(&self) {
        let Self { numbers, promised, hardly, beyond, .. } = self;
        let met: Vec<String> = OFTEN.iter().map(|(n, _)| format!("{} answered {n}", numbers[*n])).collect();
        println!(
            "squares: {:9} readings about unknown modules, all those above together: {}",
            numbers.iter().sum::<usize>(),
            met.join(", ")
        );
        println!(
            "squares: {promised:9} of these meet the premises, {hardly} hardly with erased codewords; {beyond} hardly miss them, answered 6"
        );
        let counts = OFTEN.iter().map(|&(n, least)| (format!("answered {n}"), numbers[n], least));
        let bounds = [("hardly meet the premises", *hardly), ("hardly miss them", *beyond)].map(|(what, n)| (what.to_owned(), n, 2_000));
        for (what, count, least) in counts.chain(bounds).filter(|(_, count, least)| count < least) {
            fail(&format!("squares with unknown modules: only {count} {what}, fewer than {least}"));
        }
    }
}

/// Each version, level and mask.
fn each_choice() -> impl Iterator<Item = [usize; 3]> {
    (1..=84).flat_map(|version| (0..16).map(move |k| [version, k / 4, k % 4]))
}

/// Lent buffers: mostly plenty, else exactly full for a mark, a byte short or empty.
fn room(random: &mut Random, mark: &Mark) -> Lengths {
    let (p, s) = (mark.payload.len(), mark.script.len());
    let (payload, script) = match random.below(16) {
        0 => (p, s),
        1 => (p - 1, s),
        2 => (p, s - 1),
        3 => (random.below(p + 1), random.below(s + 1)),
        _ => return PLENTY,
    };
    Lengths { payload, script, receipt: 12 }
}

/// Marks with a kind of damage: each version, level and mask, then some more, mostly of small versions.
fn damages(unknowns: &mut Unknowns, random: &mut Random, damage: Damage, name: &str) {
    let more = (0..10_000).map(|_| [0; 3]);
    for [version, level, mask] in each_choice().chain(more) {
        let both = &unknowns.both;
        let mark = if version > 0 { both.random_mark(random, version, level, mask) } else { kinds::random_mark(both, random) };
        let square = damage(both.plan(mark.version), random, &mark);
        let lengths = room(random, &mark);
        unknowns.damaged(&mark, &square, lengths);
    }
    unknowns.report(name);
}

/// A kind of squares that are no marks: how many, one of them, and what to call it.
type Kind = (usize, fn(&mut Unknowns, &mut Random), &'static str);

const KINDS: [Kind; 6] = [
    (6_000, mistaken, "marks with unknown modules read with another level or mask"),
    (20_000, any_data, "squares of random data, and of segments changed, with their parity and unknown modules in reach"),
    (20_000, any_square, "squares of random modules 0, 1 and 2, with and without an information word"),
    (6_000, light, "light squares with unknown modules under mask 0, which are codewords"),
    (6_000, above, "marks and random squares with unknown modules and with bytes above 2"),
    (10_000, none, "squares without unknown modules, against the original as a whole"),
];

/// Level and mask by the information or given.
fn any_reading(random: &mut Random, version: usize, level: usize, mask: usize) -> Reading {
    if random.below(2) == 0 { Reading::Side(2 * version + 21) } else { Reading::Known(version, level, mask) }
}

/// A mark with unknown modules in each block, read with a level or mask that it does not have.
fn mistaken(unknowns: &mut Unknowns, random: &mut Random) {
    let mark = kinds::random_mark(unknowns.both, random);
    let (plan, mut square) = (unknowns.both.plan(mark.version), mark.square.clone());
    for block in plan.blocks(mark.level) {
        hurt_in_reach(plan, random, &mut square, block, false);
    }
    let other = 1 + random.below(15);
    unknowns.one(&square, Reading::Known(mark.version, mark.level ^ other / 4, mark.mask ^ other % 4), PLENTY);
}

fn any_data(unknowns: &mut Unknowns, random: &mut Random) {
    let (version, level, mask) = (kinds::version(random), random.below(4), random.below(4));
    let plan = unknowns.both.plan(version);
    let mut square = kinds::data_square(plan, random, level, mask);
    for block in plan.blocks(level) {
        hurt_in_reach(plan, random, &mut square, block, false);
    }
    let how = any_reading(random, version, level, mask);
    unknowns.one(&square, how, PLENTY);
}

/// Random modules, of which one in 2 to 1,000 is unknown.
fn modules(random: &mut Random, side: usize) -> Vec<u8> {
    let rare = [2, 3, 10, 100, 1000][random.below(5)];
    (0..side * side).map(|_| if random.below(rare) == 0 { 2 } else { random.byte() & 1 }).collect()
}

fn any_square(unknowns: &mut Unknowns, random: &mut Random) {
    let (version, level, mask) = (kinds::version(random), random.below(4), random.below(4));
    let plan = unknowns.both.plan(version);
    let mut square = modules(random, plan.side);
    if random.below(2) == 0 {
        plan.inform(&mut square, info_bits(version, level, mask));
    }
    let how = any_reading(random, version, level, mask);
    unknowns.one(&square, how, PLENTY);
}

/// Light squares whose blocks are codewords of zeros, with few to many unknown modules.
fn light(unknowns: &mut Unknowns, random: &mut Random) {
    let (version, level) = (kinds::version(random), random.below(4));
    let plan = unknowns.both.plan(version);
    let mut square = vec![0; plan.side * plan.side];
    plan.inform(&mut square, info_bits(version, level, 0));
    let most = [4, 40, 400][random.below(3)];
    for _ in 0..random.below(most) {
        let modules = plan.codewords[random.below(plan.codewords.len())];
        square[modules[random.below(8)]] = 2;
    }
    let how = any_reading(random, version, level, 0);
    unknowns.one(&square, how, PLENTY);
}

fn above(unknowns: &mut Unknowns, random: &mut Random) {
    let mark = kinds::random_mark(unknowns.both, random);
    let side = unknowns.both.plan(mark.version).side;
    let random_square = random.below(2) == 0;
    let mut square = if random_square { modules(random, side) } else { mark.square.clone() };
    for _ in 0..1 + random.below(3) {
        square[random.below(side * side)] = 2;
    }
    // Above 2, of which 3 is the least; or modules of 0 to 3 all over.
    if random_square && random.below(4) == 0 {
        square.fill_with(|| random.byte() & 3);
    }
    square[random.below(side * side)] = [3, 4, 254, 255][random.below(4)];
    unknowns.answer("a byte above 2", &mark, &square, [3, 3]);
}

/// The plain reading and ours are here held to what `decode_matrix` and `decode_data` of the original answer.
fn none(unknowns: &mut Unknowns, random: &mut Random) {
    let mut mark = kinds::random_mark(unknowns.both, random);
    let plan = unknowns.both.plan(mark.version);
    match random.below(4) {
        0 => mark.square.fill_with(|| random.byte() & 1),
        1 => kinds::beyond(plan, random, &mut mark.square, mark.level),
        2 => mark.square = kinds::data_square(plan, random, mark.level, mark.mask),
        _ => {
            kinds::damage_all(plan, random, &mut mark.square, mark.level);
            let flips = random.below(12);
            kinds::misinform(plan, random, &mut mark.square, flips);
        }
    }
    for how in both_readings(&mark) {
        let (answer, _) = unknowns.one(&mark.square, how, PLENTY);
        let given = Given { square: &mark.square, how, lengths: PLENTY };
        given.same("the plain reading (ours: the plain reading, theirs: the original)", answer, unknowns.both.theirs(&mark.square, how));
    }
}

/// Squares that are unknown altogether, but for their information, and but for their codewords.
fn all(unknowns: &mut Unknowns, random: &mut Random) {
    for [version, level, mask] in each_choice() {
        let mark = unknowns.both.random_mark(random, version, level, mask);
        let plan = unknowns.both.plan(version);
        let square = vec![2; plan.side * plan.side];
        let (mut informed, mut codewords) = (square.clone(), square.clone());
        plan.inform(&mut informed, info_bits(version, level, mask));
        plan.codewords.iter().flatten().for_each(|&i| codewords[i] = mark.square[i]);
        unknowns.answer("unknown altogether", &mark, &square, [4, 15]);
        unknowns.answer("unknown but for its information", &mark, &informed, [15, 15]);
        unknowns.answer("unknown but for its codewords", &mark, &codewords, [4, 0]);
    }
    unknowns.report("squares unknown altogether, but for their information, and but for their codewords");
}

/// One block of a mark at its full reach, and then one module unknown: 6 where it belongs to a codeword of this block, else the mark is
/// read. So each module is seen to erase a codeword of its block alone, or none. Each module of small versions, some of the others.
fn each_module(unknowns: &mut Unknowns, random: &mut Random) {
    for [version, level, mask] in each_choice().filter(|&[version, level, mask]| mask == (version + level) % 4) {
        let mut mark = unknowns.both.random_mark(random, version, level, mask);
        let plan = unknowns.both.plan(version);
        let blocks = plan.blocks(level);
        let at = random.below(blocks.len());
        let Block { start, data, parity } = blocks[at];
        kinds::damage(plan, random, &mut mark.square, level, at, parity / 2);
        let own = plan.codewords[start..start + data + parity].concat();
        let (mut modules, area) = (plan.leftover.clone(), plan.side * plan.side);
        random.each_of(area, if version <= 6 { area } else { 8 }, |_, i| modules.push(i));
        random.each_of(own.len(), 8, |_, n| modules.push(own[n]));
        for i in modules {
            let number = if own.contains(&i) { 6 } else { 0 };
            let mut square = mark.square.clone();
            square[i] = 2;
            unknowns.answer(&format!("module {i} unknown"), &mark, &square, [number; 2]);
        }
    }
    unknowns.report("marks with one block at its full reach and one unknown module, each of versions 1 to 6");
}

pub fn compare(both: &mut Both) {
    let mut unknowns = Unknowns { both, numbers: [0; NUMBERS], promised: 0, hardly: 0, beyond: 0 };
    let mut random = Random::new(20);
    faults::compare(&mut unknowns, &mut random);
    for (damage, name) in damage::KINDS {
        damages(&mut unknowns, &mut random, damage, name);
    }
    for (count, one, name) in KINDS {
        for _ in 0..count {
            one(&mut unknowns, &mut random);
        }
        unknowns.report(name);
    }
    all(&mut unknowns, &mut random);
    each_module(&mut unknowns, &mut random);
    unknowns.often();
}
