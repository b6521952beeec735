//! Correct a block of which some places are erased: ours against `Field::correct_with_erasures` of the original, and where no place is
//! erased against its `correct`: answer, count and every byte. erased/search.rs has the rule itself, by search over all codewords.
mod search;
mod speed;
use crate::blocks::{Answer, damaged, encode, limits, theirs, unfit};
use crate::han_xin;
use crate::reed_solomon::{Field, gf256};
use crate::tools::{Random, differs, fail, hex};
pub use speed::bench;
use std::collections::BTreeSet;

unsafe extern "C" {
    fn hx_correct_erased(block: *mut u8, block_length: usize, flags: *const u8, flags_length: usize, parity: usize) -> Answer;
}

/// Ours. A place is erased where its flag is not 0.
pub fn correct_erased(block: &mut [u8], flags: &[u8], parity: usize) -> Answer {
    // SAFETY: each pointer and the length behind it are those of one slice, and the two slices do not overlap.
    unsafe { hx_correct_erased(block.as_mut_ptr(), block.len(), flags.as_ptr(), flags.len(), parity) }
}

/// The erased places, as the original takes them.
fn places(flags: &[u8]) -> Vec<usize> {
    (0..flags.len()).filter(|&i| flags[i] != 0).collect()
}

/// The original's answer with refusal numbers: which number its None is follows from the lengths, and a refused block counts as untouched.
fn their_answer(field: &Field<u8>, block: &mut [u8], flags: &[u8], parity: usize) -> Answer {
    if flags.len() != block.len() {
        return Answer { number: 2, count: 0 };
    }
    let erased = places(flags);
    if erased.is_empty() {
        return theirs(field, block, parity);
    }
    let before = block.to_vec();
    if let Some(count) = field.correct_with_erasures(block, parity, 1, &erased) {
        return Answer { number: 0, count };
    }
    block.copy_from_slice(&before);
    let refusal = if erased.len() > parity { 15 } else { 6 };
    Answer { number: if unfit(block.len(), parity) { 5 } else { refusal }, count: 0 }
}

/// How many blocks were answered in each way.
#[derive(Clone, Copy, Default)]
struct Tally {
    clean: usize,
    corrected: usize,
    two: usize,
    five: usize,
    six: usize,
    fifteen: usize,
}

impl Tally {
    fn add(&mut self, answer: Answer) {
        *match (answer.number, answer.count) {
            (0, 0) => &mut self.clean,
            (0, _) => &mut self.corrected,
            (2, _) => &mut self.two,
            (5, _) => &mut self.five,
            (6, _) => &mut self.six,
            _ => &mut self.fifteen,
        } += 1;
    }

    fn parts(&self) -> [(&str, usize); 6] {
        [
            ("clean", self.clean),
            ("corrected", self.corrected),
            ("answered 2", self.two),
            ("answered 5", self.five),
            ("answered 6", self.six),
            ("answered 15", self.fifteen),
        ]
    }

    fn report(&self, kind: &str) {
        let met: Vec<_> = self.parts().iter().filter(|p| p.1 > 0).map(|(name, count)| format!("{count} {name}")).collect();
        let tried: usize = self.parts().iter().map(|p| p.1).sum();
        println!("blocks: {tried:9} {kind}: {}", met.join(", "));
    }

    /// Ends where one of the answers, but for those that are left out, was met less often than it must be.
    fn often(&self, least: usize, but: &[&str]) {
        for (name, count) in self.parts().iter().filter(|p| !but.contains(&p.0)) {
            if *count < least {
                fail(&format!("blocks with erased places: only {count} were {name}, fewer than {least}"));
            }
        }
    }
}

/// What is given.
struct Given<'a> {
    block: &'a [u8],
    flags: &'a [u8],
    parity: usize,
}

impl Given<'_> {
    /// An answer, and the block after it.
    fn answer(&self, call: impl Fn(&mut [u8], &[u8], usize) -> Answer) -> (Answer, Vec<u8>) {
        let mut block = self.block.to_vec();
        (call(&mut block, self.flags, self.parity), block)
    }

    /// Ends at a difference.
    fn same(&self, what: &str, ours: &(Answer, Vec<u8>), theirs: &(Answer, Vec<u8>)) {
        if ours != theirs {
            let Self { block, flags, parity } = self;
            let input = format!("parity {parity}, {} bytes {}, {} flags {}", block.len(), hex(block), flags.len(), hex(flags));
            let shown = |(answer, block): &(Answer, Vec<u8>)| format!("{answer:?} {}", hex(block));
            differs(what, &input, &shown(ours), &shown(theirs));
        }
    }
}

/// Both sides on the same blocks: what was met since the last report, and in all, with erased places and with none.
struct Both<'a> {
    field: &'a Field<u8>,
    tally: Tally,
    erased: Tally,
    whole: Tally,
}

impl Both<'_> {
    fn block(&mut self, block: &[u8], flags: &[u8], parity: usize) {
        let given = Given { block, flags, parity };
        let their = given.answer(|b, flags, parity| their_answer(self.field, b, flags, parity));
        given.same("Correct a block with erased places", &given.answer(correct_erased), &their);
        self.tally.add(their.0);
        let all = if places(flags).is_empty() { &mut self.whole } else { &mut self.erased };
        all.add(their.0);
    }

    /// A codeword with so many erased places, at which all bytes are as written, some of them are wrong or all are, and with each of the
    /// turning numbers of errors elsewhere.
    fn damages(&mut self, random: &mut Random, word: &[u8], parity: usize, erased: usize) {
        for wrong in [0, 1, 2] {
            for errors in turning(parity, erased) {
                let (block, flags) = damage(random, word, erased, wrong, errors);
                self.block(&block, &flags, parity);
            }
        }
    }

    fn report(&mut self, kind: &str) {
        std::mem::take(&mut self.tally).report(kind);
    }
}

/// Numbers of errors beside so many erased places: none, the most that 2e + erased + 2 <= parity admits, one more and two more. With no place
/// erased, one more is the most that is admitted.
fn turning(parity: usize, erased: usize) -> BTreeSet<usize> {
    let beyond = parity.saturating_sub(erased) / 2;
    [0, beyond.saturating_sub(1), beyond, beyond + 1].into()
}

/// A flag of an erased place: 1 or any other number that is not 0.
fn flag(random: &mut Random) -> u8 {
    if random.below(2) == 0 { 1 } else { random.change() }
}

/// Flags with `erased` places.
fn erase(random: &mut Random, length: usize, erased: usize) -> Vec<u8> {
    let mut flags = vec![0; length];
    random.each_of(length, erased, |random, place| flags[place] = flag(random));
    flags
}

/// A codeword of which `erased` places are erased and each byte there is changed by a chance of `wrong` in 2, with `errors` bytes changed
/// elsewhere; and the flags.
fn damage(random: &mut Random, word: &[u8], erased: usize, wrong: usize, errors: usize) -> (Vec<u8>, Vec<u8>) {
    let (mut block, mut flags, mut met) = (word.to_vec(), vec![0; word.len()], 0);
    random.each_of(word.len(), erased + errors, |random, place| {
        met += 1;
        if met <= erased {
            flags[place] = flag(random);
        }
        if met > erased || random.below(2) < wrong {
            block[place] ^= random.change();
        }
    });
    (block, flags)
}

/// The lengths and parities of the block table.
fn table() -> BTreeSet<(usize, usize)> {
    let rows = (1..=84).flat_map(|version| (0..4).map(move |level| han_xin::access::row(version, level)));
    let batches = rows.flat_map(|row| row.as_chunks::<3>().0.to_vec()).map(|batch| batch.map(usize::from));
    batches.filter(|batch| batch[0] > 0).map(|[_, data, parity]| (data + parity, parity)).collect()
}

/// A length from 2 and a parity below it, at most so large.
fn shape(random: &mut Random, largest: usize) -> (usize, usize) {
    let length = 2 + random.below(254);
    (length, 1 + random.below((length - 1).min(largest)))
}

/// Each number of erased places: in the blocks that marks have up to one more than the parity, in short blocks up to all.
fn each_count(both: &mut Both, random: &mut Random) {
    for (length, parity) in table() {
        for erased in (0..=parity + 1).cycle().take(3 * (parity + 2)) {
            let word = damaged(both.field, random, length, parity, 0);
            both.damages(random, &word, parity, erased);
        }
    }
    both.report("blocks of the block table with 0 to parity + 1 erased places");
    for _ in 0..30 {
        for (length, parity) in (2..=16).flat_map(|length| (1..length).map(move |parity| (length, parity))) {
            let word = damaged(both.field, random, length, parity, 0);
            for erased in 0..=length {
                both.damages(random, &word, parity, erased);
            }
        }
    }
    both.report("blocks of each length 2 to 16 and each parity with 0 to all places erased");
}

/// Any lengths and parities. Those of a large parity are few, as the original takes milliseconds for one.
fn any_shape(both: &mut Both, random: &mut Random) {
    for _ in 0..20_000 {
        let (length, parity) = shape(random, 40);
        let (word, erased) = (damaged(both.field, random, length, parity, 0), random.below(parity + 2));
        both.damages(random, &word, parity, erased);
    }
    both.report("blocks of length 2 to 255 and parity to 40 with 0 to parity + 1 erased places");
    for round in 0..500 {
        let length = if round % 4 == 0 { 255 } else { 43 + random.below(213) };
        let parity = if round % 8 == 0 { length - 1 } else { 41 + random.below(length - 41) };
        let erased = if round % 10 == 0 { parity + 1 } else { random.below(parity + 1) };
        let word = damaged(both.field, random, length, parity, 0);
        both.damages(random, &word, parity, erased);
    }
    both.report("blocks of length 43 to 255 and parity above 40 with 0 to parity + 1 erased places");
}

/// Each place of each length erased and wrong, alone: out of reach with parity 2, in reach with 3 and more.
fn each_place(both: &mut Both, random: &mut Random) {
    for length in 4..=255 {
        for parity in [2, 3, (4 + random.below(37)).min(length - 1)] {
            let word = damaged(both.field, random, length, parity, 0);
            for place in 0..length {
                let (mut block, mut flags) = (word.clone(), vec![0; length]);
                block[place] ^= random.change();
                flags[place] = flag(random);
                both.block(&block, &flags, parity);
            }
        }
    }
    both.report("blocks of length 4 to 255 with one place erased and wrong, each place, parities 2, 3 and another to 40");
    for length in [3, 25] {
        let word = damaged(both.field, random, length, 2, 0);
        for erased in [1, 2] {
            for last in 0..=u16::MAX {
                let mut block = word.clone();
                let [high, low] = last.to_be_bytes();
                block[length - 2] ^= high;
                block[length - 1] ^= low;
                both.block(&block, &erase(random, length, erased), 2);
            }
        }
    }
    both.report("blocks of length 3 and 25, every pair of syndromes of parity 2, 1 and 2 erased places");
}

/// Blocks on the way from one codeword to another that differs from it in as few places as codewords can, some of these places erased.
fn between(both: &mut Both, random: &mut Random) {
    for _ in 0..40_000 {
        let (length, parity) = shape(random, 24);
        let mut step = vec![0; length];
        step[length - parity - 1] = random.change();
        encode(both.field, &mut step, parity);
        let (mut block, mut flags) = (damaged(both.field, random, length, parity, 0), vec![0; length]);
        let (changed, erased) = (random.below(parity + 2), random.below(parity + 1));
        let mut met = 0;
        random.each_of(parity + 1, parity + 1, |random, i| {
            let place = length - parity - 1 + i;
            if met < changed {
                block[place] ^= step[place];
            }
            if met >= parity + 1 - erased {
                flags[place] = flag(random);
            }
            met += 1;
        });
        both.block(&block, &flags, parity);
    }
    both.report("blocks between two codewords, erased places where these differ");
}

/// Words that are nothing in particular, and every length and parity that does not fit.
fn others(both: &mut Both, random: &mut Random) {
    for _ in 0..60_000 {
        let (length, parity) = shape(random, 32);
        let erased = if random.below(8) == 0 { random.below(length + 1) } else { random.below(parity + 2) };
        let mut block = vec![0; length];
        random.fill(&mut block);
        both.block(&block, &erase(random, length, erased), parity);
    }
    both.report("random words with erased places");
    for length in 0..=300 {
        for parity in limits(length) {
            for erased in [0, 1, 2, parity.min(length), parity.saturating_add(1).min(length), length] {
                let mut block = vec![0; length];
                random.fill(&mut block);
                both.block(&block, &erase(random, length, erased), parity);
            }
            both.block(&vec![0; length], &erase(random, length, 1 + length / 3), parity);
        }
    }
    let long = vec![7; 1 << 20];
    for parity in limits(long.len()) {
        both.block(&long, &erase(random, long.len(), 3), parity);
    }
    both.report("random words and words of 0, each length 0 to 300 and 2^20, parities at the limits, with erased places");
}

/// Flags that are not as many as the bytes, whatever else is wrong.
fn lengths(both: &mut Both, random: &mut Random) {
    for length in 0..=300usize {
        for flags in [0, 1, length.saturating_sub(1), length + 1, length + 2, 2 * length, 255, 256, random.below(400)] {
            for parity in [0, 1, 4, length.saturating_sub(1), length, usize::MAX].into_iter().filter(|_| flags != length) {
                let mut block = vec![0; length];
                random.fill(&mut block);
                let erased = random.below(flags + 1);
                both.block(&block, &erase(random, flags, erased), parity);
            }
        }
    }
    both.report("blocks with flags of another length");
}

pub fn compare() {
    let [tally, erased, whole] = [Tally::default(); 3];
    let mut both = Both { field: gf256(0x163), tally, erased, whole };
    let mut random = Random::new(4);
    each_count(&mut both, &mut random);
    any_shape(&mut both, &mut random);
    each_place(&mut both, &mut random);
    between(&mut both, &mut random);
    others(&mut both, &mut random);
    lengths(&mut both, &mut random);
    both.erased.report("of these with erased places");
    both.erased.often(10_000, &[]);
    both.whole.report("of these with none, by the rule of Correct a block");
    both.whole.often(1_000, &["answered 15"]);
    search::compare();
}
