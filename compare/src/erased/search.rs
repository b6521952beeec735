//! The rule of a block with erased places, by search over all codewords of its length and parity. No decoder has a part in it.
use super::{Given, Tally, correct_erased, flag, their_answer};
use crate::blocks::{Answer, encode};
use crate::reed_solomon::{Field, gf256};
use crate::tools::{Random, differs, hex};

/// Lengths and parities with one or two bytes of data, and how many words of each are tried.
const SHAPES: [(usize, usize, usize); 13] = [
    (2, 1, 2_000),
    (3, 2, 2_000),
    (4, 3, 2_000),
    (5, 4, 2_000),
    (6, 5, 2_000),
    (7, 6, 2_000),
    (8, 7, 2_000),
    (3, 1, 600),
    (4, 2, 600),
    (5, 3, 600),
    (6, 4, 600),
    (7, 5, 600),
    (8, 6, 600),
];

/// All codewords of a length and parity.
struct Code {
    length: usize,
    parity: usize,
    words: Vec<Vec<u8>>,
}

/// The codewords that differ from a block in exactly one set of places: how many, and one of them.
#[derive(Clone, Default)]
struct Differing<'a> {
    count: usize,
    word: &'a [u8],
}

/// How many numbers are in a set, of which each bit stands for one.
fn size(set: usize) -> usize {
    set.count_ones() as usize
}

impl Code {
    fn new(field: &Field<u8>, length: usize, parity: usize) -> Self {
        let data = length - parity;
        let word = |n: usize| {
            let mut word = vec![0; length];
            word[..data].copy_from_slice(&n.to_be_bytes()[size_of::<usize>() - data..]);
            encode(field, &mut word, parity);
            word
        };
        Self { length, parity, words: (0..1 << (8 * data)).map(word).collect() }
    }

    /// The codewords by the set of places in which they differ from a block.
    fn differing(&self, block: &[u8]) -> Vec<Differing<'_>> {
        let mut all = vec![Differing::default(); 1 << self.length];
        for word in &self.words {
            let set = (0..self.length).map(|i| usize::from(word[i] != block[i]) << i).sum::<usize>();
            all[set].count += 1;
            all[set].word = word;
        }
        all
    }

    /// Whether the rule admits a codeword that differs from the block in a set of places, of which some are erased.
    fn admits(&self, set: usize, erased: usize) -> bool {
        let (f, e) = (size(erased), size(set & !erased));
        let within = if f == 0 { 2 * e <= self.parity } else { 2 * e + f + 2 <= self.parity };
        set == 0 || within
    }

    /// The answer of the rule, and the block that it leaves. Ends where more than one codeword is admitted.
    fn answer(&self, block: &[u8], all: &[Differing], erased: usize) -> (Answer, Vec<u8>) {
        if size(erased) > self.parity {
            return (Answer { number: 15, count: 0 }, block.to_vec());
        }
        let admitted: Vec<usize> = (0..all.len()).filter(|&set| all[set].count > 0 && self.admits(set, erased)).collect();
        match admitted[..] {
            [] => (Answer { number: 6, count: 0 }, block.to_vec()),
            [set] if all[set].count == 1 => (Answer { number: 0, count: size(set) }, all[set].word.to_vec()),
            _ => differs(
                "the number of codewords that the rule admits",
                &format!("parity {}, bytes {}, erased {erased:b}", self.parity, hex(block)),
                &admitted.iter().map(|&set| all[set].count).sum::<usize>().to_string(),
                "at most 1",
            ),
        }
    }

    /// A word: one in four random, the others codewords with up to 4 changes.
    fn word(&self, random: &mut Random, n: usize) -> Vec<u8> {
        let mut word = self.words[random.below(self.words.len())].clone();
        if n % 4 == 0 {
            random.fill(&mut word);
        } else {
            let changes = random.below(5);
            random.each_of(self.length, changes, |random, place| word[place] ^= random.change());
        }
        word
    }
}

/// Ours and the original against the rule, on a word with each set of its places erased.
fn each_set(field: &Field<u8>, random: &mut Random, code: &Code, block: &[u8], tally: &mut Tally) {
    let all = code.differing(block);
    for erased in 0..1usize << code.length {
        let flags: Vec<u8> = (0..code.length).map(|i| if erased >> i & 1 == 0 { 0 } else { flag(random) }).collect();
        let given = Given { block, flags: &flags, parity: code.parity };
        let rule = code.answer(block, &all, erased);
        given.same("Correct a block with erased places (theirs: by search)", &given.answer(correct_erased), &rule);
        let original = given.answer(|b, flags, parity| their_answer(field, b, flags, parity));
        given.same("the original (ours: the original, theirs: by search)", &original, &rule);
        tally.add(rule.0);
    }
}

pub fn compare() {
    let field = gf256(0x163);
    let mut random = Random::new(5);
    let mut tally = Tally::default();
    for (length, parity, words) in SHAPES {
        let code = Code::new(field, length, parity);
        for n in 0..words {
            let block = code.word(&mut random, n);
            each_set(field, &mut random, &code, &block, &mut tally);
        }
    }
    tally.report("blocks of length 2 to 8 with each set of places erased, by search over all codewords");
    tally.often(1_000, &["answered 2", "answered 5"]);
}
