//! The field and Correct a block: our `correct` against `Field::correct` of the original, answer, count and every byte.
use crate::erased;
use crate::reed_solomon::{Field, access, gf256};
use crate::others::Fec;
use crate::places;
use crate::sheet::{Sheet, time};
use crate::tools::{Random, differs, hex};
use std::hint::black_box;

#[repr(C)]
#[derive(Clone, Copy, PartialEq, Eq, Debug)]
pub struct Answer {
    pub number: usize,
    pub count: usize,
}

unsafe extern "C" {
    fn hx_correct(block: *mut u8, length: usize, parity: usize) -> Answer;
    fn hx_parity(block: *mut u8, length: usize, parity: usize) -> usize;
    safe fn hx_mul(a: u8, b: u8) -> u8;
    safe fn hx_div(a: u8, b: u8) -> u8;
    safe fn hx_power(n: usize) -> u8;
}

fn ours(block: &mut [u8], parity: usize) -> Answer {
    // SAFETY: the pointer and the length are those of one mutable slice.
    unsafe { hx_correct(block.as_mut_ptr(), block.len(), parity) }
}

/// The parity bytes of a block by our function, which is compared with the original's products here.
pub fn our_parity(block: &mut [u8], parity: usize) -> usize {
    // SAFETY: the pointer and the length are those of one mutable slice.
    unsafe { hx_parity(block.as_mut_ptr(), block.len(), parity) }
}

/// Whether a block of this length cannot have this parity.
pub fn unfit(length: usize, parity: usize) -> bool {
    parity == 0 || parity >= length || length > 255
}

/// The original's answer with refusal numbers: its None is 5 or 6 by SPECIFICATION 10.5, and a refused block counts as untouched.
pub fn theirs(field: &Field<u8>, block: &mut [u8], parity: usize) -> Answer {
    let before = block.to_vec();
    match field.correct(block, parity, 1) {
        Some(count) => Answer { number: 0, count },
        None => {
            block.copy_from_slice(&before);
            Answer {
                number: if unfit(block.len(), parity) { 5 } else { 6 },
                count: 0,
            }
        }
    }
}

/// What was tried: how many blocks of a kind, and how they were answered.
#[derive(Default)]
struct Tally {
    tried: usize,
    clean: usize,
    corrected: usize,
    five: usize,
    six: usize,
}

struct Both<'a> {
    field: &'a Field<u8>,
    tally: Tally,
}

impl Both<'_> {
    fn block(&mut self, block: &[u8], parity: usize) {
        let (mut a, mut b) = (block.to_vec(), block.to_vec());
        let our = ours(&mut a, parity);
        let their = theirs(self.field, &mut b, parity);
        if our != their || a != b {
            differs(
                "Correct a block",
                &format!("parity {parity}, {} bytes {}", block.len(), hex(block)),
                &format!("{our:?} {}", hex(&a)),
                &format!("{their:?} {}", hex(&b)),
            );
        }
        self.tally.tried += 1;
        match (their.number, their.count) {
            (0, 0) => self.tally.clean += 1,
            (0, _) => self.tally.corrected += 1,
            (5, _) => self.tally.five += 1,
            _ => self.tally.six += 1,
        }
    }

    fn report(&mut self, kind: &str) {
        let t = std::mem::take(&mut self.tally);
        println!(
            "blocks: {:9} {kind}: {} clean, {} corrected, {} answered 5, {} answered 6",
            t.tried, t.clean, t.corrected, t.five, t.six
        );
    }
}

/// The parity bytes behind the data, by the original's products: what remains of the data divided by the generator.
pub fn encode(field: &Field<u8>, block: &mut [u8], parity: usize) {
    let mut generator = vec![1u8];
    for j in 1..=parity {
        let root = access::power(field, j);
        let mut next = generator.clone();
        next.push(0);
        for (i, &g) in generator.iter().enumerate() {
            next[i + 1] ^= access::mul(field, g, root);
        }
        generator = next;
    }
    let data = block.len() - parity;
    let mut rest = block.to_vec();
    rest[data..].fill(0);
    for i in 0..data {
        let q = rest[i];
        for (j, &g) in generator.iter().enumerate() {
            rest[i + j] ^= access::mul(field, q, g);
        }
    }
    block[data..].copy_from_slice(&rest[data..]);
}

/// A codeword with `errors` of its bytes changed.
pub fn damaged(
    field: &Field<u8>,
    random: &mut Random,
    length: usize,
    parity: usize,
    errors: usize,
) -> Vec<u8> {
    let mut block = vec![0; length];
    random.fill(&mut block);
    encode(field, &mut block, parity);
    random.each_of(length, errors, |random, place| {
        block[place] ^= random.change();
    });
    block
}

/// Our parity against division by the original's products; the original, which has no writer, must find nothing to correct.
fn parities(field: &Field<u8>, random: &mut Random) {
    let mut tried = [0; 2];
    for length in 0..=300 {
        for parity in limits(length)
            .into_iter()
            .chain([random.below(260), random.below(40)])
        {
            let mut block = vec![0; length];
            random.fill(&mut block);
            let (mut a, mut b) = (block.clone(), block.clone());
            let our = our_parity(&mut a, parity);
            let unfit = unfit(length, parity);
            if !unfit {
                encode(field, &mut b, parity);
            }
            let their = if unfit { 5 } else { 0 };
            if our != their || a != b || (!unfit && field.correct(&mut b, parity, 1) != Some(0)) {
                differs(
                    "the parity of a block",
                    &format!("parity {parity}, bytes {}", hex(&block)),
                    &format!("{our} {}", hex(&a)),
                    &format!("{their} {}", hex(&b)),
                );
            }
            tried[usize::from(unfit)] += 1;
        }
    }
    println!(
        "blocks: {:9} parities of blocks written, {} answered 5",
        tried[0], tried[1]
    );
}

fn products(field: &Field<u8>) {
    let mut tried = 0;
    for a in 0..=255u8 {
        for b in 0..=255u8 {
            let (our, their) = (hx_mul(a, b), access::mul(field, a, b));
            if our != their {
                differs(
                    "a product",
                    &format!("{a} {b}"),
                    &our.to_string(),
                    &their.to_string(),
                );
            }
            tried += 1;
            let (our, their) = (
                hx_div(a, b),
                if b == 0 { 0 } else { access::div(field, a, b) },
            );
            if our != their {
                differs(
                    "a quotient",
                    &format!("{a} {b}"),
                    &our.to_string(),
                    &their.to_string(),
                );
            }
            tried += 1;
        }
    }
    for n in 0..4096 {
        let (our, their) = (hx_power(n), access::power(field, n));
        if our != their {
            differs(
                "a power",
                &n.to_string(),
                &our.to_string(),
                &their.to_string(),
            );
        }
        tried += 1;
    }
    println!("blocks: {tried:9} products, quotients and powers");
}

/// The parities at which something changes for a length.
pub fn limits(length: usize) -> Vec<usize> {
    let mut out = vec![
        0,
        1,
        2,
        3,
        4,
        5,
        30,
        31,
        32,
        127,
        128,
        253,
        254,
        255,
        256,
        257,
        1 << 20,
        1 << 63,
        usize::MAX,
    ];
    for p in [
        length.wrapping_sub(2),
        length.wrapping_sub(1),
        length,
        length + 1,
        length / 2,
    ] {
        out.push(p);
    }
    out
}

pub fn compare() {
    let field = gf256(0x163);
    products(field);
    let mut both = Both {
        field,
        tally: Tally::default(),
    };
    let mut random = Random::new(1);
    parities(field, &mut random);

    for length in 2..=255 {
        for last in 0..=255 {
            let mut block = damaged(field, &mut random, length, 1, 0);
            block[length - 1] ^= last;
            both.block(&block, 1);
        }
    }
    both.report("every syndrome of parity 1, each length");
    for length in [
        3, 4, 5, 6, 7, 8, 9, 10, 16, 25, 31, 32, 33, 50, 64, 100, 127, 128, 129, 150, 187, 200,
        253, 254, 255,
    ] {
        let word = damaged(field, &mut random, length, 2, 0);
        for last in 0..65536u32 {
            let mut block = word.clone();
            block[length - 2] ^= last.to_be_bytes()[2];
            block[length - 1] ^= last.to_be_bytes()[3];
            both.block(&block, 2);
        }
    }
    both.report("every pair of syndromes of parity 2, 25 lengths");

    for length in 0..=300 {
        for parity in limits(length) {
            for _ in 0..4 {
                let mut block = vec![0; length];
                random.fill(&mut block);
                both.block(&block, parity);
            }
            both.block(&vec![0; length], parity);
            both.block(&vec![255; length], parity);
        }
    }
    let long = vec![7; 1 << 20];
    for parity in limits(1 << 20) {
        both.block(&long, parity);
    }
    both.report("random, all 0 and all FF, each length 0 to 300 and 2^20, parities at the limits");

    for length in 2..=255 {
        for _ in 0..12 {
            let parity = 1 + random.below((length - 1).min(40));
            for errors in 0..=parity / 2 + 3 {
                both.block(&damaged(field, &mut random, length, parity, errors), parity);
            }
        }
        for parity in [
            length - 1,
            (length - 1).min(128),
            1 + random.below(length - 1),
        ] {
            for errors in [0, 1, parity / 4, parity / 2, parity / 2 + 1, parity / 2 + 3] {
                both.block(&damaged(field, &mut random, length, parity, errors), parity);
            }
        }
    }
    both.report("codewords with 0 to floor(parity/2) + 3 changes, each length 2 to 255");
    for _ in 0..30_000 {
        let parity = 1 + random.below(32);
        let length = parity + 1 + random.below(187 - parity);
        for errors in [
            0,
            1,
            parity / 2,
            parity / 2 + 1,
            random.below(parity / 2 + 4),
        ] {
            both.block(&damaged(field, &mut random, length, parity, errors), parity);
        }
    }
    both.report("codewords of the lengths that marks have, changed");
    let wrong = gf256(0x11d);
    for _ in 0..20_000 {
        let parity = 1 + random.below(32);
        let length = parity + 1 + random.below(255 - parity);
        both.block(&damaged(wrong, &mut random, length, parity, 0), parity);
    }
    both.report("codewords of another field");
    places::compare();
    erased::compare();
}

/// Lengths and parities that are timed.
pub const SHAPES: [(usize, usize); 6] = [(25, 4), (50, 30), (150, 28), (187, 30), (255, 32), (255, 128)];

/// Calls on a copy of the next of some blocks.
fn each<'a, T>(blocks: &'a [Vec<u8>], mut call: impl FnMut(&mut [u8]) -> T + 'a) -> impl FnMut() + 'a {
    let (mut work, mut i) = (blocks[0].clone(), 0);
    move || {
        work.copy_from_slice(&blocks[i % blocks.len()]);
        i += 1;
        black_box(call(&mut work));
    }
}

/// Blocks beside the original and beside libfec, and parities beside libfec: the original writes none.
pub fn bench(sheet: &mut Sheet) {
    sheet.part("blocks", "Rust");
    let field = gf256(0x163);
    corrections(sheet, "block", |_, parity| Some(Box::new(move |b| field.correct(b, parity, 1).is_some())));
    erased::bench(sheet);
    sheet.part("blocks", "libfec");
    if Fec::new(25, 4).is_none() {
        println!("libfec (Debian's libfec-dev) is not installed, so its times are left out");
    }
    corrections(sheet, "block beside libfec", |length, parity| {
        let code = Fec::new(length, parity)?;
        Some(Box::new(move |b| code.correct(b) >= 0))
    });
    let mut random = Random::new(2);
    for (length, parity) in SHAPES {
        let blocks: Vec<Vec<u8>> = (0..64).map(|_| damaged(field, &mut random, length, parity, 0)).collect();
        let mut ours = each(&blocks, |b| our_parity(b, parity));
        let code = Fec::new(length, parity);
        let mut theirs = code.as_ref().map(|code| each(&blocks, |b| code.parity(b)));
        let times = time(&mut ours, theirs.as_mut().map(|call| call as &mut dyn FnMut()));
        sheet.case("parity beside libfec", &format!("({length}, {parity})"), 0, times);
    }
}

/// Whether a block was corrected.
type Correct = Box<dyn FnMut(&mut [u8]) -> bool>;

/// Blocks in each situation, beside another corrector.
fn corrections(sheet: &mut Sheet, group: &str, other: impl Fn(usize, usize) -> Option<Correct>) {
    let field = gf256(0x163);
    let mut random = Random::new(2);
    for (name, wrong) in [("clean", 0), ("half of the reach", 1), ("full reach", 2), ("out of reach", 4)] {
        for (length, parity) in SHAPES {
            let blocks: Vec<Vec<u8>> = (0..64).map(|_| damaged(field, &mut random, length, parity, wrong * parity / 4)).collect();
            let mut our_call = each(&blocks, |b| ours(b, parity));
            let mut their_call = other(length, parity).map(|call| each(&blocks, call));
            let times = time(&mut our_call, their_call.as_mut().map(|call| call as &mut dyn FnMut()));
            sheet.case(&format!("{group}, {name}"), &format!("({length}, {parity})"), 0, times);
        }
    }
}

/// The list of `replay_blocks`: length and parity, two bytes each, and the block; and the Rust's answers, a line each.
pub fn record() -> (Vec<u8>, String) {
    let field = gf256(0x163);
    let mut random = Random::new(3);
    let mut blocks: Vec<(Vec<u8>, usize)> = Vec::new();
    for length in [0usize, 1, 2, 3, 5, 254, 255, 256, 300] {
        for parity in [
            0,
            1,
            2,
            4,
            length,
            length + 1,
            length.saturating_sub(1),
            length.saturating_sub(2),
            65535,
        ] {
            let mut block = vec![0; length];
            blocks.push((block.clone(), parity));
            random.fill(&mut block);
            blocks.push((block, parity));
            blocks.push((vec![255; length], parity));
        }
    }
    for (length, parity) in [
        (2, 1),
        (3, 1),
        (3, 2),
        (6, 5),
        (10, 1),
        (10, 3),
        (10, 9),
        (25, 4),
        (40, 7),
        (50, 30),
        (150, 28),
        (187, 30),
        (255, 32),
        (255, 128),
        (255, 254),
    ] {
        for errors in [
            0,
            1,
            2,
            parity / 4,
            parity / 2,
            parity / 2 + 1,
            parity / 2 + 2,
            parity / 2 + 3,
        ] {
            let copies = if length < 60 { 6 } else { 1 };
            for _ in 0..copies {
                blocks.push((damaged(field, &mut random, length, parity, errors), parity));
            }
        }
        blocks.push((
            damaged(gf256(0x11d), &mut random, length, parity, 0),
            parity,
        ));
    }
    let (mut list, mut answers) = (Vec::new(), String::new());
    for (block, parity) in blocks {
        for n in [block.len(), parity] {
            list.extend(u16::try_from(n).unwrap().to_be_bytes());
        }
        list.extend(&block);
        let mut after = block;
        let answer = theirs(field, &mut after, parity);
        answers += &format!("{} {} {}\n", answer.number, answer.count, hex(&after));
    }
    assert!(list.len() <= 65536, "the replay reads at most 65,536 bytes");
    (list, answers)
}
