//! The symbol: version, layout, information words and places, masks and the block table, against the original's.
use crate::han_xin::{Module, access, info_bits, info_positions, layout, nearest_info, size, version};
use crate::sheet::{Sheet, time};
use crate::squares::VERSIONS;
use crate::tools::{Random, same};
use std::hint::black_box;

#[repr(C)]
#[derive(Clone, Copy, PartialEq, Eq, Debug)]
struct Word {
    number: usize,
    word: u64,
}

#[repr(C)]
#[derive(Clone, Copy, PartialEq, Eq, Debug)]
struct Nearest {
    number: usize,
    level: usize,
    mask: usize,
    distance: usize,
}

unsafe extern "C" {
    safe fn hx_version(side: usize) -> usize;
    fn hx_layout(version: usize, out: *mut u8, length: usize) -> usize;
    safe fn hx_info_bits(version: usize, level: usize, mask: usize) -> Word;
    safe fn hx_nearest_info(version: usize, first: u64, second: u64) -> Nearest;
    safe fn hx_total(version: usize) -> usize;
    safe fn hx_block_number(version: usize, level: usize, n: usize) -> u8;
    safe fn hx_masked(mask: usize, row: usize, column: usize) -> usize;
    safe fn hx_info_position(side: usize, copy: usize, n: usize) -> usize;
}

pub fn our_layout(version: usize, out: &mut [u8]) -> usize {
    // SAFETY: the pointer and the length are those of one mutable slice.
    unsafe { hx_layout(version, out.as_mut_ptr(), out.len()) }
}

/// The original's answers as refusal numbers: its panics and its answers outside the ranges are 1 (SPECIFICATION 10.2 to 10.4).
fn legal(v: usize) -> bool {
    (1..=84).contains(&v)
}

fn their_version(side: usize) -> usize {
    version(side).unwrap_or(0)
}

fn their_layout(v: usize, out: &mut [u8]) -> usize {
    if !legal(v) {
        return 1;
    }
    if out.len() < size(v) * size(v) {
        return 2;
    }
    for (byte, module) in out.iter_mut().zip(layout(v)) {
        *byte = match module {
            Module::Data => 0,
            Module::Info => 1,
            Module::Light => 2,
            Module::Dark => 3,
        };
    }
    0
}

fn their_word(v: usize, level: usize, mask: usize) -> Word {
    if legal(v) && level < 4 && mask < 4 {
        Word { number: 0, word: info_bits(v, level, mask) }
    } else {
        Word { number: 1, word: 0 }
    }
}

fn their_nearest(v: usize, read: [u64; 2]) -> Nearest {
    if !legal(v) {
        return Nearest { number: 1, level: 0, mask: 0, distance: 0 };
    }
    let (level, mask, distance) = nearest_info(v, read);
    Nearest { number: 0, level, mask, distance: usize::try_from(distance).unwrap() }
}

/// The numbers of a constant in a source text.
fn numbers(text: &str, name: &str) -> Vec<usize> {
    let after = &text[text.find(&format!("const {name}: ")).unwrap()..];
    let start = after.find("= [").unwrap();
    let body = &after[start..start + after[start..].find("];").unwrap()];
    body.split(|c: char| !c.is_ascii_digit()).filter(|w| !w.is_empty()).map(|w| w.parse().unwrap()).collect()
}

/// r of each version as `spacing_of` works it out; versions 1 to 3 have no alignment patterns, and 0 in the original.
fn remainders() -> Vec<usize> {
    let (k, m) = (numbers(SYMBOL, "MODULE_K"), numbers(SYMBOL, "MODULE_M"));
    (1..=84).map(|v| if v < 4 { 0 } else { 2 * v + 21 - m[v - 1] * k[v - 1] }).collect()
}

const THEIRS: &str = include_str!(concat!(env!("OUT_DIR"), "/han_xin.rs"));
const SYMBOL: &str = include_str!("../../crates/symbol/src/table.rt");
const TABLE: &str = include_str!("../../crates/block_table/src/table.rt");
const SOURCE: &str = include_str!("../../scripts/blocks.txt");

fn tables() {
    let mut count = 0;
    for name in ["MODULE_K", "MODULE_R", "MODULE_M", "TOTAL_CODEWORDS", "BLOCKS"] {
        let ours = match name {
            "MODULE_R" => remainders(),
            "MODULE_K" | "MODULE_M" => numbers(SYMBOL, name),
            _ => numbers(TABLE, name),
        };
        let theirs = numbers(THEIRS, name);
        assert_eq!(theirs.len(), if name == "BLOCKS" { 3024 } else { 84 });
        same("the text of a table", name, &ours, &theirs);
        count += theirs.len();
    }
    println!("symbol: {count} numbers of the tables against the text of the original");
    let lines: Vec<Vec<usize>> = SOURCE
        .lines()
        .filter(|l| !l.starts_with('#'))
        .map(|l| l.split(|c: char| !c.is_ascii_digit()).filter(|w| !w.is_empty()).map(|w| w.parse().unwrap()).collect())
        .collect();
    let (totals, rows) = (numbers(THEIRS, "TOTAL_CODEWORDS"), numbers(THEIRS, "BLOCKS"));
    same("the source of the tables", "lines", lines.len(), 84);
    for (v, numbers) in lines.iter().enumerate() {
        same("the source of the tables", &format!("version {}", v + 1), numbers[0], totals[v]);
        same("the source of the tables", &format!("version {}", v + 1), &numbers[1..], &rows[36 * v..36 * v + 36]);
    }
    let mut count = 0;
    for v in [0, 85, 1 << 63, usize::MAX] {
        same("the total", &format!("version {v}"), hx_total(v), 0);
    }
    for v in 1..=84 {
        same("the total", &format!("version {v}"), hx_total(v), usize::from(access::total(v)));
        for level in 0..4 {
            for (n, &x) in access::row(v, level).iter().enumerate() {
                same("the block table", &format!("version {v}, level {level}, number {n}"), hx_block_number(v, level, n), x);
                count += 1;
            }
        }
    }
    println!("symbol: 84 totals and {count} block numbers as the code reads them, and those of scripts/blocks.txt");
}

fn versions() {
    let mut count = 0;
    for side in (0..1000).chain([1 << 32, 1 << 63, usize::MAX - 1, usize::MAX]) {
        same("the version of a side", &format!("{side}"), hx_version(side), their_version(side));
        count += 1;
    }
    println!("symbol: {count} sides");
}

fn layouts() {
    let (mut bytes, mut refused) = (0, 0);
    for v in (0..100).chain([1 << 31, 1 << 63, usize::MAX]) {
        let full = if legal(v) { size(v) * size(v) } else { 529 };
        for length in [full, full + 1, full + 300, full - 1, 1, 0] {
            let before: Vec<u8> = (0..length).map(|i| u8::try_from(i % 251).unwrap()).collect();
            let (mut ours, mut theirs) = (before.clone(), before);
            let (a, b) = (our_layout(v, &mut ours), their_layout(v, &mut theirs));
            same("the layout's answer", &format!("version {v}, {length} bytes"), a, b);
            if let Some(i) = (0..length).find(|&i| ours[i] != theirs[i]) {
                same("the layout", &format!("version {v}, {length} bytes, place {i}"), ours[i], theirs[i]);
            }
            if a == 0 { bytes += length } else { refused += 1 }
        }
    }
    println!("symbol: 84 layouts in three buffers each, {bytes} bytes, and {refused} refusals");
}

fn words() {
    let (mut count, mut refused) = (0, 0);
    for v in (0..100).chain([1 << 31, 1 << 63, usize::MAX]) {
        for level in [0, 1, 2, 3, 4, 5, 1 << 63] {
            for mask in [0, 1, 2, 3, 4, 5, 1 << 63] {
                let (a, b) = (hx_info_bits(v, level, mask), their_word(v, level, mask));
                same("the information word", &format!("version {v}, level {level}, mask {mask}"), a, b);
                if a.number == 0 { count += 1 } else { refused += 1 }
            }
        }
    }
    println!("symbol: {count} information words and {refused} refusals");
    let mut count = 0;
    for v in 1..=84 {
        for (n, pair) in info_positions(size(v)).iter().enumerate() {
            for (copy, &place) in pair.iter().enumerate() {
                same("the information place", &format!("version {v}, bit {n}, copy {copy}"), hx_info_position(size(v), copy, n), place);
                count += 1;
            }
        }
    }
    println!("symbol: {count} information places");
}

fn one_nearest(v: usize, read: [u64; 2]) -> usize {
    let ours = hx_nearest_info(v, read[0], read[1]);
    same("the nearest word", &format!("version {v}, copies {:09X} {:09X}", read[0], read[1]), ours, their_nearest(v, read));
    ours.distance
}

/// Bit n of two copies is flipped.
fn flip(read: &mut [u64; 2], n: usize) {
    read[n / 34] ^= 1 << (n % 34);
}

fn nearest() {
    let mut near = 0;
    for v in [1, 20, 84] {
        for k in 0..16 {
            let word = info_bits(v, k / 4, k % 4);
            for a in 0..=68 {
                for b in a..=68 {
                    for c in b..=68 {
                        // 68 stands for no flip; a flip is made once.
                        if (a == b && a < 68) || (b == c && b < 68) {
                            continue;
                        }
                        let mut read = [word, word];
                        for n in [a, b, c] {
                            if n < 68 {
                                flip(&mut read, n);
                            }
                        }
                        one_nearest(v, read);
                        near += 1;
                    }
                }
            }
        }
    }
    println!("symbol: nearest word of {near} pairs of copies, all those at distance 0 to 3 from a word of versions 1, 20 and 84");
    let mut random = Random::new(7);
    let (mut ties, mut high, mut plain, mut far) = (0, 0, 0, 0);
    for turn in 0..3_000_000 {
        let v = 1 + random.below(84);
        let word = |k: usize| info_bits(v, k / 4, k % 4);
        let (i, j) = (random.below(16), random.below(16));
        let mut read = [word(i), word(i)];
        match turn % 4 {
            0 => {
                // halfway between two words
                let mut flips: Vec<usize> = (0..68).filter(|n| (word(i) ^ word(j)) >> (n % 34) & 1 == 1).collect();
                for _ in 0..flips.len() / 2 {
                    let n = flips.swap_remove(random.below(flips.len()));
                    flip(&mut read, n);
                }
                ties += 1;
            }
            1 => {
                for _ in 0..random.below(20) {
                    flip(&mut read, random.below(68));
                }
                read[0] ^= random.next() >> 34 << 34;
                read[1] ^= u64::from(random.byte()) << 56;
                high += 1;
            }
            2 => {
                for _ in 0..random.below(24) {
                    flip(&mut read, random.below(68));
                }
                plain += 1;
            }
            _ => {
                read = [random.next(), random.next() & random.next()];
                far += 1;
            }
        }
        one_nearest(v, read);
    }
    for v in [0, 85, 1 << 31, 1 << 63, usize::MAX] {
        one_nearest(v, [random.next(), random.next()]);
    }
    println!("symbol: nearest word of {ties} halfway between two words, {high} with bits above bit 33, {plain} near a word, {far} random, and 5 refusals");
}

fn masks() {
    let mut count = 0;
    for v in 1..=84 {
        for mask in 0..4 {
            for row in 0..size(v) {
                for column in 0..size(v) {
                    let theirs = usize::from(access::masked(mask, row, column));
                    same("the mask", &format!("mask {mask}, row {row}, column {column}"), hx_masked(mask, row, column), theirs);
                    count += 1;
                }
            }
        }
    }
    println!("symbol: four masks over 84 squares, {count} modules");
}

pub fn compare() {
    tables();
    versions();
    layouts();
    words();
    nearest();
    masks();
}

/// Layouts, and the nearest word of what was read.
pub fn bench(sheet: &mut Sheet) {
    sheet.part("the symbol", "Rust");
    let mut out = vec![0; 189 * 189];
    for v in VERSIONS {
        let mut ours = || {
            black_box(our_layout(black_box(v), &mut out));
        };
        let mut theirs = || {
            black_box(layout(black_box(v)));
        };
        sheet.case("layout", &format!("v{v}"), size(v) * size(v), time(&mut ours, Some(&mut theirs)));
    }
    let mut random = Random::new(11);
    let reads: Vec<(usize, [u64; 2])> = (0..64)
        .map(|_| {
            let v = 1 + random.below(84);
            let mut read = [info_bits(v, random.below(4), random.below(4)); 2];
            for _ in 0..random.below(6) {
                flip(&mut read, random.below(68));
            }
            (v, read)
        })
        .collect();
    let (mut i, mut j) = (0, 0);
    let mut ours = || {
        let (v, read) = reads[i % 64];
        i += 1;
        black_box(hx_nearest_info(v, read[0], read[1]));
    };
    let mut theirs = || {
        let (v, read) = reads[j % 64];
        j += 1;
        black_box(nearest_info(v, read));
    };
    sheet.case("information", "nearest word", 0, time(&mut ours, Some(&mut theirs)));
}

/// Two sums over the bytes of a layout, for the replay: a layout is too long to print.
fn sums(bytes: &[u8]) -> u64 {
    let (mut a, mut b) = (1u64, 0u64);
    for &x in bytes {
        a = (a + u64::from(x)) % 65521;
        b = (b + a) % 65521;
    }
    b * 65536 + a
}

/// The list of `replay_symbol`, 18 bytes a record: a kind, a version, and two numbers of eight bytes; and the Rust's answers, a line each.
/// Kind 1: layout, the first number is the buffer's length; 2: information word of level and mask; 3: nearest word to two copies; 4: the
/// version of a side.
pub fn record() -> (Vec<u8>, String) {
    let mut random = Random::new(5);
    let mut records: Vec<(u8, u8, u64, u64)> = Vec::new();
    for v in [0u8, 1, 2, 3, 4, 5, 10, 11, 20, 21, 22, 40, 57, 84, 85, 255] {
        let full = if legal(usize::from(v)) { size(usize::from(v)).pow(2) } else { 529 };
        for length in [full, full + 1, full - 1, 0] {
            records.push((1, v, u64::try_from(length.min(35721)).unwrap(), 0));
        }
    }
    for v in (1..=84u8).chain([0, 85, 255]) {
        records.push((1, v, 35721, 0));
        for level in 0..5 {
            for mask in 0..5 {
                if (level < 4 && mask < 4) || v % 20 == 0 {
                    records.push((2, v, level, mask));
                }
            }
        }
    }
    for side in (0..200).chain([1 << 32, 1 << 63, u64::MAX]) {
        records.push((4, 0, side, 0));
    }
    for turn in 0..1500u64 {
        let v = u8::try_from(1 + random.below(84)).unwrap();
        let word = |k: usize| info_bits(usize::from(v), k / 4, k % 4);
        let (i, j) = (random.below(16), random.below(16));
        let mut read = [word(i), word(i)];
        let mut flips: Vec<usize> = (0..68).filter(|n| (word(i) ^ word(j)) >> (n % 34) & 1 == 1).collect();
        if turn % 2 == 0 {
            for _ in 0..flips.len() / 2 {
                let n = flips.swap_remove(random.below(flips.len()));
                flip(&mut read, n);
            }
        } else {
            for _ in 0..random.below(20) {
                flip(&mut read, random.below(68));
            }
            if turn % 3 == 0 {
                read[0] ^= random.next() >> 34 << 34;
            }
        }
        records.push((3, if turn % 100 == 99 { 85 } else { v }, read[0], read[1]));
    }
    let (mut list, mut answers) = (Vec::new(), String::new());
    for (kind, v, first, second) in records {
        list.extend([kind, v]);
        list.extend(first.to_be_bytes());
        list.extend(second.to_be_bytes());
        let (w, one, two) = (usize::from(v), usize::try_from(first).unwrap(), usize::try_from(second).unwrap());
        answers += &match kind {
            1 => {
                let mut out = vec![7; one];
                let number = their_layout(w, &mut out);
                format!("{number} {}\n", sums(&out))
            }
            2 => {
                let answer = their_word(w, one, two);
                format!("{} {}\n", answer.number, answer.word)
            }
            3 => {
                let a = their_nearest(w, [first, second]);
                format!("{} {} {} {}\n", a.number, a.level, a.mask, a.distance)
            }
            _ => format!("{}\n", their_version(one)),
        };
    }
    assert!(list.len() <= 65536, "the replay reads at most 65,536 bytes");
    (list, answers)
}
