//! The search for error places: the locator's values at the places of a block, by terms that are carried from place to place and afresh at each
//! place, against values by the original's products; and the times of both.
use crate::blocks::SHAPES;
use crate::reed_solomon::{Field, access, gf256};
use crate::sheet::{Sheet, Times, time};
use crate::tools::{MARK, Random, hex, same};
use std::hint::black_box;

unsafe extern "C" {
    fn hx_places(f: *const u8, f_length: usize, l: usize, e: *mut u8, e_length: usize, afresh: usize, again: usize) -> usize;
}

#[derive(Clone, Copy)]
enum Way {
    Carried,
    Afresh,
}

/// The number answered, and in `e` the values of the locator f of length l at as many degrees as `e` has bytes, found again so many times.
fn search(way: Way, f: &[u8], l: usize, e: &mut [u8], again: usize) -> usize {
    // SAFETY: pointers and lengths are those of one slice each.
    unsafe { hx_places(f.as_ptr(), f.len(), l, e.as_mut_ptr(), e.len(), way as usize, again) }
}

/// Locators of a length: all 0, all FF, random, with one coefficient that is not zero, and as the corrector has them.
fn locators(field: &Field<u8>, random: &mut Random, l: usize) -> Vec<Vec<u8>> {
    let mut all = vec![vec![0; 256], vec![255; 256]];
    for _ in 0..3 {
        let mut f = vec![0; 256];
        random.fill(&mut f[..=l]);
        all.push(f.clone());
        random.each_of(l + 1, l, |_, i| f[i] = 0);
        all.push(f);
    }
    all.push(locator(field, random, 255, l));
    all
}

/// The locator of some places of a block, by the original's products.
fn locator(field: &Field<u8>, random: &mut Random, length: usize, places: usize) -> Vec<u8> {
    let mut f = vec![0; 256];
    f[0] = 1;
    let mut l = 0;
    random.each_of(length, places, |_, d| {
        l += 1;
        for i in (1..=l).rev() {
            f[i] ^= access::mul(field, f[i - 1], access::power(field, d));
        }
    });
    f
}

/// The value at x of a polynomial, highest coefficient first, by the original's products.
fn value(field: &Field<u8>, f: &[u8], x: u8) -> u8 {
    f.iter().fold(0, |v, &c| access::mul(field, v, x) ^ c)
}

/// One locator at the degrees below n, in both ways.
fn one(field: &Field<u8>, f: &[u8], l: usize, n: usize) {
    let theirs: Vec<u8> = (0..n).map(|d| value(field, &f[..=l], access::power(field, d))).collect();
    for (way, name) in [(Way::Carried, "values by carried terms"), (Way::Afresh, "values afresh")] {
        let mut e = vec![MARK; n];
        let number = search(way, f, l, &mut e, 0);
        same(name, &format!("length {l}, {n} degrees, locator {}", hex(f)), (number, &e), (0, &theirs));
    }
}

/// What is refused writes nothing.
fn refused() -> usize {
    let cases = [(255, 0, 256), (257, 0, 256), (0, 0, 0), (256, 256, 256), (256, usize::MAX, 0), (256, 255, 257)];
    for (f, l, e) in cases {
        for way in [Way::Carried, Way::Afresh] {
            let mut values = vec![MARK; e];
            let number = search(way, &vec![1; f], l, &mut values, 0);
            same("a search", &format!("locator of {f} bytes, length {l}, {e} degrees"), (number, values), (2, vec![MARK; e]));
        }
    }
    cases.len() * 2
}

pub fn compare() {
    let field = gf256(0x163);
    let mut random = Random::new(8);
    let mut tried = 0;
    for l in 0..=255 {
        for f in locators(field, &mut random, l) {
            for n in [0, 1, 2, 3, 4, 5, 25, 50, 150, 187, 253, 254, 255, 256, random.below(257)] {
                one(field, &f, l, n);
                tried += 2;
            }
        }
    }
    println!("blocks: {tried:9} searches for places, by carried terms and afresh; {} refused", refused());
}

/// The search at full reach, and with parity - 2 places erased, by carried terms beside the same afresh.
pub fn bench(sheet: &mut Sheet) {
    sheet.part("place search", "afresh");
    let field = gf256(0x163);
    let mut random = Random::new(9);
    let situations: [(&str, fn(usize) -> usize); 2] = [("full reach", |parity| parity / 2), ("parity - 2 erased", |parity| parity - 2)];
    for (name, places) in situations {
        for (length, parity) in SHAPES {
            let l = places(parity);
            let locators: Vec<Vec<u8>> = (0..64).map(|_| locator(field, &mut random, length, l)).collect();
            let (mut ours, mut theirs) = (each(Way::Carried, &locators, l, length), each(Way::Afresh, &locators, l, length));
            let t = time(&mut ours, Some(&mut theirs));
            let times = Times { ours: t.ours / TIMES as f64, theirs: t.theirs.map(|x| x / TIMES as f64) };
            sheet.case(&format!("place search, {name}"), &format!("({length}, {parity})"), 0, times);
        }
    }
}

/// How often a call of the benchmark searches, so that the copy of the field's table does not count.
const TIMES: usize = 50;

/// Calls on the next of some locators.
fn each<'a>(way: Way, locators: &'a [Vec<u8>], l: usize, length: usize) -> impl FnMut() + 'a {
    let (mut e, mut i) = (vec![0; length], 0);
    move || {
        i += 1;
        black_box(search(way, &locators[i % locators.len()], l, &mut e, TIMES - 1));
    }
}
