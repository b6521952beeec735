//! The list of `replay_squares`.
use super::kinds::{beyond, damage_all, misinform, toward};
use super::outside::{Given, recorded};
use super::{Both, packed};
use crate::han_xin::{decode_matrix, info_bits};
use crate::tools::{Random, hex};
use crate::written::Written;

/// The original's line: the payload in hexadecimal and the count of corrections, or `-`.
fn answer(square: &[u8]) -> String {
    let modules: Vec<bool> = square.iter().map(|&b| b == 1).collect();
    decode_matrix(&modules, square.len().isqrt()).map_or("-".to_owned(), |r| format!("{} {}", hex(&r.bytes), r.corrected))
}

/// A square of each kind of one version, level and mask.
fn kinds(both: &Both, random: &mut Random, version: usize, level: usize, mask: usize) -> Vec<Vec<u8>> {
    let plan = both.plan(version);
    let written = Written::starting(random, 1 + (version + level + mask) % 8, 2, 8, 8 * plan.room(level));
    let mark = both.mark(version, level, mask, written);
    let mut squares = vec![mark.square.clone(); 6];
    damage_all(plan, random, &mut squares[1], level);
    misinform(plan, random, &mut squares[1], 8);
    let flips = 9 + random.below(4);
    misinform(plan, random, &mut squares[2], flips);
    plan.inform(&mut squares[3], info_bits(version, 2, 0));
    toward(plan, random, &mut squares[3], info_bits(version, 0, 0), 9);
    beyond(plan, random, &mut squares[4], level);
    for module in &mut squares[5] {
        *module = random.byte() & 1;
    }
    plan.inform(&mut squares[5], info_bits(version, level, mask));
    squares
}

/// Records of a side and its modules, 8 to a byte; and the original's answers, a line each. The marks of another writer come last.
pub fn record() -> (Vec<u8>, String) {
    let both = Both::new();
    let mut random = Random::new(15);
    let mut squares = Vec::new();
    for version in 1..=6 {
        for k in 0..if version == 1 { 16 } else { 8 } {
            squares.extend(kinds(&both, &mut random, version, k % 4, (k + k / 4) % 4));
        }
    }
    for (version, level, mask) in [(10, 3, 1), (21, 2, 2)] {
        squares.extend(kinds(&both, &mut random, version, level, mask));
    }
    squares.push(both.random_mark(&mut random, 84, 3, 3).square);
    for Given { name, square, payload } in recorded() {
        assert_eq!(answer(&square), format!("{} 0", hex(&payload)), "{name}");
        squares.push(square);
    }
    let (mut list, mut answers) = (Vec::new(), String::new());
    for square in squares {
        list.push(u8::try_from(square.len().isqrt()).unwrap());
        list.extend(packed(&square));
        answers += &answer(&square);
        answers.push('\n');
    }
    assert!(list.len() <= 65536, "the replay reads at most 65,536 bytes, not {}", list.len());
    (list, answers)
}
