//! What `bench/instructions` counts under callgrind: some operations of both sides, once each.
use super::speed::{digits, digits_beyond, filled, full_reach, original};
use super::{Both, Mark, Reading, read, write, write_smallest};
use crate::han_xin::layout;
use crate::others::Zint;
use crate::symbol::our_layout;
use crate::tools::{ROOM, Random};
use std::hint::black_box;

/// Callgrind collects inside this function alone, and writes a file each time that it is left.
#[unsafe(no_mangle)]
#[inline(never)]
fn bench_counted(call: &mut dyn FnMut()) {
    call();
    black_box(());
}

/// Calls once to warm up, once to be counted, and says what was counted.
fn counted(name: &str, side: &str, call: &mut dyn FnMut()) {
    call();
    bench_counted(call);
    println!("{name}\t{side}");
}

pub fn instructions() {
    let both = Both::new();
    // The smallest mark has a sequence of its own, so that the inputs of the others are the same with and without it.
    let (mut random, mut other) = (Random::new(17), Random::new(18));
    let (level, mut kinds) = (1, vec![0; 189 * 189]);
    for version in [1, 20, 84] {
        for mask in [0, 3] {
            let mark = filled(&both, &mut random, version, level, mask);
            let name = format!("v{version}, mask {mask}");
            reading(&format!("read {name}, clean"), &mark.square);
            reading(&format!("read {name}, full reach"), &full_reach(&both, &mut random, &mark));
            writing(&format!("write {name}"), &digits(&both, &mut random, version, level, mask));
            smallest(&format!("smallest {name}"), &digits_beyond(&both, &mut other, version, level, mask));
        }
        let name = format!("layout v{version}");
        counted(&name, "ours", &mut || {
            black_box(our_layout(version, &mut kinds));
        });
        counted(&name, "Rust", &mut || {
            black_box(layout(version));
        });
    }
}

fn reading(name: &str, square: &[u8]) {
    let how = Reading::Side(square.len().isqrt());
    let modules: Vec<bool> = square.iter().map(|&b| b == 1).collect();
    let (mut payload, mut script, mut receipt) = (vec![0; ROOM], vec![0; ROOM], [0; 12]);
    counted(name, "ours", &mut || {
        black_box(read(square, how, &mut payload, &mut script, &mut receipt));
    });
    counted(name, "Rust", &mut || {
        black_box(original(&modules, how));
    });
}

fn writing(name: &str, mark: &Mark) {
    let mut square = mark.square.clone();
    counted(name, "ours", &mut || {
        black_box(write(mark.version, mark.level, mark.mask, &mark.script, &mark.payload, &mut square));
    });
    if let Some(zint) = Zint::new(mark.version, mark.level, mark.mask, &mark.payload) {
        counted(name, "zint", &mut || {
            black_box(zint.write());
        });
    }
}

/// Beside Write a square at the version that it finds.
fn smallest(name: &str, mark: &Mark) {
    let mut square = mark.square.clone();
    counted(name, "ours", &mut || {
        black_box(write_smallest(mark.level, mark.mask, &mark.script, &mark.payload, &mut square));
    });
    counted(name, "write", &mut || {
        black_box(write(mark.version, mark.level, mark.mask, &mark.script, &mark.payload, &mut square));
    });
}
