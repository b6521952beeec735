//! How much stack our calls take.
use super::speed::filled;
use super::{Both, Reading, read, unknown, write, write_smallest};
use crate::tools::{ROOM, Random};

/// How far below a call's caller the stack is written.
const DEEP: usize = 4 << 20;
const PAINT: u8 = 0x5C;

/// Bytes of stack that a call writes, by painting what lies below and looking for the lowest byte that changed.
#[inline(never)]
fn depth(call: &mut dyn FnMut()) -> usize {
    let here = std::ptr::from_ref(&call).addr();
    let (low, high) = (here - DEEP, here - 4096);
    for at in low..high {
        // SAFETY: these bytes lie in the stack of this thread, which is larger, below the frames in use.
        unsafe { std::ptr::with_exposed_provenance_mut::<u8>(at).write_volatile(PAINT) };
    }
    call();
    // SAFETY: as above.
    let changed = (low..high).find(|&at| unsafe { std::ptr::with_exposed_provenance::<u8>(at).read_volatile() } != PAINT);
    changed.map_or(4096, |at| here - at)
}

fn stack_of(call: impl FnMut() + Send) -> usize {
    let mut call = call;
    std::thread::scope(|scope| {
        let thread = std::thread::Builder::new().stack_size(2 * DEEP).spawn_scoped(scope, move || depth(&mut call));
        thread.unwrap().join().unwrap()
    })
}

/// Data of region switches that never end, of 84 at level 0: the deepest reading.
fn switches(both: &Both) -> Vec<u8> {
    let plan = both.plan(84);
    let mut bits = crate::written::Bits::default();
    bits.put(4, 4);
    while bits.0.len() + 12 <= 8 * plan.room(0) {
        bits.put(12, 4094);
    }
    plan.square(0, 0, &plan.stream(0, &bits.bytes()))
}

/// The four calls, on full squares, on one with erased codewords and on the deepest reading.
pub fn stack() {
    let both = Both::new();
    let mut random = Random::new(14);
    let [small, large] = [1, 84].map(|version| filled(&both, &mut random, version, 0, 0));
    let erased = unknown::most_each(both.plan(84), &mut random, &large);
    let squares = [
        ("version 1", small.square),
        ("version 84", large.square),
        ("version 84, parity - 2 erased in each block", erased),
        ("version 84, region switches without end", switches(&both)),
    ];
    println!();
    let (mut payload, mut script, mut receipt) = (vec![0; ROOM], vec![0; ROOM], [0; 12]);
    for (name, square) in squares {
        let side = square.len().isqrt();
        for (call, how) in [("hx_read_square", Reading::Side(side)), ("hx_read_known", Reading::Known((side - 21) / 2, 0, 0))] {
            let bytes = stack_of(|| {
                read(&square, how, &mut payload, &mut script, &mut receipt);
            });
            println!("stack of {call}, {name}: {bytes} bytes");
        }
    }
    for version in [1, 84] {
        let mut mark = filled(&both, &mut random, version, 0, 3);
        let bytes = stack_of(|| {
            write(version, 0, 3, &mark.script, &mark.payload, &mut mark.square);
        });
        println!("stack of hx_write_square, version {version}: {bytes} bytes");
        let bytes = stack_of(|| {
            write_smallest(0, 3, &mark.script, &mark.payload, &mut mark.square);
        });
        println!("stack of hx_write_smallest, version {version}: {bytes} bytes");
    }
}
