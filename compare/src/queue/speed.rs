//! Times of the queue: beside the plain queue and beside plain Rust over the same 12 bytes, with the same events, and beside our own reading
//! of a small mark.
use super::{Plain, SIZE, hand_in, turn};
use crate::sheet::{Sheet, time};
use crate::squares::{Reading, read, write};
use crate::tools::{ROOM, same};
use std::hint::black_box;

/// The side that each head hands in.
const SIDE: usize = 61;

/// What both sides do: a hand-in answers its number, a turn the head and side that it serves.
trait Queue: Default {
    fn hand_in(&mut self, head: usize, side: usize) -> usize;
    fn turn(&mut self) -> (usize, usize);

    /// A hand-in, and a turn.
    fn step(&mut self, head: usize) -> (usize, (usize, usize)) {
        (self.hand_in(black_box(head), black_box(SIDE)), self.turn())
    }
}

#[derive(Default)]
struct Ours([u8; SIZE]);

impl Queue for Ours {
    fn hand_in(&mut self, head: usize, side: usize) -> usize {
        hand_in(&mut self.0, head, side)
    }

    fn turn(&mut self) -> (usize, usize) {
        let served = turn(&mut self.0);
        (served.head, served.side)
    }
}

impl Queue for Plain {
    fn hand_in(&mut self, head: usize, side: usize) -> usize {
        self.hand_in(head, side)
    }

    fn turn(&mut self) -> (usize, usize) {
        self.turn().unwrap_or((0, 0))
    }
}

/// The same in plain Rust over the same 12 bytes, whatever they are: what waits is read off them in each call, as in ours. Its calls are not
/// put into the loop that times them, since ours cannot be.
#[derive(Default)]
struct Bytes([u8; SIZE]);

impl Bytes {
    fn count(&self) -> usize {
        let entries = self.0.as_chunks::<2>().0;
        let refused = |&n: &usize| Self::refusal(&entries[..n], entries[n][0].into(), entries[n][1].into()) != 0;
        (0..entries.len()).find(refused).unwrap_or(entries.len())
    }

    fn refusal(before: &[[u8; 2]], head: usize, side: usize) -> usize {
        if head > 5 {
            return 16;
        }
        if before.iter().any(|entry| usize::from(entry[0]) == head) {
            return 17;
        }
        usize::from(!(23..=189).contains(&side) || side % 2 == 0)
    }
}

impl Queue for Bytes {
    #[inline(never)]
    fn hand_in(&mut self, head: usize, side: usize) -> usize {
        let n = self.count();
        let number = Self::refusal(&self.0.as_chunks().0[..n], head, side);
        if number == 0 {
            self.0[2 * n..].fill(0);
            self.0[2 * n] = head as u8;
            self.0[2 * n + 1] = side as u8;
        }
        number
    }

    #[inline(never)]
    fn turn(&mut self) -> (usize, usize) {
        let n = self.count();
        if n == 0 {
            return (0, 0);
        }
        let served = (self.0[0].into(), self.0[1].into());
        self.0.copy_within(2..2 * n, 0);
        self.0[2 * n - 2..].fill(0);
        served
    }
}

/// A hand-in and a turn on a queue in which so many heads wait before and afterwards. The heads come in the order of their numbers, over
/// and over, so none of them waits already.
fn steps<Q: Queue>(waiting: usize) -> impl FnMut() {
    let (mut queue, mut head) = (Q::default(), waiting);
    for waiting in 0..waiting {
        same("what is timed", "a hand-in before it", queue.hand_in(waiting, SIDE), 0);
    }
    // Twice around, which leads back to the same queue, to see that what is timed is what its name says.
    for first in (0..6).cycle().take(12) {
        same("what is timed", "a hand-in and a turn", queue.step(head), (0, (first, SIDE)));
        head = next(head);
    }
    move || {
        black_box(queue.step(head));
        head = next(head);
    }
}

fn next(head: usize) -> usize {
    if head < 5 { head + 1 } else { 0 }
}

/// Six hand-ins and six turns.
fn rounds<Q: Queue>() -> impl FnMut() {
    let mut queue = Q::default();
    same("what is timed", "six hand-ins", [0, 1, 2, 3, 4, 5].map(|head| queue.hand_in(head, SIDE)), [0; 6]);
    same("what is timed", "six turns", [(); 6].map(|()| queue.turn()), [0, 1, 2, 3, 4, 5].map(|head| (head, SIDE)));
    move || {
        for head in 0..6 {
            black_box(queue.hand_in(black_box(head), black_box(SIDE)));
        }
        for _ in 0..6 {
            black_box(queue.turn());
        }
    }
}

/// Readings of a clean mark of version 1 with eight digits.
fn readings() -> impl FnMut() {
    let mut square = [0; 23 * 23];
    same("what is timed", "a writing before it", write(1, 0, 0, &[1, 0, 8], b"00471100", &mut square), 0);
    let (mut payload, mut script, mut receipt) = (vec![0; ROOM], vec![0; ROOM], [0; 12]);
    let mut reading = move || read(black_box(&square), Reading::Side(23), &mut payload, &mut script, &mut receipt);
    same("what is timed", "a reading", reading(), 0);
    move || {
        black_box(reading());
    }
}

/// Ours beside another queue, over the same events.
fn beside<Q: Queue>(sheet: &mut Sheet, name: &str) {
    for waiting in [0, 1, 3, 5] {
        let times = time(&mut steps::<Ours>(waiting), Some(&mut steps::<Q>(waiting)));
        sheet.case(&format!("{name}, hand-in and turn"), &format!("{waiting} waiting"), 0, times);
    }
    let times = time(&mut rounds::<Ours>(), Some(&mut rounds::<Q>()));
    sheet.case(&format!("{name}, round"), "six hand-ins, six turns", 0, times);
}

pub fn bench(sheet: &mut Sheet) {
    sheet.part("the queue of six heads, and one over the same bytes", "plain");
    beside::<Bytes>(sheet, "queue beside bytes");
    sheet.part("the queue of six heads, and one with no bytes", "VecDeque");
    beside::<Plain>(sheet, "queue beside VecDeque");
    sheet.part("a hand-in and a turn, and a reading of a clean v1", "reading");
    for waiting in [0, 5] {
        let times = time(&mut steps::<Ours>(waiting), Some(&mut readings()));
        sheet.case("queue by reading", &format!("{waiting} waiting"), 0, times);
    }
}
