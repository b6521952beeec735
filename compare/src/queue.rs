//! Six heads, one reader (change request Q-5), which the original lacks: our hand-in and our turn against a plain queue that shares nothing
//! with ours. Every answer and every lent byte is compared. queue/kinds.rs and queue/waits.rs have what is tried.
mod kinds;
mod speed;
mod waits;

use crate::tools::{MARK, differs, hex, same};
pub use kinds::compare;
pub use speed::bench;
use std::collections::VecDeque;

unsafe extern "C" {
    fn hx_queue_hand_in(queue: *mut u8, queue_length: usize, head: usize, side: usize) -> usize;
    fn hx_queue_turn(queue: *mut u8, queue_length: usize) -> Served;
}

/// The bytes of a queue.
pub const SIZE: usize = 12;

/// What a turn answers: a refusal number, and whom it serves; side 0 if nobody waits. A hand-in answers the number alone.
#[repr(C)]
#[derive(Clone, Copy, PartialEq, Eq, Debug)]
pub struct Served {
    pub number: usize,
    pub head: usize,
    pub side: usize,
}

impl Served {
    fn nobody(number: usize) -> Self {
        Self { number, head: 0, side: 0 }
    }
}

pub fn hand_in(queue: &mut [u8], head: usize, side: usize) -> usize {
    // SAFETY: the pointer and the length are those of one mutable slice.
    unsafe { hx_queue_hand_in(queue.as_mut_ptr(), queue.len(), head, side) }
}

pub fn turn(queue: &mut [u8]) -> Served {
    // SAFETY: the pointer and the length are those of one mutable slice.
    unsafe { hx_queue_turn(queue.as_mut_ptr(), queue.len()) }
}

#[derive(Clone, Copy, PartialEq, Eq, Debug)]
enum Event {
    HandIn { head: usize, side: usize },
    Turn,
}

impl Event {
    fn ours(self, state: &mut [u8]) -> Served {
        match self {
            Self::HandIn { head, side } => Served::nobody(hand_in(state, head, side)),
            Self::Turn => turn(state),
        }
    }
}

/// The plain queue: heads that wait and their sides, the longest waiting first.
#[derive(Clone, Default)]
struct Plain(VecDeque<(usize, usize)>);

impl Plain {
    fn waits(&self, head: usize) -> bool {
        self.0.iter().any(|entry| entry.0 == head)
    }

    /// In the request's words: 16 when the head number is above 5; 17 when that head already waits, checked after 16; 1 for a side, checked
    /// last.
    fn hand_in(&mut self, head: usize, side: usize) -> usize {
        if head > 5 {
            return 16;
        }
        if self.waits(head) {
            return 17;
        }
        if !(23..=189).contains(&side) || side % 2 == 0 {
            return 1;
        }
        self.0.push_back((head, side));
        0
    }

    fn turn(&mut self) -> Option<(usize, usize)> {
        self.0.pop_front()
    }

    /// What a state means, by crates/queue/specs/Queue.antt: its entries of two bytes, up to the first that is refused behind those before
    /// it.
    fn of(state: &[u8]) -> Self {
        let mut queue = Self::default();
        for &[head, side] in state.as_chunks().0 {
            if queue.hand_in(head.into(), side.into()) != 0 {
                break;
            }
        }
        queue
    }

    /// The state that is written for it: its entries, and zeros behind them.
    fn state(&self) -> Vec<u8> {
        let bytes = self.0.iter().flat_map(|&(head, side)| [head, side]).map(|n| u8::try_from(n).unwrap());
        bytes.chain(std::iter::repeat(0)).take(SIZE).collect()
    }

    /// The answer to an event, and what a state that means this queue holds afterwards: 2 for its length comes first; a refusal, and a turn
    /// with nobody waiting, leave it.
    fn event(&mut self, state: &[u8], event: Event) -> (Served, Vec<u8>) {
        let (answer, changed) = match event {
            _ if state.len() != SIZE => (Served::nobody(2), false),
            Event::HandIn { head, side } => {
                let number = self.hand_in(head, side);
                (Served::nobody(number), number == 0)
            }
            Event::Turn => match self.turn() {
                None => (Served::nobody(0), false),
                Some((head, side)) => (Served { number: 0, head, side }, true),
            },
        };
        (answer, if changed { self.state() } else { state.to_vec() })
    }
}

/// How many bytes on either side of a state are compared as well. They are not lent. A shorter state that is written to as if it had all 12
/// bytes changes some of them.
const AROUND: usize = 16;

/// A state and what is around it.
fn framed(state: &[u8]) -> Vec<u8> {
    [&[MARK; AROUND], state, &[MARK; AROUND]].concat()
}

/// Both sides: our state, and the plain queue that it must mean.
#[derive(Clone)]
struct Both {
    plain: Plain,
    state: Vec<u8>,
}

impl Both {
    fn empty() -> Self {
        Self { plain: Plain::default(), state: vec![0; SIZE] }
    }

    fn of(state: &[u8]) -> Self {
        Self { plain: Plain::of(state), state: state.to_vec() }
    }

    /// One event on both sides: the answer, which is the same.
    fn event(&mut self, tally: &mut Tally, event: Event) -> Served {
        let mut framed_ours = framed(&self.state);
        let ours = event.ours(&mut framed_ours[AROUND..][..self.state.len()]);
        let (theirs, state) = self.plain.event(&self.state, event);
        let framed_theirs = framed(&state);
        if ours != theirs || framed_ours != framed_theirs {
            let shown = |answer: Served, bytes: &[u8]| {
                let parts = [&bytes[..AROUND], &bytes[AROUND..bytes.len() - AROUND], &bytes[bytes.len() - AROUND..]];
                format!("{answer:?}, before the state, in it and behind it {}", parts.map(hex).join(" "))
            };
            let input = format!("{event:?}, state of {} bytes {}", state.len(), hex(&self.state));
            differs("an event", &input, &shown(ours, &framed_ours), &shown(theirs, &framed_theirs));
        }
        tally.add(event, ours);
        self.state = state;
        ours
    }

    /// Each of some events on a copy.
    fn each(&self, tally: &mut Tally, events: impl IntoIterator<Item = Event>) {
        for event in events {
            self.clone().event(tally, event);
        }
    }

    /// Turns until nobody waits.
    fn to_the_end(&mut self, tally: &mut Tally) {
        while self.event(tally, Event::Turn) != Served::nobody(0) {}
    }
}

/// How an event can end.
const ENDS: [&str; 7] = [
    "hand-ins accepted",
    "turns that served",
    "turns with nobody waiting",
    "answered 1",
    "answered 2",
    "answered 16",
    "answered 17",
];

/// All of them but 2, which is for a state of another length.
const BUT_TWO: &[&str] =
    &["hand-ins accepted", "turns that served", "turns with nobody waiting", "answered 1", "answered 16", "answered 17"];

/// How many events ended in each way.
#[derive(Default)]
struct Tally([usize; ENDS.len()]);

impl Tally {
    fn add(&mut self, event: Event, answer: Served) {
        self.0[match (answer.number, event) {
            (0, Event::HandIn { .. }) => 0,
            (0, Event::Turn) if answer.side > 0 => 1,
            (0, Event::Turn) => 2,
            (1, _) => 3,
            (2, _) => 4,
            (16, _) => 5,
            _ => 6,
        }] += 1;
    }

    /// What was tried of a kind. Each of some ends must have been met, and no other.
    fn report(&self, kind: &str, ends: &[&str], more: &str) {
        let met: Vec<_> = ENDS.into_iter().zip(self.0).filter(|end| end.1 > 0).collect();
        same("what was met", kind, met.iter().map(|end| end.0).collect::<Vec<_>>(), ends.to_vec());
        let met: Vec<_> = met.iter().map(|(name, count)| format!("{count} {name}")).collect();
        println!("queue: {:9} {kind}: {}{more}", self.0.iter().sum::<usize>(), met.join(", "));
    }
}
