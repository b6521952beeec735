//! Random events from the empty queue, and how many turns each head waits: at most six, whatever the others hand in.
use super::{BUT_TWO, Both, Event, Served, Tally};
use crate::tools::{Random, fail, same};
use std::collections::BTreeMap;

const EVENTS: usize = 1_000_000;

/// What our side answered, and nothing of the plain queue.
#[derive(Default)]
struct Log {
    /// The heads and sides that were accepted, and those that were served.
    accepted: Vec<(usize, usize)>,
    served: Vec<(usize, usize)>,
    /// For each head that waits, how many turns there were since it was accepted.
    waiting: BTreeMap<usize, usize>,
    /// How many waits took each number of turns.
    turns: [usize; 7],
}

impl Log {
    fn add(&mut self, event: Event, answer: Served) {
        match event {
            Event::HandIn { head, side } if answer.number == 0 => {
                self.accepted.push((head, side));
                self.waiting.insert(head, 0);
            }
            Event::HandIn { .. } => {}
            Event::Turn => self.turn(answer),
        }
    }

    /// Ends where a head waits for more than six turns.
    fn turn(&mut self, Served { head, side, .. }: Served) {
        for (waiting, turns) in &mut self.waiting {
            *turns += 1;
            if *turns > 6 {
                fail(&format!("head {waiting} is not served within six turns"));
            }
        }
        if side > 0 {
            let Some(turns) = self.waiting.remove(&head) else { fail(&format!("head {head} is served and does not wait")) };
            self.turns[turns] += 1;
            self.served.push((head, side));
        }
    }

    /// Ends unless what was served is what was accepted, in this order, each with its side.
    fn end(&self) {
        let count = self.accepted.len().max(self.served.len());
        for n in 0..count {
            same("who was served", &format!("number {n} of those accepted"), self.served.get(n), self.accepted.get(n));
        }
    }
}

/// Heads 0 to 7, and now and then a huge one.
fn head(random: &mut Random) -> usize {
    match random.below(40) {
        0 => [usize::MAX, 256, 1 << 32][random.below(3)],
        _ => random.below(8),
    }
}

/// Mostly good sides.
fn side(random: &mut Random) -> usize {
    match random.below(40) {
        0 => [usize::MAX, 256, 1 << 32][random.below(3)],
        1..=4 => random.below(400),
        _ => 23 + 2 * random.below(84),
    }
}

/// Runs of events, short and long, in which so many of eight are turns: none, all, or some.
pub fn compare() {
    let (mut tally, mut random) = (Tally::default(), Random::new(25));
    let (mut both, mut log) = (Both::empty(), Log::default());
    let (mut runs, mut left) = (0, EVENTS);
    while left > 0 {
        let most = [4, 20, 200][random.below(3)];
        let (run, turns) = (left.min(1 + random.below(most)), [0, 8, 1, 2, 3, 4, 6][random.below(7)]);
        for _ in 0..run {
            let hands_in = random.below(8) >= turns;
            let event = if hands_in { Event::HandIn { head: head(&mut random), side: side(&mut random) } } else { Event::Turn };
            log.add(event, both.event(&mut tally, event));
        }
        (runs, left) = (runs + 1, left - run);
    }
    while !log.waiting.is_empty() {
        log.add(Event::Turn, both.event(&mut tally, Event::Turn));
    }
    log.end();
    let [_, turns @ ..] = log.turns;
    same("whether waits of each length were met", "1 to 6 turns", turns.map(|count| count > 1000), [true; 6]);
    let turns = turns.map(|count| count.to_string()).join(", ");
    tally.report(&format!("random events from the empty queue, in {runs} runs"), BUT_TWO, &format!("; served at turn 1 to 6: {turns}"));
}
