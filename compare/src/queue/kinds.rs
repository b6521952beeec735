//! The kinds of events and states that are compared. What is tried on a state is tried on a copy of it.
use super::{BUT_TWO, Both, Event, SIZE, Tally, waits};
use crate::tools::{Random, same};

/// A full queue.
const FULL: [u8; SIZE] = [4, 25, 1, 189, 3, 111, 5, 23, 0, 61, 2, 99];

pub fn compare() {
    all_lists();
    all_orders();
    waits::compare();
    two_bytes();
    random_states();
    all_numbers();
    lengths();
    faults();
}

/// Every list of up to six events over three heads: their hand-ins with two sides and with a bad one, a bad head, and a turn.
fn all_lists() {
    let mut events = vec![Event::Turn, Event::HandIn { head: 6, side: 23 }];
    for head in [0, 3, 5] {
        events.extend([23, 189, 24].map(|side| Event::HandIn { head, side }));
    }
    let mut tally = Tally::default();
    lists(&mut tally, &Both::empty(), &events, 6);
    let count: usize = (1..=6).map(|n| events.len().pow(n)).sum();
    same("the number of lists", "up to six events", tally.0.iter().sum(), count);
    tally.report("events, the last ones of all lists of up to 6 over three heads", BUT_TWO, "");
}

/// All lists that go on for up to so many events. What two lists have in common is run once.
fn lists(tally: &mut Tally, both: &Both, events: &[Event], more: usize) {
    if more == 0 {
        return;
    }
    for &event in events {
        let mut next = both.clone();
        next.event(tally, event);
        lists(tally, &next, events, more - 1);
    }
}

/// Every order in which heads can wait, reached by hand-ins.
fn all_orders() {
    let mut tally = Tally::default();
    let count = orders(&mut tally, &Both::empty());
    same("the number of orders", "six heads", count, 1957);
    tally.report("events on the 1957 orders in which heads can wait, each head 0 to 7, and turns to the end", BUT_TWO, "");
}

/// All orders that begin with those who wait: how many there are. No two heads of an order have the same side.
fn orders(tally: &mut Tally, both: &Both) -> usize {
    both.each(tally, (0..8).flat_map(|head| [189, 188].map(|side| Event::HandIn { head, side })));
    both.clone().to_the_end(tally);
    let free = (0..6).filter(|&head| !both.plain.waits(head));
    let further = free.map(|head| {
        let mut next = both.clone();
        next.event(tally, Event::HandIn { head, side: 23 + 2 * (6 * both.plain.0.len() + head) });
        orders(tally, &next)
    });
    1 + further.sum::<usize>()
}

/// Hand-ins of each head, of one with a bad side and of a bad head, and a turn.
fn one_of_each(side: usize) -> impl Iterator<Item = Event> {
    let heads = (0..7).map(move |head| Event::HandIn { head, side });
    heads.chain([Event::HandIn { head: 4, side: side + 1 }, Event::Turn])
}

/// All contents of an entry: the first, with zeros, any bytes or good entries behind it, and the second.
fn two_bytes() {
    let (mut tally, mut random) = (Tally::default(), Random::new(22));
    for entry in 0..=u16::MAX {
        let mut junk = [0; SIZE];
        random.fill(&mut junk);
        for (mut state, at) in [([0; SIZE], 0), (junk, 0), (FULL, 0), (FULL, 2)] {
            state[at..at + 2].copy_from_slice(&entry.to_be_bytes());
            Both::of(&state).each(&mut tally, one_of_each(77));
        }
    }
    tally.report("events on states with each content of the first entry, and of one behind a good one", BUT_TWO, "");
}

/// A state whose first entries are good, with zeros, any bytes, or entries that are near to good ones behind them; or with a byte changed.
fn state(random: &mut Random) -> [u8; SIZE] {
    let (mut heads, mut state) = (Vec::new(), [0; SIZE]);
    random.each_of(6, 6, |_, head| heads.push(head as u8));
    let (good, kind) = (random.below(7), random.below(4));
    for (n, entry) in state.as_chunks_mut::<2>().0.iter_mut().enumerate() {
        *entry = match kind {
            _ if n < good => [heads[n], 23 + 2 * random.below(84) as u8],
            0 => [0, 0],
            1 => [random.byte(), random.byte()],
            _ => [random.below(8) as u8, 20 + random.below(174) as u8],
        };
    }
    if random.below(4) == 0 {
        state[random.below(SIZE)] = random.byte();
    }
    state
}

/// Random states, each with three hand-ins, one of them of the head that waits last, and a turn.
fn random_states() {
    let (mut tally, mut random, mut lengths) = (Tally::default(), Random::new(23), [0; 7]);
    for _ in 0..500_000 {
        let both = Both::of(&state(&mut random));
        lengths[both.plain.0.len()] += 1;
        let last = both.plain.0.back().map_or(0, |entry| entry.0);
        let heads = [last, random.below(6), random.below(8)];
        both.each(&mut tally, heads.map(|head| Event::HandIn { head, side: 21 + random.below(171) }));
        both.each(&mut tally, [Event::Turn]);
    }
    same("whether queues of each length were met", "random states", lengths.map(|count| count > 1000), [true; 7]);
    let lengths = lengths.map(|count| count.to_string()).join(", ");
    tally.report("events on 500000 random states", BUT_TWO, &format!("; states in which 0 to 6 heads wait: {lengths}"));
}

/// Numbers of which fewer bits would be a good head or a good side, and the greatest.
fn huge() -> impl Iterator<Item = usize> {
    let beyond = [8, 16, 31, 32, 63].into_iter().flat_map(|bits| [0, 3, 23, 188, 189].map(|low| (1 << bits) + low));
    beyond.chain([usize::MAX - 1, usize::MAX])
}

/// All sides and all heads, on a queue in which nobody waits, on one in which some do, and on a full one.
fn all_numbers() {
    let mut tally = Tally::default();
    for waiting in [&[][..], &[2, 61, 0, 63], &FULL] {
        let both = Both::of(&[waiting, &vec![0; SIZE - waiting.len()]].concat());
        for side in (0..=400).chain(huge()) {
            both.each(&mut tally, (0..8).map(|head| Event::HandIn { head, side }));
        }
        for head in (0..=300).chain(huge()) {
            both.each(&mut tally, [23, 189, 22, 190].map(|side| Event::HandIn { head, side }));
        }
    }
    let ends = ["hand-ins accepted", "answered 1", "answered 16", "answered 17"];
    tally.report("hand-ins of all sides 0 to 400, all heads 0 to 300 and huge ones", &ends, "");
}

/// States of other lengths, two of which are 12 in their low bits: zeros, good entries over and over, and any bytes.
fn lengths() {
    let (mut tally, mut random) = (Tally::default(), Random::new(24));
    for length in (0..=30).chain([256 + SIZE, 65_536 + SIZE]).filter(|&n| n != SIZE) {
        let good = FULL.into_iter().cycle().take(length).collect();
        let mut any = vec![0; length];
        random.fill(&mut any);
        for state in [vec![0; length], good, any] {
            let both = Both::of(&state);
            for head in (0..8).chain(huge()) {
                both.each(&mut tally, [0, 22, 23, 189, 190, usize::MAX].map(|side| Event::HandIn { head, side }));
            }
            both.each(&mut tally, [Event::Turn]);
        }
    }
    tally.report("events on states of other lengths, 0 to 30, 268 and 65548", &["answered 2"], "");
}

/// None, one, two and three faults at once, each with the number it gets alone; the first of them in the order length, head, side is
/// answered. 16 and 17 do not meet: the head that waits is 2, and 258 is 2 in its low bits.
fn faults() {
    let mut tally = Tally::default();
    for (length, two) in [(12, 0), (11, 2), (13, 2), (2, 2), (24, 2)] {
        let mut state = vec![2, 61];
        state.resize(length, 0);
        for (head, number) in [(3, 0), (6, 16), (258, 16), (usize::MAX, 16), (2, 17)] {
            for (side, one) in [(61, 0), (62, 1), (21, 1), (191, 1), (0, 1), (usize::MAX, 1)] {
                let answer = Both::of(&state).event(&mut tally, Event::HandIn { head, side });
                let expected = [two, number, one].into_iter().find(|&n| n > 0).unwrap_or(0);
                same("faults", &format!("{length} bytes, head {head}, side {side}"), answer.number, expected);
            }
        }
    }
    let ends = ["hand-ins accepted", "answered 1", "answered 2", "answered 16", "answered 17"];
    tally.report("hand-ins with no fault, one, two and three at once", &ends, "");
}
