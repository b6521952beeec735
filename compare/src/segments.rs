//! Segments: `parse` of the original against Segments from data, on payload bytes and acceptance; scripts and refusals beside it against
//! the second writer in written.rs.
use crate::han_xin::access::parse;
use crate::sheet::{Sheet, time};
use crate::tools::{MARK, ROOM, Random, differs, hex};
use crate::written::{Bits, Written};
use std::hint::black_box;
use std::iter::once;

#[repr(C)]
struct DataAnswer {
    number: usize,
    payload: usize,
    script: usize,
}

#[repr(C)]
struct ScriptAnswer {
    number: usize,
    bits: usize,
}

unsafe extern "C" {
    fn hx_from_data(d: *const u8, dn: usize, p: *mut u8, pn: usize, s: *mut u8, sn: usize) -> DataAnswer;
    fn hx_check_script(s: *const u8, sn: usize, p: *const u8, pn: usize) -> ScriptAnswer;
}

fn from_data(data: &[u8], payload: &mut [u8], script: &mut [u8]) -> DataAnswer {
    // SAFETY: each slice is passed with its own length, and none overlaps another.
    unsafe { hx_from_data(data.as_ptr(), data.len(), payload.as_mut_ptr(), payload.len(), script.as_mut_ptr(), script.len()) }
}

fn check(script: &[u8], payload: &[u8]) -> ScriptAnswer {
    // SAFETY: each slice is passed with its own length.
    unsafe { hx_check_script(script.as_ptr(), script.len(), payload.as_ptr(), payload.len()) }
}

/// One input with buffers that are large; then exactly full, and one short. The number of answers by kind.
struct Tally {
    payload: Vec<u8>,
    script: Vec<u8>,
    accepted: u64,
    refused: u64,
}

impl Tally {
    fn new() -> Self {
        Self { payload: vec![MARK; ROOM], script: vec![MARK; ROOM], accepted: 0, refused: 0 }
    }

    /// Compares one input; the lengths of payload and script, where it is accepted.
    fn one(&mut self, data: &[u8]) -> Option<(usize, usize)> {
        let theirs = parse(data).map(|r| r.1);
        let answer = from_data(data, &mut self.payload, &mut self.script);
        let ours = format!("{} {} {}", answer.number, answer.payload, answer.script);
        match theirs {
            Some(bytes) => {
                if answer.number != 0 || self.payload[..answer.payload] != bytes {
                    differs("payload", &hex(data), &(ours + " " + &hex(&self.payload[..answer.payload])), &hex(&bytes));
                }
                self.payload[..answer.payload].fill(MARK);
                self.script[..answer.script].fill(MARK);
                self.accepted += 1;
            }
            None => {
                if !matches!(answer.number, 7 | 8) || answer.payload != 0 || answer.script != 0 {
                    differs("refusal", &hex(data), &ours, "none");
                }
                self.refused += 1;
            }
        }
        if answer.payload < ROOM && self.payload[answer.payload] != MARK || answer.script < ROOM && self.script[answer.script] != MARK || answer.number != 0 && (self.payload[0] != MARK || self.script[0] != MARK) {
            differs("bytes beyond", &hex(data), &ours, "as they were");
        }
        (answer.number == 0).then_some((answer.payload, answer.script))
    }

    /// The same with buffers that are exactly full, and one short.
    fn tight(&mut self, data: &[u8]) {
        let Some((n, m)) = self.one(data) else { return };
        for (p, s, refusal) in [(n, m, 0), (n - 1, m, 9), (n, m - 1, 10), (n - 1, m - 1, 9)] {
            let (mut payload, mut script) = (vec![MARK; p], vec![MARK; s]);
            let answer = from_data(data, &mut payload, &mut script);
            let kept = payload.iter().chain(&script).all(|&b| b == MARK);
            if answer.number != refusal || refusal != 0 && (!kept || answer.payload != 0 || answer.script != 0) {
                differs("buffers", &format!("{} payload {p} script {s}", hex(data)), &answer.number.to_string(), &refusal.to_string());
            }
        }
    }

    fn say(&mut self, what: &str) {
        println!("segments: {what}: {} accepted, {} refused", self.accepted, self.refused);
        (self.accepted, self.refused) = (0, 0);
    }
}

pub fn compare() {
    let mut tally = Tally::new();
    tally.one(&[]);
    for a in 0..=255 {
        tally.one(&[a]);
        for b in 0..=255 {
            tally.one(&[a, b]);
        }
    }
    tally.say("all data of up to 2 bytes");
    values(&mut tally);
    let mut random = Random::new(4);
    for _ in 0..1_500_000 {
        let mut data = vec![0; random.below(60)];
        random.fill(&mut data);
        tally.one(&data);
    }
    for _ in 0..3_000 {
        let mut data = vec![0; random.below(3887)];
        random.fill(&mut data);
        tally.one(&data);
    }
    tally.say("random data");
    written(&mut tally, &mut random);
    bad(&mut tally);
}

/// Every value of each mode, alone and behind a first character.
fn values(tally: &mut Tally) {
    for p in 0..1024 {
        for w in (0..1024).step_by(if p % 100 < 12 { 1 } else { 53 }).chain(995..1024) {
            let mut bits = Bits::default();
            bits.put(4, 1);
            bits.put(10, p);
            bits.put(10, w);
            bits.put(10, 1023);
            tally.one(&bits.bytes());
        }
    }
    tally.say("numeric groups and ends");
    for (mode, width, end) in [(2, 6, 63), (4, 12, 4095), (5, 12, 4095), (6, 15, 32767)] {
        for w in 0..1 << width {
            for switch in [false, true] {
                let mut bits = Bits::default();
                bits.put(4, mode);
                if switch {
                    bits.put(width, end - 1);
                }
                bits.put(width, w);
                bits.put(width, end);
                tally.one(&bits.bytes());
            }
        }
    }
    tally.say("all values of text, regions and two-byte");
    for n in 0..8192 {
        let mut bits = Bits::default();
        bits.put(4, 3);
        bits.put(13, n);
        for i in 0..n.min(3883) {
            bits.put(8, i & 255);
        }
        tally.one(&bits.bytes());
    }
    tally.say("all lengths of bytes");
    for w in 0..1 << 21 {
        let mut bits = Bits::default();
        bits.put(4, 7);
        bits.put(21, w);
        tally.one(&bits.bytes());
    }
    tally.say("all values of four-byte");
    for (lead, width) in [(1, 7), (2, 14), (3, 21)] {
        for v in 0..1 << width {
            let mut bits = Bits::default();
            bits.put(4, 8);
            bits.put(lead, (1 << lead) - 2);
            bits.put(width, v);
            bits.put(4, 3);
            bits.put(13, 1);
            bits.put(8, 65);
            tally.one(&bits.bytes());
        }
    }
    tally.say("all values of ECI");
}

/// Data of random segments: the script and payload that were written, the number of bits, cut at every bit, mutated, tight buffers.
fn written(tally: &mut Tally, random: &mut Random) {
    let mut checked = 0u64;
    for turn in 0..60_000 {
        let (count, most) = if turn % 100 == 0 { (400, 60) } else { (1 + random.below(6), 12) };
        let Written { bits, script, payload } = Written::random(random, count, most, 8 * 3886);
        let (data, bits) = (bits.bytes(), bits.0.len());
        let got = check(&script, &payload);
        let expected = if payload.is_empty() { (8, 0) } else { (0, bits) };
        if (got.number, got.bits) != expected {
            differs("check", &format!("{} {}", hex(&script), hex(&payload)), &format!("{} {}", got.number, got.bits), &format!("{expected:?}"));
        }
        checked += 1;
        tally.tight(&data);
        let (mut p, mut s) = (vec![MARK; ROOM], vec![MARK; ROOM]);
        let answer = from_data(&data, &mut p, &mut s);
        if answer.number == 0 && (p[..answer.payload] != payload || s[..answer.script] != script) {
            differs("script", &hex(&data), &hex(&s[..answer.script]), &hex(&script));
        }
        if turn % 20 == 1 {
            for cut in 0..bits {
                let mut short = data[..cut / 8].to_vec();
                if cut % 8 != 0 {
                    short.push(data[cut / 8] & !(0xFF >> (cut % 8)));
                }
                tally.one(&short);
            }
        }
        for _ in 0..12 {
            let mut other = data.clone();
            if other.is_empty() {
                break;
            }
            for _ in 0..=random.below(3) {
                let at = random.below(other.len());
                other[at] ^= 1 << random.below(8);
            }
            tally.one(&other);
        }
    }
    tally.say("written segments, cut, mutated, tight");
    println!("segments: {checked} scripts checked against another count of bits");
}

/// Scripts and payloads with the number that SPECIFICATION 10.8 gives them.
pub const SCRIPTS: [(&[u8], &[u8], usize); 24] = [
    (&[], &[], 8),
    (&[], &[1], 11),
    (&[9], &[1], 11),
    (&[0], &[], 11),
    (&[1], &[b'1'], 11),
    (&[1, 0], &[b'1'], 11),
    (&[1, 0, 0], &[], 11),
    (&[1, 0, 1], &[b'1'], 0),
    (&[1, 0, 1], &[b'a'], 12),
    (&[2, 0, 0], &[], 8),
    (&[2, 0, 1], &[0x1B], 0),
    (&[2, 0, 1], &[0x1C], 12),
    (&[2, 0, 1], &[], 11),
    (&[2, 0, 1], &[65, 65], 11),
    (&[4, 0, 1], &[0xB0], 11),
    (&[4, 0, 2], &[0xB0, 0xA1], 0),
    (&[4, 0, 2], &[0xB0, 0xA0], 12),
    (&[7], &[0x81, 0x30, 0x81], 11),
    (&[7], &[0x81, 0x30, 0x81, 0x30], 0),
    (&[7], &[0x80, 0x30, 0x81, 0x30], 12),
    (&[8, 0x20, 0, 0, 2, 0, 1], &[65], 11),
    (&[8, 0x1F, 0xFF, 0xFF, 2, 0, 1], &[65], 0),
    (&[8, 0x1F, 0xFF], &[], 11),
    (&[2, 0, 1, 9], &[0x1C], 11),
];

/// Inputs that are turned away, and long ones.
fn bad(tally: &mut Tally) {
    for n in [3886, 3887, 5000, 1 << 20] {
        for fill in [0, 0x11, 0x4F, 0xFF] {
            let data = vec![fill; n];
            let (mut p, mut s) = (vec![MARK; ROOM], vec![MARK; ROOM]);
            let answer = from_data(&data, &mut p, &mut s);
            if n > 3886 && (answer.number != 2 || p.iter().chain(&s).any(|&b| b != MARK)) {
                differs("length", &n.to_string(), &answer.number.to_string(), "2");
            }
            if n <= 3886 {
                tally.one(&data);
            }
        }
    }
    let mut switches = Bits::default();
    switches.put(4, 4);
    while switches.0.len() + 12 <= 8 * 3886 {
        switches.put(12, 4094);
    }
    tally.one(&switches.bytes());
    tally.say("long data, region switches that never end");
    for (script, payload, refusal) in SCRIPTS {
        let got = check(script, payload);
        if got.number != refusal || (refusal != 0) != (got.bits == 0) {
            differs("check", &format!("{} {}", hex(script), hex(payload)), &got.number.to_string(), &refusal.to_string());
        }
    }
    for (n, refusal) in [(8191, 0), (8192, 11)] {
        let got = check(&[3, (n >> 8) as u8, n as u8], &vec![7; n]);
        if got.number != refusal {
            differs("check", &format!("bytes of {n}"), &got.number.to_string(), &refusal.to_string());
        }
    }
    let long: Vec<u8> = [2u8, 0, 1].iter().copied().cycle().take(3 << 20).collect();
    let got = check(&long, &vec![65; 1 << 20]);
    if (got.number, got.bits) != (0, 31_089) {
        differs("check", "a script of 3 x 2^20 bytes", &format!("{} {}", got.number, got.bits), "0 31089");
    }
    println!("segments: {} scripts with their refusals", SCRIPTS.len() + 3);
}

/// Data of one kind of segment each: a width and a value for each of its numbers.
fn streams() -> [(&'static str, Bits); 5] {
    let bits = |numbers: &mut dyn Iterator<Item = (usize, usize)>| {
        let mut bits = Bits::default();
        numbers.for_each(|(width, value)| bits.put(width, value));
        bits
    };
    let framed = |mode, numbers: &mut dyn Iterator<Item = (usize, usize)>, end| bits(&mut once((4, mode)).chain(numbers).chain(once(end)));
    [
        ("one text segment", framed(2, &mut (0..4350).map(|i| (6, i % 62)), (6, 63))),
        ("one numeric segment", framed(1, &mut (0..2609).map(|i| (10, 10 * i % 1000)), (10, 1023))),
        ("one bytes segment", bits(&mut [(4, 3), (13, 3260)].into_iter().chain((0..3260).map(|i| (8, i % 256))))),
        ("1,000 short segments", bits(&mut (0..1000).flat_map(|i| [(4, 2), (6, i % 62), (6, 36 + i % 26), (6, 63)]))),
        ("1,080 region switches", framed(4, &mut (0..1080).flat_map(|i| [(12, i % 3000), (12, 4094)]), (12, 4095))),
    ]
}

/// Segments from data.
pub fn bench(sheet: &mut Sheet) {
    sheet.part("segments of 3,264 bytes", "Rust");
    let (mut payload, mut script) = (vec![0; ROOM], vec![0; ROOM]);
    for (name, bits) in streams() {
        let data = bits.bytes();
        assert!(data.len() <= 3264 && parse(&data).is_some(), "{name}");
        let mut ours = || {
            black_box(from_data(black_box(&data), &mut payload, &mut script).number);
        };
        let mut theirs = || {
            black_box(parse(black_box(&data)));
        };
        sheet.case("segments", name, 0, time(&mut ours, Some(&mut theirs)));
    }
}

/// Writes the fixed list that crates/replay_segments replays: inputs, and the original's answers.
pub fn record() -> (Vec<u8>, String) {
    let mut random = Random::new(20830);
    let mut inputs: Vec<Vec<u8>> = vec![
        vec![0x10, 0x1F, 0xFF],
        vec![0x10, 0x17, 0xFD],
        vec![0x10, 0x2B, 0xFD],
        vec![0x1F, 0xF4],
        vec![0x29, 0x3F],
        vec![],
        vec![0; 3886],
        vec![0xFF; 40],
    ];
    for mode in 9..16 {
        inputs.push(vec![mode << 4, 0x55]);
    }
    for (mode, width, values) in [(4, 12, [4073, 4074]), (5, 12, [3007, 3008]), (6, 15, [23_939, 23_940]), (7, 21, [1_587_599, 1_587_600])] {
        for v in values {
            let mut bits = Bits::default();
            bits.put(4, mode);
            bits.put(width, v);
            bits.put(width, (1 << width) - 1);
            if mode == 7 {
                bits.0.truncate(25);
            }
            inputs.push(bits.bytes());
        }
    }
    for turn in 0..420 {
        let count = 1 + random.below(6);
        let data = Written::random(&mut random, count, 12, 8 * 3886).bits.bytes();
        if turn % 3 == 1 && !data.is_empty() {
            inputs.push(data[..random.below(data.len())].to_vec());
        }
        if turn % 3 == 2 && !data.is_empty() {
            let mut other = data.clone();
            let at = random.below(other.len());
            other[at] ^= 1 << random.below(8);
            inputs.push(other);
        }
        inputs.push(data);
    }
    let (mut stdin, mut stdout) = (Vec::new(), String::new());
    for data in &inputs {
        stdin.extend(u16::try_from(data.len()).unwrap().to_be_bytes());
        stdin.extend(data);
        stdout += &parse(data).map_or("-".to_owned(), |r| hex(&r.1));
        stdout.push('\n');
    }
    assert!(stdin.len() <= 65536, "{} bytes", stdin.len());
    (stdin, stdout)
}
