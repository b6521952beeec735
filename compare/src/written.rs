//! A second writer of segments, with its own tables: scripts and payloads as bits, or the refusal (SPECIFICATION 10.8); and random
//! segments.
use crate::tools::Random;

/// Bits of data, high bit first.
#[derive(Default, Clone)]
pub struct Bits(pub Vec<u8>);

impl Bits {
    pub fn put(&mut self, n: usize, v: usize) {
        for i in (0..n).rev() {
            self.0.push(u8::from(v >> i & 1 == 1));
        }
    }

    pub fn bytes(&self) -> Vec<u8> {
        self.0.chunks(8).map(|c| c.iter().enumerate().map(|(i, b)| b << (7 - i)).sum()).collect()
    }

    /// A segment of a mode from 1 to 7, or nothing where the mode lacks the bytes.
    fn segment(&mut self, mode: usize, bytes: &[u8]) -> Option<()> {
        self.put(4, mode);
        match mode {
            1 => self.numeric(bytes),
            2 => self.text(bytes),
            3 => self.plain(bytes),
            4 | 5 => self.regions(mode, bytes),
            6 => self.two_byte(bytes),
            _ => self.four_byte(bytes),
        }
    }

    fn numeric(&mut self, bytes: &[u8]) -> Option<()> {
        for group in bytes.chunks(3) {
            let value = group.iter().try_fold(0, |v, &b| Some(10 * v + char::from(b).to_digit(10)?))?;
            self.put(10, value as usize);
        }
        self.put(10, 1020 + (bytes.len() - 1) % 3 + 1);
        Some(())
    }

    fn text(&mut self, bytes: &[u8]) -> Option<()> {
        let (tables, mut subset) = (subsets(), 0);
        for b in bytes {
            let next = tables.iter().position(|t| t.contains(b))?;
            if next != subset {
                self.put(6, 62);
                subset = next;
            }
            self.put(6, tables[next].iter().position(|c| c == b)?);
        }
        self.put(6, 63);
        Some(())
    }

    fn plain(&mut self, bytes: &[u8]) -> Option<()> {
        self.put(13, bytes.len());
        for &b in bytes {
            self.put(8, usize::from(b));
        }
        Some(())
    }

    fn regions(&mut self, mode: usize, bytes: &[u8]) -> Option<()> {
        let mut region = mode;
        for pair in bytes.as_chunks::<2>().0 {
            let [row, column] = pair.map(usize::from);
            let (next, code) = match (row, column.checked_sub(0xA1).filter(|&c| c < 94)?) {
                (0xB0..=0xD7, c) => (4, (row - 0xB0) * 94 + c),
                (0xA1..=0xA3, c) => (4, 3760 + (row - 0xA1) * 94 + c),
                (0xA8, c @ 0..32) => (4, 4042 + c),
                (0xD8..=0xF7, c) => (5, (row - 0xD8) * 94 + c),
                _ => return None,
            };
            if next != region {
                self.put(12, 4094);
                region = next;
            }
            self.put(12, code);
        }
        self.put(12, 4095);
        Some(())
    }

    fn two_byte(&mut self, bytes: &[u8]) -> Option<()> {
        for &[a, b] in bytes.as_chunks::<2>().0 {
            let second = match b {
                0x40..=0x7E => usize::from(b - 0x40),
                0x80..=0xFE => usize::from(b - 0x41),
                _ => return None,
            };
            self.put(15, usize::from(a.checked_sub(0x81).filter(|&a| a < 126)?) * 190 + second);
        }
        self.put(15, 32767);
        Some(())
    }

    fn four_byte(&mut self, bytes: &[u8]) -> Option<()> {
        let mut value = 0;
        for (&b, (from, count)) in bytes.iter().zip([(0x81, 126), (0x30, 10), (0x81, 126), (0x30, 10)]) {
            value = value * count + usize::from(b.checked_sub(from)?);
            if usize::from(b - from) >= count {
                return None;
            }
        }
        self.put(21, value);
        Some(())
    }

    fn eci(&mut self, v: usize) {
        self.put(4, 8);
        match v {
            0..128 => self.put(8, v),
            128..16_384 => self.put(16, 0x8000 | v),
            _ => self.put(24, 0xC0_0000 | v),
        }
    }
}

/// The two subsets of text.
fn subsets() -> [Vec<u8>; 2] {
    let first = (b'0'..=b'9').chain(b'A'..=b'Z').chain(b'a'..=b'z').collect();
    let second = (0..=0x1B).chain(b' '..=b'/').chain(b':'..=b'@').chain(b'['..=b'`').chain(b'{'..=0x7F).collect();
    [first, second]
}

/// A command of a script: its mode, and the bytes of the payload that it takes or its ECI.
type Command<'a> = (usize, &'a [u8], usize);

/// The commands of a script, or nothing where the answer is 11 (SPECIFICATION 10.8).
fn commands<'a>(mut script: &[u8], mut payload: &'a [u8]) -> Option<Vec<Command<'a>>> {
    let mut commands = Vec::new();
    while let Some((&mode, rest)) = script.split_first() {
        let mode = usize::from(mode);
        let width = match mode {
            1..=6 => 2,
            7 => 0,
            8 => 3,
            _ => return None,
        };
        let operand = rest.get(..width)?.iter().fold(0, |v, &b| v << 8 | usize::from(b));
        let length = [operand, 4, 0][mode.saturating_sub(6).min(2)];
        let wrong = match mode {
            1 => length == 0,
            3 => length > 8191,
            4..=6 => length % 2 == 1,
            8 => operand > 2_097_151,
            _ => false,
        };
        if wrong {
            return None;
        }
        commands.push((mode, payload.split_off(..length)?, operand));
        script = &rest[width..];
    }
    payload.is_empty().then_some(commands)
}

/// The bits of any script and payload, or the refusal of SPECIFICATION 10.8: 11, 12 or 8.
pub fn encode(script: &[u8], payload: &[u8]) -> Result<Bits, usize> {
    let mut bits = Bits::default();
    for (mode, bytes, eci) in commands(script, payload).ok_or(11usize)? {
        if mode == 8 {
            bits.eci(eci);
        } else {
            bits.segment(mode, bytes).ok_or(12usize)?;
        }
    }
    if payload.is_empty() { Err(8) } else { Ok(bits) }
}

/// Segments: their bits, script and payload.
#[derive(Default, Clone)]
pub struct Written {
    pub bits: Bits,
    pub script: Vec<u8>,
    pub payload: Vec<u8>,
}

impl Written {
    /// Random segments, at most `count` of at most `most` characters each, that end within `room` bits.
    pub fn random(random: &mut Random, count: usize, most: usize, room: usize) -> Self {
        let mut written = Self::default();
        written.fill(random, count, most, room);
        written
    }

    /// The same behind a first segment of a mode, with some payload: `count` is above 0, and each mode with a character must fit.
    pub fn starting(random: &mut Random, first: usize, count: usize, most: usize, room: usize) -> Self {
        loop {
            let mut written = Self::default();
            written.add(random, first, most);
            if written.bits.0.len() <= room {
                written.fill(random, count, most, room);
                if !written.payload.is_empty() {
                    return written;
                }
            }
        }
    }

    fn fill(&mut self, random: &mut Random, count: usize, most: usize, room: usize) {
        for _ in 0..count {
            let (b, s, p) = (self.bits.0.len(), self.script.len(), self.payload.len());
            let mode = 1 + random.below(8);
            self.add(random, mode, most);
            if self.bits.0.len() > room {
                self.bits.0.truncate(b);
                self.script.truncate(s);
                self.payload.truncate(p);
                return;
            }
        }
    }

    /// A random segment of a mode.
    pub fn add(&mut self, random: &mut Random, mode: usize, most: usize) {
        let n = random.below(most + 1);
        if mode == 8 {
            let v = eci(random);
            self.bits.eci(v);
            self.script.extend([8, (v >> 16) as u8, (v >> 8) as u8, v as u8]);
            return;
        }
        let bytes = characters(random, mode, n);
        self.bits.segment(mode, &bytes).unwrap();
        self.payload.extend(&bytes);
        self.script.push(mode as u8);
        if mode != 7 {
            self.script.extend([(bytes.len() >> 8) as u8, bytes.len() as u8]);
        }
    }
}

/// Random bytes that a mode has: n characters, or one where the mode takes at least one or just one.
fn characters(random: &mut Random, mode: usize, n: usize) -> Vec<u8> {
    let below = |random: &mut Random, from: usize, n: usize| (from + random.below(n)) as u8;
    match mode {
        1 => (0..n.max(1)).map(|_| below(random, 0x30, 10)).collect(),
        2 => {
            let tables = subsets();
            (0..n).map(|_| (random.below(2), random.below(62))).map(|(t, c)| tables[t][c]).collect()
        }
        3 => (0..n).map(|_| random.byte()).collect(),
        4 | 5 => (0..n).flat_map(|_| region_pair(random)).collect(),
        6 => (0..n).flat_map(|_| [below(random, 0x81, 126), second(random.below(190))]).collect(),
        _ => [(0x81, 126), (0x30, 10), (0x81, 126), (0x30, 10)].map(|(from, n)| below(random, from, n)).to_vec(),
    }
}

/// The second byte of a two-byte character.
fn second(n: usize) -> u8 {
    if n < 63 { 0x40 + n as u8 } else { 0x41 + n as u8 }
}

/// A pair of region one or two.
fn region_pair(random: &mut Random) -> [u8; 2] {
    let (row, column) = if random.below(2) == 1 {
        (0xD8 + random.below(32), random.below(94))
    } else {
        match random.below(3) {
            0 => (0xB0 + random.below(40), random.below(94)),
            1 => (0xA1 + random.below(3), random.below(94)),
            _ => (0xA8, random.below(32)),
        }
    };
    [row as u8, 0xA1 + column as u8]
}

fn eci(random: &mut Random) -> usize {
    match random.below(8) {
        0 => 127,
        1 => 128,
        2 => 16_383,
        3 => 16_384,
        4 => 2_097_151,
        k => random.below([128, 16_384, 2_097_152][k - 5]),
    }
}
