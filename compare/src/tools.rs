//! What the parts share: numbers that look random and are the same in each run, and the end at a difference.

/// The length of payload and script buffers that is enough for any mark.
pub const ROOM: usize = 12_288;
/// What lent buffers hold before a call.
pub const MARK: u8 = 0xA5;

/// xorshift64*, from a fixed seed.
pub struct Random(u64);

impl Random {
    pub fn new(seed: u64) -> Self {
        Self(seed.wrapping_mul(0x9e37_79b9_7f4a_7c15) | 1)
    }

    pub fn next(&mut self) -> u64 {
        self.0 ^= self.0 >> 12;
        self.0 ^= self.0 << 25;
        self.0 ^= self.0 >> 27;
        self.0.wrapping_mul(0x2545_f491_4f6c_dd1d)
    }

    /// A number below n.
    pub fn below(&mut self, n: usize) -> usize {
        usize::try_from((self.next() >> 11) % u64::try_from(n).unwrap()).unwrap()
    }

    pub fn byte(&mut self) -> u8 {
        self.next().to_be_bytes()[0]
    }

    pub fn fill(&mut self, bytes: &mut [u8]) {
        for b in bytes {
            *b = self.byte();
        }
    }

    /// What changes a byte: a number that is not 0.
    pub fn change(&mut self) -> u8 {
        u8::try_from(1 + self.below(255)).unwrap()
    }

    /// Calls on `count` different numbers below n, in random order.
    pub fn each_of(&mut self, n: usize, count: usize, mut call: impl FnMut(&mut Self, usize)) {
        let mut all: Vec<usize> = (0..n).collect();
        for i in 0..count.min(n) {
            let j = i + self.below(n - i);
            all.swap(i, j);
            call(self, all[i]);
        }
    }
}

/// Bytes in hexadecimal, to show an input.
pub fn hex(bytes: &[u8]) -> String {
    bytes.iter().map(|b| format!("{b:02X}")).collect()
}

/// The bytes of a hexadecimal text, or nothing where it is none.
pub fn unhex(text: &str) -> Option<Vec<u8>> {
    let digits: Vec<u8> = text.chars().map(|c| Some(c.to_digit(16)? as u8)).collect::<Option<_>>()?;
    let (pairs, rest) = digits.as_chunks::<2>();
    rest.is_empty().then(|| pairs.iter().map(|[high, low]| high << 4 | low).collect())
}

/// The end of a comparison that cannot go on.
pub fn fail(message: &str) -> ! {
    eprintln!("compare: {message}");
    std::process::exit(1);
}

/// The end of a comparison at its first difference.
pub fn differs(what: &str, input: &str, ours: &str, theirs: &str) -> ! {
    fail(&format!("{what} differs\n  input:  {input}\n  ours:   {ours}\n  theirs: {theirs}"));
}

/// Ends at a difference between two answers.
pub fn same<T: PartialEq + std::fmt::Debug>(what: &str, input: &str, ours: T, theirs: T) {
    if ours != theirs {
        differs(what, input, &format!("{ours:?}"), &format!("{theirs:?}"));
    }
}
