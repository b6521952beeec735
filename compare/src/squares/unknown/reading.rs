//! The reading of a square some of whose modules are unknown, put together from parts of the original: its `decode_matrix` and
//! `decode_data` with a flag beside each codeword, and its `correct_with_erasures` for a block that has flags. Nothing of our library has a
//! part in it.
use crate::han_xin::{MAX_INFO_ERRORS, Module, access, info_positions, layout, nearest_info, size, version};
use crate::reed_solomon::gf256;
use crate::squares::bad::Lengths;
use crate::squares::plan::data_refusal;
use crate::squares::{Answer, Reading};

/// The answer and the script, in the order of refusals of SPECIFICATION 10.9 and 10.10.
pub fn read(square: &[u8], how: Reading, lengths: Lengths) -> (Answer, Vec<u8>) {
    if lengths.receipt != 12 {
        return (Answer::refused(2), Vec::new());
    }
    accepted(square, how, lengths).unwrap_or_else(|number| (Answer::refused(number), Vec::new()))
}

fn accepted(square: &[u8], how: Reading, lengths: Lengths) -> Result<(Answer, Vec<u8>), usize> {
    let version = legal(how)?;
    if square.len() != size(version) * size(version) {
        return Err(2);
    }
    if square.iter().any(|&b| b > 2) {
        return Err(3);
    }
    let Decoded { level, mask, distance, data, corrected } = decoded(square, version, how)?;
    let payload = access::parse(&data).ok_or_else(|| data_refusal(&data))?.1;
    if payload.len() > lengths.payload {
        return Err(9);
    }
    let script = script_of(&data);
    if script.len() > lengths.script {
        return Err(10);
    }
    Ok((Answer { number: 0, version, level, mask, corrected, distance, payload }, script))
}

/// The version, where the numbers that a reading is given are in their ranges.
fn legal(how: Reading) -> Result<usize, usize> {
    match how {
        Reading::Side(side) => version(side).ok_or(1),
        Reading::Known(version, level, mask) if (1..=84).contains(&version) && level < 4 && mask < 4 => Ok(version),
        Reading::Known(..) => Err(1),
    }
}

/// What comes out of the blocks of a square.
pub struct Decoded {
    pub level: usize,
    pub mask: usize,
    pub distance: usize,
    pub data: Vec<u8>,
    pub corrected: usize,
}

/// Information and blocks: the data codewords and the count, or 4, 6 or 15.
pub fn decoded(square: &[u8], version: usize, how: Reading) -> Result<Decoded, usize> {
    let (level, mask, distance) = match how {
        Reading::Side(_) => information(square, version),
        Reading::Known(_, level, mask) => (level, mask, 0),
    };
    if distance > MAX_INFO_ERRORS {
        return Err(4);
    }
    let (mut bytes, erased) = stream(square, version, mask);
    let (mut data, mut corrected, mut at) = (Vec::with_capacity(bytes.len()), 0, 0);
    for batch in access::row(version, level).as_chunks::<3>().0 {
        let [blocks, k, parity] = batch.map(usize::from);
        for _ in 0..blocks {
            let block = &mut bytes[at..at + k + parity];
            let places: Vec<usize> = (0..k + parity).filter(|place| erased[at + place]).collect();
            corrected += correct(block, parity, &places)?;
            data.extend_from_slice(&block[..k]);
            at += k + parity;
        }
    }
    Ok(Decoded { level, mask, distance: distance as usize, data, corrected })
}

/// Level, mask and distance of the nearest word. An unknown module is light.
fn information(square: &[u8], version: usize) -> (usize, usize, u32) {
    let mut read = [0; 2];
    for pair in info_positions(size(version)) {
        for (copy, &place) in read.iter_mut().zip(&pair) {
            *copy = *copy << 1 | u64::from(square[place] == 1);
        }
    }
    nearest_info(version, read)
}

/// The codewords of a square in stream order, and which of them have an unknown module. It is light before it is unmasked.
fn stream(square: &[u8], version: usize, mask: usize) -> (Vec<u8>, Vec<bool>) {
    let (side, kinds, total) = (size(version), layout(version), usize::from(access::total(version)));
    let (mut fenced, mut bit) = (vec![(0, false); total], 0);
    for row in 0..side {
        for column in 0..side {
            let i = row * side + column;
            if kinds[i] != Module::Data || bit == 8 * total {
                continue;
            }
            let (byte, erased) = &mut fenced[bit / 8];
            if (square[i] == 1) ^ access::masked(mask, row, column) {
                *byte |= 0x80 >> (bit % 8);
            }
            *erased |= square[i] == 2;
            bit += 1;
        }
    }
    assert_eq!(bit, 8 * total);
    let (mut bytes, mut erased, mut source) = (vec![0; total], vec![false; total], fenced.into_iter());
    for start in 0..13 {
        for i in (start..total).step_by(13) {
            (bytes[i], erased[i]) = source.next().unwrap();
        }
    }
    (bytes, erased)
}

/// A block with the places of it that are erased: how many of its codewords are changed, or its refusal.
fn correct(block: &mut [u8], parity: usize, erased: &[usize]) -> Result<usize, usize> {
    let field = gf256(0x163);
    match erased.len() {
        0 => field.correct(block, parity, 1).ok_or(6),
        n if n > parity => Err(15),
        _ => field.correct_with_erasures(block, parity, 1, erased).ok_or(6),
    }
}

/// Bits of data, high bit first.
struct Bits<'a> {
    data: &'a [u8],
    at: usize,
}

impl Bits<'_> {
    fn left(&self) -> usize {
        8 * self.data.len() - self.at
    }

    fn take(&mut self, n: usize) -> usize {
        self.at += n;
        (self.at - n..self.at).fold(0, |value, i| value << 1 | usize::from(self.data[i / 8] >> (7 - i % 8) & 1))
    }

    /// How many words of a width stand before one that is at least `end`, and that one. A word that is `switch` does not count.
    fn until(&mut self, width: usize, switch: usize, end: usize) -> (usize, usize) {
        let mut count = 0;
        loop {
            let word = self.take(width);
            if word >= end {
                return (count, word);
            }
            count += usize::from(word != switch);
        }
    }

    fn eci(&mut self) -> usize {
        let width = [7, 14, 21].into_iter().find(|_| self.take(1) == 0).unwrap();
        self.take(width)
    }
}

/// The script of data that the original accepts, which tells none: for each segment its mode, with the number of its payload bytes or its
/// ECI.
fn script_of(data: &[u8]) -> Vec<u8> {
    let (mut bits, mut script) = (Bits { data, at: 0 }, Vec::new());
    while bits.left() >= 4 {
        let mode = bits.take(4);
        let (operand, width) = match mode {
            0 => break,
            1 => {
                let (groups, end) = bits.until(10, usize::MAX, 1021);
                (3 * (groups - 1) + end - 1020, 2)
            }
            2 => (bits.until(6, 62, 63).0, 2),
            3 => {
                let count = bits.take(13);
                bits.at += 8 * count;
                (count, 2)
            }
            4 | 5 => (2 * bits.until(12, 4094, 4095).0, 2),
            6 => (2 * bits.until(15, usize::MAX, 32_767).0, 2),
            7 => (bits.take(21), 0),
            _ => (bits.eci(), 3),
        };
        script.push(mode as u8);
        script.extend(&operand.to_be_bytes()[size_of::<usize>() - width..]);
    }
    script
}
