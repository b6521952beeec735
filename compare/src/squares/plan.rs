//! A version's square by the original's tables: where its codewords, blocks and information lie, marks made without our writer, and
//! why the original refuses a square.
use crate::blocks::our_parity;
use crate::han_xin::{Module, access, info_bits, info_positions, layout, size};
use crate::reed_solomon::gf256;
use crate::written::Bits;

/// A block in the stream: where it starts, its data and its parity.
#[derive(Clone, Copy)]
pub struct Block {
    pub start: usize,
    pub data: usize,
    pub parity: usize,
}

pub struct Plan {
    pub version: usize,
    pub side: usize,
    /// The eight modules of each codeword, by its place in the stream.
    pub codewords: Vec<[usize; 8]>,
    /// The data modules behind all codewords.
    pub leftover: Vec<usize>,
    /// The modules that are neither data nor information.
    pub fixed: Vec<usize>,
    /// The two copies of each information bit.
    information: [[usize; 2]; 34],
    /// A square with its dark function modules.
    blank: Vec<u8>,
    /// What the four masks do to each module.
    masks: [Vec<u8>; 4],
}

impl Plan {
    pub fn new(version: usize) -> Self {
        let (side, kinds) = (size(version), layout(version));
        let total = usize::from(access::total(version));
        let data: Vec<usize> = (0..side * side).filter(|&i| kinds[i] == Module::Data).collect();
        let mut codewords = vec![[0; 8]; total];
        let order = (0..13).flat_map(|start| (start..total).step_by(13));
        for (place, modules) in order.zip(data.as_chunks::<8>().0) {
            codewords[place] = *modules;
        }
        let mask = |m| (0..side * side).map(|i| u8::from(access::masked(m, i / side, i % side))).collect();
        Self {
            version,
            side,
            codewords,
            leftover: data[8 * total..].to_vec(),
            fixed: (0..side * side).filter(|&i| matches!(kinds[i], Module::Light | Module::Dark)).collect(),
            information: info_positions(side),
            blank: kinds.iter().map(|&k| u8::from(k == Module::Dark)).collect(),
            masks: [0, 1, 2, 3].map(mask),
        }
    }

    pub fn blocks(&self, level: usize) -> Vec<Block> {
        let (mut blocks, mut start) = (Vec::new(), 0);
        for batch in access::row(self.version, level).as_chunks::<3>().0 {
            let [count, data, parity] = batch.map(usize::from);
            for _ in 0..count {
                blocks.push(Block { start, data, parity });
                start += data + parity;
            }
        }
        blocks
    }

    /// How many data codewords a level has.
    pub fn room(&self, level: usize) -> usize {
        self.blocks(level).iter().map(|b| b.data).sum()
    }

    /// The data codewords with their parity behind each block.
    pub fn stream(&self, level: usize, data: &[u8]) -> Vec<u8> {
        let (mut stream, mut at) = (Vec::new(), 0);
        for Block { start, data: n, parity } in self.blocks(level) {
            stream.extend((at..at + n).map(|i| data.get(i).copied().unwrap_or(0)));
            stream.resize(start + n + parity, 0);
            our_parity(&mut stream[start..], parity);
            at += n;
        }
        stream
    }

    /// A mark of a stream. The leftover data modules are zeros, which the mask inverts like every other.
    pub fn square(&self, level: usize, mask: usize, stream: &[u8]) -> Vec<u8> {
        let mut square = self.blank.clone();
        for (modules, &codeword) in self.codewords.iter().zip(stream) {
            for (bit, &i) in modules.iter().enumerate() {
                square[i] = (codeword >> (7 - bit) & 1) ^ self.masks[mask][i];
            }
        }
        for &i in &self.leftover {
            square[i] = self.masks[mask][i];
        }
        self.inform(&mut square, info_bits(self.version, level, mask));
        square
    }

    /// Writes both copies of the information.
    pub fn inform(&self, square: &mut [u8], word: u64) {
        for (n, pair) in self.information.iter().enumerate() {
            for &i in pair {
                square[i] = u8::from(word >> (33 - n) & 1 == 1);
            }
        }
    }

    /// The two copies of the information as they are read. An unknown module is light.
    pub fn copies(&self, square: &[u8]) -> [u64; 2] {
        [0, 1].map(|copy| self.information.iter().fold(0, |word, pair| word << 1 | u64::from(square[pair[copy]] == 1)))
    }

    /// The module of information bit n of 68: bits 33 down to 0 of the first copy, then of the second.
    pub fn informed(&self, n: usize) -> usize {
        self.information[n % 34][n / 34]
    }

    /// Changes a codeword of a square.
    pub fn change(&self, square: &mut [u8], place: usize, by: u8) {
        for (bit, &i) in self.codewords[place].iter().enumerate() {
            square[i] ^= by >> (7 - bit) & 1;
        }
    }

    /// The codewords of a square in stream order. An unknown module is light before it is unmasked.
    pub fn bytes(&self, square: &[u8], mask: usize) -> Vec<u8> {
        let bit = |&i: &usize| u8::from(square[i] == 1) ^ self.masks[mask][i];
        self.codewords.iter().map(|c| c.iter().fold(0, |byte, i| byte << 1 | bit(i))).collect()
    }

    /// The refusal number for a square that the original refuses with this level and mask: 6 where it refuses a block, else that of the
    /// data.
    pub fn refusal(&self, square: &[u8], level: usize, mask: usize) -> usize {
        let (mut stream, mut data) = (self.bytes(square, mask), Vec::new());
        for b in self.blocks(level) {
            let block = &mut stream[b.start..b.start + b.data + b.parity];
            if gf256(0x163).correct(block, b.parity, 1).is_none() {
                return 6;
            }
            data.extend_from_slice(&block[..b.data]);
        }
        data_refusal(&data)
    }
}

/// The refusal number for data that the original refuses: 8 where its parse of the same data behind some payload is accepted, else 7.
pub fn data_refusal(data: &[u8]) -> usize {
    if access::parse(&[&payload()[..], data].concat()).is_some() { 8 } else { 7 }
}

/// Segments with some payload, of 64 bits: a four-byte character, no bytes, and text of two.
fn payload() -> Vec<u8> {
    let mut bits = Bits::default();
    for (n, v) in [(4, 7), (21, 0), (4, 3), (13, 0), (4, 2), (6, 0), (6, 0), (6, 63)] {
        bits.put(n, v);
    }
    bits.bytes()
}
