//! Value blocks.

use crate::layout::BlockBytes;

/// What a value block holds, and what the card's register holds between a value operation and its Transfer.
#[derive(Clone, Copy, PartialEq, Eq, Debug)]
pub struct Value {
    pub number: i32,
    pub address: u8,
}

impl Value {
    /// None where one of the sixteen bytes does not agree.
    pub fn decode(block: &BlockBytes) -> Option<Value> {
        let word = |at: usize| u32::from_le_bytes([block[at], block[at + 1], block[at + 2], block[at + 3]]);
        let (number, address) = (word(0), block[12]);
        let addresses = u32::from_le_bytes([address, !address, address, !address]);
        let agree = word(4) == !number && word(8) == number && word(12) == addresses;
        agree.then_some(Value { number: number as i32, address })
    }

    pub fn encode(self) -> BlockBytes {
        let mut block = [0; 16];
        block[0..4].copy_from_slice(&self.number.to_le_bytes());
        block[4..8].copy_from_slice(&(!self.number).to_le_bytes());
        block[8..12].copy_from_slice(&self.number.to_le_bytes());
        block[12..16].copy_from_slice(&[self.address, !self.address, self.address, !self.address]);
        block
    }
}
