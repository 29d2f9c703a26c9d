use super::Refusal;
use std::ops::{Deref, DerefMut};

/// Addresses have 19 bits.
pub const ADDRESSES: u32 = 1 << 19;
/// The bits of an address.
pub const ADDRESS_MASK: u32 = ADDRESSES - 1;

const SMALLEST: usize = 16_384;
const LARGEST: usize = ADDRESSES as usize;

/// Video memory: lent bytes, their number a power of two from 16,384 to 524,288.
///
/// The length divides 524,288, so an address may be handed in with more than 19 bits: the same cell is meant.
#[derive(Debug)]
pub struct Video<B> {
    cells: B,
}

impl<B: Deref<Target = [u8]>> Video<B> {
    pub fn new(cells: B) -> Result<Self, Refusal> {
        let length = cells.len();
        if length.is_power_of_two() && (SMALLEST..=LARGEST).contains(&length) {
            Ok(Video { cells })
        } else {
            Err(Refusal::Board)
        }
    }

    #[inline]
    fn cell_of(&self, address: u32) -> usize {
        address as usize & (self.cells.len() - 1)
    }

    #[inline]
    pub fn read(&self, address: u32) -> u8 {
        self.cells[self.cell_of(address)]
    }

    /// So many bytes from an address on, no more than there are: those up to the memory's end, and the rest, from its start.
    pub fn bytes(&self, address: u32, count: usize) -> (&[u8], &[u8]) {
        let upper = &self.cells[self.cell_of(address)..];
        match upper.get(..count) {
            Some(all) => (all, &[]),
            None => (upper, &self.cells[..count - upper.len()]),
        }
    }
}

impl<B: DerefMut<Target = [u8]>> Video<B> {
    #[inline]
    pub fn cell(&mut self, address: u32) -> &mut u8 {
        let at = self.cell_of(address);
        &mut self.cells[at]
    }
}
