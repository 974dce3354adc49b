//! What the layout of OCAD 6 to 8 (`narrow`) and that of 9 to 11 (`wide`) have each of their own. A layout is
//! a type, so that the check is compiled for each.

use crate::bytes::{i32_at, ordered, position_at};
use std::ops::Range;

/// A kind of block.
pub trait Block {
    const SIZE: usize;
    /// A page of a table has 1 << `SHIFT` bytes, which is at most `SIZE`: no two blocks start in one.
    const SHIFT: usize;
}

/// A symbol block, which is the same in both.
pub struct SymbolBlock;

impl Block for SymbolBlock {
    const SIZE: usize = 1_028;
    const SHIFT: usize = 10;
}

pub trait Layout: Copy {
    type IndexBlock: Block;
    /// Bytes of a slot.
    const SLOT: usize;

    /// The slot in so many bytes.
    fn slot(bytes: &[u8]) -> Slot;

    /// The Size of the symbol record at a position, if it lies inside the map and is not too small.
    fn symbol_size(map: &[u8], position: usize) -> Option<usize>;

    /// Where a slot's object lies, if the slot is good but for what index blocks take.
    fn object(self, map: &[u8], slot: &Slot) -> Option<Range<usize>>;
}

/// A slot as it is stored.
#[derive(Clone, Copy)]
pub struct Slot {
    pub rectangle: Rectangle,
    pub position: usize,
    pub len: u32,
    /// As bits: nothing asks for its sign.
    pub sym: u32,
    /// By Sym in 6 to 8, by the status in 9 to 11.
    pub deleted: bool,
}

/// A rectangle in raw coordinates.
#[derive(Clone, Copy)]
pub struct Rectangle {
    pub left: i32,
    pub bottom: i32,
    pub right: i32,
    pub top: i32,
}

impl Rectangle {
    /// Is left at most right, and bottom at most top, by value?
    #[inline]
    pub fn ordered(&self) -> bool {
        ordered(self.left, self.right) && ordered(self.bottom, self.top)
    }
}

impl Slot {
    /// Rectangle and position come first in both layouts.
    #[inline]
    pub fn of(bytes: &[u8], len: u32, sym: u32, deleted: bool) -> Slot {
        let rectangle = Rectangle {
            left: i32_at(bytes, 0),
            bottom: i32_at(bytes, 4),
            right: i32_at(bytes, 8),
            top: i32_at(bytes, 12),
        };
        Slot { rectangle, position: position_at(bytes, 16), len, sym, deleted }
    }

    pub fn free(&self) -> bool {
        self.len == 0
    }

    pub fn erased(&self) -> bool {
        self.len != 0 && self.deleted
    }

    pub fn live(&self) -> bool {
        self.len != 0 && !self.deleted
    }
}
