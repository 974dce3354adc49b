//! The layout of OCAD 6 to 8, the only one whose maps are edited.

use crate::bytes::*;
use crate::layout::{Block, Layout, Slot};
use std::ops::Range;

pub struct IndexBlock;

impl Block for IndexBlock {
    const SIZE: usize = 6_148;
    const SHIFT: usize = 12;
}

/// How Len measures an object: bytes in 6 and 7, pairs in 8.
#[derive(Clone, Copy, PartialEq)]
pub enum Narrow {
    Bytes,
    Pairs,
}

impl Narrow {
    /// The bytes that a slot's Len stands for, whatever Len is.
    #[inline]
    pub fn size(self, len: u32) -> usize {
        match self {
            Narrow::Bytes => len as usize,
            Narrow::Pairs => OBJECT + PAIR * len as usize,
        }
    }

    /// Is this a Len that a live slot may have?
    #[inline]
    fn allows(self, len: u32) -> bool {
        match self {
            Narrow::Bytes => len >= 40 && len % 8 == 0,
            Narrow::Pairs => len <= 32_768,
        }
    }

    /// The most pairs of an object that is added.
    pub fn most_pairs(self) -> usize {
        match self {
            Narrow::Bytes => 8_187,
            Narrow::Pairs => 32_768,
        }
    }
}

impl Layout for Narrow {
    type IndexBlock = IndexBlock;
    const SLOT: usize = 24;

    #[inline]
    fn slot(bytes: &[u8]) -> Slot {
        let (len, sym) = (u16_at(bytes, 20), u16_at(bytes, 22));
        Slot::of(bytes, len.into(), sym.into(), sym == 0)
    }

    #[inline]
    fn symbol_size(map: &[u8], position: usize) -> Option<usize> {
        let size = u16_at(map.get(position..position + 2)?, 0) as i16;
        (size >= 348).then_some(size as usize)
    }

    #[inline(always)]
    fn object(self, map: &[u8], slot: &Slot) -> Option<Range<usize>> {
        if !self.allows(slot.len) || slot.position < HEADER {
            return None;
        }
        let size = self.size(slot.len);
        let place = slot.position..slot.position + size;
        let head = Head::of(map.get(place.clone())?);
        let agrees = slot.rectangle.ordered()
            && head.sym as u32 == slot.sym
            && (1..=5).contains(&head.kind)
            && OBJECT + PAIR * (head.items + head.texts) == size;
        agrees.then_some(place)
    }
}

/// The four fields of an object header that are read.
pub struct Head {
    pub sym: u16,
    pub kind: u8,
    pub items: usize,
    pub texts: usize,
}

impl Head {
    /// The header of an object's bytes, of which there are at least eight.
    #[inline]
    pub fn of(object: &[u8]) -> Head {
        let word = u64_at(object, 0);
        Head {
            sym: word as u16,
            kind: (word >> 16) as u8,
            items: (word >> 32) as u16 as usize,
            texts: (word >> 48) as usize,
        }
    }
}
