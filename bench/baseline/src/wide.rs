//! The layout of OCAD 9 to 11.

use crate::bytes::*;
use crate::layout::{Block, Layout, Slot};
use std::ops::Range;

pub struct IndexBlock;

impl Block for IndexBlock {
    const SIZE: usize = 10_244;
    const SHIFT: usize = 13;
}

/// The header of an object whose Len is its bytes. No object has fewer bytes.
const LONG_OBJECT: usize = 40;

/// The status of a slot that is not deleted.
const NORMAL: u8 = 1;
const HIDDEN: u8 = 2;

#[derive(Clone, Copy)]
pub struct Wide;

impl Layout for Wide {
    type IndexBlock = IndexBlock;
    const SLOT: usize = 40;

    #[inline]
    fn slot(bytes: &[u8]) -> Slot {
        let (len, sym, status) = (u32_at(bytes, 20), u32_at(bytes, 24), bytes[30]);
        Slot::of(bytes, len, sym, !matches!(status, NORMAL | HIDDEN))
    }

    #[inline]
    fn symbol_size(map: &[u8], position: usize) -> Option<usize> {
        let size = i32_at(map.get(position..position + 4)?, 0);
        (size >= 572).then_some(size as usize)
    }

    /// Len is the bytes of a long header and the pairs, or it counts the pairs: the object tells which.
    #[inline(always)]
    fn object(self, map: &[u8], slot: &Slot) -> Option<Range<usize>> {
        if slot.position < HEADER {
            return None;
        }
        let head = Head::of(map.get(slot.position..slot.position + LONG_OBJECT)?);
        let (len, pairs) = (slot.len as usize, head.items + head.texts);
        let size = if len == LONG_OBJECT + PAIR * pairs {
            len
        } else if len == pairs {
            OBJECT + PAIR * len
        } else {
            return None;
        };
        let end = slot.position + size;
        let agrees = slot.rectangle.ordered()
            && end <= map.len()
            && head.sym == slot.sym
            && (1..=7).contains(&head.kind);
        agrees.then_some(slot.position..end)
    }
}

/// The four fields of an object header that are read.
struct Head {
    sym: u32,
    kind: u8,
    items: usize,
    texts: usize,
}

impl Head {
    /// The header of an object's bytes, of which there are at least fourteen.
    #[inline]
    fn of(object: &[u8]) -> Head {
        Head {
            sym: u32_at(object, 0),
            kind: object[4],
            items: u32_at(object, 8) as usize,
            texts: u16_at(object, 12) as usize,
        }
    }
}
