//! Which bytes of a map blocks take, in tables over pages that a block is too long to share.

use crate::layout::Block;
use std::marker::PhantomData;

/// Blocks of one kind, none sharing a byte with another, by the page in which they start.
pub struct Starts<B> {
    length: usize,
    /// The start in each page, 0 for none; no pages before the first block.
    pages: Vec<u32>,
    of: PhantomData<B>,
}

impl<B: Block> Starts<B> {
    pub fn new(length: usize) -> Self {
        Starts { length, pages: Vec::new(), of: PhantomData }
    }

    /// Takes the block at `start`, which lies inside the map, unless it meets an earlier one.
    #[inline(always)] // else it is a call for each block
    pub fn take(&mut self, start: usize) -> bool {
        if self.pages.is_empty() {
            self.pages = vec![0; (self.length >> B::SHIFT) + 1];
        }
        let first = start.saturating_sub(B::SIZE - 1) >> B::SHIFT;
        let last = (start + B::SIZE - 1) >> B::SHIFT;
        let meets = |&other: &u32| other != 0 && start.abs_diff(other as usize) < B::SIZE;
        if self.pages[first..=last].iter().any(meets) {
            return false;
        }
        self.pages[start >> B::SHIFT] = start as u32;
        true
    }
}

/// The bytes of all index blocks.
pub struct Taken<B> {
    pages: Vec<Page>,
    of: PhantomData<B>,
}

#[derive(Clone, Copy)]
struct Page {
    /// Where a block starts in this page, or a number past any map.
    start: u32,
    /// The end of the last block that starts before this page, or 0.
    end: u32,
}

impl<B: Block> Taken<B> {
    pub fn by(starts: Starts<B>) -> Self {
        let mut end = 0;
        let page = |start: u32| {
            let before = end;
            if start == 0 {
                return Page { start: u32::MAX / 2, end: before };
            }
            end = start + B::SIZE as u32;
            Page { start, end: before }
        };
        Taken { pages: starts.pages.into_iter().map(page).collect(), of: PhantomData }
    }

    /// Does an index block share a byte with `from..to`, which is inside the map and not empty?
    /// Of the blocks that start before `to`, the last one also ends last.
    #[inline]
    pub fn meets(&self, from: usize, to: usize) -> bool {
        let Some(page) = self.pages.get((to - 1) >> B::SHIFT) else { return false };
        let starts_before = (page.start as usize) < to;
        let end = if starts_before { page.start as usize + B::SIZE } else { page.end as usize };
        end > from
    }
}
