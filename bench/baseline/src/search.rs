//! The search: while the check judges a slot, a bit notes whether the slot meets the window, so that each slot
//! is read once. The lent list is written from the bits, when nothing can be refused any more.

use crate::bytes::{greatest_raw, least_raw, MOST, ROW, SLOTS};
use crate::check::{check_noting, Notes};
use crate::layout::{Block, Rectangle};
use crate::narrow::IndexBlock;
use crate::{refuse, Refusal};

pub struct Found {
    pub count: u32,
    pub blocks: u32,
}

/// A window in 0.01 mm.
pub struct Window {
    pub left: i32,
    pub bottom: i32,
    pub right: i32,
    pub top: i32,
}

/// A window's sides as raw coordinates, so that no slot's are divided.
struct Sides {
    left: i64,
    bottom: i64,
    right: i64,
    top: i64,
}

impl Sides {
    fn of(window: &Window) -> Sides {
        Sides {
            left: least_raw(window.left),
            bottom: least_raw(window.bottom),
            right: greatest_raw(window.right),
            top: greatest_raw(window.top),
        }
    }

    /// 1 if a rectangle lies apart from the window, else 0: the sign of four distances, of which one is negative.
    /// Without branches, since none on a coordinate can be foreseen.
    #[inline]
    fn apart(&self, other: &Rectangle) -> u64 {
        let distances = (self.right - other.left as i64)
            | (other.right as i64 - self.left)
            | (self.top - other.bottom as i64)
            | (other.top as i64 - self.bottom);
        distances as u64 >> 63
    }
}

/// Which slots meet a window, a bit for each.
struct Met {
    sides: Sides,
    /// The row that is judged: bits are shifted in, and set for slots that don't meet.
    not_met: u64,
    /// The rows before, the first slot's bit lowest, and set for slots that meet.
    rows: Vec<u64>,
}

impl Met {
    #[inline]
    fn shift_in(&mut self, not_met: u64) {
        self.not_met = self.not_met << 1 | not_met;
    }
}

impl Notes for Met {
    #[inline]
    fn free(&mut self, _: u32) {
        self.shift_in(1);
    }

    #[inline]
    fn erased(&mut self) {
        self.shift_in(1);
    }

    #[inline]
    fn live(&mut self, rectangle: &Rectangle) {
        self.shift_in(self.sides.apart(rectangle));
    }

    #[inline]
    fn end_of_row(&mut self) {
        self.rows.push(!self.not_met.reverse_bits());
    }
}

pub fn search(buffer: &[u8], used: usize, window: &Window, list: &mut [u32]) -> Result<Found, Refusal> {
    // index blocks of 6 to 8, of which more fit a map
    let most_blocks = used.min(MOST) / IndexBlock::SIZE;
    let rows = Vec::with_capacity(most_blocks * (SLOTS / ROW));
    let mut met = Met { sides: Sides::of(window), not_met: 0, rows };
    let accepted = check_noting(buffer, used, &mut met)?;
    if window.left > window.right || window.bottom > window.top {
        return refuse(8, 0);
    }
    let count = met.rows.iter().map(|row| row.count_ones()).sum();
    if list.len() < count as usize {
        return Err(Refusal { number: 9, place: 0, count });
    }
    write(&met.rows, list);
    Ok(Found { count, blocks: accepted.blocks() })
}

/// Writes the numbers of the slots that meet to the list, which has room for them.
fn write(rows: &[u64], list: &mut [u32]) {
    let mut at = 0;
    for (nth, &row) in rows.iter().enumerate() {
        let first = (nth * ROW) as u32;
        if row == u64::MAX {
            // a run of numbers, for which the compiler has vector instructions
            list[at..at + ROW].iter_mut().zip(first..).for_each(|(entry, number)| *entry = number);
            at += ROW;
            continue;
        }
        let mut left = row;
        while left != 0 {
            list[at] = first + left.trailing_zeros();
            at += 1;
            left &= left - 1;
        }
    }
}
