//! The check: numbers 1 to 7 in their order.

use crate::bytes::*;
use crate::layout::{Block, Layout, Rectangle, Slot, SymbolBlock};
use crate::narrow::Narrow;
use crate::taken::{Starts, Taken};
use crate::wide::Wide;
use crate::{refuse, Refusal};

/// An accepted map.
pub enum Accepted<'a> {
    Narrow(Opened<'a, Narrow>),
    Wide(Opened<'a, Wide>),
}

impl Accepted<'_> {
    /// How many index blocks there are.
    pub fn blocks(&self) -> u32 {
        let blocks = match self {
            Accepted::Narrow(opened) => &opened.blocks,
            Accepted::Wide(opened) => &opened.blocks,
        };
        blocks.len() as u32
    }
}

/// What the check learnt of a map of one layout.
pub struct Opened<'a, L: Layout> {
    pub map: &'a [u8],
    pub layout: L,
    /// The index blocks' positions in chain order.
    pub blocks: Vec<u32>,
    taken: Taken<L::IndexBlock>,
}

/// What a call notes of the slots while they are judged, in slot order and by rows. The check by itself
/// notes nothing.
pub trait Notes {
    #[inline]
    fn free(&mut self, _number: u32) {}
    #[inline]
    fn erased(&mut self) {}
    /// A live slot that is good, by its rectangle.
    #[inline]
    fn live(&mut self, _rectangle: &Rectangle) {}
    #[inline]
    fn end_of_row(&mut self) {}
}

impl Notes for () {}

pub fn check(buffer: &[u8], used: usize) -> Result<Accepted<'_>, Refusal> {
    check_noting(buffer, used, &mut ())
}

/// The check. What was noted counts only if the map is accepted.
pub fn check_noting<'a>(
    buffer: &'a [u8],
    used: usize,
    notes: &mut impl Notes,
) -> Result<Accepted<'a>, Refusal> {
    if !(HEADER..=MOST).contains(&used) || used > buffer.len() {
        return refuse(1, 0);
    }
    let map = &buffer[..used];
    if u16_at(map, 0) != 3245 {
        return refuse(2, 0);
    }
    match version_of(map) {
        Some(Version::Narrow(layout)) => check_narrow(map, layout, notes),
        Some(Version::Wide) => check_wide(map, notes),
        None => refuse(3, 0),
    }
}

/// What a version says of the layout.
enum Version {
    Narrow(Narrow),
    Wide,
}

/// A map's version, if its section mark or file type goes with it.
#[inline]
fn version_of(map: &[u8]) -> Option<Version> {
    let (version, section, file_type) = (u16_at(map, 4), u16_at(map, 2), map[2]);
    match version {
        6 if section == 0 => Some(Version::Narrow(Narrow::Bytes)),
        7 if section == 7 => Some(Version::Narrow(Narrow::Bytes)),
        8 if matches!(section, 2 | 3) => Some(Version::Narrow(Narrow::Pairs)),
        9 | 10 if matches!(file_type, 0 | 1 | 3) => Some(Version::Wide),
        11 if matches!(file_type, 0 | 1 | 8) => Some(Version::Wide),
        _ => None,
    }
}

#[inline(always)]
fn check_narrow<'a>(map: &'a [u8], layout: Narrow, notes: &mut impl Notes) -> Result<Accepted<'a>, Refusal> {
    let setup = read_part(map, 16)?;
    let info = read_part(map, 24)?;
    let opened = open(map, layout, &[setup, info])?;
    opened.judge(notes)?;
    Ok(Accepted::Narrow(opened))
}

#[inline(always)]
fn check_wide<'a>(map: &'a [u8], notes: &mut impl Notes) -> Result<Accepted<'a>, Refusal> {
    let opened = open(map, Wide, &[])?;
    opened.judge(notes)?;
    Ok(Accepted::Wide(opened))
}

/// Setup or info: position and size at `place`, as (start, end), empty if absent.
fn read_part(map: &[u8], place: usize) -> Result<(usize, usize), Refusal> {
    let (position, size) = (position_at(map, place), position_at(map, place + 4));
    if size == 0 {
        return Ok((0, 0));
    }
    if position < HEADER || position + size > map.len() {
        return refuse(4, place);
    }
    Ok((position, position + size))
}

/// Walks both chains. Index blocks keep off these parts.
#[inline(always)]
fn open<'a, L: Layout>(map: &'a [u8], layout: L, parts: &[(usize, usize)]) -> Result<Opened<'a, L>, Refusal> {
    let (blocks, taken) = walk_index(map, parts)?;
    walk_symbols::<L>(map, &taken)?;
    Ok(Opened { map, layout, blocks, taken })
}

fn walk_index<B: Block>(map: &[u8], parts: &[(usize, usize)]) -> Result<(Vec<u32>, Taken<B>), Refusal> {
    let mut blocks = Vec::new();
    let mut starts = Starts::<B>::new(map.len());
    let mut link = 12;
    loop {
        let start = position_at(map, link);
        if start == 0 {
            return Ok((blocks, Taken::by(starts)));
        }
        let end = start + B::SIZE;
        let inside = start >= HEADER && end <= map.len();
        if !inside || parts.iter().any(|p| start < p.1 && p.0 < end) || !starts.take(start) {
            return refuse(5, link);
        }
        blocks.push(start as u32);
        link = start;
    }
}

fn walk_symbols<L: Layout>(map: &[u8], taken: &Taken<L::IndexBlock>) -> Result<(), Refusal> {
    let mut starts = Starts::<SymbolBlock>::new(map.len());
    let mut link = 8;
    loop {
        let start = position_at(map, link);
        if start == 0 {
            return Ok(());
        }
        let end = start + SymbolBlock::SIZE;
        let inside = start >= HEADER && end <= map.len();
        if !inside || taken.meets(start, end) || !starts.take(start) {
            return refuse(6, link);
        }
        let entries = map[start + LINK..end].chunks_exact(4);
        for (i, entry) in entries.enumerate() {
            let position = position_at(entry, 0);
            if position != 0 && !good_symbol::<L>(map, taken, position) {
                return refuse(6, start + LINK + 4 * i);
            }
        }
        link = start;
    }
}

#[inline]
fn good_symbol<L: Layout>(map: &[u8], taken: &Taken<L::IndexBlock>, position: usize) -> bool {
    if position < HEADER {
        return false;
    }
    let Some(size) = L::symbol_size(map, position) else { return false };
    let end = position + size;
    end <= map.len() && !taken.meets(position, end)
}

impl Opened<'_, Narrow> {
    #[inline(never)] // so that its loops have the registers
    fn judge(&self, notes: &mut impl Notes) -> Result<(), Refusal> {
        // a loop for each sense of Len, so that none is asked for within
        match self.layout {
            Narrow::Bytes => self.judge_slots(Narrow::Bytes, notes),
            Narrow::Pairs => self.judge_slots(Narrow::Pairs, notes),
        }
    }
}

impl Opened<'_, Wide> {
    #[inline(never)] // as above
    fn judge(&self, notes: &mut impl Notes) -> Result<(), Refusal> {
        self.judge_slots(Wide, notes)
    }
}

impl<L: Layout> Opened<'_, L> {
    #[inline(always)]
    fn judge_slots(&self, layout: L, notes: &mut impl Notes) -> Result<(), Refusal> {
        let (map, taken) = (self.map, &self.taken);
        for (nth, &block) in self.blocks.iter().enumerate() {
            for row in (0..SLOTS).step_by(ROW) {
                let place = block as usize + LINK + L::SLOT * row;
                let slots = map[place..place + ROW * L::SLOT].chunks_exact(L::SLOT).map(L::slot);
                for (i, slot) in slots.enumerate() {
                    if slot.free() {
                        notes.free((nth * SLOTS + row + i) as u32);
                    } else if !slot.live() {
                        notes.erased();
                    } else if good(map, layout, taken, &slot) {
                        notes.live(&slot.rectangle);
                    } else {
                        return refuse(7, place + L::SLOT * i);
                    }
                }
                notes.end_of_row();
            }
        }
        Ok(())
    }

    /// Is the slot good, if it is taken for live?
    pub fn is_good(&self, slot: &Slot) -> bool {
        good(self.map, self.layout, &self.taken, slot)
    }

    /// Where a slot is stored, if it exists.
    pub fn place_of(&self, slot: u32) -> Option<usize> {
        let block = *self.blocks.get(slot as usize / SLOTS)?;
        Some(block as usize + LINK + L::SLOT * (slot as usize % SLOTS))
    }

    pub fn slot_at(&self, place: usize) -> Slot {
        L::slot(&self.map[place..place + L::SLOT])
    }
}

#[inline(always)]
fn good<L: Layout>(map: &[u8], layout: L, taken: &Taken<L::IndexBlock>, slot: &Slot) -> bool {
    layout.object(map, slot).is_some_and(|object| !taken.meets(object.start, object.end))
}
