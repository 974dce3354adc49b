//! The edits: check, 17 on maps that are not edited, journal, then the edit's own refusals; nothing is written
//! before the last one.

use crate::bytes::*;
use crate::check::{check_noting, Accepted, Notes, Opened};
use crate::journal::{self, Records, ADD, REINSTATE, REMOVE};
use crate::layout::{Block, Slot};
use crate::narrow::{Head, IndexBlock, Narrow};
use crate::{refuse, Refusal};

pub struct Done {
    pub before: bool,
    pub slot: u32,
    pub length: u32,
}

/// What every edit works on.
pub struct Lent<'a> {
    pub map: &'a mut [u8],
    pub used: usize,
    pub journal: &'a mut [u8],
    pub edit: u32,
}

/// The first free slot, which an add takes.
struct FirstFree(Option<u32>);

impl Notes for FirstFree {
    #[inline]
    fn free(&mut self, number: u32) {
        self.0 = self.0.or(Some(number));
    }
}

impl Lent<'_> {
    fn open(&self, notes: &mut impl Notes) -> Result<(Opened<'_, Narrow>, Records), Refusal> {
        let Accepted::Narrow(opened) = check_noting(self.map, self.used, notes)? else {
            return refuse(17, 0);
        };
        let records = journal::read(self.journal, &opened, self.edit)?;
        Ok((opened, records))
    }

    fn done(&self, before: bool, slot: u32, length: usize) -> Result<Done, Refusal> {
        Ok(Done { before, slot, length: length as u32 })
    }

    /// The answer if the number is held already.
    fn repeat(&self, same: bool, slot: u32) -> Result<Done, Refusal> {
        if same {
            self.done(true, slot, self.used)
        } else {
            refuse(14, 0)
        }
    }
}

pub fn add(lent: &mut Lent, object: &[u8]) -> Result<Done, Refusal> {
    let used = lent.used;
    let mut first_free = FirstFree(None);
    let (opened, records) = lent.open(&mut first_free)?;
    if let Some((kind, slot)) = records.held {
        let place = opened.place_of(slot).unwrap();
        let stored = opened.slot_at(place);
        return lent.repeat(kind == ADD && object_of(&opened, &stored) == Some(object), slot);
    }
    let head = match offered(opened.layout, object) {
        Some(head) => head,
        None => return refuse(10, 0),
    };
    let block = used + object.len();
    let (slot, place, length) = match first_free.0 {
        Some(slot) => (slot, opened.place_of(slot).unwrap(), block),
        None => ((opened.blocks.len() * SLOTS) as u32, block + LINK, block + IndexBlock::SIZE),
    };
    if length > MOST || length > lent.map.len() {
        return refuse(11, 0);
    }
    let record = records.room()?;
    let len = match opened.layout {
        Narrow::Bytes => object.len(),
        Narrow::Pairs => head.items + head.texts,
    };
    let last = opened.blocks.last().map_or(12, |&last| last as usize);

    let map = &mut *lent.map;
    map[used..block].copy_from_slice(object);
    if length > block {
        map[block..length].fill(0);
        put_u32(map, last, block as u32);
    }
    let pairs = &object[OBJECT..OBJECT + PAIR * head.items];
    write_slot(&mut map[place..], rectangle(pairs), used as u32, len as u16, head.sym);
    journal::write(lent.journal, record, lent.edit, ADD, slot);
    lent.done(false, slot, length)
}

/// The bytes of a slot's object, if it starts at 48 or later and lies inside.
fn object_of<'a>(opened: &Opened<'a, Narrow>, slot: &Slot) -> Option<&'a [u8]> {
    if slot.position < HEADER {
        return None;
    }
    opened.map.get(slot.position..slot.position + opened.layout.size(slot.len))
}

/// The header of an offered object that is well formed.
fn offered(layout: Narrow, object: &[u8]) -> Option<Head> {
    if object.len() < OBJECT + PAIR {
        return None;
    }
    let head = Head::of(object);
    let pairs = head.items + head.texts;
    let good = object.len() == OBJECT + PAIR * pairs
        && pairs <= layout.most_pairs()
        && head.items >= 1
        && (1..=5).contains(&head.kind)
        && head.sym != 0;
    good.then_some(head)
}

/// The least rectangle over pairs of coordinates, marks zero: left, bottom, right, top.
fn rectangle(pairs: &[u8]) -> [i32; 4] {
    let mut least = [i32::MAX, i32::MAX, i32::MIN, i32::MIN];
    for pair in pairs.chunks_exact(PAIR) {
        let (x, y) = (i32_at(pair, 0) & !255, i32_at(pair, 4) & !255);
        least = [least[0].min(x), least[1].min(y), least[2].max(x), least[3].max(y)];
    }
    least
}

fn write_slot(slot: &mut [u8], rectangle: [i32; 4], position: u32, len: u16, sym: u16) {
    for (i, side) in rectangle.into_iter().enumerate() {
        put_u32(slot, 4 * i, side as u32);
    }
    put_u32(slot, 16, position);
    put_u32(slot, 20, len as u32 | (sym as u32) << 16);
}

pub fn remove(lent: &mut Lent, at: u32) -> Result<Done, Refusal> {
    change(lent, at, REMOVE, |_, slot| slot.live().then_some(0))
}

pub fn reinstate(lent: &mut Lent, at: u32) -> Result<Done, Refusal> {
    change(lent, at, REINSTATE, |opened, slot| {
        let object = opened.map.get(slot.position..slot.position + 2)?;
        let sym = u16_at(object, 0);
        let with_sym = Slot { sym: sym.into(), ..slot };
        (slot.erased() && sym != 0 && opened.is_good(&with_sym)).then_some(sym)
    })
}

/// Gives a slot a new Sym, which `wanted` finds.
fn change(
    lent: &mut Lent,
    at: u32,
    kind: u32,
    wanted: impl Fn(&Opened<Narrow>, Slot) -> Option<u16>,
) -> Result<Done, Refusal> {
    let (opened, records) = lent.open(&mut ())?;
    if let Some(held) = records.held {
        return lent.repeat(held == (kind, at), at);
    }
    let found = opened.place_of(at).and_then(|place| {
        let sym = wanted(&opened, opened.slot_at(place))?;
        Some((place, sym))
    });
    let Some((place, sym)) = found else { return refuse(12, 0) };
    let record = records.room()?;
    lent.map[place + 22..place + 24].copy_from_slice(&sym.to_le_bytes());
    journal::write(lent.journal, record, lent.edit, kind, at);
    lent.done(false, at, lent.used)
}
