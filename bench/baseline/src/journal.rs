//! The journal: its records in use are judged in one pass, which also looks for the edit's number.

use crate::bytes::{put_u32, u16_at, u32_at, RECORD};
use crate::check::Opened;
use crate::narrow::Narrow;
use crate::{refuse, Refusal};

pub const ADD: u32 = 1;
pub const REMOVE: u32 = 2;
pub const REINSTATE: u32 = 3;

/// A well-formed journal.
pub struct Records {
    in_use: usize,
    full: bool,
    /// Kind and slot of the record that holds the edit's number.
    pub held: Option<(u32, u32)>,
}

pub fn read(journal: &[u8], opened: &Opened<Narrow>, edit: u32) -> Result<Records, Refusal> {
    if journal.len() % RECORD != 0 || journal.len() > 65_536 || edit == 0 {
        return refuse(13, 0);
    }
    let used = |record: &[u8]| u128::from_le_bytes(record.try_into().unwrap()) != 0;
    let in_use = journal.chunks_exact(RECORD).rposition(used).map_or(0, |last| last + 1);
    let mut numbers = Numbers::with_room_for(in_use);
    let mut held = None;
    for record in journal[..in_use * RECORD].chunks_exact(RECORD) {
        let (number, kind) = (u32_at(record, 0), u32_at(record, 4));
        let (slot, zeros) = (u32_at(record, 8), u32_at(record, 12));
        let taken = opened.place_of(slot).is_some_and(|at| u16_at(opened.map, at + 20) != 0);
        let good = number != 0 && matches!(kind, ADD..=REINSTATE) && zeros == 0 && taken;
        if !good || !numbers.insert(number) {
            return refuse(13, 0);
        }
        if number == edit {
            held = Some((kind, slot));
        }
    }
    Ok(Records { in_use, full: in_use * RECORD == journal.len(), held })
}

impl Records {
    /// Where the next record goes, or 15.
    pub fn room(&self) -> Result<usize, Refusal> {
        if self.full {
            return refuse(15, 0);
        }
        Ok(self.in_use * RECORD)
    }
}

/// Writes a record into unused bytes, which are zero.
pub fn write(journal: &mut [u8], at: usize, edit: u32, kind: u32, slot: u32) {
    put_u32(journal, at, edit);
    put_u32(journal, at + 4, kind);
    put_u32(journal, at + 8, slot);
}

/// A set of numbers other than 0: open addressing, at most half full.
struct Numbers {
    table: Vec<u32>,
    shift: u32,
}

impl Numbers {
    fn with_room_for(count: usize) -> Numbers {
        let size = (2 * count).next_power_of_two().max(2);
        Numbers { table: vec![0; size], shift: 32 - size.trailing_zeros() }
    }

    /// Takes a number, unless it is there.
    #[inline]
    fn insert(&mut self, number: u32) -> bool {
        let mask = self.table.len() - 1;
        let mut at = (number.wrapping_mul(0x9E37_79B1) >> self.shift) as usize;
        loop {
            let entry = &mut self.table[at & mask];
            if *entry == 0 {
                *entry = number;
                return true;
            }
            if *entry == number {
                return false;
            }
            at += 1;
        }
    }
}
