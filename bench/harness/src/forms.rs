//! What the maps of a version look like: their slots, their objects, and what Len is.

/// What Len is in a map's slots.
#[derive(Clone, Copy, PartialEq)]
enum Len {
    Bytes,
    Pairs,
    /// The one or the other, by the lowest bit of Sym.
    Either,
}

#[derive(Clone, Copy)]
pub struct Form {
    pub version: u16,
    len: Len,
}

pub const OCAD_7: Form = Form { version: 7, len: Len::Bytes };
pub const OCAD_8: Form = Form { version: 8, len: Len::Pairs };
/// Len as the documents on 9 to 11 have it.
pub const OCAD_9: Form = Form { version: 9, len: Len::Pairs };
/// Len as programs write it.
pub const OCAD_10: Form = Form { version: 10, len: Len::Bytes };
pub const OCAD_11: Form = Form { version: 11, len: Len::Bytes };
pub const OCAD_11_EITHER: Form = Form { version: 11, len: Len::Either };

/// A slot's status in 9 to 11.
pub const NORMAL: u8 = 1;
pub const HIDDEN: u8 = 2;
pub const DELETED: u8 = 3;
pub const STATUS_AT: usize = 30;
/// Where Sym is in a slot of 6 to 8.
pub const SYM_AT: usize = 22;

impl Form {
    /// Is it of 9 to 11, which have slots, objects and symbol records of their own?
    pub fn wide(self) -> bool {
        self.version >= 9
    }

    pub fn slot_size(self) -> usize {
        if self.wide() {
            40
        } else {
            24
        }
    }

    pub fn block_size(self) -> usize {
        4 + 256 * self.slot_size()
    }

    /// The section mark, or in 9 to 11 the file type of a map.
    pub fn section(self) -> u16 {
        match self.version {
            7 => 7,
            8 => 2,
            _ => 0,
        }
    }

    /// A symbol record's Size as it is stored.
    pub fn symbol_size(self, size: usize) -> Vec<u8> {
        let width = if self.wide() { 4 } else { 2 };
        (size as u32).to_le_bytes()[..width].to_vec()
    }

    /// Does Len count the pairs of an object with this Sym?
    fn counts_pairs(self, sym: u32) -> bool {
        match self.len {
            Len::Bytes => false,
            Len::Pairs => true,
            Len::Either => sym % 2 == 1,
        }
    }

    /// The bytes of an object's header, which in 9 to 11 go by what Len is.
    fn header(self, sym: u32) -> usize {
        if self.wide() && !self.counts_pairs(sym) {
            40
        } else {
            32
        }
    }

    /// The most bytes of an object of so many pairs.
    pub fn object_size(self, pairs: usize) -> usize {
        self.header(0) + 8 * pairs
    }

    /// An object's bytes: the first `items` of the pairs are coordinates, the rest is text.
    pub fn object(self, sym: u32, pairs: &[(i32, i32)], items: usize) -> Vec<u8> {
        let texts = pairs.len() - items;
        let mut bytes = vec![0; self.header(sym)];
        if self.wide() {
            put(&mut bytes, 0, &sym.to_le_bytes());
            bytes[4] = 1 + (sym % 7) as u8;
            put(&mut bytes, 8, &(items as u32).to_le_bytes());
            put(&mut bytes, 12, &(texts as u16).to_le_bytes());
        } else {
            put(&mut bytes, 0, &(sym as u16).to_le_bytes());
            bytes[2] = 1 + (sym % 5) as u8;
            put(&mut bytes, 4, &(items as u16).to_le_bytes());
            put(&mut bytes, 6, &(texts as u16).to_le_bytes());
        }
        for (x, y) in pairs {
            bytes.extend((x << 8 | 1).to_le_bytes());
            bytes.extend((y << 8 | 2).to_le_bytes());
        }
        bytes
    }

    /// A live slot for an object at a position.
    pub fn slot(self, object: &[u8], position: usize) -> Vec<u8> {
        let (sym, items, texts) = self.head(object);
        let pairs = items + texts;
        let first = object.len() - 8 * pairs;
        let sides = rectangle(&object[first..first + 8 * items]);
        let len = if self.counts_pairs(sym) { pairs } else { object.len() };

        let mut slot: Vec<u8> = sides.iter().flat_map(|side| side.to_le_bytes()).collect();
        slot.extend((position as u32).to_le_bytes());
        if self.wide() {
            slot.extend((len as u32).to_le_bytes());
            slot.extend(sym.to_le_bytes());
            slot.extend([object[4], 0, NORMAL, 0]);
            slot.resize(self.slot_size(), 0);
        } else {
            slot.extend((len as u16).to_le_bytes());
            slot.extend((sym as u16).to_le_bytes());
        }
        slot
    }

    /// An object's Sym, and how many of its pairs are coordinates and text.
    fn head(self, object: &[u8]) -> (u32, usize, usize) {
        if self.wide() {
            return (u32_at(object, 0), u32_at(object, 8) as usize, u16_at(object, 12) as usize);
        }
        (u16_at(object, 0) as u32, u16_at(object, 4) as usize, u16_at(object, 6) as usize)
    }

    /// Where the object of a slot of 6 to 8 lies: its position and its bytes.
    pub fn object_of(self, slot: &[u8]) -> (usize, usize) {
        assert!(!self.wide());
        let len = u16_at(slot, 20) as usize;
        let size = if self.len == Len::Pairs { 32 + 8 * len } else { len };
        (u32_at(slot, 16) as usize, size)
    }
}

/// The least rectangle over pairs of coordinates, marks zero: left, bottom, right, top.
fn rectangle(pairs: &[u8]) -> [i32; 4] {
    let sides = |at: usize| pairs.chunks(8).map(move |pair| u32_at(pair, at) as i32 & !255);
    let least = |at: usize| sides(at).min().unwrap();
    let most = |at: usize| sides(at).max().unwrap();
    [least(0), least(4), most(0), most(4)]
}

fn put(bytes: &mut [u8], at: usize, number: &[u8]) {
    bytes[at..at + number.len()].copy_from_slice(number);
}

fn u16_at(bytes: &[u8], at: usize) -> u16 {
    u16::from_le_bytes(bytes[at..at + 2].try_into().unwrap())
}

fn u32_at(bytes: &[u8], at: usize) -> u32 {
    u32::from_le_bytes(bytes[at..at + 4].try_into().unwrap())
}
