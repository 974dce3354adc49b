//! Makes maps and journals. Every map is one that the check accepts.

use crate::forms::{Form, DELETED, HIDDEN, OCAD_8, STATUS_AT, SYM_AT};

pub const SLOTS: usize = 256;
/// Index blocks of the largest map of 9 to 11.
pub const MOST_WIDE_BLOCKS: usize = 1_637;
const HEADER: usize = 48;
const SYMBOL_BLOCK: usize = 1_028;
const MOST: usize = 16_777_216;
/// What the bytes past the map hold.
const FILL: u8 = 0xEE;

/// Numbers that look random and are the same in every run (splitmix64).
pub struct Random(pub u64);

impl Random {
    fn next(&mut self) -> u64 {
        self.0 = self.0.wrapping_add(0x9E37_79B9_7F4A_7C15);
        let a = (self.0 ^ (self.0 >> 30)).wrapping_mul(0xBF58_476D_1CE4_E5B9);
        let b = (a ^ (a >> 27)).wrapping_mul(0x94D0_49BB_1331_11EB);
        b ^ (b >> 31)
    }

    pub fn below(&mut self, limit: usize) -> usize {
        (self.next() % limit as u64) as usize
    }

    fn shuffle<T>(&mut self, items: &mut [T]) {
        for i in (1..items.len()).rev() {
            items.swap(i, self.below(i + 1));
        }
    }
}

/// Pairs near a place within a metre of the sheet's middle.
fn pairs_near(random: &mut Random, count: usize) -> Vec<(i32, i32)> {
    let place = |random: &mut Random| random.below(200_001) as i32 - 100_000;
    let (x, y) = (place(random), place(random));
    let near = |random: &mut Random, at: i32| at + random.below(401) as i32 - 200;
    (0..count).map(|_| (near(random, x), near(random, y))).collect()
}

/// A map as it grows. What is laid is laid at its end.
#[derive(Clone)]
pub struct Map {
    pub bytes: Vec<u8>,
    pub blocks: Vec<usize>,
    form: Form,
}

impl Map {
    /// An empty map of 48 bytes.
    pub fn new(form: Form) -> Map {
        let mut bytes = vec![0; HEADER];
        for (at, number) in [(0, 3245), (2, form.section()), (4, form.version)] {
            bytes[at..at + 2].copy_from_slice(&number.to_le_bytes());
        }
        Map { bytes, blocks: Vec::new(), form }
    }

    /// Puts a signed 32-bit number.
    fn put(&mut self, at: usize, number: usize) {
        self.bytes[at..at + 4].copy_from_slice(&(number as u32).to_le_bytes());
    }

    fn lay(&mut self, bytes: &[u8]) -> usize {
        let at = self.bytes.len();
        self.bytes.extend(bytes);
        at
    }

    /// Lays an object; the answer is a slot for it.
    fn lay_object(&mut self, object: &[u8]) -> Vec<u8> {
        let position = self.lay(object);
        self.form.slot(object, position)
    }

    /// Lays objects of one to `most` pairs in at most `room` bytes.
    fn lay_objects(&mut self, random: &mut Random, room: usize, most: usize) -> Vec<Vec<u8>> {
        let mut slots = Vec::new();
        let end = self.bytes.len() + room;
        let syms = if self.form.wide() { 900_000 } else { 30_000 };
        while self.bytes.len() + self.form.object_size(most) <= end {
            let count = 1 + random.below(most);
            let pairs = pairs_near(random, count);
            let sym = 1 + random.below(syms) as u32;
            slots.push(self.lay_object(&self.form.object(sym, &pairs, pairs.len())));
        }
        slots
    }

    /// Lays a block of slots. It is in no chain yet.
    fn lay_block<'a>(&mut self, mut slot: impl FnMut(usize) -> &'a [u8]) -> usize {
        let at = self.lay(&[0; 4]);
        (0..SLOTS).for_each(|i| {
            self.lay(slot(i));
        });
        at
    }

    /// Links blocks to an index chain in this order.
    fn chain(&mut self, blocks: Vec<usize>) {
        let mut link = 12;
        for &block in &blocks {
            self.put(link, block);
            link = block;
        }
        self.put(link, 0);
        self.blocks = blocks;
    }

    /// Gives an empty map one block, with an object in slot 0.
    pub fn hold(&mut self, object: &[u8]) {
        let slot = self.lay_object(object);
        let free = vec![0; slot.len()];
        let block = self.lay_block(|i| if i == 0 { &slot } else { &free });
        self.chain(vec![block]);
    }

    fn slot(&mut self, slot: usize) -> &mut [u8] {
        let size = self.form.slot_size();
        let place = self.blocks[slot / SLOTS] + 4 + size * (slot % SLOTS);
        &mut self.bytes[place..place + size]
    }

    pub fn slots(&self) -> usize {
        self.blocks.len() * SLOTS
    }

    pub fn free(&mut self, slot: usize) {
        self.slot(slot).fill(0);
    }

    pub fn erase(&mut self, slot: usize) {
        if self.form.wide() {
            self.slot(slot)[STATUS_AT] = DELETED;
        } else {
            self.slot(slot)[SYM_AT..SYM_AT + 2].fill(0);
        }
    }

    /// Hides a live slot of a map of 9 to 11, which stays live.
    fn hide(&mut self, slot: usize) {
        self.slot(slot)[STATUS_AT] = HIDDEN;
    }

    /// The bytes of a slot's object, in a map of 6 to 8.
    pub fn object_of(&mut self, slot: usize) -> Vec<u8> {
        let form = self.form;
        let (position, size) = form.object_of(self.slot(slot));
        self.bytes[position..position + size].to_vec()
    }

    /// The map in a buffer with this much room behind it, and its length.
    pub fn lent(&self, room: usize) -> (Vec<u8>, usize) {
        let used = self.bytes.len();
        let mut buffer = self.bytes.clone();
        buffer.resize((used + room).min(MOST), FILL);
        (buffer, used)
    }
}

/// Full blocks, every slot live, each after `room` bytes of objects, which its slots share in turn.
pub fn full(form: Form, blocks: usize, room: usize) -> Map {
    let mut random = Random(blocks as u64);
    let mut map = Map::new(form);
    let mut laid = Vec::new();
    for _ in 0..blocks {
        let objects = map.lay_objects(&mut random, room, 4);
        laid.push(map.lay_block(|i| &objects[i % objects.len()]));
    }
    map.chain(laid);
    map
}

/// Full blocks, every slot with an object of one pair of its own, as adding one by one gives.
pub fn own_objects(form: Form, blocks: usize) -> Map {
    let mut random = Random(blocks as u64);
    let mut map = Map::new(form);
    let mut laid = Vec::new();
    for _ in 0..blocks {
        let objects = map.lay_objects(&mut random, SLOTS * form.object_size(1), 1);
        laid.push(map.lay_block(|i| &objects[i]));
    }
    map.chain(laid);
    map
}

/// Full blocks of 9 to 11, every slot live. All of them share the objects before the first, at random: these
/// have the room that the largest map leaves beside its blocks.
pub fn packed(form: Form, blocks: usize) -> Map {
    let mut random = Random(blocks as u64);
    let mut map = Map::new(form);
    let room = MOST - HEADER - MOST_WIDE_BLOCKS * form.block_size();
    let objects = map.lay_objects(&mut random, room, 4);
    map.bytes.resize(HEADER + room, 0);
    let mut any = |_| objects[random.below(objects.len())].as_slice();
    let blocks = (0..blocks).map(|_| map.lay_block(&mut any)).collect();
    map.chain(blocks);
    map
}

/// As `full`, with the chain in random order, and slots whose objects lie anywhere.
pub fn scrambled(form: Form, blocks: usize, room: usize) -> Map {
    let mut random = Random(7);
    let mut map = full(form, blocks, room);
    let all: Vec<Vec<u8>> = (0..map.slots()).map(|slot| map.slot(slot).to_vec()).collect();
    for slot in 0..map.slots() {
        map.slot(slot).copy_from_slice(&all[random.below(all.len())]);
    }
    let mut blocks = map.blocks.clone();
    random.shuffle(&mut blocks);
    map.chain(blocks);
    map
}

/// A full map whose slots became live, erased or free at random, and in 9 to 11 hidden as well.
pub fn mixed(mut map: Map) -> Map {
    let mut random = Random(13);
    let states = if map.form.wide() { 4 } else { 3 };
    for slot in 0..map.slots() {
        match random.below(states) {
            0 => map.free(slot),
            1 => map.erase(slot),
            2 => {}
            _ => map.hide(slot),
        }
    }
    map
}

/// As many full blocks as a map can hold beside one object of so many pairs, which all slots share.
pub fn shared(form: Form, pairs: usize) -> Map {
    let mut random = Random(3);
    let mut map = Map::new(form);
    let pairs = pairs_near(&mut random, pairs);
    let slot = map.lay_object(&form.object(101, &pairs, pairs.len()));
    let count = (MOST - map.bytes.len()) / form.block_size();
    let blocks = (0..count).map(|_| map.lay_block(|_| &slot)).collect();
    map.chain(blocks);
    map
}

/// Full index blocks and then full symbol blocks, whose entries point to records of `size` bytes.
/// The records start 1,000 bytes apart, so that they share bytes with each other.
pub fn symbols(form: Form, index_blocks: usize, symbol_blocks: usize, size: usize) -> Map {
    let mut random = Random(5);
    let mut map = full(form, index_blocks, 2_200);
    let records = map.lay(&vec![0; 900_000 + size]);
    let size = form.symbol_size(size);
    for i in 0..900 {
        map.bytes[records + 1_000 * i..][..size.len()].copy_from_slice(&size);
    }
    let mut link = 8;
    for _ in 0..symbol_blocks {
        let block = map.lay(&[0; SYMBOL_BLOCK]);
        map.put(link, block);
        for i in 0..256 {
            map.put(block + 4 + 4 * i, records + 1_000 * random.below(900));
        }
        link = block;
    }
    map
}

/// One block with so many of the largest objects, and a full symbol block.
pub fn large_objects(count: usize) -> Map {
    let pairs: Vec<(i32, i32)> = (0..32_768).map(|i| (i, -i)).collect();
    let largest = OCAD_8.object(101, &pairs, pairs.len());
    let mut map = Map::new(OCAD_8);
    (0..count).for_each(|_| map.hold(&largest));
    let mut record = vec![0; 348];
    record[..2].copy_from_slice(&348i16.to_le_bytes());
    let position = map.lay(&record);
    let block = map.lay(&[0; SYMBOL_BLOCK]);
    map.put(8, block);
    (1..=256).for_each(|entry| map.put(block + 4 * entry, position));
    map
}

/// A journal with room for 4,096 records, the first of them in use: record i holds `number(i)`,
/// kind 1, 2 and 3 in turn, and a slot of the first `slots`.
pub fn journal(in_use: usize, slots: usize, mut number: impl FnMut(usize) -> u32) -> Vec<u8> {
    let mut bytes = vec![0; 65_536];
    for (i, record) in bytes.chunks_mut(16).take(in_use).enumerate() {
        record[..4].copy_from_slice(&number(i).to_le_bytes());
        record[4] = kind_of(i);
        record[8..12].copy_from_slice(&(slot_of(i, slots) as u32).to_le_bytes());
    }
    bytes
}

/// The kind of record i.
pub fn kind_of(i: usize) -> u8 {
    1 + (i % 3) as u8
}

/// The slot of record i.
pub fn slot_of(i: usize, slots: usize) -> usize {
    i * 7_919 % slots
}

/// Numbers whose products with an odd number are 1, 2, 3 and so on, so that the high bits of these are alike.
pub fn numbers_against(spread: u32) -> impl FnMut(usize) -> u32 {
    // each step doubles the low bits in which `inverse` is right
    let inverse = (0..5).fold(spread, |inverse: u32, _| {
        inverse.wrapping_mul(2u32.wrapping_sub(spread.wrapping_mul(inverse)))
    });
    move |i| (i as u32 + 1).wrapping_mul(inverse)
}

/// Numbers other than 0, no two of them equal, in no order.
pub fn mixed_numbers() -> impl FnMut(usize) -> u32 {
    let mut random = Random(11);
    let mut numbers: Vec<u32> = (1..=1 << 16).map(|n| n * 65_521).collect();
    random.shuffle(&mut numbers);
    move |i| numbers[i]
}
