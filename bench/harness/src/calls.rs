//! The calls of taffrail.h, of the library and of the baseline, and one way to make either.

#[cfg(not(feature = "before"))]
use baseline::interface as base;

type Check = unsafe extern "C" fn(*const u8, usize, usize, *mut u32) -> u32;
#[rustfmt::skip]
type Search = unsafe extern "C" fn(*const u8, usize, usize, i32, i32, i32, i32, *mut u32, usize,
                                   *mut u32, *mut u32, *mut u32) -> u32;
#[rustfmt::skip]
type Add = unsafe extern "C" fn(*mut u8, usize, usize, *mut u8, usize, u32, *const u8, usize,
                                *mut u32, *mut u32, *mut u32, *mut u32) -> u32;
#[rustfmt::skip]
type Change = unsafe extern "C" fn(*mut u8, usize, usize, *mut u8, usize, u32, u32,
                                   *mut u32, *mut u32, *mut u32, *mut u32) -> u32;

/// The five calls of one side.
pub struct Side {
    check: Check,
    search: Search,
    add: Add,
    remove: Change,
    reinstate: Change,
}

/// Declares the calls of a library under its names for them, and its side.
macro_rules! linked {
    ($side:ident: $check:ident, $search:ident, $add:ident, $remove:ident, $reinstate:ident) => {
        #[rustfmt::skip]
        extern "C" {
            fn $check(map: *const u8, map_len: usize, used: usize, place: *mut u32) -> u32;
            fn $search(map: *const u8, map_len: usize, used: usize,
                       left: i32, bottom: i32, right: i32, top: i32, list: *mut u32, list_len: usize,
                       place: *mut u32, count: *mut u32, blocks: *mut u32) -> u32;
            fn $add(map: *mut u8, map_len: usize, used: usize, journal: *mut u8, journal_len: usize,
                    edit: u32, object: *const u8, object_len: usize,
                    place: *mut u32, before: *mut u32, slot: *mut u32, length: *mut u32) -> u32;
            fn $remove(map: *mut u8, map_len: usize, used: usize, journal: *mut u8, journal_len: usize,
                       edit: u32, at: u32,
                       place: *mut u32, before: *mut u32, slot: *mut u32, length: *mut u32) -> u32;
            fn $reinstate(map: *mut u8, map_len: usize, used: usize, journal: *mut u8, journal_len: usize,
                          edit: u32, at: u32,
                          place: *mut u32, before: *mut u32, slot: *mut u32, length: *mut u32) -> u32;
        }

        pub static $side: Side =
            Side { check: $check, search: $search, add: $add, remove: $remove, reinstate: $reinstate };
    };
}

linked!(LIBRARY: taffrail_check, taffrail_search, taffrail_add, taffrail_remove, taffrail_reinstate);

// With the feature `before`, an earlier state of the library stands in the baseline's place.
#[cfg(feature = "before")]
linked!(BASELINE: before_check, before_search, before_add, before_remove, before_reinstate);

#[cfg(not(feature = "before"))]
pub static BASELINE: Side = Side {
    check: base::base_check,
    search: base::base_search,
    add: base::base_add,
    remove: base::base_remove,
    reinstate: base::base_reinstate,
};

/// An object that is offered. It starts anywhere in 64 bytes, since no host promises more.
#[derive(Clone)]
pub struct Offered {
    buffer: Vec<u8>,
    start: usize,
    size: usize,
}

impl Offered {
    pub fn new(object: &[u8]) -> Offered {
        let mut buffer = object.to_vec();
        buffer.resize(object.len() + 64, 0);
        Offered { buffer, start: 0, size: object.len() }
    }

    /// The same object, 4 bytes farther; after 64 bytes from the start again.
    fn shift(&mut self) {
        let start = (self.start + 4) % 64;
        self.buffer.copy_within(self.start..self.start + self.size, start);
        self.start = start;
    }

    fn bytes(&self) -> &[u8] {
        &self.buffer[self.start..self.start + self.size]
    }
}

/// A call beside the buffers that are lent to it.
#[derive(Clone)]
pub enum Call {
    Check,
    Search { window: [i32; 4] },
    Add { edit: u32, object: Offered },
    Remove { edit: u32, at: u32 },
    Reinstate { edit: u32, at: u32 },
}

impl Call {
    /// The same call, with its object at another place.
    pub fn shift(&mut self) {
        if let Call::Add { object, .. } = self {
            object.shift();
        }
    }
}

/// What is lent to a call.
#[derive(Clone, PartialEq)]
pub struct Lent {
    pub map: Vec<u8>,
    pub used: usize,
    pub journal: Vec<u8>,
    pub list: Vec<u32>,
}

/// The number that came back and the out parameters in their order; unwritten ones keep 0xEEEEEEEE.
#[derive(Clone, Copy, Debug, PartialEq)]
pub struct Answer {
    pub number: u32,
    pub outs: [u32; 4],
}

impl Side {
    pub fn make(&self, call: &Call, lent: &mut Lent) -> Answer {
        let mut outs = [0xEEEE_EEEE; 4];
        let [a, b, c, d] = &mut outs;
        let (map, map_len, used) = (lent.map.as_mut_ptr(), lent.map.len(), lent.used);
        let (journal, room) = (lent.journal.as_mut_ptr(), lent.journal.len());
        let (list, list_len) = (lent.list.as_mut_ptr(), lent.list.len());
        // every pointer comes with the length of the buffer behind it
        let number = unsafe {
            match call {
                Call::Check => (self.check)(map, map_len, used, a),
                Call::Search { window: [left, bottom, right, top] } => {
                    let w = (*left, *bottom, *right, *top);
                    (self.search)(map, map_len, used, w.0, w.1, w.2, w.3, list, list_len, a, b, c)
                }
                Call::Add { edit, object } => {
                    let (bytes, size) = (object.bytes().as_ptr(), object.size);
                    (self.add)(map, map_len, used, journal, room, *edit, bytes, size, a, b, c, d)
                }
                Call::Remove { edit, at } => {
                    (self.remove)(map, map_len, used, journal, room, *edit, *at, a, b, c, d)
                }
                Call::Reinstate { edit, at } => {
                    (self.reinstate)(map, map_len, used, journal, room, *edit, *at, a, b, c, d)
                }
            }
        };
        Answer { number, outs }
    }
}
