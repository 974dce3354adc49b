//! Little-endian numbers in bytes, and the sizes that all versions share.

pub const HEADER: usize = 48;
pub const MOST: usize = 16_777_216;
/// An object's header; in 9 to 11 that of an object whose Len counts pairs.
pub const OBJECT: usize = 32;
pub const PAIR: usize = 8;
pub const RECORD: usize = 16;
/// Slots in an index block.
pub const SLOTS: usize = 256;
/// Slots in a row, of which a block has four: a bit for each makes a word.
pub const ROW: usize = 64;
/// Bytes of a block's link, which comes first.
pub const LINK: usize = 4;

fn array<const N: usize>(bytes: &[u8], at: usize) -> [u8; N] {
    bytes[at..at + N].try_into().unwrap()
}

#[inline]
pub fn u16_at(bytes: &[u8], at: usize) -> u16 {
    u16::from_le_bytes(array(bytes, at))
}

#[inline]
pub fn u32_at(bytes: &[u8], at: usize) -> u32 {
    u32::from_le_bytes(array(bytes, at))
}

#[inline]
pub fn u64_at(bytes: &[u8], at: usize) -> u64 {
    u64::from_le_bytes(array(bytes, at))
}

#[inline]
pub fn i32_at(bytes: &[u8], at: usize) -> i32 {
    i32::from_le_bytes(array(bytes, at))
}

/// A signed position; a negative one becomes larger than any map.
#[inline]
pub fn position_at(bytes: &[u8], at: usize) -> usize {
    u32_at(bytes, at) as usize
}

pub fn put_u32(bytes: &mut [u8], at: usize, number: u32) {
    bytes[at..at + 4].copy_from_slice(&number.to_le_bytes());
}

/// The least raw coordinate of a value in 0.01 mm: no mark is set. A window's may need more than 32 bits.
pub fn least_raw(value: i32) -> i64 {
    (value as i64) << 8
}

/// The greatest raw coordinate of a value in 0.01 mm: every mark is set.
pub fn greatest_raw(value: i32) -> i64 {
    least_raw(value) | 255
}

/// Is the first of two raw coordinates at most the second by value?
#[inline]
pub fn ordered(low: i32, high: i32) -> bool {
    low & !255 <= high
}
