//! The calls of taffrail.h, named `base_...`, and under their plain names with the feature `plain`.

use crate::edit::{add, reinstate, remove, Done, Lent};
use crate::search::{search, Window};
use crate::{check, Refusal};
use std::slice::{from_raw_parts, from_raw_parts_mut};

unsafe fn lent<'a, T>(start: *const T, count: usize) -> &'a [T] {
    if count == 0 {
        return &[];
    }
    from_raw_parts(start, count)
}

unsafe fn lent_mut<'a, T>(start: *mut T, count: usize) -> &'a mut [T] {
    if count == 0 {
        return &mut [];
    }
    from_raw_parts_mut(start, count)
}

/// Number, place, before, slot and length of an edit.
fn answer(result: Result<Done, Refusal>) -> (u32, [u32; 4]) {
    match result {
        Ok(done) => (0, [0, done.before as u32, done.slot, done.length]),
        Err(refusal) => (refusal.number, [refusal.place, 0, 0, 0]),
    }
}

macro_rules! calls {
    ($check:ident, $search:ident, $add:ident, $remove:ident, $reinstate:ident) => {
        #[no_mangle]
        pub unsafe extern "C" fn $check(map: *const u8, map_len: usize, used: usize, place: *mut u32) -> u32 {
            let refusal = check::check(lent(map, map_len), used).err();
            *place = refusal.as_ref().map_or(0, |r| r.place);
            refusal.map_or(0, |r| r.number)
        }

        #[no_mangle]
        pub unsafe extern "C" fn $search(
            map: *const u8,
            map_len: usize,
            used: usize,
            left: i32,
            bottom: i32,
            right: i32,
            top: i32,
            list: *mut u32,
            list_len: usize,
            place: *mut u32,
            count: *mut u32,
            blocks: *mut u32,
        ) -> u32 {
            let window = Window { left, bottom, right, top };
            let list = lent_mut(list, list_len);
            let number;
            (number, *place, *count, *blocks) = match search(lent(map, map_len), used, &window, list) {
                Ok(found) => (0, 0, found.count, found.blocks),
                Err(refusal) => (refusal.number, refusal.place, refusal.count, 0),
            };
            number
        }

        #[no_mangle]
        pub unsafe extern "C" fn $add(
            map: *mut u8,
            map_len: usize,
            used: usize,
            journal: *mut u8,
            journal_len: usize,
            edit: u32,
            object: *const u8,
            object_len: usize,
            place: *mut u32,
            before: *mut u32,
            slot: *mut u32,
            length: *mut u32,
        ) -> u32 {
            let (map, journal) = (lent_mut(map, map_len), lent_mut(journal, journal_len));
            let result = add(&mut Lent { map, used, journal, edit }, lent(object, object_len));
            let (number, outs) = answer(result);
            [*place, *before, *slot, *length] = outs;
            number
        }

        calls!($remove, remove);
        calls!($reinstate, reinstate);
    };
    ($name:ident, $edit:path) => {
        #[no_mangle]
        pub unsafe extern "C" fn $name(
            map: *mut u8,
            map_len: usize,
            used: usize,
            journal: *mut u8,
            journal_len: usize,
            edit: u32,
            at: u32,
            place: *mut u32,
            before: *mut u32,
            slot: *mut u32,
            length: *mut u32,
        ) -> u32 {
            let (map, journal) = (lent_mut(map, map_len), lent_mut(journal, journal_len));
            let (number, outs) = answer($edit(&mut Lent { map, used, journal, edit }, at));
            [*place, *before, *slot, *length] = outs;
            number
        }
    };
}

calls!(base_check, base_search, base_add, base_remove, base_reinstate);

#[cfg(feature = "plain")]
mod plain {
    use super::*;
    calls!(taffrail_check, taffrail_search, taffrail_add, taffrail_remove, taffrail_reinstate);
}
