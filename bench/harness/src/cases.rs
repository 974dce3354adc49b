//! What is measured.

use crate::calls::{Call, Lent, Offered, LIBRARY};
use crate::forms::{Form, OCAD_11, OCAD_7, OCAD_8};
use crate::maps::{self, Map};
use crate::measure::{checks_in_turn, run, run_on, Effort, Row, Want};
use crate::report::{grouped, print_group, print_row};

/// Bytes of objects before each block of a full map: 2,000 such blocks fit the limit.
pub const ROOM: usize = 2_200;
/// Room behind a map for what an add lays there.
const BEHIND: usize = 300_000;
pub const GROWTH: [usize; 4] = [250, 500, 1_000, 2_000];

/// Windows: left, bottom, right, top.
pub const SMALL: [i32; 4] = [-1_000, -1_000, 1_000, 1_000];
pub const HALF: [i32; 4] = [-i32::MAX, -i32::MAX, 0, i32::MAX];
pub const ALL: [i32; 4] = [-i32::MAX, -i32::MAX, i32::MAX, i32::MAX];

/// The rows whose counts the page tells.
pub const SMALL_WINDOW: &str = "small window, 2,000 blocks";
pub const HALF_WINDOW: &str = "half-covering window, 2,000 blocks";

/// The row in which each side has a journal of its own.
const AGAINST_EACH: &str = "remove: numbers chosen against each side, 20 blocks";
/// What the library and the baseline multiply a number by, to find its place in a table by the high bits.
const SPREADS: [u32; 2] = [2_654_435_769, if cfg!(feature = "before") { 2_654_435_769 } else { 0x9E37_79B1 }];

const CHECK: &str = "Check";
const SEARCH: &str = "Search";
const EDITS: &str = "Edits";
pub const GROWS: &str = "Growth of the check, from a cold start";
const WORST: &str = "Worst maps and journals";

/// The library's answer to one call on a map of so many full blocks of OCAD 8 or 11: a check, or a search
/// with a small window.
pub fn once(call: &str, version: &str, blocks: usize) -> Option<u32> {
    let call = match call {
        "check" => Call::Check,
        "search" => Call::Search { window: SMALL },
        _ => return None,
    };
    let map = match version {
        "8" => maps::full(OCAD_8, blocks, ROOM),
        "11" => maps::packed(OCAD_11, blocks),
        _ => return None,
    };
    let mut lent = lend(&map, Vec::new());
    lent.list = vec![0; map.slots()];
    Some(LIBRARY.make(&call, &mut lent).number)
}

pub struct Bench {
    pub effort: Effort,
    pub rows: Vec<Row>,
}

impl Bench {
    pub fn row(&mut self, group: &'static str, name: &str, lent: Lent, call: Call, want: Want) {
        let row = run(group, name, lent, call, want, &self.effort);
        self.take(row);
    }

    pub fn take(&mut self, row: Row) {
        let group = row.group;
        if self.rows.last().map(|last| last.group) != Some(group) {
            print_group(group);
        }
        print_row(&row);
        self.rows.push(row);
    }

    pub fn check(&mut self, group: &'static str, name: &str, map: &Map) {
        self.row(group, name, lend(map, Vec::new()), Call::Check, Want::Done);
    }

    pub fn search(&mut self, group: &'static str, name: &str, map: &Map, window: [i32; 4]) {
        self.search_into(group, name, map, window, map.slots(), Want::Done);
    }

    pub fn search_into(
        &mut self,
        group: &'static str,
        name: &str,
        map: &Map,
        window: [i32; 4],
        room: usize,
        want: Want,
    ) {
        let mut lent = lend(map, Vec::new());
        lent.list = vec![0xEEEE_EEEE; room];
        self.row(group, name, lent, Call::Search { window }, want);
    }

    /// The count that the last search found.
    fn found(&self) -> usize {
        self.rows.last().unwrap().answer.outs[1] as usize
    }

    pub fn all(&mut self) {
        self.checks();
        self.searches();
        self.edits_on_one_object();
        self.edits("20 blocks", maps::own_objects(OCAD_7, 20));
        self.edits("2,000 blocks", maps::full(OCAD_7, 2_000, ROOM));
        let map = |blocks| maps::full(OCAD_8, blocks, ROOM);
        self.growth(GROWS, &GROWTH, map);
        self.worst_maps();
        self.worst_journals();
        self.wide();
    }

    fn checks(&mut self) {
        let empty = Map::new(OCAD_7);
        self.check(CHECK, "empty map", &empty);
        self.check(CHECK, "one block, one object", &one_object(OCAD_8));
        self.check(CHECK, "one full block and one full symbol block", &maps::symbols(OCAD_8, 1, 1, 348));
        self.check(CHECK, "20 full blocks, OCAD 7, own objects", &maps::own_objects(OCAD_7, 20));
        self.check(CHECK, "1,000 full blocks, OCAD 7, own objects", &maps::own_objects(OCAD_7, 1_000));
        self.check(CHECK, "2,000 full blocks, OCAD 7", &maps::full(OCAD_7, 2_000, ROOM));
        self.check(CHECK, "250 full blocks, OCAD 8", &maps::full(OCAD_8, 250, ROOM));
        self.check(CHECK, "2,000 full blocks, OCAD 8", &maps::full(OCAD_8, 2_000, ROOM));
    }

    fn searches(&mut self) {
        self.search(SEARCH, "all-covering window, one object", &one_object(OCAD_8), ALL);
        let map = maps::full(OCAD_8, 1, ROOM);
        self.search(SEARCH, "small window, one full block", &map, SMALL);
        self.search(SEARCH, "half-covering window, one full block", &map, HALF);
        let map = maps::own_objects(OCAD_7, 20);
        self.search(SEARCH, "small window, 20 blocks", &map, SMALL);
        self.search(SEARCH, "half-covering window, 20 blocks", &map, HALF);
        self.search(SEARCH, "all-covering window, 20 blocks", &map, ALL);
        let none = "all-covering window, 20 blocks, no room (9)";
        self.search_into(SEARCH, none, &map, ALL, 0, Want::Refused(9));
        let map = maps::full(OCAD_7, 2_000, ROOM);
        self.search(SEARCH, "small window, 2,000 blocks, OCAD 7", &map, SMALL);
        let map = maps::full(OCAD_8, 2_000, ROOM);
        self.search(SEARCH, SMALL_WINDOW, &map, SMALL);
        self.search(SEARCH, HALF_WINDOW, &map, HALF);
        let just = "half-covering window, 2,000 blocks, room for just these";
        self.search_into(SEARCH, just, &map, HALF, self.found(), Want::Done);
        self.search(SEARCH, "all-covering window, 2,000 blocks", &map, ALL);
        let short = "small window, 2,000 blocks, room for 100";
        self.search_into(SEARCH, short, &map, SMALL, 100, Want::Done);
        let none = "all-covering window, 2,000 blocks, no room (9)";
        self.search_into(SEARCH, none, &map, ALL, 0, Want::Refused(9));
        let short = "all-covering window, 2,000 blocks, room for all but one (9)";
        self.search_into(SEARCH, short, &map, ALL, map.slots() - 1, Want::Refused(9));
    }

    /// Edits on a map that has just begun, under journals without a record.
    fn edits_on_one_object(&mut self) {
        let map = one_object(OCAD_8);
        let add = Call::Add { edit: 1, object: Offered::new(&small_object(OCAD_8)) };
        let remove = Call::Remove { edit: 1, at: 0 };
        for records in [16, 65, 4_096] {
            let of = format!("one object, new journal of {}", grouped(records));
            let lent = || lend(&map, vec![0; 16 * records]);
            self.row(EDITS, &format!("add, {of}"), lent(), add.clone(), Want::Done);
            self.row(EDITS, &format!("remove, {of}"), lent(), remove.clone(), Want::Done);
        }
    }

    /// Edits on a map with all slots live, under a journal of 4,096 records with rising numbers.
    /// A done edit takes the last record, so that 4,095 are in use before it.
    fn edits(&mut self, size: &str, mut map: Map) {
        let rising = |i: usize| i as u32 + 1;
        let slots = map.slots();
        let (last, middle) = (slots - 1, slots / 2 + 5);
        let almost = maps::journal(4_095, last, rising);
        let full = maps::journal(4_096, last, rising);
        let add = Call::Add { edit: 9_999, object: Offered::new(&small_object(OCAD_7)) };
        let mut row = |name: &str, map: &Map, journal: &[u8], call, want| {
            self.row(EDITS, &format!("{name}, {size}"), lend(map, journal.to_vec()), call, want);
        };

        row("add, new block", &map, &almost, add.clone(), Want::Done);
        let mut with_free = map.clone();
        with_free.free(last);
        row("add, last slot free", &with_free, &almost, add, Want::Done);
        let remove = Call::Remove { edit: 9_999, at: middle as u32 };
        row("remove", &map, &almost, remove.clone(), Want::Done);
        let mut with_erased = map.clone();
        with_erased.erase(middle);
        let reinstate = Call::Reinstate { edit: 9_999, at: middle as u32 };
        row("reinstate", &with_erased, &almost, reinstate, Want::Done);

        let [record_add, record_remove] = [4_095, 4_093];
        assert!(maps::kind_of(record_add) == 1 && maps::kind_of(record_remove) == 2);
        let stored = map.object_of(maps::slot_of(record_add, last));
        let repeat = Call::Add { edit: rising(record_add), object: Offered::new(&stored) };
        row("repeated add, journal full", &map, &full, repeat, Want::DoneBefore);
        let at = maps::slot_of(record_remove, last) as u32;
        let repeat = Call::Remove { edit: rising(record_remove), at };
        row("repeated remove, journal full", &map, &full, repeat, Want::DoneBefore);
        row("remove, journal full (15)", &map, &full, remove, Want::Refused(15));
    }

    pub fn growth(&mut self, group: &'static str, sizes: &[usize], map: impl Fn(usize) -> Map) {
        let lent = |&blocks: &usize| {
            let name = format!("{} full blocks", grouped(blocks));
            (name, lend(&map(blocks), Vec::new()))
        };
        let maps = sizes.iter().map(lent).collect();
        for row in checks_in_turn(group, maps, &self.effort) {
            self.take(row);
        }
    }

    fn worst_maps(&mut self) {
        let map = maps::shared(OCAD_8, 1);
        self.check(WORST, "check: 2,728 blocks (the limit), one object of 1 pair", &map);
        let map = maps::shared(OCAD_8, 32_768);
        let name = format!("check: {} slots share one object of 32,768 pairs", grouped(map.slots()));
        self.check(WORST, &name, &map);
        let map = maps::scrambled(OCAD_8, 2_000, ROOM);
        self.check(WORST, "check: 2,000 blocks in random order, objects anywhere", &map);
        self.search(WORST, "search: 2,000 blocks in random order, all-covering", &map, ALL);
        let map = maps::mixed(maps::full(OCAD_8, 2_000, ROOM));
        self.check(WORST, "check: 2,000 blocks, slots live, erased, free at random", &map);
        self.search(WORST, "search: slots live, erased, free at random, small window", &map, SMALL);
        self.search(WORST, "search: slots live, erased, free at random, all-covering", &map, ALL);
        let mut map = maps::full(OCAD_8, 2_000, ROOM);
        (0..map.slots()).for_each(|slot| map.erase(slot));
        self.search(WORST, "search: 2,000 blocks, every slot erased, all-covering", &map, ALL);
        let map = maps::large_objects(5);
        self.check(WORST, "check: 5 objects of 32,768 pairs, a full symbol block", &map);
        let map = maps::symbols(OCAD_8, 20, 14_000, 348);
        self.check(WORST, "check: 14,000 full symbol blocks, records of 348 bytes", &map);
        let map = maps::symbols(OCAD_8, 20, 14_000, 32_767);
        self.check(WORST, "check: 14,000 full symbol blocks, records of 32,767 bytes", &map);
    }

    fn worst_journals(&mut self) {
        let map = maps::own_objects(OCAD_7, 20);
        let last = map.slots() - 1;
        let remove = Call::Remove { edit: 9_999, at: 5 };
        let colliding = maps::journal(4_095, last, |i| 16_384 * (i as u32 + 1));
        let lent = lend(&map, colliding);
        self.row(WORST, "remove: numbers equal modulo 16,384, 20 blocks", lent, remove.clone(), Want::Done);
        let lent = lend(&map, maps::journal(4_095, last, maps::mixed_numbers()));
        self.row(WORST, "remove: numbers in no order, 20 blocks", lent, remove.clone(), Want::Done);
        let against = |spread| lend(&map, maps::journal(4_095, last, maps::numbers_against(spread)));
        let lents = SPREADS.map(against).into();
        let row = run_on(WORST, AGAINST_EACH, lents, remove, Want::Done, &self.effort);
        self.take(row);

        let pairs: Vec<(i32, i32)> = (0..32_768).map(|i| (i, -i)).collect();
        let object = OCAD_8.object(101, &pairs, pairs.len());
        let call = Call::Add { edit: 1, object: Offered::new(&object) };
        let empty = Map::new(OCAD_8);
        let lent = lend(&empty, vec![0; 160]);
        self.row(WORST, "add: object of 32,768 pairs to an empty map", lent, call.clone(), Want::Done);
        let mut held = empty;
        held.hold(&object);
        let mut journal = vec![0; 160];
        journal[0] = 1;
        journal[4] = 1;
        let lent = lend(&held, journal);
        self.row(WORST, "repeated add: object of 32,768 pairs", lent, call, Want::DoneBefore);
    }
}

/// An object that is added.
fn small_object(form: Form) -> Vec<u8> {
    form.object(101, &[(5, 5)], 1)
}

/// A map of one block, with an object in slot 0.
pub fn one_object(form: Form) -> Map {
    let mut map = Map::new(form);
    map.hold(&form.object(101, &[(3, 4)], 1));
    map
}

pub fn lend(map: &Map, journal: Vec<u8>) -> Lent {
    let (map, used) = map.lent(BEHIND);
    Lent { map, used, journal, list: Vec::new() }
}
