//! What is measured on maps of OCAD 9 to 11.

use crate::calls::{Call, BASELINE};
use crate::cases::{lend, one_object, Bench, ALL, HALF, ROOM};
use crate::forms::{OCAD_10, OCAD_11, OCAD_11_EITHER, OCAD_9};
use crate::maps::{self, Map, MOST_WIDE_BLOCKS};
use crate::measure::Want;
use crate::report::grouped;

pub const WIDE_GROWTH: [usize; 4] = [250, 500, 1_000, MOST_WIDE_BLOCKS];

/// A window beside every object.
const BESIDE: [i32; 4] = [2_000_000, 2_000_000, 2_100_000, 2_100_000];
const WINDOWS: [(&str, [i32; 4]); 3] =
    [("window beside all objects", BESIDE), ("half-covering window", HALF), ("all-covering window", ALL)];

/// The row whose count the page tells.
pub const WIDE_HALF: &str = "half-covering window, 1,637 blocks";

const CHECK: &str = "Check, OCAD 9 to 11";
const SEARCH: &str = "Search, OCAD 9 to 11";
const EDITS: &str = "Edits, OCAD 9 to 11";
pub const WIDE_GROWS: &str = "Growth of the check, OCAD 11, from a cold start";
const WORST: &str = "Worst maps, OCAD 9 to 11";

impl Bench {
    pub fn wide(&mut self) {
        if !other_takes_wide() {
            println!("OCAD 9 to 11: not compared, the earlier library does not take them");
            return;
        }
        self.wide_checks();
        self.wide_searches();
        self.wide_edit();
        self.growth(WIDE_GROWS, &WIDE_GROWTH, |blocks| maps::packed(OCAD_11, blocks));
        self.worst_wide_maps();
    }

    fn wide_checks(&mut self) {
        self.check(CHECK, "one block, one object", &one_object(OCAD_11));
        self.check(CHECK, "20 full blocks, own objects", &maps::own_objects(OCAD_10, 20));
        self.check(CHECK, "700 full blocks, own objects", &maps::own_objects(OCAD_10, 700));
        for blocks in [250, MOST_WIDE_BLOCKS] {
            for (form, sense) in [(OCAD_9, "Len counts pairs"), (OCAD_11, "Len is bytes")] {
                let name = format!("{} full blocks, {sense}", grouped(blocks));
                self.check(CHECK, &name, &maps::packed(form, blocks));
            }
        }
        let name = "1,637 blocks, slots normal, hidden, erased, free at random";
        self.check(CHECK, name, &mixed());
    }

    fn wide_searches(&mut self) {
        self.search(SEARCH, "all-covering window, one object", &one_object(OCAD_11), ALL);
        self.windows("20 blocks", &maps::own_objects(OCAD_10, 20));
        self.windows("250 blocks", &maps::packed(OCAD_11, 250));
        let map = maps::packed(OCAD_11, MOST_WIDE_BLOCKS);
        self.windows("1,637 blocks", &map);
        let none = "all-covering window, 1,637 blocks, no room (9)";
        self.search_into(SEARCH, none, &map, ALL, 0, Want::Refused(9));
        let by_pairs = "half-covering window, 1,637 blocks, Len counts pairs";
        self.search(SEARCH, by_pairs, &maps::packed(OCAD_9, MOST_WIDE_BLOCKS), HALF);
        self.windows("1,637 blocks, states at random", &mixed());
    }

    fn windows(&mut self, size: &str, map: &Map) {
        for (name, window) in WINDOWS {
            self.search(SEARCH, &format!("{name}, {size}"), map, window);
        }
    }

    /// Every edit is refused, whatever its journal holds.
    fn wide_edit(&mut self) {
        let map = maps::own_objects(OCAD_10, 20);
        let journal = maps::journal(4_095, map.slots(), |i| i as u32 + 1);
        let remove = Call::Remove { edit: 9_999, at: 5 };
        self.row(EDITS, "remove, 20 blocks (17)", lend(&map, journal), remove, Want::Refused(17));
    }

    fn worst_wide_maps(&mut self) {
        let map = maps::shared(OCAD_9, 1_000_000);
        let name = format!("check: {} slots share one object of 1,000,000 pairs", grouped(map.slots()));
        self.check(WORST, &name, &map);
        let map = maps::packed(OCAD_11_EITHER, MOST_WIDE_BLOCKS);
        self.check(WORST, "check: 1,637 blocks, Len in both senses at random", &map);
        let map = maps::scrambled(OCAD_11, 1_300, ROOM);
        self.check(WORST, "check: 1,300 blocks in random order, objects anywhere", &map);
        self.search(WORST, "search: 1,300 blocks in random order, all-covering", &map, ALL);
        for size in [572, 500_000] {
            let map = maps::symbols(OCAD_11, 20, 14_000, size);
            let name = format!("check: 14,000 full symbol blocks, records of {} bytes", grouped(size));
            self.check(WORST, &name, &map);
        }
    }
}

fn mixed() -> Map {
    maps::mixed(maps::packed(OCAD_11, MOST_WIDE_BLOCKS))
}

/// Does the side that the library is measured against take these maps? An earlier state of it may not.
fn other_takes_wide() -> bool {
    let mut lent = lend(&Map::new(OCAD_9), Vec::new());
    !cfg!(feature = "before") || BASELINE.make(&Call::Check, &mut lent).number == 0
}
