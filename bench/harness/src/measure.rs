//! Compares the two sides on an input, then times them in turn on the same buffers.

use crate::calls::{Answer, Call, Lent, Side, BASELINE, LIBRARY};
use crate::maps::Random;
use std::hint::black_box;
use std::time::{Duration, Instant};

/// What an input's answer has to be, so that no refusal is timed by mistake.
#[derive(Clone, Copy)]
pub enum Want {
    Done,
    DoneBefore,
    Refused(u32),
}

/// Nanoseconds of one call.
#[derive(Clone, Copy)]
pub struct Times {
    pub median: f64,
    pub least: f64,
}

pub struct Row {
    pub group: &'static str,
    pub name: String,
    pub answer: Answer,
    pub library: Times,
    pub baseline: Times,
}

impl Row {
    pub fn ratio(&self) -> f64 {
        self.library.median / self.baseline.median
    }

    pub fn least_ratio(&self) -> f64 {
        self.library.least / self.baseline.least
    }
}

const SIDES: [&Side; 2] = [&LIBRARY, &BASELINE];

/// So many bytes are written before a cold start.
const ELSEWHERE: usize = 64 << 20;

/// How long an input is timed.
pub struct Effort {
    pub least_pairs: usize,
    pub most_pairs: usize,
    pub budget: Duration,
}

/// A sample of quick calls takes about this long, so that the clock's own steps don't show.
const SAMPLE_NS: f64 = 20_000.0;

/// An input that is lent over and over: what a call changes is put back outside the timing.
struct Input {
    lent: Lent,
    work: Lent,
    changes: Changes,
}

impl Input {
    /// Stops the program if the sides differ in an answer or a byte.
    fn new(name: &str, lent: Lent, call: &Call, want: Want) -> (Answer, Input) {
        let (answer, after) = compare(name, &lent, call, want);
        let changes = Changes::between(&lent, &after);
        let mut work = after;
        changes.undo(&mut work);
        (answer, Input { lent, work, changes })
    }

    fn sample(&mut self, side: &Side, call: &Call, batch: usize) -> f64 {
        let time = timed(side, call, &mut self.work, batch);
        self.changes.undo(&mut self.work);
        time
    }

    fn is_put_back(&self) -> bool {
        self.work.map == self.lent.map && self.work.journal == self.lent.journal
    }
}

/// Both sides on one input.
pub fn run(group: &'static str, name: &str, lent: Lent, call: Call, want: Want, effort: &Effort) -> Row {
    run_on(group, name, vec![lent], call, want, effort)
}

/// The library on the first input and the baseline on the last, where what costs the one most does not
/// cost the other most.
pub fn run_on(
    group: &'static str,
    name: &str,
    lents: Vec<Lent>,
    mut call: Call,
    want: Want,
    effort: &Effort,
) -> Row {
    let made = lents.into_iter().map(|lent| Input::new(name, lent, &call, want));
    let (answers, mut inputs): (Vec<Answer>, Vec<Input>) = made.unzip();
    let last = inputs.len() - 1;
    let mut sample = |who: usize, call: &Call, batch| inputs[who.min(last)].sample(SIDES[who], call, batch);
    let mut warm = || sample(0, &call, 1).max(sample(1, &call, 1));
    let once = (0..3).map(|_| warm()).fold(f64::MAX, f64::min).max(1.0);
    let quick = inputs.iter().all(|input| input.changes.none());
    let batch = if quick { (SAMPLE_NS / once).ceil() as usize } else { 1 };

    let mut sample = |who: usize, call: &Call| inputs[who.min(last)].sample(SIDES[who], call, batch);
    let mut samples = [Vec::new(), Vec::new()];
    let start = Instant::now();
    let mut order = Random(1);
    while samples[0].len() < effort.least_pairs
        || (samples[0].len() < effort.most_pairs && start.elapsed() < effort.budget)
    {
        // who is first changes at random, so as not to keep step with other programs
        let first = order.below(2) as usize;
        for who in [first, 1 - first] {
            samples[who].push(sample(who, &call));
        }
        call.shift();
    }
    // else a call was timed on a map that an earlier one had changed
    assert!(inputs.iter().all(Input::is_put_back), "{name}: not put back");
    let [library, baseline] = samples.map(times);
    Row { group, name: name.to_string(), answer: answers[0], library, baseline }
}

/// Checks of several maps, one after the other and over and over, so that what else the machine does
/// falls on all of them. Before each one other bytes are written, so that it starts with a cold cache.
pub fn checks_in_turn(group: &'static str, maps: Vec<(String, Lent)>, effort: &Effort) -> Vec<Row> {
    let answers: Vec<Answer> =
        maps.iter().map(|(name, lent)| compare(name, lent, &Call::Check, Want::Done).0).collect();
    let mut elsewhere = vec![0u8; ELSEWHERE];
    let mut samples = vec![[Vec::new(), Vec::new()]; maps.len()];
    let mut maps = maps;
    let mut order = Random(1);
    let start = Instant::now();
    let rounds = effort.least_pairs..effort.most_pairs;
    while samples[0][0].len() < rounds.start
        || (samples[0][0].len() < rounds.end && start.elapsed() < effort.budget * maps.len() as u32)
    {
        for ((_, lent), samples) in maps.iter_mut().zip(&mut samples) {
            // with the same code on both sides the second is quicker, so who is first is drawn
            let first = order.below(2);
            for who in [first, 1 - first] {
                black_box(&mut elsewhere)
                    .iter_mut()
                    .step_by(64)
                    .for_each(|byte| *byte = byte.wrapping_add(1));
                samples[who].push(timed(SIDES[who], &Call::Check, lent, 1));
            }
        }
    }
    let rows = maps.into_iter().zip(answers).zip(samples);
    rows.map(|(((name, _), answer), [library, baseline])| Row {
        group,
        name,
        answer,
        library: times(library),
        baseline: times(baseline),
    })
    .collect()
}

/// The nanoseconds of a call that is made so often. Where the clock did not move, as happens on a guest
/// machine, they are taken again.
fn timed(side: &Side, call: &Call, lent: &mut Lent, batch: usize) -> f64 {
    loop {
        let start = processor_ns();
        for _ in 0..batch {
            black_box(side.make(black_box(call), lent));
        }
        let time = processor_ns() - start;
        if time > 0 {
            return time as f64 / batch as f64;
        }
    }
}

/// Both sides on copies of their own: the same number, outs and bytes. These come back.
fn compare(name: &str, lent: &Lent, call: &Call, want: Want) -> (Answer, Lent) {
    let (mut by_library, mut by_baseline) = (lent.clone(), lent.clone());
    let library = LIBRARY.make(call, &mut by_library);
    let baseline = BASELINE.make(call, &mut by_baseline);
    if library != baseline {
        eprintln!("{name}: the library answers {library:?}, the baseline {baseline:?}");
        std::process::exit(1);
    }
    for (what, same) in [
        ("map", by_library.map == by_baseline.map),
        ("journal", by_library.journal == by_baseline.journal),
        ("list", by_library.list == by_baseline.list),
    ] {
        if !same {
            eprintln!("{name}: the two leave different bytes in the {what}");
            std::process::exit(1);
        }
    }
    assert!(fits(library, call, want), "{name}: unexpected answer {library:?}");
    (library, by_library)
}

fn fits(answer: Answer, call: &Call, want: Want) -> bool {
    let edits = !matches!(call, Call::Check | Call::Search { .. });
    match want {
        Want::Done => answer.number == 0 && (!edits || answer.outs[1] == 0),
        Want::DoneBefore => answer.number == 0 && answer.outs[1] == 1,
        Want::Refused(number) => answer.number == number,
    }
}

fn times(mut samples: Vec<f64>) -> Times {
    samples.sort_by(f64::total_cmp);
    Times { median: samples[samples.len() / 2], least: samples[0] }
}

/// This thread's processor time, so that other programs on the machine count less.
fn processor_ns() -> i64 {
    #[repr(C)]
    struct Timespec {
        seconds: i64,
        nanoseconds: i64,
    }
    extern "C" {
        fn clock_gettime(clock: i32, time: *mut Timespec) -> i32;
    }
    const THREAD_CPUTIME: i32 = 3; // Linux
    let mut now = Timespec { seconds: 0, nanoseconds: 0 };
    let failed = unsafe { clock_gettime(THREAD_CPUTIME, &mut now) } != 0;
    assert!(!failed, "no clock");
    now.seconds * 1_000_000_000 + now.nanoseconds
}

/// The bytes of map and journal that a call changes, as they were, in pieces of a cache line.
struct Changes {
    map: Vec<(usize, Vec<u8>)>,
    journal: Vec<(usize, Vec<u8>)>,
}

impl Changes {
    fn between(before: &Lent, after: &Lent) -> Changes {
        let pieces = |before: &[u8], after: &[u8]| {
            let both = before.chunks(64).zip(after.chunks(64)).enumerate();
            let changed = both.filter(|(_, (old, new))| old != new);
            changed.map(|(i, (old, _))| (64 * i, old.to_vec())).collect()
        };
        Changes { map: pieces(&before.map, &after.map), journal: pieces(&before.journal, &after.journal) }
    }

    fn none(&self) -> bool {
        self.map.is_empty() && self.journal.is_empty()
    }

    fn undo(&self, lent: &mut Lent) {
        for (at, old) in &self.map {
            lent.map[*at..at + old.len()].copy_from_slice(old);
        }
        for (at, old) in &self.journal {
            lent.journal[*at..at + old.len()].copy_from_slice(old);
        }
    }
}
