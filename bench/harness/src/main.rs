//! Times the proved library against the baseline and writes what it found.
//!
//!     harness FOLDER [--quick]
//!     harness --once CALL VERSION BLOCKS
//!
//! Prints a row for each input and writes COST.md and growth.svg to the folder. It ends with 1 if
//! the two answer differently; no time makes it fail. Built with the feature `before` it times the library
//! against an earlier state of it, and writes no page. With --once it makes one call, check or search,
//! on a map of so many full blocks of OCAD 8 or 11, for a program that counts its instructions.

mod calls;
mod cases;
mod chart;
mod forms;
mod maps;
mod measure;
mod report;
mod wide;

use cases::Bench;
use measure::Effort;
use std::time::Duration;

const FULL: Effort = Effort { least_pairs: 40, most_pairs: 4_000, budget: Duration::from_millis(1_500) };
const QUICK: Effort = Effort { least_pairs: 11, most_pairs: 500, budget: Duration::from_millis(100) };

fn main() -> std::io::Result<()> {
    let words: Vec<String> = std::env::args().skip(1).collect();
    if let [once, call, version, blocks] = words.as_slice() {
        if once == "--once" {
            return once_alone(call, version, blocks);
        }
    }
    let (folder, effort) = match words.as_slice() {
        [folder] => (folder, FULL),
        [folder, quick] if quick == "--quick" => (folder, QUICK),
        _ => {
            usage();
        }
    };
    let mut bench = Bench { effort, rows: Vec::new() };
    report::print_head();
    bench.all();
    println!("\n{}", report::summary(&bench.rows));
    if cfg!(feature = "before") {
        return Ok(());
    }
    std::fs::create_dir_all(folder)?;
    std::fs::write(format!("{folder}/COST.md"), report::page(&bench))?;
    std::fs::write(format!("{folder}/growth.svg"), chart::growth(&bench.rows))?;
    println!("\nwritten: {folder}/COST.md, {folder}/growth.svg");
    Ok(())
}

fn usage() -> ! {
    eprintln!("usage: harness FOLDER [--quick], or harness --once CALL VERSION BLOCKS");
    std::process::exit(2);
}

fn once_alone(call: &str, version: &str, blocks: &str) -> std::io::Result<()> {
    let answer = |blocks| cases::once(call, version, blocks);
    let Some(number) = blocks.parse().ok().and_then(answer) else { usage() };
    println!("{number}");
    Ok(())
}
