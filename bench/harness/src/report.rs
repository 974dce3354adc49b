//! The printed table and COST.md.

use crate::cases::{Bench, GROWS, GROWTH, HALF_WINDOW, SMALL_WINDOW};
use crate::measure::{Effort, Row};
use crate::wide::{WIDE_GROWS, WIDE_GROWTH, WIDE_HALF};
use std::fmt::Write;

/// Ratios above this are named in the summary.
const HIGH: f64 = 1.2;

/// Nanoseconds for people.
fn time(ns: f64) -> String {
    match ns {
        n if n < 1_000.0 => format!("{n:.1} ns"),
        n if n < 1_000_000.0 => format!("{:.2} µs", n / 1_000.0),
        n => format!("{:.3} ms", n / 1_000_000.0),
    }
}

/// A number with commas between thousands.
pub fn grouped(number: usize) -> String {
    match number {
        n if n < 1_000 => n.to_string(),
        n => format!("{},{:03}", grouped(n / 1_000), n % 1_000),
    }
}

fn columns(row: &Row) -> [String; 6] {
    [
        time(row.library.median),
        time(row.baseline.median),
        format!("{:.2}", row.ratio()),
        time(row.library.least),
        time(row.baseline.least),
        format!("{:.2}", row.least_ratio()),
    ]
}

const OTHER: &str = if cfg!(feature = "before") { "before" } else { "baseline" };
const HEADS: [&str; 6] = ["library", OTHER, "ratio", "library", OTHER, "ratio"];

pub fn print_head() {
    println!("{:61}{:^27}   {:^27}", "", "median", "least");
    print_line("", HEADS);
}

pub fn print_group(group: &str) {
    println!("{group}");
}

pub fn print_row(row: &Row) {
    print_line(&row.name, columns(row).each_ref().map(String::as_str));
}

fn print_line(name: &str, [a, b, c, d, e, f]: [&str; 6]) {
    println!("  {name:58}{a:>11}{b:>11}{c:>6}  {d:>11}{e:>11}{f:>6}");
}

/// Where the library stands, in a few lines.
pub fn summary(rows: &[Row]) -> String {
    let faster = rows.iter().filter(|row| row.ratio() < 1.0).count();
    let named = |row: &Row| format!("{:.2} ({}: {})", row.ratio(), row.group, row.name);
    let order = |a: &&Row, b: &&Row| a.ratio().total_cmp(&b.ratio());
    let (low, high) = (rows.iter().min_by(order).unwrap(), rows.iter().max_by(order).unwrap());
    let mut text = format!(
        "Of {} inputs the library is faster on {faster}. The ratio of medians goes from {} to {}.",
        rows.len(),
        named(low),
        named(high)
    );
    let above: Vec<String> = rows.iter().filter(|row| row.ratio() > HIGH).map(named).collect();
    if above.is_empty() {
        write!(text, " None is above {HIGH}.").unwrap();
    } else {
        write!(text, "\n\nAbove {HIGH}: {}.", above.join("; ")).unwrap();
    }
    text
}

/// COST.md.
pub fn page(bench: &Bench) -> String {
    let count = |name: &str| {
        let row = bench.rows.iter().find(|row| row.name == name).unwrap();
        grouped(row.answer.outs[1] as usize)
    };
    let library = match std::env::consts::ARCH {
        _ if cfg!(feature = "itself") => "the baseline in the library's place, to try the harness",
        "x86_64" => "the archive of the proved crates that `hosts/build --archive` writes",
        _ => {
            "the archive that `hosts/build --archive` writes, of the same module as the proved one \
             but compiled for this machine, which is not the proved target"
        }
    };
    let Effort { least_pairs, most_pairs, .. } = bench.effort;
    let pairs = format!("{} to {}", grouped(least_pairs), grouped(most_pairs));
    include_str!("cost.md")
        .replace("{{summary}}", &summary(&bench.rows))
        .replace("{{library}}", library)
        .replace("{{pairs}}", &pairs)
        .replace("{{machine}}", &machine())
        .replace("{{tables}}", &tables(&bench.rows))
        .replace("{{small}}", &count(SMALL_WINDOW))
        .replace("{{half}}", &count(HALF_WINDOW))
        .replace("{{wide half}}", &count(WIDE_HALF))
        .replace("{{growth}}", &growth(&grown(&bench.rows, GROWS, &GROWTH)))
        .replace("{{wide growth}}", &growth(&grown(&bench.rows, WIDE_GROWS, &WIDE_GROWTH)))
}

/// The processor in general words.
fn machine() -> String {
    let text = std::fs::read_to_string("/proc/cpuinfo").unwrap_or_default();
    let field = |name: &str| {
        let line = text.lines().find(|line| line.starts_with(name))?;
        Some(line.split_once(':')?.1.trim().to_string())
    };
    let part = || Some(format!("implementer {}, part {}", field("CPU implementer")?, field("CPU part")?));
    let model = field("model name").or_else(part).unwrap_or("processor not named".into());
    let cores = text.lines().filter(|line| line.starts_with("processor")).count();
    let noun = if cores == 1 { "core" } else { "cores" };
    format!("{}, {model}, {cores} {noun}", std::env::consts::ARCH)
}

fn tables(rows: &[Row]) -> String {
    let mut text = String::new();
    for group in rows.chunk_by(|a, b| a.group == b.group) {
        writeln!(text, "## {}\n", group[0].group).unwrap();
        writeln!(text, "| | median: library | baseline | ratio | least: library | baseline | ratio |")
            .unwrap();
        writeln!(text, "|---|---:|---:|---:|---:|---:|---:|").unwrap();
        for row in group {
            writeln!(text, "| {} | {} |", row.name, columns(row).join(" | ")).unwrap();
        }
        writeln!(text).unwrap();
    }
    text
}

/// The rows of a growth, with their numbers of blocks.
pub fn grown<'a>(rows: &'a [Row], group: &str, sizes: &[usize]) -> Vec<(usize, &'a Row)> {
    sizes.iter().copied().zip(rows.iter().filter(|row| row.group == group)).collect()
}

fn growth(grown: &[(usize, &Row)]) -> String {
    let mut text =
        String::from("| blocks | slots | library, a slot | baseline, a slot |\n|---:|---:|---:|---:|\n");
    for (blocks, row) in grown {
        let slots = blocks * crate::maps::SLOTS;
        let each = |ns: f64| time(ns / slots as f64);
        let (library, baseline) = (each(row.library.median), each(row.baseline.median));
        writeln!(text, "| {} | {} | {library} | {baseline} |", grouped(*blocks), grouped(slots)).unwrap();
    }
    let (first, last) = (&grown[0], &grown[grown.len() - 1]);
    let (few, many) = (first.1, last.1);
    write!(
        text,
        "\nFrom {} to {} blocks, {:.1} times as many, the library's time grows {:.1} times and the \
         baseline's {:.1} times.",
        first.0,
        grouped(last.0),
        last.0 as f64 / first.0 as f64,
        many.library.median / few.library.median,
        many.baseline.median / few.baseline.median
    )
    .unwrap();
    text
}
