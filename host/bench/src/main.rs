//! The cost of the archive beside that of the reference, in one run.
//!
//! bench                            every case: medians and their ratio
//! bench list                       the names of the cases
//! bench one CASE SIDE TIMES        one case on one side (archive, reference)
//! bench growth                     cost by nodes, depth and transitions, by length
//!                                  of text, of written trees by nodes and steps, of
//!                                  converted files and of joint nets by records, of
//!                                  room saved by nodes and by formula records
//! bench tables FOLDER              the tables of the cases as files, for pair/

mod cases;
mod measure;

use std::path::Path;

use cases::{
    Bench, CASES, convert_bench, join_bench, lent_file, net_of, read_bench, ring_of, save_bench,
    spread_over, text, tree_bench, write_bench, written_bench,
};
use generate::cases::TreeCase;
use generate::families;
use generate::written::{ands, switches};
use measure::{medians, time_text};

fn main() {
    let arguments: Vec<String> = std::env::args().skip(1).collect();
    let arguments: Vec<&str> = arguments.iter().map(String::as_str).collect();
    match arguments.as_slice() {
        [] => table(),
        ["list"] => CASES.iter().for_each(|(name, _)| println!("{name}")),
        ["one", name, side, times] => one(name, side, times.parse().expect("a number")),
        ["growth"] => growth(),
        ["tables", folder] => cases::write(Path::new(folder)).expect("a folder to write to"),
        _ => eprintln!(
            "bench | bench list | bench one CASE SIDE TIMES | bench growth | bench tables FOLDER"
        ),
    }
}

fn table() {
    println!(
        "{:<26} {:>12} {:>12} {:>7}",
        "case", "archive", "reference", "ratio"
    );
    for (name, make) in CASES {
        row(name, &make());
    }
}

fn row(name: &str, bench: &Bench) {
    bench.agree();
    let (archive, reference) = medians(bench);
    println!(
        "{:<26} {:>12} {:>12} {:>7.2}",
        name,
        time_text(archive),
        time_text(reference),
        archive / reference
    );
}

fn one(name: &str, side: &str, times: usize) {
    let case = CASES.iter().find(|case| case.0 == name);
    let bench = case.expect("a name that `bench list` prints").1();
    let run = match side {
        "archive" => &bench.archive,
        "reference" => &bench.reference,
        _ => panic!("archive or reference"),
    };
    let sum = (0..times).fold(0u64, |sum, _| sum.wrapping_add(run()));
    println!("{name}, {side}, {times} times: {sum}");
}

fn growth() {
    println!("by nodes (operator 2 only)");
    grow((8..=16).map(|levels| (1 << levels, families::and_tree(levels))));
    println!("by nodes (one chain without a trail)");
    grow([1000, 4000, 16_000, 21_843].map(|depth| (depth, families::plain_chain(depth))));
    println!("by depth (one trail)");
    let depths = [500, 1000, 2000, 4000, 8000, 16_000];
    grow(depths.map(|depth| (depth, families::trail_chain(depth))));
    println!("by transitions (rule 24, 20 children at each node)");
    let transitions = [20, 32, 48, 64];
    grow(transitions.map(|count| (count, families::wide_tree(20, count))));
    println!("by children (rule 24, 64 transitions)");
    grow([5, 10, 20, 39].map(|width| (width, families::wide_tree(width, 64))));
    let full = [0, 1, 4, 16, 64];
    println!("by length of text (writing)");
    let writes = full.map(|t| (text_of(t).len(), write_bench(64, 5, net_of(t))));
    grow_parts("byte", writes);
    println!("by length of text (reading)");
    let reads = full.map(|t| (text_of(t).len(), read_bench(text_of(t))));
    grow_parts("byte", reads);
    println!("by nodes written (operator 2 only)");
    let ands = [7, 9, 11, 13, 15].map(|n| ((2 << n) - 1, written_bench(ands(n, 0))));
    grow_parts("node", ands);
    println!("by steps (operator 3 over 256 markings, 8 enabled at each)");
    let steps = [2, 3, 4, 5, 6, 7].map(|levels| (levels, written_bench(switches(levels))));
    grow_parts("step", steps);
    println!("by records converted (all but the last borrow from it)");
    let files = [125, 250, 500, 1000, 2000].map(|n| (n, convert_bench(lent_file(n))));
    grow_parts("record", files);
    println!("by records joined (two rings, half of them in each)");
    let rings = [1, 2, 4, 8, 16, 32].map(|n| (2 * n, join_bench(ring_of(n), ring_of(n))));
    grow_parts("record", rings);
    println!("by nodes, room saved (operator 2 only, 256 formula records)");
    let trees = [8, 10, 12, 14, 16].map(|levels| {
        let case = spread_over(256, families::and_tree(levels));
        (1 << levels, save_bench(case))
    });
    grow_parts("node", trees);
    println!("by formula records, room saved (R, 23 nodes)");
    let tables = [3, 16, 64, 256].map(|n| (n, save_bench(spread_over(n, families::r_holds()))));
    grow_parts("record", tables);
}

/// The text of a net with all arcs of the first transitions.
fn text_of(full: usize) -> Vec<u8> {
    text(64, 5, &net_of(full))
}

/// A line for each size: the time on both sides, for each node and in all.
fn grow(cases: impl IntoIterator<Item = (usize, TreeCase)>) {
    println!(
        "  {:>7} {:>7} {:>12} {:>12} {:>12} {:>12}",
        "size", "nodes", "archive", "a node", "reference", "a node"
    );
    for (size, case) in cases {
        let nodes = case.tree.len() / reference::check::NODE;
        print!("  {size:>7}");
        times(nodes, &tree_bench(case));
    }
}

/// The same for each part of other things.
fn grow_parts(part: &str, cases: impl IntoIterator<Item = (usize, Bench)>) {
    let (parts, each) = (format!("{part}s"), format!("a {part}"));
    println!(
        "  {parts:>7} {:>12} {each:>12} {:>12} {each:>12}",
        "archive", "reference"
    );
    for (count, bench) in cases {
        print!(" ");
        times(count, &bench);
    }
}

/// The rest of a line: how many parts, and the times in all and for each.
fn times(parts: usize, bench: &Bench) {
    bench.agree();
    let (archive, reference) = medians(bench);
    println!(
        " {parts:>7} {:>12} {:>12} {:>12} {:>12}",
        time_text(archive),
        time_text(archive / parts as f64),
        time_text(reference),
        time_text(reference / parts as f64)
    );
}
