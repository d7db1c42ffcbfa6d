//! The program over the reference, to try out program.sh. No part of the gate.

use std::fs::File;
use std::io::Read;

const NAMES: [&str; 4] = ["ASK", "NET", "FORMULA", "TREE"];
const LIMIT: usize = 64_000;

/// The bytes of a file of at most 64,000 bytes.
fn read(path: &str) -> Option<Vec<u8>> {
    let mut bytes = Vec::new();
    let file = File::open(path).ok()?;
    file.take(LIMIT as u64 + 1).read_to_end(&mut bytes).ok()?;
    (bytes.len() <= LIMIT).then_some(bytes)
}

fn main() {
    let arguments: Vec<String> = std::env::args().skip(1).collect();
    let path = |i: usize| arguments.get(i).map_or(NAMES[i], String::as_str);
    let mut tables = Vec::new();
    for (i, name) in NAMES.iter().enumerate() {
        let Some(table) = read(path(i)) else {
            println!("unread {name}");
            return;
        };
        tables.push(table);
    }
    println!(
        "{}",
        reference::check::check(&tables[0], &tables[1], &tables[2], &tables[3])
    );
}
