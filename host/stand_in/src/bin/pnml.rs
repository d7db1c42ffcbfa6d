//! The program `pnml` over the reference, to try out pnml.sh. No part of the gate.

use std::fs::File;
use std::io::{Read, Write};

use reference::Refusal;

const TABLE: usize = 64_000;
const TEXT: usize = 1_000_000;
const ASK: usize = 12;

/// The bytes of a file of at most `limit` bytes.
fn read(path: &str, limit: usize) -> Option<Vec<u8>> {
    let mut bytes = Vec::new();
    let file = File::open(path).ok()?;
    file.take(limit as u64 + 1).read_to_end(&mut bytes).ok()?;
    (bytes.len() <= limit).then_some(bytes)
}

/// The text of a net, or the line in its place.
fn write_net(ask: &str, net: &str) -> Result<Vec<u8>, String> {
    let ask = read(ask, TABLE).ok_or("unread ASK\n")?;
    let net = read(net, TABLE).ok_or("unread NET\n")?;
    if ask.len() != ASK || ask[11] > 1 {
        return Err("refused 1 at 0\n".into());
    }
    let marking = u64::from_le_bytes(ask[..8].try_into().expect("eight bytes"));
    let mut text = vec![0; TEXT];
    let length = reference::pnml::write(ask[10].into(), marking, &net, &mut text).map_err(line)?;
    text.truncate(length);
    Ok(text)
}

/// Reads a text into the file of a net: the line.
fn read_net(file: &str, net: &str) -> Result<String, String> {
    let text = read(file, TEXT).ok_or("unread FILE\n")?;
    let mut table = vec![0; TABLE];
    let read = reference::pnml::read(&text, &mut table).map_err(line)?;
    table.truncate(read.length);
    std::fs::write(net, table).map_err(|error| error.to_string())?;
    Ok(format!("places {} marking {}\n", read.places, read.marking))
}

fn line(refusal: Refusal) -> String {
    format!("refused {} at {}\n", refusal.number, refusal.record)
}

fn main() {
    let arguments: Vec<String> = std::env::args().skip(1).collect();
    let arguments: Vec<&str> = arguments.iter().map(String::as_str).collect();
    let out = match arguments[..] {
        ["write", ask, net] => write_net(ask, net).unwrap_or_else(String::into_bytes),
        ["read", file, net] => read_net(file, net).unwrap_or_else(|line| line).into_bytes(),
        _ => {
            eprintln!("pnml write ASK NET, or pnml read FILE NET");
            return;
        }
    };
    std::io::stdout().write_all(&out).expect("standard output");
}
