//! The vectors through the programs: their files in a folder, and what is written.

use std::path::{Path, PathBuf};
use std::process::{Command, ExitCode, Stdio};

use crate::lines::bytes;

/// The longest file that `treecheck` and `pnml write` read.
const FILE: usize = 64_000;
/// The number for a short room: the caller's room is no matter of the programs.
const SHORT: &str = "12";

/// Files for a program, its arguments, what it must write to standard output, and
/// the file NET that it must leave, if any.
struct Run {
    files: Vec<(&'static str, Vec<u8>)>,
    program: &'static str,
    arguments: &'static [&'static str],
    output: Vec<u8>,
    net: Option<Vec<u8>>,
}

/// Compares the programs of a folder with every line of the vectors that they can be
/// asked: no file too long, no short room, places that an ask can say.
pub fn vectors(folder: &str, programs: &str) -> ExitCode {
    let work = std::env::temp_dir().join(format!("desk-programs-{}", std::process::id()));
    let mut failed = 0;
    for (name, run) in [
        ("trees", tree as fn(&str, &str) -> Option<Run>),
        ("trees_4", tree),
        ("pnml_write_1", write),
        ("pnml_write", write),
        ("pnml_read_1", read),
        ("pnml_read", read),
    ] {
        let text = std::fs::read_to_string(format!("{folder}/{name}.txt")).expect("vectors");
        let (mut agreed, mut asked) = (0, 0);
        for (number, line) in text.lines().enumerate() {
            let (input, answer) = line.split_once(" = ").expect("a line has an answer");
            let Some(run) = run(input, answer) else {
                continue;
            };
            asked += 1;
            if run.agrees(Path::new(programs), &work) {
                agreed += 1;
            } else {
                println!("{name} line {}: not {answer}", number + 1);
            }
        }
        let count = text.lines().count();
        println!(
            "{name}: {agreed} of {asked} agree, {} not asked",
            count - asked
        );
        failed += asked - agreed;
    }
    std::fs::remove_dir_all(&work).expect("the folder can be removed");
    ExitCode::from(u8::from(failed > 0))
}

/// `treecheck` with the four files in its folder.
fn tree(input: &str, answer: &str) -> Option<Run> {
    let names = ["ASK", "NET", "FORMULA", "TREE"];
    let tables = input.split(' ').map(bytes);
    let run = Run {
        files: names.into_iter().zip(tables).collect(),
        program: "treecheck",
        arguments: &[],
        output: format!("{answer}\n").into_bytes(),
        net: None,
    };
    let short = run.files.iter().all(|(_, table)| table.len() <= FILE);
    short.then_some(run)
}

/// `pnml write` with an ask of these places and this marking.
fn write(input: &str, answer: &str) -> Option<Run> {
    let fields: Vec<&str> = input.split(' ').collect();
    let answers: Vec<&str> = answer.split(' ').collect();
    let (places, net) = (fields[0].parse::<u8>().ok()?, bytes(fields[2]));
    if answers[0] == SHORT || net.len() > FILE {
        return None;
    }
    let marking: u64 = fields[1].parse().expect("a marking");
    let mut ask = marking.to_le_bytes().to_vec();
    ask.extend([0, 0, places, 0]);
    Some(Run {
        files: vec![("ASK", ask), ("NET", net)],
        program: "pnml",
        arguments: &["write", "ASK", "NET"],
        output: match answers[0] {
            "0" => bytes(answers[2]),
            _ => refused(&answers),
        },
        net: None,
    })
}

/// `pnml read` with the text in a file.
fn read(input: &str, answer: &str) -> Option<Run> {
    let answers: Vec<&str> = answer.split(' ').collect();
    let text = input.split(' ').next().expect("a text");
    let granted = answers[0] == "0";
    let output = match granted {
        true => format!("places {} marking {}\n", answers[2], answers[3]).into_bytes(),
        false => refused(&answers),
    };
    (answers[0] != SHORT).then(|| Run {
        files: vec![("FILE", bytes(text))],
        program: "pnml",
        arguments: &["read", "FILE", "NET"],
        output,
        net: granted.then(|| bytes(answers[4])),
    })
}

fn refused(answers: &[&str]) -> Vec<u8> {
    format!("refused {} at {}\n", answers[0], answers[1]).into_bytes()
}

impl Run {
    /// Whether the program writes what it must, in a new folder.
    fn agrees(&self, programs: &Path, work: &PathBuf) -> bool {
        let _ = std::fs::remove_dir_all(work);
        std::fs::create_dir(work).expect("a new folder");
        for (name, contents) in &self.files {
            std::fs::write(work.join(name), contents).expect("a file");
        }
        let path = programs.canonicalize().expect("the programs' folder");
        let output = Command::new(path.join(self.program))
            .args(self.arguments)
            .current_dir(work)
            .stdin(Stdio::null())
            .output()
            .expect("the program starts");
        let reads = self.arguments.first() == Some(&"read");
        let net = std::fs::read(work.join("NET")).ok();
        output.stdout == self.output && (!reads || net == self.net)
    }
}
