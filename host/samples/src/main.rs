//! samples FOLDER: writes samples of documents 01 and 02, each into a folder of its
//! own with the files ASK, NET, FORMULA, TREE, and LINE with the expected line.

use std::path::Path;

use generate::cases::TreeCase;
use generate::families;

fn main() -> std::io::Result<()> {
    let folder = std::env::args().nth(1).expect("samples FOLDER");
    let samples = [
        ("r-holds", families::r_holds(), "accepted nodes 23"),
        ("r-fails-keeping-2", families::r_fails(2), "broken 24 at 3"),
        ("r-fails-keeping-0", families::r_fails(0), "broken 26 at 1"),
        ("one-place", families::one_place(), "accepted nodes 4"),
        ("r-optional", families::r_optional(), "accepted nodes 4"),
        ("full-round", families::full_round(64), "accepted nodes 258"),
        (
            "full-file",
            families::trail_chain(799),
            "accepted nodes 1600",
        ),
    ];
    for (name, case, line) in samples {
        write(&Path::new(&folder).join(name), &case, line)?;
    }
    Ok(())
}

fn write(folder: &Path, case: &TreeCase, line: &str) -> std::io::Result<()> {
    std::fs::create_dir_all(folder)?;
    std::fs::write(folder.join("ASK"), &case.ask)?;
    std::fs::write(folder.join("NET"), &case.net)?;
    std::fs::write(folder.join("FORMULA"), &case.formulas)?;
    std::fs::write(folder.join("TREE"), &case.tree)?;
    std::fs::write(folder.join("LINE"), format!("{line}\n"))
}
