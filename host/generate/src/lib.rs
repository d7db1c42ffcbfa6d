//! A seeded generator of cases: trees, category files, single firings, nets as
//! PNML text, claims whose tree is to be written, category files to convert, pairs
//! of nets to be joined, and trees whose formula table is to be saved room in.

pub mod cases;
pub mod categories;
pub mod encode;
pub mod families;
pub mod firings;
pub mod joined;
pub mod layout;
pub mod mutate;
pub mod nets;
pub mod pnml;
pub mod prng;
pub mod rooms;
pub mod saved;
pub mod search;
pub mod settings;
pub mod written;
