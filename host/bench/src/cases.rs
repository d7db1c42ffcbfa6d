//! The cases of the benchmark.

use std::cell::RefCell;
use std::hint::black_box;
use std::path::Path;

use generate::cases::TreeCase;
use generate::categories::{borrower, named};
use generate::encode::{self, Transition};
use generate::families::{self, NET_R};
use generate::nets::LentNet;
use generate::prng::Prng;
use generate::saved::spread;
use generate::written::{self as claims, WrittenCase};
use reference::category::CATEGORIES;
use reference::{Refusal, category, check, converted, joined, net, pnml, saved, written};

type Call = Box<dyn Fn() -> u64>;

/// A call on both sides. Each answers with one number made of all it gives.
pub struct Bench {
    pub archive: Call,
    pub reference: Call,
}

impl Bench {
    /// Stops where the two sides do not agree.
    pub fn agree(&self) {
        assert_eq!((self.archive)(), (self.reference)());
    }
}

/// A name and what makes the case.
type Named = (&'static str, fn() -> Bench);

pub const CASES: [Named; 53] = [
    ("tree: R, 23 nodes", || tree_bench(families::r_holds())),
    ("tree: trail of 32767", || {
        tree_bench(families::trail_chain(32_767))
    }),
    ("tree: chain, no trail", || {
        tree_bench(families::plain_chain(21_843))
    }),
    ("tree: operator 2", || tree_bench(families::and_tree(16))),
    ("tree: 39 children each", || tree_bench(families::wide())),
    ("tree: rings, operator 5", || {
        tree_bench(families::realistic())
    }),
    ("fire: net R", || fire_bench(encode::net(&NET_R), 3, 3, 1)),
    ("fire: 64 transitions", || {
        fire_bench(large_net(), 64, u64::MAX, 63)
    }),
    ("fire: 64, not enabled", || {
        fire_bench(ring_net(64), 64, u64::MAX >> 1, 63)
    }),
    ("categories: full files", categories_bench),
    ("label: small files", || {
        label_bench(small_file(1), small_file(2), 5)
    }),
    ("label: full, first", || full_bench(10)),
    ("label: full, middle", || full_bench(10_000)),
    ("label: full, last", || full_bench(20_000)),
    ("label: full, none, low", || full_bench(5)),
    ("label: full, none, high", || full_bench(30_000)),
    ("pnml: write R", || write_bench(3, 3, encode::net(&NET_R))),
    ("pnml: write 8192 arcs", || write_bench(64, 5, net_of(64))),
    ("pnml: read R", || {
        read_bench(text(3, 3, &encode::net(&NET_R)))
    }),
    ("pnml: read 8192 arcs", || {
        read_bench(text(64, 5, &net_of(64)))
    }),
    ("pnml: read, with space", || {
        read_bench(spaced(text(64, 5, &net_of(64))))
    }),
    ("pnml: read, refused at 1", || {
        let declaration = b"<?xml version=\"1.0\"?>";
        read_bench([&declaration[..], &text(3, 3, &encode::net(&NET_R))].concat())
    }),
    ("pnml: read, refused late", || {
        let mut text = text(64, 5, &net_of(64));
        let last = text.len() - 1;
        text[last] = b' ';
        read_bench(text)
    }),
    ("tree: optional rings", || {
        tree_bench(families::optional_rings())
    }),
    ("pnml: write 64 optional", || {
        write_bench(64, 5, optional_net())
    }),
    ("pnml: read 64 optional", || {
        read_bench(text(64, 5, &optional_net()))
    }),
    ("written: R, 4 nodes", || written_bench(claims::r_fails())),
    ("written: 15 and", || written_bench(claims::ands(15, 0))),
    ("written: 255 and, 12", || {
        written_bench(claims::ands(255, 0))
    }),
    ("written: 255 not", || written_bench(claims::ands(0, 255))),
    ("written: 31 children each", || {
        written_bench(claims::wide(31, 3))
    }),
    ("written: 64 children, 12", || {
        written_bench(claims::wide(64, 3))
    }),
    ("written: 254 steps", || written_bench(claims::ring(false))),
    ("written: 254 steps, 12", || {
        written_bench(claims::ring(true))
    }),
    ("converted: no borrower", || convert_bench(full_file())),
    ("converted: every second", || {
        convert_bench(file_of(CATEGORIES, |i| (i % 2 == 0).then(|| i - 1)))
    }),
    ("converted: all from last", || {
        convert_bench(lent_file(CATEGORIES))
    }),
    ("joined: R beside R", || {
        let r = || LentNet {
            places: 3,
            marking: 3,
            net: encode::net(&NET_R),
        };
        join_bench(r(), r())
    }),
    ("joined: 32 and 32", || join_bench(ring_of(32), ring_of(32))),
    ("joined: 33 and 32, 15", || {
        join_bench(ring_of(33), ring_of(32))
    }),
    ("tree: R, dead", || tree_bench(dead(families::r_holds()))),
    ("tree: operator 2, dead", || {
        tree_bench(dead(families::and_tree(16)))
    }),
    ("tree: 2048 times R", || tree_bench(families::r_copies(11))),
    ("tree: 2048 times R, dead", || {
        tree_bench(dead(families::r_copies(11)))
    }),
    ("tree: rings, dead", || {
        tree_bench(dead(families::realistic()))
    }),
    ("saved: R, 23 nodes", || save_bench(families::r_holds())),
    ("saved: R, dead", || save_bench(dead(families::r_holds()))),
    ("saved: operator 2", || save_bench(families::and_tree(16))),
    ("saved: operator 2, dead", || {
        save_bench(dead(families::and_tree(16)))
    }),
    ("saved: 2048 times R", || save_bench(families::r_copies(11))),
    ("saved: 2048 times R, dead", || {
        save_bench(dead(families::r_copies(11)))
    }),
    ("saved: rings, operator 5", || {
        save_bench(families::realistic())
    }),
    ("saved: rings, dead", || {
        save_bench(dead(families::realistic()))
    }),
];

fn two(number: u32, place: u64) -> u64 {
    u64::from(number) << 32 ^ place
}

fn refused(answer: Result<(), Refusal>) -> u64 {
    answer.map_or_else(|refusal| two(refusal.number, refusal.record), |()| 0)
}

pub fn tree_bench(case: TreeCase) -> Bench {
    let copy = case.clone();
    Bench {
        archive: Box::new(move || {
            let case = black_box(&case);
            let answer = archive::check(&case.ask, &case.net, &case.formulas, &case.tree);
            two(answer.0, answer.1)
        }),
        reference: Box::new(move || {
            let case = black_box(&copy);
            let answer = check::check(&case.ask, &case.net, &case.formulas, &case.tree);
            let (number, place) = answer.numbers();
            two(number, place)
        }),
    }
}

fn large_net() -> Vec<u8> {
    let loop_at = |t: usize| Transition {
        pre: 1 << t,
        post: 1 << t,
        action: t as u16,
    };
    encode::net(&(0..64).map(loop_at).collect::<Vec<_>>())
}

/// A ring of so many places.
fn ring_net(places: usize) -> Vec<u8> {
    let step = |t: usize| Transition {
        pre: 1 << t,
        post: 1 << ((t + 1) % places),
        action: t as u16,
    };
    encode::net(&(0..places).map(step).collect::<Vec<_>>())
}

fn fire_bench(net: Vec<u8>, places: u32, marking: u64, t: u32) -> Bench {
    let copy = net.clone();
    let mix = |(number, record, after, missing, occupied): (u32, u64, u64, u64, u64)| {
        two(number, record) ^ after ^ missing.rotate_left(8) ^ occupied.rotate_left(16)
    };
    Bench {
        archive: Box::new(move || mix(archive::fire(places, marking, black_box(&net), t))),
        reference: Box::new(move || mix(net::fire(places, marking, black_box(&copy), t).numbers())),
    }
}

/// So many records with actions in tens. Those with a lender borrow their text.
fn file_of(records: usize, lender: impl Fn(u16) -> Option<u16>) -> Vec<u8> {
    let record = |i: u16| match lender(i) {
        Some(lender) => borrower(10 * i, 10 * lender),
        None => named(10 * i, b"a text of 24 bytes, full"),
    };
    (1..=records as u16).flat_map(record).collect()
}

/// 2,000 records, actions 10 to 20,000.
fn full_file() -> Vec<u8> {
    file_of(CATEGORIES, |_| None)
}

/// So many records, all but the last borrowing from it.
pub fn lent_file(records: usize) -> Vec<u8> {
    let last = records as u16;
    file_of(records, |i| (i < last).then_some(last))
}

fn full_bench(action: u16) -> Bench {
    label_bench(full_file(), full_file(), action)
}

fn small_file(first: u16) -> Vec<u8> {
    let record = |action: u16| named(action, b"short");
    (first..first + 10).flat_map(record).collect()
}

fn categories_bench() -> Bench {
    let (file, copy) = (full_file(), full_file());
    Bench {
        archive: Box::new(move || {
            let (number, record) = archive::categories(black_box(&file), black_box(&file));
            two(number, record)
        }),
        reference: Box::new(move || refused(category::check(black_box(&copy), black_box(&copy)))),
    }
}

fn label_bench(translation: Vec<u8>, house: Vec<u8>, action: u16) -> Bench {
    let (translation_copy, house_copy) = (translation.clone(), house.clone());
    let mix = |file: u32, offset: u32, length: u32| two(offset, u64::from(file << 16 | length));
    Bench {
        archive: Box::new(move || {
            let label = archive::label(black_box(&translation), black_box(&house), action);
            mix(label.0, label.1, label.2)
        }),
        reference: Box::new(move || {
            let (translation, house) = (black_box(&translation_copy), black_box(&house_copy));
            let label = category::label(translation, house, action);
            mix(label.file, label.offset, label.length)
        }),
    }
}

/// A net of 64 places and transitions, with all arcs of the first transitions.
pub fn net_of(full: usize) -> Vec<u8> {
    encode::net(&transitions_of(full))
}

/// The same without arcs, all transitions optional.
fn optional_net() -> Vec<u8> {
    encode::marked_net(&transitions_of(0), u64::MAX)
}

fn transitions_of(full: usize) -> Vec<Transition> {
    let transition = |t: usize| Transition {
        pre: if t < full { u64::MAX } else { 0 },
        post: if t < full { u64::MAX } else { 0 },
        action: 1000 * t as u16,
    };
    (0..64).map(transition).collect()
}

/// The most bytes of a written text.
const TEXT: usize = 400_000;

/// The written text.
pub fn text(places: u32, marking: u64, net: &[u8]) -> Vec<u8> {
    let mut room = vec![0; TEXT];
    let length = pnml::write(places, marking, net, &mut room).expect("a good net");
    room.truncate(length);
    room
}

/// The text with a new line after each tag that may have one.
fn spaced(text: Vec<u8>) -> Vec<u8> {
    let text = String::from_utf8(text).expect("a written text");
    let text = text.replace('>', ">\n").replace("<text>\n", "<text>");
    text.into_bytes()
}

pub fn write_bench(places: u32, marking: u64, net: Vec<u8>) -> Bench {
    let copy = net.clone();
    let room = RefCell::new(vec![0; TEXT]);
    let room_copy = room.clone();
    Bench {
        archive: Box::new(move || {
            let room = &mut room.borrow_mut()[..];
            let answer = archive::pnml_write(places, marking, black_box(&net), black_box(room));
            two(answer.0, answer.2)
        }),
        reference: Box::new(move || {
            let room = &mut room_copy.borrow_mut()[..];
            let answer = pnml::write(places, marking, black_box(&copy), black_box(room));
            answer.map_or_else(
                |refusal| two(refusal.number, refusal.record),
                |length| length as u64,
            )
        }),
    }
}

pub fn read_bench(text: Vec<u8>) -> Bench {
    let copy = text.clone();
    let room = RefCell::new([0; 64 * 24]);
    let room_copy = room.clone();
    Bench {
        archive: Box::new(move || {
            let room = &mut room.borrow_mut()[..];
            let answer = archive::pnml_read(black_box(&text), black_box(room));
            two(answer.0, answer.1 ^ answer.3 ^ answer.4)
        }),
        reference: Box::new(move || {
            let room = &mut room_copy.borrow_mut()[..];
            let answer = pnml::read(black_box(&copy), black_box(room));
            answer.map_or_else(
                |refusal| two(refusal.number, refusal.record),
                |read| read.marking ^ read.length as u64,
            )
        }),
    }
}

pub fn written_bench(case: WrittenCase) -> Bench {
    let copy = case.clone();
    let room = RefCell::new(vec![0; case.room]);
    let room_copy = room.clone();
    Bench {
        archive: Box::new(move || {
            let (case, room) = (black_box(&case), &mut room.borrow_mut()[..]);
            let room = black_box(room);
            let answer = archive::write_tree(&case.ask, &case.net, &case.formulas, room);
            two(answer.0 ^ answer.2, answer.1 ^ answer.3)
        }),
        reference: Box::new(move || {
            let (case, room) = (black_box(&copy), &mut room_copy.borrow_mut()[..]);
            let room = black_box(room);
            let answer = written::write(&case.ask, &case.net, &case.formulas, room);
            answer.map_or_else(
                |refusal| two(refusal.number, refusal.record),
                |tree| two(tree.side.into(), tree.nodes),
            )
        }),
    }
}

pub fn convert_bench(file: Vec<u8>) -> Bench {
    let copy = file.clone();
    let room = RefCell::new(vec![0; file.len()]);
    let room_copy = room.clone();
    Bench {
        archive: Box::new(move || {
            let room = &mut room.borrow_mut()[..];
            let answer = archive::convert_categories(black_box(&file), black_box(room));
            two(answer.0, answer.1 ^ answer.2)
        }),
        reference: Box::new(move || {
            let room = &mut room_copy.borrow_mut()[..];
            let answer = converted::convert(black_box(&copy), black_box(room));
            answer.unwrap_or_else(|refusal| two(refusal.number, refusal.record))
        }),
    }
}

/// A ring of so many places with one token.
pub fn ring_of(places: usize) -> LentNet {
    LentNet {
        places: places as u32,
        marking: 1,
        net: ring_net(places),
    }
}

pub fn join_bench(first: LentNet, second: LentNet) -> Bench {
    let copy = (first.clone(), second.clone());
    let room = RefCell::new([0; 64 * 24]);
    let room_copy = room.clone();
    Bench {
        archive: Box::new(move || {
            let (first, second) = (black_box(&first), black_box(&second));
            let room = &mut room.borrow_mut()[..];
            let answer = archive::join(
                first.places,
                first.marking,
                &first.net,
                second.places,
                second.marking,
                &second.net,
                black_box(room),
            );
            two(answer.0 ^ answer.2, answer.1 ^ answer.3 ^ answer.4)
        }),
        reference: Box::new(move || {
            let (first, second) = (black_box(&copy.0), black_box(&copy.1));
            let room = &mut room_copy.borrow_mut()[..];
            let answer = joined::join(first.half(), second.half(), black_box(room));
            answer.map_or_else(
                |refusal| two(refusal.number, refusal.record),
                |joined| two(joined.places, joined.marking ^ joined.length as u64),
            )
        }),
    }
}

/// The case with the formula records spread over so many, the others dead.
pub fn spread_over(records: usize, mut case: TreeCase) -> TreeCase {
    spread(&mut Prng::new(1), &mut case, records);
    case
}

/// The same with as many as a table can have.
fn dead(case: TreeCase) -> TreeCase {
    spread_over(256, case)
}

pub fn save_bench(case: TreeCase) -> Bench {
    let copy = case.clone();
    let rooms = RefCell::new([&case.ask, &case.formulas, &case.tree].map(Vec::clone));
    let rooms_copy = rooms.clone();
    Bench {
        archive: Box::new(move || {
            let (case, mut rooms) = (black_box(&case), rooms.borrow_mut());
            let rooms = rooms.each_mut().map(|room| black_box(&mut room[..]));
            let answer =
                archive::save_room(&case.ask, &case.net, &case.formulas, &case.tree, rooms);
            two(answer.0, answer.1 ^ answer.2)
        }),
        reference: Box::new(move || {
            let (case, mut rooms) = (black_box(&copy), rooms_copy.borrow_mut());
            let rooms = rooms.each_mut().map(|room| black_box(&mut room[..]));
            let answer = saved::save(&case.ask, &case.net, &case.formulas, &case.tree, rooms);
            answer.unwrap_or_else(|refusal| two(refusal.number, refusal.record))
        }),
    }
}

/// The tables of the cases as files of a folder. The trail is a short one, since
/// its cost is the square of its length.
pub fn write(folder: &Path) -> std::io::Result<()> {
    std::fs::create_dir_all(folder)?;
    let trees = [
        ("r", families::r_holds()),
        ("trail", families::trail_chain(1000)),
        ("chain", families::plain_chain(21_843)),
        ("and", families::and_tree(16)),
        ("wide", families::wide()),
        ("rings", families::realistic()),
    ];
    for (name, case) in trees {
        std::fs::write(folder.join(format!("{name}.ask")), case.ask)?;
        std::fs::write(folder.join(format!("{name}.net")), case.net)?;
        std::fs::write(folder.join(format!("{name}.formulas")), case.formulas)?;
        std::fs::write(folder.join(format!("{name}.tree")), case.tree)?;
    }
    std::fs::write(folder.join("large.net"), large_net())?;
    std::fs::write(folder.join("full"), full_file())?;
    std::fs::write(folder.join("small.1"), small_file(1))?;
    std::fs::write(folder.join("small.2"), small_file(2))
}
