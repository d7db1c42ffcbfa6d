//! The reader and the writer of PNML text against the definition.

use std::collections::HashSet;

use reference::net::Net;
use reference::pnml;
use reference::pnml_definition::{self as definition, Arc, Drawing, HEAD, OPTIONAL, TAIL};

/// The bytes that are tried at each position.
const ALPHABET: &[u8] = b"0123456789apt\"<>/= \t\r\n\x00\xA0";

fn pre(place: usize, transition: usize) -> Arc {
    Arc {
        transition,
        post: false,
        place,
    }
}

fn post(transition: usize, place: usize) -> Arc {
    Arc {
        transition,
        post: true,
        place,
    }
}

fn drawing(places: usize, transitions: usize, arcs: &[Arc]) -> Drawing {
    Drawing {
        marks: (0..places).map(|place| place % 3 == 0).collect(),
        transitions: (0..transitions)
            .map(|t| [(7, false), (65_535, true), (0, true), (10, false)][t % 4])
            .collect(),
        arcs: arcs.to_vec(),
    }
}

/// The text of a drawing without its tail.
fn begun(drawing: &Drawing) -> String {
    let text = drawing.text();
    text.strip_suffix(TAIL).expect("a tail").to_owned()
}

/// The reader's offset, if it stops.
fn offset(text: &[u8]) -> Option<usize> {
    match pnml::read(text, &mut [0; 64 * 24]) {
        Err(refusal) if refusal.number == 13 => Some(refusal.record as usize),
        _ => None,
    }
}

/// Compares the reader with the definition; the offset, if there is one.
fn agree(text: &[u8]) -> Option<usize> {
    let mut room = [0; 64 * 24];
    let read = pnml::read(text, &mut room);
    let found = read.map(|read| (read.places, read.marking, room[..read.length].to_vec()));
    let expected = definition::answer(text, room.len());
    assert_eq!(found, expected, "{}", String::from_utf8_lossy(text));
    offset(text)
}

/// Sees that the bytes before a text's offset can be continued.
fn continues(text: &[u8]) {
    if let Err(stop) = definition::read(text) {
        let mut whole = text[..stop.offset].to_vec();
        whole.extend(stop.continuation.bytes());
        assert!(definition::read(&whole).is_ok());
        assert_eq!(offset(&whole), None);
    }
}

/// Sees that each beginning, with what follows it, stops so many bytes after the beginning.
fn stop_at(rows: &[(String, String, usize)]) {
    for (beginning, more, expected) in rows {
        let text = beginning.clone() + more;
        let stopped = agree(text.as_bytes());
        assert_eq!(stopped, Some(beginning.len() + expected), "{text}");
        continues(text.as_bytes());
    }
}

#[test]
fn offsets() {
    let place = "<place id=\"p0\"><initialMarking><text>";
    let transition = "<transition id=\"t0\"><name><text>";
    let first = |ends: &str| format!("<arc id=\"a0\" source=\"{ends}");
    let second = |ends: &str| format!("<arc id=\"a1\" source=\"{ends}");
    let places = |count: usize| begun(&drawing(count, 0, &[]));
    let twelve = |arcs: &[Arc]| begun(&drawing(12, 12, arcs));
    let head = || HEAD.to_owned();
    assert_eq!(HEAD.len(), 139);
    stop_at(&[
        (String::new(), String::new(), 0),
        (String::new(), format!(" {HEAD}"), 0),
        (String::new(), "<?xml".into(), 1),
        (String::new(), head(), 139),
        (String::new(), head() + &TAIL[..19], 158),
        (head(), format!("{place} 1"), 37),
        (head(), format!("{place}1 <"), 38),
        (head(), format!("{place}2"), 37),
        (head(), format!("{place}01"), 38),
        (head(), format!("{place}10"), 38),
        (head(), "<place id=\"p1\"".into(), 12),
        (head(), "<place id=\"p00\"".into(), 13),
        (head(), "<place  id=\"p0\"".into(), 7),
        (places(10), "<place id=\"p1\"".into(), 13),
        (places(10), "<place id=\"p11\"".into(), 13),
        (places(10), "<place id=\"p100\"".into(), 14),
        (places(1), format!("{transition}65536"), 36),
        (places(1), format!("{transition}65540"), 36),
        (places(1), format!("{transition}655350"), 37),
        (places(1), format!("{transition}00"), 33),
        (places(1), format!("{transition}</text>"), 32),
        (places(1), first("p0"), 1),
        (begun(&drawing(0, 1, &[])), first("p0"), 1),
        (begun(&drawing(3, 2, &[])), second("p0"), 10),
        (begun(&drawing(3, 2, &[])), first("p7"), 22),
        (begun(&drawing(3, 2, &[])), first("p0\" target=\"t12"), 35),
        (twelve(&[]), first("p12"), 23),
        (twelve(&[pre(5, 11)]), second("p4"), 22),
        (twelve(&[pre(5, 11)]), second("p1\""), 23),
        (twelve(&[pre(5, 11)]), second("p10"), 24),
        (twelve(&[pre(5, 3)]), second("p4\" target=\"t3"), 34),
        (twelve(&[pre(5, 3)]), second("p4\" target=\"t1\""), 35),
        (twelve(&[pre(5, 3)]), second("p4\" target=\"t11"), 36),
        (twelve(&[pre(5, 3)]), second("p5\" target=\"t3"), 34),
        (twelve(&[post(3, 5)]), second("p0\" target=\"t3"), 34),
        (twelve(&[post(3, 5)]), second("t3\" target=\"p5"), 34),
        (twelve(&[post(3, 5)]), second("t3\" target=\"p1\""), 35),
        (twelve(&[post(3, 5)]), second("t2"), 22),
        (twelve(&[post(3, 5)]), second("t1\""), 23),
        (twelve(&[post(11, 5)]), second("p"), 21),
        (twelve(&[post(11, 11)]), "<a".into(), 1),
    ]);
    for byte in [0xA0, 0] {
        assert_eq!(offset(&[HEAD.as_bytes(), &[byte]].concat()), Some(139));
    }
}

#[test]
fn offsets_of_optional_marks() {
    let opened = "<transition id=\"t0\">";
    let named = format!("{opened}<name><text>7</text></name>");
    assert_eq!((opened.len(), named.len(), OPTIONAL.len()), (20, 47, 39));
    let places = begun(&drawing(1, 0, &[]));
    let row = |more: String, expected: usize| (places.clone(), more, expected);
    let marked = |old: &str, new: &str| named.clone() + &OPTIONAL.replace(old, new);
    let end = "</transition>";
    stop_at(&[
        row(format!("{opened}{OPTIONAL}<name>"), 21),
        row(
            format!("{opened}<name>{OPTIONAL}<text>7</text></name>{end}"),
            28,
        ),
        row(
            format!("{opened}<name><text>7</text>{OPTIONAL}</name>{end}"),
            41,
        ),
        row(named.clone(), 47),
        row(format!("{named}<"), 48),
        row(format!("{named}<p"), 48),
        row(marked(" tool", "  tool"), 61),
        row(marked("desk", "Desk"), 67),
        row(
            marked("tool=\"desk\" version=\"1\"", "version=\"1\" tool=\"desk\""),
            61,
        ),
        row(marked("1", "2"), 82),
        row(marked("1", "10"), 83),
        row(marked("/>", " />"), 84),
        row(marked("/>", "></toolspecific>"), 84),
        row(format!("{named}{OPTIONAL}"), 86),
        row(format!("{named}{OPTIONAL}{OPTIONAL}{end}"), 87),
        row(format!("{named}\n{OPTIONAL} \t{OPTIONAL}"), 90),
        row(format!("{named}{OPTIONAL}<name>"), 87),
        row(format!("{named}{end}{OPTIONAL}"), 62),
        row(format!("{named}{OPTIONAL}{end}"), 99),
        (
            HEAD.to_owned(),
            format!("<place id=\"p0\"><initialMarking><text>0</text></initialMarking>{OPTIONAL}"),
            63,
        ),
    ]);
}

/// Small drawings whose texts are changed in every way below.
fn small() -> Vec<Drawing> {
    vec![
        drawing(0, 0, &[]),
        drawing(2, 0, &[]),
        drawing(0, 2, &[]),
        drawing(1, 1, &[pre(0, 0), post(0, 0)]),
        drawing(2, 2, &[pre(1, 0), pre(0, 1), post(1, 1)]),
        drawing(11, 1, &[pre(10, 0), post(0, 1), post(0, 10)]),
    ]
}

#[test]
fn changed_bytes() {
    let (mut texts, mut stopped) = (0, 0);
    for drawing in small() {
        let text = drawing.text().into_bytes();
        let start = match drawing.marks.is_empty() {
            true => 0,
            false => HEAD.len() - 1,
        };
        let mut offsets = HashSet::new();
        let mut try_text = |text: &[u8]| {
            let offset = agree(text);
            texts += 1;
            stopped += usize::from(offset.is_some());
            offsets.extend(offset);
        };
        for at in start..text.len() {
            let (before, after) = text.split_at(at);
            try_text(before);
            continues(before);
            try_text(&[before, &after[1..]].concat());
            for &byte in ALPHABET {
                try_text(&[before, &[byte], &after[1..]].concat());
                try_text(&[before, &[byte], after].concat());
            }
        }
        assert!((start..text.len()).all(|at| offsets.contains(&at)));
    }
    println!("{texts} texts, {stopped} offsets");
}

#[test]
fn changed_tags() {
    let (mut texts, mut stopped) = (0, 0);
    for drawing in small() {
        let text = drawing.text();
        let tags = text.split('<').skip(1);
        let tags: Vec<String> = tags.map(|tag| format!("<{tag}")).collect();
        let mut try_tags = |tags: &[String]| {
            for between in ["", "\r\n\t "] {
                let text = tags.concat().replace('>', &format!(">{between}"));
                let text = text.replace(&format!("<text>{between}"), "<text>");
                texts += 1;
                stopped += usize::from(agree(text.as_bytes()).is_some());
            }
        };
        for one in 0..tags.len() {
            let mut changed = tags.clone();
            changed.remove(one);
            try_tags(&changed);
            for other in 0..tags.len() {
                let mut changed = tags.clone();
                changed.swap(one, other);
                try_tags(&changed);
                let mut changed = tags.clone();
                changed.insert(one, tags[other].clone());
                try_tags(&changed);
            }
        }
    }
    println!("{texts} texts, {stopped} offsets");
}

/// The texts from the first arc on of all drawings with up to `most` arcs.
fn arc_texts(places: usize, transitions: usize, most: usize) -> Vec<String> {
    let mut drawings = vec![drawing(places, transitions, &[])];
    let possible = drawings[0].possible();
    for arc in possible {
        let with_arc = |drawing: &Drawing| {
            let mut drawing = drawing.clone();
            drawing.arcs.push(arc);
            (drawing.arcs.len() <= most).then_some(drawing)
        };
        let more: Vec<Drawing> = drawings.iter().filter_map(with_arc).collect();
        drawings.extend(more);
    }
    let beginning = begun(&drawings[0]).len();
    let text = |drawing: &Drawing| drawing.text()[beginning..].to_owned();
    drawings.iter().map(text).collect()
}

/// Nothing but written texts: after each beginning of one, the bytes that can
/// follow are those that follow in some written text. A beginning with fewer arcs
/// than `most` goes on in one with at most `most`, if at all.
fn by_written_texts(places: usize, transitions: usize, most: usize) -> usize {
    let beginning = begun(&drawing(places, transitions, &[])).into_bytes();
    let texts = arc_texts(places, transitions, most);
    let begins: HashSet<&[u8]> = texts
        .iter()
        .flat_map(|text| (0..=text.len()).map(|end| &text.as_bytes()[..end]))
        .collect();
    let all = 2 * places * transitions;
    let whole_arcs = |begin: &[u8]| begin.iter().filter(|&&b| b == b'>').count();
    let mut tried = 0;
    for begin in &begins {
        // Up to `<` another transition can follow, and after the tail only space.
        if begin.len() < 2 || most < all && whole_arcs(begin) >= most {
            continue;
        }
        for &byte in ALPHABET {
            let end = [begin, &[byte][..]].concat();
            let text = [&beginning[..], &end].concat();
            let space = begin.ends_with(b">") && b" \t\r\n".contains(&byte);
            let expected = match space || begins.contains(&end[..]) {
                true if begin.ends_with(b"</pnml>") || end.ends_with(b"</pnml>") => None,
                true => Some(text.len()),
                false => Some(text.len() - 1),
            };
            assert_eq!(
                offset(&text),
                expected,
                "{}",
                String::from_utf8_lossy(&text)
            );
            tried += 1;
        }
    }
    tried
}

#[test]
fn arcs() {
    let mut tried = 0;
    for (places, transitions, most) in [
        (1, 1, 2),
        (1, 2, 4),
        (2, 1, 4),
        (2, 2, 8),
        (3, 1, 6),
        (12, 1, 2),
        (1, 12, 2),
        (11, 2, 2),
        (2, 11, 2),
        (21, 1, 2),
        (1, 101, 1),
        (101, 1, 1),
    ] {
        tried += by_written_texts(places, transitions, most);
    }
    println!("{tried} bytes tried");
}

#[test]
fn actions() {
    let decimals: Vec<String> = (0..=65_535).map(|action| action.to_string()).collect();
    let begins: HashSet<&str> = decimals
        .iter()
        .flat_map(|digits| (0..=digits.len()).map(|end| &digits[..end]))
        .collect();
    let beginning = begun(&drawing(1, 0, &[])) + "<transition id=\"t0\"><name><text>";
    let end = "</text></name></transition>".to_owned() + TAIL;
    for length in 0..=6 {
        for number in 0..10usize.pow(length) {
            let width = length as usize;
            let digits = match width {
                0 => String::new(),
                _ => format!("{number:0width$}"),
            };
            let hopeless = (1..=width).find(|&end| !begins.contains(&digits[..end]));
            let text = format!("{beginning}{digits}{end}");
            let expected = match hopeless {
                Some(end) => Some(beginning.len() + end - 1),
                None if width == 0 => Some(beginning.len()),
                None => None,
            };
            assert_eq!(offset(text.as_bytes()), expected, "{digits}");
        }
    }
}

#[test]
fn writes_the_text_and_reads_it() {
    let mut large = vec![0; 64 * 24];
    for (t, record) in large.chunks_exact_mut(24).enumerate() {
        record[..16].fill(0xFF);
        record[18] = (t % 3 == 1).into();
        record[16..18].copy_from_slice(&(1039 * t as u16).to_le_bytes());
    }
    let mut longest = large.clone();
    for record in longest.chunks_exact_mut(24) {
        record[16..19].copy_from_slice(&[0xFF, 0xFF, 1]);
    }
    let mut row = large.clone();
    for (t, record) in row.chunks_exact_mut(24).enumerate() {
        record[..8].copy_from_slice(&(1u64 << t).to_le_bytes());
        record[8..16].copy_from_slice(&(1u64 << (63 - t)).to_le_bytes());
    }
    for (places, marking, table) in [
        (64, u64::MAX, &large[..]),
        (64, u64::MAX, &longest[..]),
        (64, 0xA000_0000_0000_0401, &row[..]),
        (64, 0, &row[..24]),
        (64, 1 << 63, &row[..11 * 24]),
        (1, 1, &[0; 24][..]),
    ] {
        let net = Net::decode(places, table).expect("a good net");
        let text = Drawing::of(&net, marking).text().into_bytes();
        let mut room = vec![0xA5; text.len() + 1];
        let short = pnml::write(places, marking, table, &mut room[..text.len() - 1]);
        assert_eq!(short.unwrap_err().number, 12);
        assert!(room.iter().all(|&b| b == 0xA5));
        assert_eq!(
            pnml::write(places, marking, table, &mut room),
            Ok(text.len())
        );
        assert_eq!(room, [&text[..], &[0xA5]].concat());
        let mut records = vec![0xA5; table.len()];
        let read = pnml::read(&text, &mut records).expect("a good text");
        assert_eq!(
            (read.places, read.marking, read.length),
            (places, marking, table.len())
        );
        assert_eq!(records, table);
        let short = pnml::read(&text, &mut vec![0xA5; table.len() - 1]);
        assert_eq!(short.unwrap_err().number, 12);
    }
    let length = pnml::write(64, u64::MAX, &longest, &mut vec![0; 400_000]);
    assert_eq!(length, Ok(359_925));
}

#[test]
fn too_few_or_too_many() {
    let number = |places: usize, transitions: usize| {
        let text = drawing(places, transitions, &[]).text().into_bytes();
        agree(&text);
        pnml::read(&text, &mut [0; 24]).map_or_else(|refusal| refusal.number, |_| 0)
    };
    assert_eq!((number(0, 0), number(0, 1), number(0, 65)), (1, 1, 1));
    assert_eq!((number(65, 1), number(65, 65), number(65, 0)), (1, 1, 1));
    assert_eq!((number(1, 0), number(64, 65), number(64, 64)), (2, 2, 12));
    assert_eq!((number(1, 1), number(64, 1), number(64, 2)), (0, 0, 12));
    let beyond = drawing(
        66,
        66,
        &[pre(65, 0), pre(64, 64), post(64, 0), post(65, 65)],
    );
    agree(beyond.text().as_bytes());
}
