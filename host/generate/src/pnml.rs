//! Nets to be written as PNML text, and texts to be read.

use reference::net::{Net, TRANSITION};
use reference::pnml_definition::{Arc, Drawing, HEAD, OPTIONAL, TAIL};

use crate::nets::{LentNet, action, sized, small};
use crate::prng::Prng;
use crate::rooms::room;

/// A net with its marking, and the length of the room.
#[derive(Clone, Debug, PartialEq, Eq)]
pub struct WriteCase {
    pub places: u32,
    pub marking: u64,
    pub net: Vec<u8>,
    pub room: usize,
}

/// A text, and the length of the room.
#[derive(Clone, Debug, PartialEq, Eq)]
pub struct ReadCase {
    pub text: Vec<u8>,
    pub room: usize,
}

/// Small nets, some of them faulty, and nets of all sizes.
pub fn write_case(rng: &mut Prng) -> WriteCase {
    let lent = match rng.percent(60) {
        true => small(rng),
        false => any_size(rng),
    };
    let good = Net::decode(lent.places, &lent.net).ok();
    let length = good.map_or(500, |net| Drawing::of(&net, lent.marking).text().len());
    WriteCase {
        places: lent.places,
        marking: lent.marking,
        net: lent.net,
        room: room(rng, length, TRANSITION),
    }
}

/// A net of any size.
fn any_size(rng: &mut Prng) -> LentNet {
    let (places, transitions) = (size(rng), size(rng));
    sized(rng, places, transitions)
}

/// A number of places or transitions, often where the decimals grow.
fn size(rng: &mut Prng) -> usize {
    match rng.percent(60) {
        true => rng.pick(&[1, 1, 2, 3, 9, 10, 11, 12, 63, 64]),
        false => rng.between(1, 64),
    }
}

/// Texts of the shape, and texts that leave it.
pub fn read_case(rng: &mut Prng) -> ReadCase {
    let mut drawing = drawing(rng);
    if rng.percent(25) {
        redraw(rng, &mut drawing);
    }
    let mut text = drawing.text().into_bytes();
    if rng.percent(50) {
        let rate = rng.pick(&[2, 20, 100]);
        text = spaced(rng, &text, rate);
    }
    if rng.percent(55) {
        for _ in 0..rng.pick(&[1, 1, 1, 2]) {
            change(rng, &mut text);
        }
    }
    let room = room(rng, drawing.transitions.len() * TRANSITION, TRANSITION);
    ReadCase { text, room }
}

fn drawing(rng: &mut Prng) -> Drawing {
    if rng.percent(30) {
        return any_drawing(rng);
    }
    let lent = match rng.percent(70) {
        true => small(rng),
        false => any_size(rng),
    };
    match Net::decode(lent.places, &lent.net) {
        Ok(net) => Drawing::of(&net, lent.marking),
        Err(_) => any_drawing(rng),
    }
}

/// A drawing with any number of places and transitions and a few arcs.
fn any_drawing(rng: &mut Prng) -> Drawing {
    let count = |rng: &mut Prng| match rng.below(12) {
        0 => 0,
        1 => rng.pick(&[64, 65, 66, 100, 101]),
        2 | 3 => rng.between(9, 13),
        _ => rng.between(1, 4),
    };
    let (places, transitions) = (count(rng), count(rng));
    let mut drawing = Drawing {
        marks: (0..places).map(|_| rng.percent(50)).collect(),
        transitions: (0..transitions)
            .map(|_| (action(rng).into(), rng.percent(40)))
            .collect(),
        arcs: Vec::new(),
    };
    if places > 0 && transitions > 0 {
        for _ in 0..rng.below(8) {
            let arc = any_arc(rng, places, transitions);
            drawing.arcs.push(arc);
        }
        drawing.arcs.sort();
        drawing.arcs.dedup();
    }
    drawing
}

fn any_arc(rng: &mut Prng, places: usize, transitions: usize) -> Arc {
    Arc {
        transition: rng.below(transitions),
        post: rng.percent(50),
        place: rng.below(places),
    }
}

/// One change of a drawing, with which it may be none that can be shown.
fn redraw(rng: &mut Prng, drawing: &mut Drawing) {
    let (places, transitions) = (drawing.marks.len(), drawing.transitions.len());
    let count = drawing.arcs.len();
    if count == 0 || rng.percent(15) {
        if transitions > 0 {
            let t = rng.below(transitions);
            drawing.transitions[t].0 =
                rng.pick(&[65_535, 65_536, 65_540, 70_000, 100_000, 655_350]);
        }
        return;
    }
    let (one, other) = (rng.below(count), rng.below(count));
    match rng.below(6) {
        0 => drawing.arcs.swap(one, other),
        1 => drawing.arcs.insert(one, drawing.arcs[other]),
        2 => drawing.arcs[one].place = rng.below(places + 2),
        3 => drawing.arcs[one].transition = rng.below(transitions + 2),
        4 => drawing.arcs[one].post ^= true,
        _ => {
            let arc = any_arc(rng, places + 1, transitions + 1);
            drawing.arcs.insert(one, arc);
        }
    }
}

const SPACE: &[u8] = b" \t\r\n";

/// The text with white space after about `rate` of 100 tags but `<text>`.
fn spaced(rng: &mut Prng, text: &[u8], rate: usize) -> Vec<u8> {
    let mut spaced = Vec::with_capacity(2 * text.len());
    for &byte in text {
        spaced.push(byte);
        if byte == b'>' && !spaced.ends_with(b"<text>") && rng.percent(rate) {
            for _ in 0..rng.pick(&[1, 1, 2, 5]) {
                spaced.push(rng.pick(SPACE));
            }
        }
    }
    spaced
}

/// One change of a text, mostly after the head.
fn change(rng: &mut Prng, text: &mut Vec<u8>) {
    let start = match rng.percent(85) {
        true => HEAD.len().min(text.len()),
        false => 0,
    };
    let at = start + rng.below(text.len() - start + 1);
    match rng.below(16) {
        0 => text.truncate(at),
        1 if at < text.len() => text[at] = byte(rng),
        2 if at < text.len() => text[at] ^= 1 << rng.below(8),
        3 if at < text.len() => drop(text.remove(at)),
        4 => text.insert(at, byte(rng)),
        5 => text.extend(rng.pick(&[" ", "\0", "<", TAIL, "\n\n", "x"]).bytes()),
        6 => change_digit(rng, text, at),
        7 | 8 => {
            let at = after(rng, text, b"<text>");
            change_digit(rng, text, at);
        }
        9 | 10 => add_space(rng, text, at),
        11 => change_pieces(rng, text, start, &[b"<"]),
        12 | 13 => add_mark(rng, text),
        _ => change_pieces(rng, text, start, &ELEMENTS),
    }
}

/// What whole elements and the tail begin with.
const ELEMENTS: [&[u8]; 4] = [b"<place ", b"<transition ", b"<arc ", b"</page>"];

fn byte(rng: &mut Prng) -> u8 {
    match rng.below(4) {
        0 => rng.number() as u8,
        1 => rng.pick(SPACE),
        _ => rng.pick(b"0123456789<>/\"=aptn\x0B\xA0"),
    }
}

/// The end of one of the places where some bytes stand, or 0.
fn after(rng: &mut Prng, text: &[u8], bytes: &[u8]) -> usize {
    let ends: Vec<usize> = (bytes.len()..=text.len())
        .filter(|&end| text[..end].ends_with(bytes))
        .collect();
    match ends.is_empty() {
        true => 0,
        false => rng.pick(&ends),
    }
}

/// White space, or what could be taken for it, at places where it may stand and
/// where it may not.
fn add_space(rng: &mut Prng, text: &mut Vec<u8>, at: usize) {
    let at = match rng.below(6) {
        0 => 0,
        1 => after(rng, text, b"<text>"),
        2 => after(rng, text, b"</text>").saturating_sub(b"</text>".len()),
        3 | 4 => after(rng, text, b">"),
        _ => at,
    };
    let space = match rng.percent(50) {
        true => rng.pick(SPACE),
        false => rng.pick(b"\x0B\x0C\x00\x1F\x85\xA0"),
    };
    text.insert(at, space);
}

/// What could be taken for the tag of an optional transition.
const NEARLY: [&str; 7] = [
    "<toolspecific tool=\"desk\" version=\"2\"/>",
    "<toolspecific tool=\"desk\" version=\"1\" />",
    "<toolspecific tool=\"desk\" version=\"1\"></toolspecific>",
    "<toolspecific  tool=\"desk\" version=\"1\"/>",
    "<toolspecific version=\"1\" tool=\"desk\"/>",
    "<toolspecific tool=\"Desk\" version=\"1\"/>",
    "<t",
];

/// The tag of an optional transition, or nearly that, where it may stand and where
/// it may not.
fn add_mark(rng: &mut Prng, text: &mut Vec<u8>) {
    let before = match rng.percent(50) {
        true => "</name>",
        false => rng.pick(&[OPTIONAL, "<name>", "</text>", "</transition>", ">"]),
    };
    let at = after(rng, text, before.as_bytes());
    let tag = match rng.percent(60) {
        true => OPTIONAL,
        false => rng.pick(&NEARLY),
    };
    text.splice(at..at, tag.bytes());
}

/// Changes the digit at or after a position, or takes it out or adds one.
fn change_digit(rng: &mut Prng, text: &mut Vec<u8>, at: usize) {
    let Some(more) = text[at..].iter().position(u8::is_ascii_digit) else {
        return;
    };
    let (at, digit) = (at + more, b'0' + rng.below(10) as u8);
    match rng.below(6) {
        0 => drop(text.remove(at)),
        1 => text.insert(at, digit),
        2 => text.insert(at, b'0'),
        3 => text.insert(at + 1, digit),
        _ => text[at] = digit,
    }
}

/// Cuts the text into pieces that begin in the ways given, and takes one out,
/// doubles one or exchanges two.
fn change_pieces(rng: &mut Prng, text: &mut Vec<u8>, start: usize, ways: &[&[u8]]) {
    let begins = |&at: &usize| ways.iter().any(|way| text[at..].starts_with(way));
    let starts: Vec<usize> = (start..text.len()).filter(begins).collect();
    let Some(&first) = starts.first() else {
        return;
    };
    let ends = starts[1..].iter().copied().chain([text.len()]);
    let mut pieces: Vec<&[u8]> = starts.iter().zip(ends).map(|(&s, e)| &text[s..e]).collect();
    let one = rng.below(pieces.len());
    let other = match rng.percent(50) {
        true => (one + 1).min(pieces.len() - 1),
        false => rng.below(pieces.len()),
    };
    match rng.below(4) {
        0 => drop(pieces.remove(one)),
        1 => pieces.insert(one, pieces[one]),
        2 => pieces.insert(one, pieces[other]),
        _ => pieces.swap(one, other),
    }
    let changed = pieces.concat();
    text.truncate(first);
    text.extend(changed);
}
