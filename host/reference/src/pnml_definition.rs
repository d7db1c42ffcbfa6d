//! The texts of F-1 and F-4 by their definition, slow and plain. Tests hold `pnml` against it.

use std::borrow::Cow;
use std::cell::RefCell;
use std::collections::HashMap;
use std::sync::OnceLock;

use crate::net::{MARK, Net, TRANSITION, members};
use crate::{Refusal, refused, refused_at};

pub const HEAD: &str = "<pnml xmlns=\"http://www.pnml.org/version-2009/grammar/pnml\">\
    <net id=\"n\" type=\"http://www.pnml.org/version-2009/grammar/ptnet\"><page id=\"g\">";
pub const TAIL: &str = "</page></net></pnml>";
/// Follows the name of an optional transition.
pub const OPTIONAL: &str = "<toolspecific tool=\"desk\" version=\"1\"/>";

/// An arc from a place to a transition, or with `post` back, in the order of a text.
#[derive(Clone, Copy, Debug, PartialEq, Eq, PartialOrd, Ord)]
pub struct Arc {
    pub transition: usize,
    pub post: bool,
    pub place: usize,
}

impl Arc {
    /// The text from its source on.
    fn end(&self) -> String {
        let (place, transition) = (self.place, self.transition);
        match self.post {
            false => format!("p{place}\" target=\"t{transition}\"/>"),
            true => format!("t{transition}\" target=\"p{place}\"/>"),
        }
    }
}

#[derive(Clone, Debug, Default, PartialEq, Eq)]
pub struct Drawing {
    pub marks: Vec<bool>,
    /// The action of each transition, and whether it is optional.
    pub transitions: Vec<(usize, bool)>,
    pub arcs: Vec<Arc>,
}

fn place_head(place: usize) -> String {
    format!("<place id=\"p{place}\"><initialMarking><text>")
}

fn place_end(mark: usize) -> String {
    format!("{mark}</text></initialMarking></place>")
}

fn transition_head(transition: usize) -> String {
    format!("<transition id=\"t{transition}\"><name><text>")
}

fn transition_end(action: usize, optional: bool) -> String {
    let mark = if optional { OPTIONAL } else { "" };
    format!("{action}</text></name>{mark}</transition>")
}

fn arc_head(arc: usize) -> String {
    format!("<arc id=\"a{arc}\" source=\"")
}

impl Drawing {
    /// The drawing of a net with its marking.
    pub fn of(net: &Net, marking: u64) -> Drawing {
        let mut drawing = Drawing {
            marks: (0..net.places).map(|p| marking >> p & 1 == 1).collect(),
            transitions: (0..net.count)
                .map(|t| (net.action[t].into(), net.pressed >> t & 1 == 0))
                .collect(),
            arcs: Vec::new(),
        };
        for transition in 0..net.count {
            for (post, set) in [(false, net.pre[transition]), (true, net.post[transition])] {
                drawing.arcs.extend(members(set).map(|place| Arc {
                    transition,
                    post,
                    place,
                }));
            }
        }
        drawing
    }

    /// The written text.
    pub fn text(&self) -> String {
        let mut text = HEAD.to_owned();
        for (place, &mark) in self.marks.iter().enumerate() {
            text += &place_head(place);
            text += &place_end(mark.into());
        }
        for (transition, &(action, optional)) in self.transitions.iter().enumerate() {
            text += &transition_head(transition);
            text += &transition_end(action, optional);
        }
        for (number, arc) in self.arcs.iter().enumerate() {
            text += &arc_head(number);
            text += &arc.end();
        }
        text + TAIL
    }

    /// The records of its transitions.
    fn records(&self) -> Vec<u8> {
        let record = |(transition, &(action, optional)): (usize, &(usize, bool))| {
            let set = |post: bool| {
                let mut arcs = self.arcs.clone();
                arcs.retain(|arc| arc.transition == transition && arc.post == post);
                arcs.iter().map(|arc| 1u64 << arc.place).sum::<u64>()
            };
            let mut record = set(false).to_le_bytes().to_vec();
            record.extend(set(true).to_le_bytes());
            record.extend((action as u16).to_le_bytes());
            record.resize(TRANSITION, 0);
            record[MARK] = optional.into();
            record
        };
        let transitions = self.transitions.iter().enumerate();
        transitions.flat_map(record).collect()
    }

    /// Whether a text of the shape can show it.
    pub fn good(&self) -> bool {
        let inside =
            |arc: &Arc| arc.place < self.marks.len() && arc.transition < self.transitions.len();
        self.transitions.iter().all(|t| t.0 <= 65_535)
            && self.arcs.iter().all(inside)
            && self.arcs.windows(2).all(|pair| pair[0] < pair[1])
    }

    /// All arcs that can be there, rising.
    pub fn possible(&self) -> Vec<Arc> {
        let mut arcs = Vec::new();
        for transition in 0..self.transitions.len() {
            for post in [false, true] {
                arcs.extend((0..self.marks.len()).map(|place| Arc {
                    transition,
                    post,
                    place,
                }));
            }
        }
        arcs
    }

    /// The arcs that can follow.
    fn higher(&self) -> Vec<Arc> {
        let last = self.arcs.last();
        let mut arcs = self.possible();
        arcs.retain(|arc| last.is_none_or(|last| arc > last));
        arcs
    }

    /// All that can follow: places, transitions, arcs, the tail.
    fn followers(&self) -> [Alike; 4] {
        let (places, transitions) = (self.marks.len(), self.transitions.len());
        let when = |possible: bool, ends: fn() -> &'static [String]| match possible {
            true => Cow::Borrowed(ends()),
            false => Cow::Borrowed(&[] as &[String]),
        };
        let no_arc = self.arcs.is_empty();
        let alike = |head: String, ends: Cow<'static, [String]>| Alike { head, ends };
        [
            alike(
                place_head(places),
                when(transitions == 0 && no_arc, place_ends),
            ),
            alike(transition_head(transitions), when(no_arc, transition_ends)),
            alike(
                arc_head(self.arcs.len()),
                self.higher().iter().map(Arc::end).collect(),
            ),
            alike(TAIL.to_owned(), Cow::Owned(vec![String::new()])),
        ]
    }
}

fn place_ends() -> &'static [String] {
    static ENDS: OnceLock<Vec<String>> = OnceLock::new();
    ENDS.get_or_init(|| (0..=1).map(place_end).collect())
}

fn transition_ends() -> &'static [String] {
    static ENDS: OnceLock<Vec<String>> = OnceLock::new();
    ENDS.get_or_init(|| {
        let ends = (0..2 * 65_536).map(end_of_number);
        ends.map(|(action, optional)| transition_end(action, optional))
            .collect()
    })
}

/// The action and the mark of a transition's end with this number.
fn end_of_number(number: usize) -> (usize, bool) {
    (number / 2, number % 2 == 1)
}

/// Texts that begin alike.
struct Alike {
    head: String,
    ends: Cow<'static, [String]>,
}

/// The number of bytes that two texts begin with in common.
fn common(a: &[u8], b: &str) -> usize {
    a.iter()
        .zip(b.as_bytes())
        .take_while(|(a, b)| a == b)
        .count()
}

/// The most that one of the ends has in common with the beginning of `rest`, and
/// the number of that one.
fn most_common(ends: &[String], rest: &[u8]) -> Option<(usize, usize)> {
    let ends = ends.iter().enumerate();
    ends.map(|(number, end)| (common(rest, end), number)).max()
}

type Known = HashMap<Vec<u8>, Option<(usize, usize)>>;

thread_local! {
    /// What `most_common` gives for the transitions' ends, which are many.
    static KNOWN: RefCell<Known> = RefCell::default();
}

impl Alike {
    /// The same of the whole texts.
    fn most_common(&self, rest: &[u8]) -> Option<(usize, usize)> {
        if self.ends.is_empty() {
            return None;
        }
        let shared = common(rest, &self.head);
        let rest = match shared == self.head.len() {
            true => &rest[shared..],
            false => &[],
        };
        let (more, number) = match self.head.starts_with("<t") {
            true => KNOWN.with_borrow_mut(|known| {
                let rest = through_transition(rest);
                let entry = known.entry(rest.to_vec());
                *entry.or_insert_with(|| most_common(&self.ends, rest))
            }),
            false => most_common(&self.ends, rest),
        }?;
        Some((shared + more, number))
    }

    fn text(&self, number: usize) -> String {
        self.head.clone() + &self.ends[number]
    }
}

/// As much as the transitions' ends can have in common with: none of them has more
/// than 71 bytes or goes on after `</transition>`.
fn through_transition(rest: &[u8]) -> &[u8] {
    const END: &[u8] = b"</transition>";
    let rest = &rest[..rest.len().min(71)];
    let found = rest.windows(END.len()).position(|bytes| bytes == END);
    found.map_or(rest, |at| &rest[..at + END.len()])
}

/// The positions of the bytes that are left when the white space after each `>`
/// but that of `<text>` is left out.
pub fn kept(text: &[u8]) -> Vec<usize> {
    let mut kept: Vec<usize> = Vec::new();
    let mut may_skip = false;
    for (at, &byte) in text.iter().enumerate() {
        if may_skip && [b' ', b'\t', b'\r', b'\n'].contains(&byte) {
            continue;
        }
        may_skip = byte == b'>' && !text[..=at].ends_with(b"<text>");
        kept.push(at);
    }
    kept
}

/// Where a text stops, and what would make the bytes before that a text of the
/// shape.
#[derive(Clone, Debug, PartialEq, Eq)]
pub struct Stop {
    pub offset: usize,
    pub continuation: String,
}

/// The drawing whose text it is. Each step tries everything that can follow.
pub fn read(text: &[u8]) -> Result<Drawing, Stop> {
    let kept = kept(text);
    let bare: Vec<u8> = kept.iter().map(|&at| text[at]).collect();
    let stop = |at: usize, continuation: String| Stop {
        offset: kept.get(at).copied().unwrap_or(text.len()),
        continuation,
    };
    let shared = common(&bare, HEAD);
    if shared < HEAD.len() {
        return Err(stop(shared, HEAD[shared..].to_owned() + TAIL));
    }
    let mut drawing = Drawing::default();
    let mut done = HEAD.len();
    loop {
        let followers = drawing.followers();
        let most = |kind: usize| {
            let (shared, number) = followers[kind].most_common(&bare[done..])?;
            Some((shared, kind, number))
        };
        let (shared, kind, number) = (0..4).filter_map(most).max().expect("the tail can follow");
        let element = followers[kind].text(number);
        if shared < element.len() {
            let tail = if kind == 3 { "" } else { TAIL };
            return Err(stop(done + shared, element[shared..].to_owned() + tail));
        }
        done += shared;
        match kind {
            0 => drawing.marks.push(number == 1),
            1 => drawing.transitions.push(end_of_number(number)),
            2 => drawing.arcs.push(drawing.higher()[number]),
            _ => break,
        }
    }
    assert_eq!(drawing.text().as_bytes(), &bare[..done]);
    assert!(drawing.good());
    match done == bare.len() {
        true => Ok(drawing),
        false => Err(stop(done, String::new())),
    }
}

/// The reader's answer: places, marking and records, or the refusal.
pub fn answer(text: &[u8], room: usize) -> Result<(u32, u64, Vec<u8>), Refusal> {
    let drawing = match read(text) {
        Ok(drawing) => drawing,
        Err(stop) => return refused_at(13, stop.offset),
    };
    let (places, transitions) = (drawing.marks.len(), drawing.transitions.len());
    if places == 0 || places > 64 {
        return refused(1);
    }
    if transitions == 0 || transitions > 64 {
        return refused(2);
    }
    if room < 24 * transitions {
        return refused(12);
    }
    let marked = drawing.marks.iter().enumerate().filter(|(_, mark)| **mark);
    let marking = marked.map(|(place, _)| 1u64 << place).sum();
    Ok((places as u32, marking, drawing.records()))
}
