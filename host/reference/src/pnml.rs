//! Nets as PNML text: the writer, and the reader of texts of its shape.

use crate::bytes::{u16_at, u64_at};
use crate::net::{MARK, TRANSITION, is_optional, loaded, members};
use crate::{Refusal, refused, refused_at};

const OPENING: [&[u8]; 3] = [
    b"<pnml xmlns=\"http://www.pnml.org/version-2009/grammar/pnml\">",
    b"<net id=\"n\" type=\"http://www.pnml.org/version-2009/grammar/ptnet\">",
    b"<page id=\"g\">",
];
const CLOSING: [&[u8]; 3] = [b"</page>", b"</net>", b"</pnml>"];

/// Follows the name of an optional transition.
const OPTIONAL: &[u8] = b"<toolspecific tool=\"desk\" version=\"1\"/>";

/// The most places and transitions of a net.
const MOST: usize = 64;

/// The digits of a number in shortest decimal, at the end of the bytes.
fn decimal(mut number: usize, bytes: &mut [u8; 20]) -> &[u8] {
    let mut start = bytes.len();
    loop {
        start -= 1;
        bytes[start] = b'0' + (number % 10) as u8;
        number /= 10;
        if number == 0 {
            return &bytes[start..];
        }
    }
}

/// Where a text goes.
trait Out {
    fn put(&mut self, bytes: &[u8]);
    fn number(&mut self, number: usize);
}

/// The length of what is put.
struct Length(usize);

impl Out for Length {
    fn put(&mut self, bytes: &[u8]) {
        self.0 += bytes.len();
    }

    fn number(&mut self, number: usize) {
        self.0 += 1 + number.checked_ilog10().unwrap_or(0) as usize;
    }
}

/// Room that is long enough, and how much of it is written.
struct Room<'a> {
    bytes: &'a mut [u8],
    written: usize,
}

impl Out for Room<'_> {
    fn put(&mut self, bytes: &[u8]) {
        let end = self.written + bytes.len();
        self.bytes[self.written..end].copy_from_slice(bytes);
        self.written = end;
    }

    fn number(&mut self, number: usize) {
        self.put(decimal(number, &mut [0; 20]));
    }
}

fn draw(places: u32, marking: u64, transitions: &[[u8; TRANSITION]], out: &mut impl Out) {
    OPENING.iter().for_each(|tag| out.put(tag));
    for place in 0..places as usize {
        out.put(b"<place id=\"p");
        out.number(place);
        out.put(b"\"><initialMarking><text>");
        out.number((marking >> place & 1) as usize);
        out.put(b"</text></initialMarking></place>");
    }
    for (t, record) in transitions.iter().enumerate() {
        out.put(b"<transition id=\"t");
        out.number(t);
        out.put(b"\"><name><text>");
        out.number(usize::from(u16_at(record, 16)));
        out.put(b"</text></name>");
        if is_optional(record) {
            out.put(OPTIONAL);
        }
        out.put(b"</transition>");
    }
    draw_arcs(transitions, out);
    CLOSING.iter().for_each(|tag| out.put(tag));
}

fn draw_arcs(transitions: &[[u8; TRANSITION]], out: &mut impl Out) {
    let mut arc = 0;
    let mut put = |source: &[u8], from: usize, target: &[u8], to: usize| {
        out.put(b"<arc id=\"a");
        out.number(arc);
        out.put(source);
        out.number(from);
        out.put(target);
        out.number(to);
        out.put(b"\"/>");
        arc += 1;
    };
    for (t, record) in transitions.iter().enumerate() {
        let (pre, post) = (u64_at(record, 0), u64_at(record, 8));
        members(pre).for_each(|p| put(b"\" source=\"p", p, b"\" target=\"t", t));
        members(post).for_each(|p| put(b"\" source=\"t", t, b"\" target=\"p", p));
    }
}

/// Writes a net with its marking to the start of the room and gives the length,
/// or refusal 1, 2, 3, 7 or 12, with which nothing is written.
pub fn write(places: u32, marking: u64, table: &[u8], room: &mut [u8]) -> Result<usize, Refusal> {
    let transitions = loaded(places, marking, table)?;
    let mut length = Length(0);
    draw(places, marking, transitions, &mut length);
    if room.len() < length.0 {
        return refused(12);
    }
    let mut room = Room {
        bytes: room,
        written: 0,
    };
    draw(places, marking, transitions, &mut room);
    Ok(room.written)
}

/// What a text shows. Places and transitions from 64 on are only counted.
struct Drawn {
    places: usize,
    marking: u64,
    transitions: usize,
    pre: [u64; MOST],
    post: [u64; MOST],
    action: [u16; MOST],
    optional: [bool; MOST],
}

/// An arc from a place to a transition, or with `post` back.
#[derive(Clone, Copy)]
struct Arc {
    transition: usize,
    post: bool,
    place: usize,
}

impl Drawn {
    fn add_place(&mut self, mark: usize) {
        if self.places < MOST {
            self.marking |= (mark as u64) << self.places;
        }
        self.places += 1;
    }

    fn add_transition(&mut self, action: usize, optional: bool) {
        if self.transitions < MOST {
            self.action[self.transitions] = action as u16;
            self.optional[self.transitions] = optional;
        }
        self.transitions += 1;
    }

    fn add_arc(&mut self, arc: Arc) {
        let sets = match arc.post {
            false => &mut self.pre,
            true => &mut self.post,
        };
        if arc.place < MOST && arc.transition < MOST {
            sets[arc.transition] |= 1 << arc.place;
        }
    }

    /// The first arc there can be.
    fn first(&self) -> Option<Arc> {
        (self.places > 0 && self.transitions > 0).then_some(Arc {
            transition: 0,
            post: false,
            place: 0,
        })
    }

    /// The next higher arc.
    fn above(&self, arc: Arc) -> Option<Arc> {
        let mut next = arc;
        next.place += 1;
        if next.place == self.places {
            next.place = 0;
            next.post = !arc.post;
            next.transition += usize::from(arc.post);
        }
        (next.transition < self.transitions).then_some(next)
    }
}

/// Whether some number from `low` to `top` begins with the digits of `number`.
fn begins(number: usize, low: usize, top: usize) -> bool {
    // The lowest and the highest of the numbers with so many digits more.
    let (mut first, mut last) = (number, number);
    while first <= top {
        if low <= last {
            return true;
        }
        if number == 0 {
            return false;
        }
        first *= 10;
        last = 10 * last + 9;
    }
    false
}

/// The scan stands at the first byte after which no text of the shape can follow,
/// or at the end.
struct Stopped;

type Scanned<T> = Result<T, Stopped>;

struct Scan<'a> {
    text: &'a [u8],
    at: usize,
}

impl Scan<'_> {
    fn rest(&self) -> &[u8] {
        &self.text[self.at..]
    }

    fn next(&self) -> Option<u8> {
        self.text.get(self.at).copied()
    }

    fn bytes(&mut self, bytes: &[u8]) -> Scanned<()> {
        if self.rest().starts_with(bytes) {
            self.at += bytes.len();
            return Ok(());
        }
        let pairs = self.rest().iter().zip(bytes);
        self.at += pairs.take_while(|(a, b)| a == b).count();
        Err(Stopped)
    }

    /// Bytes that end a tag, then white space.
    fn tag(&mut self, bytes: &[u8]) -> Scanned<()> {
        self.bytes(bytes)?;
        while let Some(b' ' | b'\t' | b'\r' | b'\n') = self.next() {
            self.at += 1;
        }
        Ok(())
    }

    /// A number from `low` to `top` in shortest decimal.
    fn number(&mut self, low: usize, top: usize) -> Scanned<usize> {
        let mut number = None;
        while let Some(byte @ b'0'..=b'9') = self.next() {
            let digit = usize::from(byte - b'0');
            let longer = match number {
                None => digit,
                Some(0) => break,
                Some(shorter) => 10 * shorter + digit,
            };
            if !begins(longer, low, top) {
                break;
            }
            number = Some(longer);
            self.at += 1;
        }
        number.filter(|n| (low..=top).contains(n)).ok_or(Stopped)
    }

    /// The number of a place, transition or arc of which so many came before.
    fn count(&mut self, before: usize) -> Scanned<()> {
        self.bytes(decimal(before, &mut [0; 20]))
    }

    /// A number between `<text>` and `</text>`.
    fn text(&mut self, top: usize) -> Scanned<usize> {
        self.bytes(b"<text>")?;
        let number = self.number(0, top)?;
        self.tag(b"</text>")?;
        Ok(number)
    }

    /// A place: its mark.
    fn place(&mut self, before: usize) -> Scanned<usize> {
        self.bytes(b"<place id=\"p")?;
        self.count(before)?;
        self.tag(b"\">")?;
        self.tag(b"<initialMarking>")?;
        let mark = self.text(1)?;
        self.tag(b"</initialMarking>")?;
        self.tag(b"</place>")?;
        Ok(mark)
    }

    /// A transition: its action, and whether it is optional.
    fn transition(&mut self, before: usize) -> Scanned<(usize, bool)> {
        self.bytes(b"<transition id=\"t")?;
        self.count(before)?;
        self.tag(b"\">")?;
        self.tag(b"<name>")?;
        let action = self.text(usize::from(u16::MAX))?;
        self.tag(b"</name>")?;
        let optional = self.rest().starts_with(&OPTIONAL[..2]);
        if optional {
            self.tag(OPTIONAL)?;
        }
        self.tag(b"</transition>")?;
        Ok((action, optional))
    }

    /// An arc not below `least`.
    fn arc(&mut self, before: usize, drawn: &Drawn, least: Arc) -> Scanned<Arc> {
        self.bytes(b"<arc id=\"a")?;
        self.count(before)?;
        self.bytes(b"\" source=\"")?;
        let arc = match self.next() {
            Some(b't') => self.post_arc(drawn, least)?,
            _ => self.pre_arc(drawn, least)?,
        };
        self.tag(b"\"/>")?;
        Ok(arc)
    }

    fn pre_arc(&mut self, drawn: &Drawn, least: Arc) -> Scanned<Arc> {
        let last = least.transition + 1 == drawn.transitions;
        if last && least.post {
            return Err(Stopped);
        }
        self.bytes(b"p")?;
        let place = self.number(if last { least.place } else { 0 }, drawn.places - 1)?;
        self.bytes(b"\" target=\"t")?;
        let here = !least.post && least.place <= place;
        let low = least.transition + usize::from(!here);
        let transition = self.number(low, drawn.transitions - 1)?;
        Ok(Arc {
            transition,
            post: false,
            place,
        })
    }

    fn post_arc(&mut self, drawn: &Drawn, least: Arc) -> Scanned<Arc> {
        self.bytes(b"t")?;
        let transition = self.number(least.transition, drawn.transitions - 1)?;
        self.bytes(b"\" target=\"p")?;
        let here = least.post && least.transition == transition;
        let place = self.number(if here { least.place } else { 0 }, drawn.places - 1)?;
        Ok(Arc {
            transition,
            post: true,
            place,
        })
    }

    fn whole(&mut self) -> Scanned<Drawn> {
        let mut drawn = Drawn {
            places: 0,
            marking: 0,
            transitions: 0,
            pre: [0; MOST],
            post: [0; MOST],
            action: [0; MOST],
            optional: [false; MOST],
        };
        OPENING.iter().try_for_each(|tag| self.tag(tag))?;
        while self.rest().starts_with(b"<p") {
            let mark = self.place(drawn.places)?;
            drawn.add_place(mark);
        }
        while self.rest().starts_with(b"<t") {
            let (action, optional) = self.transition(drawn.transitions)?;
            drawn.add_transition(action, optional);
        }
        self.arcs(&mut drawn)?;
        CLOSING.iter().try_for_each(|tag| self.tag(tag))?;
        match self.rest() {
            [] => Ok(drawn),
            _ => Err(Stopped),
        }
    }

    fn arcs(&mut self, drawn: &mut Drawn) -> Scanned<()> {
        let mut least = drawn.first();
        let mut count = 0;
        while self.rest().starts_with(b"<a") {
            // Where none can follow, `</page>` stops at the `a`.
            let Some(possible) = least else { break };
            let arc = self.arc(count, drawn, possible)?;
            drawn.add_arc(arc);
            least = drawn.above(arc);
            count += 1;
        }
        Ok(())
    }
}

/// What the reader gives beside the records that it writes.
#[derive(Clone, Copy, Debug, Default, PartialEq, Eq)]
pub struct Read {
    pub places: u32,
    pub marking: u64,
    /// The bytes of the records.
    pub length: usize,
}

/// Reads a text and writes the records to the start of the room, or refusal 13
/// (with the offset), 1, 2 or 12, with which nothing is written.
pub fn read(text: &[u8], room: &mut [u8]) -> Result<Read, Refusal> {
    let mut scan = Scan { text, at: 0 };
    let Ok(drawn) = scan.whole() else {
        return refused_at(13, scan.at);
    };
    if !(1..=MOST).contains(&drawn.places) {
        return refused(1);
    }
    if !(1..=MOST).contains(&drawn.transitions) {
        return refused(2);
    }
    let length = drawn.transitions * TRANSITION;
    let Some(table) = room.get_mut(..length) else {
        return refused(12);
    };
    for (t, record) in table.chunks_exact_mut(TRANSITION).enumerate() {
        record[0..8].copy_from_slice(&drawn.pre[t].to_le_bytes());
        record[8..16].copy_from_slice(&drawn.post[t].to_le_bytes());
        record[16..18].copy_from_slice(&drawn.action[t].to_le_bytes());
        record[MARK] = drawn.optional[t].into();
        record[MARK + 1..].fill(0);
    }
    Ok(Read {
        places: drawn.places as u32,
        marking: drawn.marking,
        length,
    })
}
