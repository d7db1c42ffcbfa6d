//! Two nets with their markings side by side, as one net (F-8).

use crate::bytes::u64_at;
use crate::net::{TRANSITION, loaded};
use crate::{Refusal, refused};

/// One of the two nets, with its marking.
#[derive(Clone, Copy, Debug)]
pub struct Half<'a> {
    pub places: u32,
    pub marking: u64,
    pub net: &'a [u8],
}

impl<'a> Half<'a> {
    /// The transition records, or refusal 1, 2, 3 or 7.
    pub fn transitions(&self) -> Result<&'a [[u8; TRANSITION]], Refusal> {
        loaded(self.places, self.marking, self.net)
    }
}

/// The joint net, whose records stand in the room.
#[derive(Clone, Copy, Debug, Default, PartialEq, Eq)]
pub struct Joined {
    pub places: u32,
    pub marking: u64,
    /// The bytes of the records.
    pub length: usize,
}

/// Moves a set of a record up by so many places.
fn move_up(set: &mut [u8], before: u64, places: u32) {
    set.copy_from_slice(&(before << places).to_le_bytes());
}

/// Writes the records of the joint net to the start of the room, those of the first half
/// and then those of the second, or refusal 1, 2, 3, 7, 15 or 12, with which nothing is
/// written. A refusal of the first half comes before one of the second.
pub fn join(first: Half, second: Half, room: &mut [u8]) -> Result<Joined, Refusal> {
    let low = first.transitions()?;
    let high = second.transitions()?;
    let (places, count) = (first.places + second.places, low.len() + high.len());
    if places > 64 || count > 64 {
        return refused(15);
    }
    let length = count * TRANSITION;
    let Some(table) = room.get_mut(..length) else {
        return refused(12);
    };
    let (start, rest) = table.split_at_mut(first.net.len());
    start.copy_from_slice(first.net);
    rest.copy_from_slice(second.net);
    for (record, before) in rest.chunks_exact_mut(TRANSITION).zip(high) {
        move_up(&mut record[..8], u64_at(before, 0), first.places);
        move_up(&mut record[8..16], u64_at(before, 8), first.places);
    }
    Ok(Joined {
        places,
        marking: first.marking | second.marking << first.places,
        length,
    })
}
