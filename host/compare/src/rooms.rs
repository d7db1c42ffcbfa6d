//! Calls that are lent rooms.

use crate::lines::hex;

/// The bytes after a room that are looked at too.
const BEYOND: usize = 32;

/// What a room is filled with before a call: bytes that differ, none of them 0.
fn filled(length: usize) -> Vec<u8> {
    let byte = |at: usize| (at.wrapping_mul(0x9E37_79B9) >> 16) as u8 | 1;
    (0..length).map(byte).collect()
}

/// A room after a call, and the length that the call gives for what it has written there.
#[derive(PartialEq)]
struct Room {
    length: u64,
    bytes: Vec<u8>,
}

impl Room {
    /// What stands at the start.
    fn written(&self) -> &[u8] {
        &self.bytes[..self.length.min(self.bytes.len() as u64) as usize]
    }
}

impl std::fmt::Display for Room {
    fn fmt(&self, out: &mut std::fmt::Formatter) -> std::fmt::Result {
        let written = self.written();
        let rest = &self.bytes[written.len()..];
        write!(out, "{}", hex(written))?;
        let stays = *rest == filled(self.bytes.len())[written.len()..];
        match self.length > written.len() as u64 || !stays {
            true => write!(out, " (length {}, rest {})", self.length, hex(rest)),
            false => Ok(()),
        }
    }
}

/// The numbers that a call gives, and the rooms after it.
#[derive(PartialEq)]
pub struct Answer {
    pub numbers: Vec<u64>,
    rooms: Vec<Room>,
}

impl Answer {
    pub fn number(&self) -> u32 {
        self.numbers[0] as u32
    }

    /// What stands at the start of the first room.
    pub fn written(&self) -> &[u8] {
        self.written_in(0)
    }

    /// What stands at the start of a room.
    pub fn written_in(&self, room: usize) -> &[u8] {
        self.rooms[room].written()
    }
}

/// The answer in the form of the vectors.
impl std::fmt::Display for Answer {
    fn fmt(&self, out: &mut std::fmt::Formatter) -> std::fmt::Result {
        let numbers = self.numbers.iter().map(u64::to_string);
        let rooms = self.rooms.iter().map(Room::to_string);
        let parts: Vec<String> = numbers.chain(rooms).collect();
        write!(out, "{}", parts.join(" "))
    }
}

/// The answer of a call that is lent one room, and gives its numbers and the length.
pub fn answer(room: usize, call: impl FnOnce(&mut [u8]) -> (Vec<u64>, u64)) -> Answer {
    answer_in([room], |[room]| {
        let (numbers, length) = call(room);
        (numbers, [length])
    })
}

/// The answer of a call that is lent several rooms.
pub fn answer_in<const N: usize>(
    rooms: [usize; N],
    call: impl FnOnce([&mut [u8]; N]) -> (Vec<u64>, [u64; N]),
) -> Answer {
    let mut bytes = rooms.map(|length| filled(length + BEYOND));
    let lent = bytes.each_mut().map(|bytes| {
        let length = bytes.len() - BEYOND;
        &mut bytes[..length]
    });
    let (numbers, lengths) = call(lent);
    let rooms = lengths.into_iter().zip(bytes);
    Answer {
        numbers,
        rooms: rooms
            .map(|(length, bytes)| Room { length, bytes })
            .collect(),
    }
}
