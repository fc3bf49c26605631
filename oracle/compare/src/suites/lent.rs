//! What a function for C writes, it writes to memory that is lent to it. The body of a query of one begins with the length of that
//! memory, `room` (u8); all of it holds a5 before the call. The answer is the function's number (u16), then all of the memory.

use crate::rng::Rng;

/// What the memory holds throughout before the call.
const FILL: u8 = 0xa5;

/// The room that a reading takes: the count of extension headers passed, a u64.
pub const READING: u8 = 8;

/// The number that the classifier and the gate answer where the reading is too short.
const NO_ROOM: u32 = 256;

/// The outcome of a query of the classifier or the gate where the reading is too short.
pub const NO_READING: &str = "no room for the reading";

/// Calls a function with `room` bytes lent to it: its number, and the answer to the query.
pub fn answer(room: u8, call: impl FnOnce(&mut [u8]) -> u32) -> (u32, Vec<u8>) {
    let mut lent = vec![FILL; room.into()];
    let number = call(&mut lent);
    let short = u16::try_from(number).expect("no function has a number past 256");
    (number, [short.to_le_bytes().as_slice(), &lent].concat())
}

/// The answer of the classifier or the gate, from its number and the headers passed, and the outcome, which is the given one where there
/// is room for the reading.
pub fn reading(room: u8, number: u8, headers: u8, outcome: &'static str) -> (Vec<u8>, &'static str) {
    let (number, answer) = answer(room, |lent| match lent.first_chunk_mut() {
        Some(count) => {
            *count = u64::from(headers).to_le_bytes();
            number.into()
        }
        None => NO_ROOM,
    });
    (answer, if number == NO_ROOM { NO_READING } else { outcome })
}

/// Every room up to that of two readings.
pub fn rooms() -> impl Iterator<Item = u8> {
    0..=2 * READING
}

/// Most often just the room that a reading takes, now and then another.
pub fn some_room(rng: &mut Rng) -> u8 {
    let any = rng.byte();
    if rng.one_in(25) {
        rng.pick(&[any, any % (2 * READING + 1)])
    } else {
        READING
    }
}
