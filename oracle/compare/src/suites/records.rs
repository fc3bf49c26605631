//! The functions for C of the seven records: kinds 16 to 22 ask `threadwicket_NAME_decode`, kinds 24 to 30 `threadwicket_NAME_encode`.
//! The body is the length of the output, `room` (u8), then the input, of any length: a record's bytes to decode, or its fields to encode,
//! as the struct for C has them, u64 numbers side by side, and of a configuration then the sixteen bytes of the address. The output holds
//! a5 throughout before the call. The answer is the function's number (u16), then all of the output. What is expected is what the
//! original gives behind a function of the same shape (`oracle/original`).
//!
//! The records by number: 0 current, 1 mutation, 2 key, 3 entry, 4 cookie value, 5 configuration, 6 inspection.

use super::{lent, sound, Amount, Sink, Suite};
use crate::rng::Rng;
use opc_egress_fence_common::*;
use original::*;

/// The kinds that decode and encode record 0; those of the others follow.
const DECODE: u8 = 16;
const ENCODE: u8 = 24;

/// A function of `oracle/original`: an input with its length, an output with its length.
type Function = unsafe extern "C" fn(*const u8, usize, *mut u8, usize) -> u32;

/// Where a field stands: its offset and its width.
type Place = (usize, usize);

/// One direction of a record: from its bytes to its fields, or back.
struct Direction {
    kind: u8,
    function: Function,
    /// The length that an input has, and where its fields stand.
    input: usize,
    places: &'static [Place],
    /// The room that the output needs.
    output: u8,
    /// Makes an input that is a record.
    sound: fn(&mut Rng) -> Vec<u8>,
    /// The outcomes: done, an input of another length, one that is no record, an output without room.
    outcomes: [&'static str; 4],
}

/// Both directions of a record: its number and name, its two functions, what makes a sound one, and of its bytes and of its fields the
/// length and the places.
macro_rules! record {
    ($number:literal $name:literal, $decode:ident, $encode:ident, $sound:path,
     bytes $bytes:literal at $places:expr, fields $fields:literal at $numbers:expr) => {
        [
            Direction {
                kind: DECODE + $number,
                function: $decode,
                input: $bytes,
                places: $places,
                output: $fields,
                sound: |rng| $sound(rng).encode().to_vec(),
                outcomes: [
                    concat!($name, " decoded"),
                    concat!($name, " of another length"),
                    concat!($name, " refused"),
                    concat!($name, " without room for its fields"),
                ],
            },
            Direction {
                kind: ENCODE + $number,
                function: $encode,
                input: $fields,
                places: $numbers,
                output: $bytes,
                sound: |rng| fields_of($decode, &$sound(rng).encode(), $fields),
                outcomes: [
                    concat!($name, " encoded"),
                    concat!($name, "'s fields of another length"),
                    concat!($name, " unsound"),
                    concat!($name, " without room for its bytes"),
                ],
            },
        ]
    };
}

/// The records by number, each to decode and to encode.
static RECORDS: [[Direction; 2]; 7] = [
    record! {
        0 "current", original_current_decode, original_current_encode, sound::current,
        bytes 24 at &[(0, 4), (4, 4), (8, 8), (16, 8)],
        fields 24 at &numbers::<3>()
    },
    record! {
        1 "mutation", original_mutation_decode, original_mutation_encode, sound::mutation,
        bytes 16 at &[(0, 8), (8, 8)],
        fields 16 at &numbers::<2>()
    },
    record! {
        2 "key", original_key_decode, original_key_encode, sound::key,
        bytes 16 at &[(0, 8), (8, 8)],
        fields 16 at &numbers::<2>()
    },
    record! {
        3 "entry", original_entry_decode, original_entry_encode, sound::entry,
        bytes 32 at &[(0, 4), (4, 4), (8, 8), (16, 8), (24, 8)],
        fields 32 at &numbers::<4>()
    },
    record! {
        4 "cookie value", original_cookie_value_decode, original_cookie_value_encode, sound::cookie_value,
        bytes 40 at &[(0, 4), (4, 4), (8, 8), (16, 8), (24, 8), (32, 8)],
        fields 40 at &numbers::<5>()
    },
    record! {
        5 "configuration", original_config_decode, original_config_encode, sound::config,
        bytes 40 at &[(0, 4), (4, 2), (6, 1), (7, 1), (8, 2), (10, 2), (12, 4), (16, 8), (24, 4), (28, 4), (32, 8)],
        fields 48 at &[(0, 8), (8, 8), (16, 8), (24, 8), (32, 4), (36, 4), (40, 8)]
    },
    record! {
        6 "inspection", original_inspection_decode, original_inspection_encode, sound::inspection,
        bytes 128 at &[(0, 4), (4, 2), (6, 1), (7, 1), (12, 4), (16, 8), (24, 8), (32, 8), (40, 8), (52, 4), (56, 8), (64, 8), (72, 8),
            (80, 8), (120, 8)],
        fields 88 at &numbers::<11>()
    },
];

/// Every outcome of every direction.
const OUTCOMES: [&str; 56] = {
    let mut all = [""; 56];
    let mut at = 0;
    while at < all.len() {
        all[at] = RECORDS[at / 8][at / 4 % 2].outcomes[at % 4];
        at += 1;
    }
    all
};

pub const SUITE: Suite = Suite {
    name: "records",
    what: "the functions for C of the seven records, decode and encode, inputs and outputs of every length",
    outcomes: &OUTCOMES,
    run,
};

/// The places of `N` numbers side by side, as in a struct for C.
const fn numbers<const N: usize>() -> [Place; N] {
    let mut places = [(0, 8); N];
    let mut at = 0;
    while at < N {
        places[at].0 = 8 * at;
        at += 1;
    }
    places
}

/// The number that a function gives on an input and an output.
fn call(function: Function, input: &[u8], output: &mut [u8]) -> u32 {
    // SAFETY: each pointer is a slice's, handed over with its length, and `output` is borrowed alone, so it overlaps nothing.
    unsafe { function(input.as_ptr(), input.len(), output.as_mut_ptr(), output.len()) }
}

/// The fields of a sound record, `len` bytes of them, by the original's decoder.
fn fields_of(decode: Function, bytes: &[u8], len: usize) -> Vec<u8> {
    let mut fields = vec![0; len];
    assert_eq!(call(decode, bytes, &mut fields), 0, "a sound record decodes");
    fields
}

/// Asks for one direction of a record, on an input and an output of `room` bytes.
fn ask(sink: &mut dyn Sink, direction: &Direction, input: &[u8], room: u8) {
    let (number, answer) = lent::answer(room, |output| call(direction.function, input, output));
    let outcome = match number {
        0 => 0,
        1 => 1,
        2 | 3 => 2,
        _ => 3,
    };
    let body = [&[room], input].concat();
    sink.push(direction.kind, &body, &answer, direction.outcomes[outcome]);
}

/// Values for a field: edges, control words and neighbours of them, and numbers that are sound but for a bit past a narrower place.
fn field_values(width: usize) -> Vec<u64> {
    const CONTROLS: [u32; 8] = [
        COOKIE_CONTROL_INITIAL_CLOSED,
        COOKIE_CONTROL_ACTIVE,
        COOKIE_CONTROL_TERMINAL_CLOSED,
        COOKIE_CONTROL_RECLAIMING,
        CURRENT_LIFECYCLE_OPEN_CONTROL,
        CURRENT_RETIREMENT_CLOSED_CONTROL,
        0x4f45_0100,
        0x4f45_0200,
    ];
    let mut values = vec![0, 1, 2, 3, 4, 5, 6, 255, 4095, 4096, 4097, 0xffff, 0xffff_fffe, 0xffff_ffff];
    values.extend([1 << 63, u64::MAX - 1, u64::MAX]);
    values.extend(CONTROLS.map(u64::from));
    values.extend([256, 256 + 4, 256 + 6, 1 << 16, (1 << 16) + 1, 1 << 32, (1 << 32) + 4096]);
    values.extend([COOKIE_CONTROL_ACTIVE, CURRENT_LIFECYCLE_OPEN_CONTROL].map(|control| 1 << 32 | u64::from(control)));
    let mask = u64::MAX >> (64 - 8 * width);
    values.iter_mut().for_each(|value| *value &= mask);
    values.sort_unstable();
    values.dedup();
    values
}

/// Puts a value in a place, as much of it as the place holds.
fn set(input: &mut [u8], (offset, width): Place, value: u64) {
    input[offset..offset + width].copy_from_slice(&value.to_le_bytes()[..width]);
}

fn run(sink: &mut dyn Sink, amount: Amount) {
    let mut rng = Rng::new(16);
    for direction in RECORDS.iter().flatten() {
        for _ in 0..if amount == Amount::Full { 8 } else { 2 } {
            let base = (direction.sound)(&mut rng);
            lengths(sink, direction, &base);
            every_byte(sink, direction, &base);
            every_field(sink, direction, &base);
        }
        // at least one of the two is unsound, whatever the record
        for byte in [0, 0xff] {
            lengths(sink, direction, &vec![byte; direction.input]);
        }
        for _ in 0..amount.random(75_000) {
            random(sink, &mut rng, direction);
        }
    }
}

/// Inputs of every length from 0 to one past their own; and outputs of every length from 0 to one past the room that is needed, on the
/// input and on one of another length.
fn lengths(sink: &mut dyn Sink, direction: &Direction, base: &[u8]) {
    for length in 0..=base.len() + 1 {
        let mut input = base.to_vec();
        input.resize(length, 0);
        ask(sink, direction, &input, direction.output);
    }
    for room in 0..=direction.output + 1 {
        ask(sink, direction, base, room);
        ask(sink, direction, &base[1..], room);
    }
}

/// Every byte at every value.
fn every_byte(sink: &mut dyn Sink, direction: &Direction, base: &[u8]) {
    let mut altered = base.to_vec();
    for place in 0..base.len() {
        for value in 0..=255 {
            altered[place] = value;
            ask(sink, direction, &altered, direction.output);
        }
        altered[place] = base[place];
    }
}

/// Every field at each of its values, and every two fields at each pair of theirs.
fn every_field(sink: &mut dyn Sink, direction: &Direction, base: &[u8]) {
    for (index, &first) in direction.places.iter().enumerate() {
        for value in field_values(first.1) {
            let mut altered = base.to_vec();
            set(&mut altered, first, value);
            ask(sink, direction, &altered, direction.output);
            for &second in &direction.places[..index] {
                let mut both = altered.clone();
                for other in field_values(second.1) {
                    set(&mut both, second, other);
                    ask(sink, direction, &both, direction.output);
                }
            }
        }
    }
}

/// A sound input, or one with a bit or a field altered, or cut, or noise; and an output of the room that is needed, or near it.
fn random(sink: &mut dyn Sink, rng: &mut Rng, direction: &Direction) {
    let mut input = (direction.sound)(rng);
    match rng.below(5) {
        0 => {
            let place = rng.below(input.len());
            input[place] ^= 1 << rng.below(8);
        }
        1 => {
            let place = rng.pick(direction.places);
            let values = field_values(place.1);
            set(&mut input, place, rng.pick(&values));
        }
        2 if rng.one_in(8) => input.iter_mut().for_each(|byte| *byte = rng.byte()),
        2 if rng.one_in(8) => input.truncate(rng.below(input.len())),
        _ => {}
    }
    let near = rng.below(2 * usize::from(direction.output)) as u8;
    ask(sink, direction, &input, rng.pick(&[direction.output, near]));
}
