//! The records and the deadline check: the proved functions for C and the original behind the same shape.

use crate::Case;
use original::*;
use std::hint::black_box;

/// A decoder or an encoder: what is read with its length, then what is written.
type Codec = unsafe extern "C" fn(*const u8, usize, *mut u8, usize) -> u32;

macro_rules! proved {
    ($($name:ident)*) => {
        extern "C" {
            $(fn $name(from: *const u8, from_len: usize, to: *mut u8, to_len: usize) -> u32;)*
        }
    };
}

proved! {
    threadwicket_current_decode threadwicket_current_encode
    threadwicket_mutation_decode threadwicket_mutation_encode
    threadwicket_key_decode threadwicket_key_encode
    threadwicket_entry_decode threadwicket_entry_encode
    threadwicket_cookie_value_decode threadwicket_cookie_value_encode
    threadwicket_config_decode threadwicket_config_encode
    threadwicket_inspection_decode threadwicket_inspection_encode
}

extern "C" {
    fn threadwicket_refresh(observed: u64, prior: u64, requested: u64) -> u32;
}

/// One side of a case: a call from `from` to room of `room` bytes. What was written is a part of the answer where that is asked for.
fn side(codec: Codec, from: &'static [u8], room: usize) -> Box<dyn Fn() -> u32> {
    let to: &'static mut [u8] = vec![0; room].leak();
    let to = to.as_mut_ptr();
    Box::new(move || unsafe { black_box(codec)(from.as_ptr(), from.len(), to, room) })
}

fn written(codec: Codec, from: &[u8], room: usize) -> (u32, Vec<u8>) {
    let mut to = vec![0xff; room];
    let number = unsafe { codec(from.as_ptr(), from.len(), to.as_mut_ptr(), room) };
    (number, to)
}

/// Both directions of a record, on fields that encode; the bytes of both sides are the same, and the fields back.
fn record(names: [&'static str; 2], fields: &[u64], len: usize, proved: [Codec; 2], rust: [Codec; 2]) -> [Case; 2] {
    let fields: Vec<u8> = fields.iter().flat_map(|number| number.to_le_bytes()).collect();
    let (number, bytes) = written(rust[1], &fields, len);
    assert_eq!(number, 0, "{}: the original does not encode the fields", names[1]);
    assert_eq!(written(proved[1], &fields, len), (0, bytes.clone()), "{}", names[1]);
    assert_eq!(written(proved[0], &bytes, fields.len()), (0, fields.clone()), "{}", names[0]);
    assert_eq!(written(rust[0], &bytes, fields.len()), (0, fields.clone()), "{}", names[0]);
    let (fields, bytes): (&'static [u8], &'static [u8]) = (fields.leak(), bytes.leak());
    let case = |way: usize, from: &'static [u8], room: usize| Case {
        name: names[way],
        calls: 100_000,
        proved: side(proved[way], from, room),
        rust: side(rust[way], from, room),
    };
    [case(0, bytes, fields.len()), case(1, fields, bytes.len())]
}

macro_rules! both {
    ($decode:ident $encode:ident, $rust_decode:ident $rust_encode:ident, $name:literal, $len:literal, $fields:expr) => {
        record(
            [concat!($name, ": decode"), concat!($name, ": encode")],
            &$fields,
            $len,
            [$decode, $encode],
            [$rust_decode, $rust_encode],
        )
    };
}

const CURRENT: [u64; 3] = [0x4f45_0201, 7, 9];
const MUTATION: [u64; 2] = [5, 6];
const VALUE: [u64; 5] = [0x4f45_0102, 9, 7, 100, 3];

fn refresh() -> Case {
    let side = |refresh: unsafe extern "C" fn(u64, u64, u64) -> u32| -> Box<dyn Fn() -> u32> {
        Box::new(move || unsafe { black_box(refresh)(1_000, 2_000, 3_000) })
    };
    Case {
        name: "refresh: applied",
        calls: 100_000,
        proved: side(threadwicket_refresh),
        rust: side(original_refresh),
    }
}

pub fn cases() -> Vec<Case> {
    let four = u64::from_le_bytes([192, 0, 2, 10, 0, 0, 0, 0]);
    let (first, second) = (u64::from_le_bytes([0x20, 1, 0x0d, 0xb8, 0, 0, 0, 0]), 10 << 56);
    let present: Vec<u64> = [1].into_iter().chain(CURRENT).chain(MUTATION).chain(VALUE).collect();
    let absent: Vec<u64> = [0].into_iter().chain(CURRENT).chain(MUTATION).chain([0; 5]).collect();
    let mut cases = vec![refresh()];
    cases.extend(both!(threadwicket_current_decode threadwicket_current_encode, original_current_decode original_current_encode, "current", 24, CURRENT));
    cases.extend(both!(threadwicket_mutation_decode threadwicket_mutation_encode, original_mutation_decode original_mutation_encode, "mutation", 16, MUTATION));
    cases
        .extend(both!(threadwicket_key_decode threadwicket_key_encode, original_key_decode original_key_encode, "key", 16, [9, 7]));
    cases.extend(both!(threadwicket_entry_decode threadwicket_entry_encode, original_entry_decode original_entry_encode, "entry", 32, [0x4f45_0102, 7, 100, 3]));
    cases.extend(both!(threadwicket_cookie_value_decode threadwicket_cookie_value_encode, original_cookie_value_decode original_cookie_value_encode, "cookie value", 40, VALUE));
    cases.extend(both!(threadwicket_config_decode threadwicket_config_encode, original_config_decode original_config_encode, "configuration, IPv4", 40, [4, 4500, 4096, 7, four, 0]));
    cases.extend(both!(threadwicket_config_decode threadwicket_config_encode, original_config_decode original_config_encode, "configuration, IPv6", 40, [6, 4500, 4096, 7, first, second]));
    cases.extend(both!(threadwicket_inspection_decode threadwicket_inspection_encode, original_inspection_decode original_inspection_encode, "inspection, an entry", 128, present));
    cases.extend(both!(threadwicket_inspection_decode threadwicket_inspection_encode, original_inspection_decode original_inspection_encode, "inspection, no entry", 128, absent));
    cases
}
