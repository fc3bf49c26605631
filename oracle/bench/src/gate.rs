//! The joined gate: the proved one and the plain one of `oracle/plain`, on tables of 4,096 records and on an empty one.

use crate::classify::{A, IPV4};
use crate::Case;
use opc_egress_fence_common::*;
use plain::{gate, Call, Socket};
use std::hint::black_box;
use std::slice::{from_raw_parts, from_raw_parts_mut};

type Gate = unsafe extern "C" fn(
    config: *const u8,
    config_len: usize,
    attachment: u64,
    family: u8,
    address: *const [u8; 16],
    port: u16,
    packet: *const u8,
    packet_len: usize,
    cookie: u64,
    current: *const u8,
    current_len: usize,
    table: *const u8,
    table_len: usize,
    now: u64,
    reading: *mut u8,
    reading_len: usize,
) -> u32;

extern "C" {
    #[allow(clippy::too_many_arguments)]
    fn threadwicket_gate_raw(
        config: *const u8,
        config_len: usize,
        attachment: u64,
        family: u8,
        address: *const [u8; 16],
        port: u16,
        packet: *const u8,
        packet_len: usize,
        cookie: u64,
        current: *const u8,
        current_len: usize,
        table: *const u8,
        table_len: usize,
        now: u64,
        reading: *mut u8,
        reading_len: usize,
    ) -> u32;
}

/// The plain gate behind the same shape: the verdict's slot, or 255 where it has none; 256 without room for the reading. It counts no headers.
///
/// # Safety
/// Each pointer is valid for its length, and the address's for sixteen bytes.
#[allow(clippy::too_many_arguments)]
#[inline(never)]
unsafe extern "C" fn plain_gate(
    config: *const u8,
    config_len: usize,
    attachment: u64,
    family: u8,
    address: *const [u8; 16],
    port: u16,
    packet: *const u8,
    packet_len: usize,
    cookie: u64,
    current: *const u8,
    current_len: usize,
    table: *const u8,
    table_len: usize,
    now: u64,
    reading: *mut u8,
    reading_len: usize,
) -> u32 {
    if !original::put_reading(from_raw_parts_mut(reading, reading_len)) {
        return 256;
    }
    let call = Call {
        config: from_raw_parts(config, config_len),
        attachment,
        socket: Socket {
            family,
            address: *address,
            port,
        },
        packet: from_raw_parts(packet, packet_len),
        cookie,
        current: from_raw_parts(current, current_len),
        table: from_raw_parts(table, table_len),
        now,
    };
    gate(&call).verdict.counter_slot().unwrap_or(255)
}

fn asked(gate: Gate, call: &Call) -> u32 {
    let mut reading = [0; 8];
    unsafe {
        gate(
            call.config.as_ptr(),
            call.config.len(),
            call.attachment,
            call.socket.family,
            &call.socket.address,
            call.socket.port,
            call.packet.as_ptr(),
            call.packet.len(),
            call.cookie,
            call.current.as_ptr(),
            call.current.len(),
            call.table.as_ptr(),
            call.table.len(),
            call.now,
            reading.as_mut_ptr(),
            reading.len(),
        )
    }
}

pub fn value(cookie: u64, deadline: u64) -> [u8; 40] {
    let key = FenceCookieKey::new(cookie, 3).expect("neither is 0");
    let entry = FenceEntry::active(3, deadline, 2).expect("the entry is sound");
    FenceCookieValue::new(key, entry).expect("the tokens agree").encode()
}

/// A table of records of other sockets, with the socket's own at a place, if it is among them.
fn table(records: usize, own: Option<usize>) -> Vec<u8> {
    (0..records)
        .flat_map(|index| {
            if own == Some(index) {
                value(9, 1000)
            } else {
                value(1000 + index as u64, 1000)
            }
        })
        .collect()
}

fn case(name: &'static str, attachment: u64, table: Vec<u8>, packet: Vec<u8>, bound: bool) -> Case {
    let endpoint = ProtectedEndpoint::ipv4([192, 0, 2, 10], 4500).expect("the endpoint is sound");
    let config = FenceConfig::new(endpoint, 7, 4096)
        .expect("the configuration is sound")
        .encode()
        .to_vec()
        .leak();
    let current = CurrentFenceToken::registered(3, 9)
        .expect("the token is odd")
        .encode()
        .to_vec()
        .leak();
    let socket = if bound {
        Socket {
            family: 4,
            address: IPV4,
            port: 4500,
        }
    } else {
        Socket {
            family: 0,
            address: [0; 16],
            port: 0,
        }
    };
    let call: &'static Call = Box::leak(Box::new(Call {
        config,
        attachment,
        socket,
        packet: packet.leak(),
        cookie: 9,
        current,
        table: table.leak(),
        now: 999,
    }));
    // a long search is counted in fewer calls
    let calls = if call.table.len() > 4000 { 200 } else { 100_000 };
    Case {
        name,
        calls,
        proved: Box::new(move || asked(black_box(threadwicket_gate_raw), call)),
        rust: Box::new(move || asked(black_box(plain_gate), call)),
    }
}

pub fn cases() -> Vec<Case> {
    let other = |mut packet: Vec<u8>| {
        packet[15] = 11;
        packet
    };
    vec![
        case(
            "gate: 4,096 records, match last",
            7,
            table(4096, Some(4095)),
            A.to_vec(),
            false,
        ),
        case("gate: 4,096 records, match first", 7, table(4096, Some(0)), A.to_vec(), false),
        case("gate: 4,096 records, no match", 7, table(4096, None), A.to_vec(), false),
        case("gate: empty table", 7, vec![], A.to_vec(), false),
        case(
            "gate: one record, socket bound to the endpoint",
            7,
            table(1, Some(0)),
            A.to_vec(),
            true,
        ),
        case("gate: attached elsewhere", 8, table(1, Some(0)), A.to_vec(), false),
        case("gate: unrelated source", 7, table(1, Some(0)), other(A.to_vec()), false),
    ]
}
