//! The classifier: the proved one and the original, on packets that each end at another place of 01's reading.

use crate::Case;
use original::original_classify;
use std::hint::black_box;

type Classify = unsafe extern "C" fn(*const u8, usize, u8, *const [u8; 16], u16, *mut u8, usize) -> u32;

extern "C" {
    fn threadwicket_classify_raw(
        packet: *const u8,
        packet_len: usize,
        family: u8,
        address: *const [u8; 16],
        port: u16,
        reading: *mut u8,
        reading_len: usize,
    ) -> u32;
}

/// 01's packet A.
pub const A: [u8; 28] = [
    0x45, 0, 0, 0x1c, 0, 0, 0, 0, 0x40, 0x11, 0, 0, 0xc0, 0, 2, 0x0a, 0xc6, 0x33, 0x64, 1, 0x11, 0x94, 0, 0x35, 0, 8, 0, 0,
];
pub const IPV4: [u8; 16] = [192, 0, 2, 10, 0, 0, 0, 0, 0, 0, 0, 0, 0, 0, 0, 0];
pub const IPV6: [u8; 16] = [0x20, 1, 0x0d, 0xb8, 0, 0, 0, 0, 0, 0, 0, 0, 0, 0, 0, 10];

/// An IPv6 packet from the protected address: extension headers of eight bytes, then UDP.
pub fn chain(values: &[u8]) -> Vec<u8> {
    let following = |index: usize| values.get(index).copied().unwrap_or(17);
    let mut packet = vec![0x60, 0, 0, 0, 0, (8 * values.len() + 8) as u8, following(0), 64];
    packet.extend(IPV6);
    packet.extend([0x20, 1, 0x0d, 0xb8, 0, 0, 0, 0, 0, 0, 0, 0, 0, 0, 0, 99]);
    for index in 0..values.len() {
        packet.extend([following(index + 1), 0, 0, 0, 0, 0, 0, 0]);
    }
    packet.extend([0x11, 0x94, 0, 0x35, 0, 8, 0, 0]);
    packet
}

fn altered(mut packet: Vec<u8>, place: usize, byte: u8) -> Vec<u8> {
    packet[place] = byte;
    packet
}

fn case(name: &'static str, family: u8, packet: Vec<u8>) -> Case {
    let address: &'static [u8; 16] = if family == 4 { &IPV4 } else { &IPV6 };
    let packet: &'static [u8] = packet.leak();
    let side = |classify: Classify| -> Box<dyn Fn() -> u32> {
        let reading: &'static mut [u8] = vec![0; 8].leak();
        let reading = reading.as_mut_ptr();
        Box::new(move || unsafe { black_box(classify)(packet.as_ptr(), packet.len(), family, address, 4500, reading, 8) })
    };
    Case {
        name,
        calls: 100_000,
        proved: side(threadwicket_classify_raw),
        rust: side(original_classify),
    }
}

pub fn cases() -> Vec<Case> {
    vec![
        case("classify: IPv4 UDP, protected (packet A)", 4, A.to_vec()),
        case("classify: IPv4 TCP", 4, altered(A.to_vec(), 9, 6)),
        case("classify: IPv4, unrelated source", 4, altered(A.to_vec(), 15, 11)),
        case("classify: IPv6 UDP, no extension header", 6, chain(&[])),
        case("classify: IPv6 UDP, 1 extension header", 6, chain(&[60])),
        case(
            "classify: IPv6 UDP, 4 extension headers (0 43 60 44)",
            6,
            chain(&[0, 43, 60, 44]),
        ),
        case(
            "classify: IPv6 UDP, 4 extension headers (51 44 60 51)",
            6,
            chain(&[51, 44, 60, 51]),
        ),
        case("classify: IPv6 UDP, another port", 6, altered(chain(&[]), 41, 0)),
        case("classify: IPv6 TCP", 6, altered(chain(&[]), 6, 6)),
        case("classify: IPv6, unrelated source", 6, altered(chain(&[]), 23, 11)),
        case("classify: IPv6 packet, IPv4 endpoint", 4, chain(&[])),
        case("classify: empty packet", 4, vec![]),
    ]
}
